"""What device-log prints."""
import json

from product.texts import counted, printable

from device_log.reading import version_of

MOST_SHOWN = 3


def version_text(log):
    first, last = version_of(log)
    if first > last:
        return "of no one Android version"
    return f"Android {first}'s form" if first == last else f"Android {first} to {last}'s form"


def head(name, session):
    log, compared = session.log, session.compared
    own = sum(1 for it in log.messages if it.kind != "dropped")
    followed = sum(1 for it in compared.notes.followed if it < len(compared.messages))
    counts = f"{log.count:,} lines, {own:,} of init, {version_text(log)}; {followed} of {session.actions} actions followed, {session.count} runs"
    return f"{name}: {counts}"


def lost_lines(compared, verbose):
    losses = compared.losses
    made = [f"lost: line {line}: {text}" for line, text in losses.marks]
    found = sorted(set(losses.found))
    shown = found if verbose else found[:MOST_SHOWN]
    made += [f"lost: line {line} misses {what}" for line, what in shown]
    if len(found) > len(shown):
        made.append(f"lost: {counted(len(found) - len(shown), 'line', 'lines')} more (--verbose)")
    if not losses.is_whole:
        made.append("lost: what isn't in this log may have happened all the same, so nothing is said of it")
    if not compared.has_beginning:
        made.append(f"lost: the beginning; nothing is said of what was before line {compared.messages[compared.actions[0]].line}" if compared.actions else "lost: the beginning")
    return made


def known_lines(compared, verbose):
    known = [(count, what) for what, count in compared.known.items() if count]
    if verbose:
        return [f"known: {count} {what}" for count, what in known]
    return [f"known: {'; '.join(f'{count} {what}' for count, what in known)}"] if known else []


def text(name, session, verbose):
    compared = session.compared
    lines = [head(name, session), *(f"read: {it}" for it in session.log.notes), *lost_lines(compared, verbose)]
    lines += [f"assumed: line {it.line}: {it}" for it in session.known]
    lines += [f"assumed: line {it.line}: {it.text}" for it in compared.notes.assumed]
    lines += known_lines(compared, verbose)
    lines += [f"{name}:{it}" for it in compared.findings]
    return "".join(f"{printable(it)}\n" for it in lines)


def as_json(name, session):
    log, compared = session.log, session.compared
    assumed = [(it.line, str(it)) for it in session.known] + [(it.line, it.text) for it in compared.notes.assumed]
    made = {
        "log": name,
        "lines": log.count,
        "init_lines": sum(1 for it in log.messages if it.kind != "dropped"),
        "android": list(version_of(log)),
        "actions": session.actions,
        "followed": len(compared.notes.followed),
        "runs": session.count,
        "read": log.notes,
        "lost": numbered(compared.losses.marks + sorted(set(compared.losses.found))),
        "assumed": numbered(assumed),
        "known": {what: number for what, number in compared.known.items() if number},
        "findings": [{"line": it.line, "kind": it.kind, "text": it.text, "consequences": it.consequences} for it in compared.findings],
    }
    return json.dumps(made, indent=1) + "\n"


def numbered(lines):
    return [{"line": line, "text": what} for line, what in lines]
