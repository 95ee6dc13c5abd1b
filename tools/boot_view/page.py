"""Writes the page: one HTML text that needs no script, no other file and no network."""
from boot_trace.lives import Ending
from boot_view.axis import spoken
from boot_view.style import PAGE, SHAPES, colours
from product.texts import counted
from boot_view.svg import PATTERNS, escaped, legend, panel_svg

NUMBERS = ("times", "starts", "crashes", "entry", "took", "blocked Nexts")
NAMES = {"events": "Events, actions and waits", "services": "Lives of services", "properties": "Values of properties", "legend": "What the forms mean"}


def summary(boot):
    """The boot in a sentence."""
    entries, clock = boot.trace.entries, boot.trace.entries[-1].clock if boot.trace.entries else 0
    crashes = sum(it.is_crash for it in boot.lives)
    running = len({it.name for it in boot.lives if it.is_service and it.ending is Ending.RUNNING})
    return (
        f"{len(entries):,} entries, {spoken(clock)} of the model's time; {len(boot.services)} services started, {running} run at the end, "
        f"{counted(crashes, 'crash', 'crashes')}; {counted(len(boot.waits), 'wait', 'waits')}; "
        f"{counted(len(boot.device_failures), 'failed command', 'failed commands')}; {counted(len(boot.refused), 'refused set', 'refused sets')}."
    )


def picture_html(picture):
    svgs = "\n".join(panel_svg(it, NAMES[it.name]) for it in [*picture.panels, legend()])
    folded = "; ".join(picture.folded.lines)
    note = f'<p class="quiet">Not shown one by one: {escaped(folded)}.</p>' if folded else ""
    return f'<div class="picture">\n{svgs}\n</div>\n{note}'


def cell(head, text):
    style = "number" if head in NUMBERS else "place" if head == "place" else ""
    return f'<td class="{style}">{escaped(text)}</td>' if style else f"<td>{escaped(text)}</td>"


def table_html(table):
    if not table.rows:
        return f"<h3>{table.title}</h3>\n<p>{escaped(table.nothing)} {escaped(table.note)}</p>"
    heads = "".join(f"<th>{it}</th>" for it in table.heads)
    rows = "\n".join("<tr>" + "".join(map(cell, table.heads, row)) + "</tr>" for row in table.rows)
    notes = [it for it in (table.note, f"{table.folded:,} more rows aren't shown." if table.folded else "") if it]
    note = "".join(f'<p class="quiet">{escaped(it)}</p>' for it in notes)
    return f'<h3>{table.title}</h3>\n<div class="scroll"><table>\n<tr>{heads}</tr>\n{rows}\n</table></div>{note}'


def boot_html(title, boot, picture, tables):
    parts = [f"<h2>{escaped(title)}</h2>", f'<p class="summary">{escaped(summary(boot))}</p>', picture_html(picture), *map(table_html, tables)]
    return "\n".join(parts)


def differences_html(lines):
    if not lines:
        return "<h2>Differences</h2>\n<p>The boots are alike.</p>"
    items = "\n".join(f"<li>{escaped(it)}</li>" for it in lines)
    legend_text = "+ only in the new boot, - only in the old one, ~ in both and otherwise, ! new trouble; = alike"
    return f'<h2>Differences</h2>\n<p class="quiet">{legend_text}</p>\n<ul class="differences">\n{items}\n</ul>'


def page_html(title, parts):
    patterns = f'<svg width="0" height="0" style="position: absolute" aria-hidden="true">{PATTERNS}</svg>'
    head = f'<meta charset="utf-8">\n<meta name="viewport" content="width=device-width, initial-scale=1">\n<title>{escaped(title)}</title>'
    style = f"<style>\n{colours(':root')}{SHAPES}{PAGE}</style>"
    body = "\n".join(parts)
    return f'<!DOCTYPE html>\n<html lang="en">\n<head>\n{head}\n{style}\n</head>\n<body>\n{patterns}\n<h1>{escaped(title)}</h1>\n{body}\n</body>\n</html>\n'
