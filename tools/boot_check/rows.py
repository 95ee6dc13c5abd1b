"""Each kind of act, rule, condition and expectation on a small tree, with a variant that fails. The lines were worked out by hand."""

RC = """on init
    start a
    wait /dev/x
    exec -- /bin/prog
    wait_for_prop p.ready 1
    start b
    setprop done.x yes
    chmod 9999 /data/none
    chmod 0600 /sys/none
on late-init
    trigger boot
on boot
    start once
    stop b
on property:go=1
    start late
    setprop ro.serialno 2
on property:loop=*
    setprop loop x${loop}
service a /bin/a
service b /bin/b
service once /bin/once
    oneshot
service late /bin/late
    disabled
service never /bin/never
    disabled
"""
FILES = {
    "/system/etc/init/hw/init.rc": RC,
    "/system/build.prop": "ro.serialno=1\n",
    "/property_contexts": "* default_prop\ngo go_prop exact bool\n",
    "/property_allow": "allow d default_prop\nallow d go_prop\n",
}
R = "/system/etc/init/hw/init.rc"
CLIENTS = "client d d\nclient of_b d in b\nclient other other\n"
# What each row's test begins with, so that the boot comes to its end: lines 1 to 7.
BOOT = (
    CLIENTS
    + """when waiting for file /dev/x then file /dev/x %
when waiting for exit of *exec then exit *exec 0
when waiting for prop p.ready 1 then @d set p.ready 1
until idle
"""
)
# By hand: lines of the trace of that boot. Line 1 is its title, 2 is `boot`, 3 the put of ro.serialno, 66 the last, `idle`.
A_STARTED, B_STARTED, STOPPED_B, FAILED_8 = 9, 34, 61, 43
WAIT_FILE, WAIT_EXIT, WAIT_PROP = 14, 21, 27
IDLE = "init is idle, and sys.boot_completed was never set"
LEFT = "init has something left to do (trace line {})"

# (what, the lines below BOOT, what is said; none if all holds)
ROWS = [
    # -- conditions, as they are expected
    ("running", "expect running a", []),
    ("running, stopping", "expect running b", [f"t:8: failed: b was killed by {R}:14 (stop b) (trace line {STOPPED_B}), and is stopping; {IDLE}"]),
    ("running, disabled", "expect running never", [f"t:8: failed: never never started: no action starts it; {IDLE}"]),
    ("running, unknown", "expect running onc", [f"t:8: failed: onc never started: no rc file declares such a service (once?); {IDLE}"]),
    ("running, by a trigger", "expect running late", [f"t:8: failed: late never started: {R}:16 (start late) didn't run, since `on property:go=1` never held; {IDLE}"]),
    ("stopped", "tick 1\nexpect stopped b", []),
    ("stopped, not yet", "expect stopped a", [f"t:8: failed: a is running (trace line {A_STARTED}); {IDLE}"]),
    ("restarting", "exit a 3\nexpect restarting a", []),
    ("restarting, oneshot", "exit once 0\nexpect restarting once", [f"t:9: failed: once exited with the status 0 (trace line 68), and is stopped; {LEFT.format(67)}"]),
    ("prop", "expect prop done.x yes", []),
    ("prop, another", "expect prop done.x no", [f"t:8: failed: done.x is yes, set by {R}:7 (setprop done.x yes) (trace line 39); {IDLE}"]),
    ("prop, never set", "expect prop q 1", [f"t:8: failed: q was never set; {IDLE}"]),
    ("idle", "expect idle", []),
    ("idle, not", "@d set q 1\nexpect idle", [f"t:9: failed: {LEFT.format(67)}"]),
    ("blocked", "expect blocked", [f"t:8: failed: {IDLE}"]),
    ("waiting", "expect waiting for file /dev/x", [f"t:8: failed: {IDLE}"]),
    # -- the other expectations
    ("no prop", "expect no prop q", []),
    ("no prop, set", "expect no prop ro.serialno", ["t:8: failed: ro.serialno is 1, set by the build files (trace line 3)"]),
    ("never started", "expect never started late", []),
    ("never started, started", "expect never started a", [f"t:8: failed: a was started by {R}:2 (start a) (trace line {A_STARTED})"]),
    ("started", "expect started once", []),
    ("started, never", "expect started never", [f"t:8: failed: never never started: no action starts it; {IDLE}"]),
    ("once", "expect started a once", []),
    ("once, twice", "exit a 3\ntick 5000\nexpect started a once", ["t:10: failed: a started 2 times (trace lines 9, 73); it exited with the status 3 (trace line 68)"]),
    ("no crash", "expect no service crashed", []),
    ("no crash, crashed", "exit a 3\nexpect no service crashed", ["t:9: failed: a exited with the status 3 (trace line 68)"]),
    ("no crash but", "exit a 3\nexpect no service crashed but\n    a", []),
    ("no crash but, not", "expect no service crashed but\n    a", ["t:8: failed: a didn't crash, and is listed below"]),
    ("no failure but", "expect no command failed but\n    chmod 9999 /data/none", []),
    ("no failure but, any words", "expect no command failed but\n    chmod *", []),
    ("no failure", "expect no command failed", [f"t:8: failed: {R}:8: chmod 9999 /data/none: BadArgument 1 (trace line 42)"]),
    ("no failure but, not", "expect no command failed but\n    chmod *\n    rm /x", ["t:8: failed: rm /x didn't fail, and is listed below"]),
    ("no refusal", "expect no set refused", []),
    ("no refusal, refused", "@d set go 7\nexpect no set refused", ["t:9: failed: go 7, set by d (d): InvalidType (trace line 68)"]),
    ("no refusal but", "@other set q 1\nexpect no set refused but\n    q 1", []),
    ("no refusal but, not", "expect no set refused but\n    q 1", ["t:8: failed: q 1 wasn't refused, and is listed below"]),
    ("no wait", "expect no wait open", []),
    ("complete", "@d set sys.boot_completed 1\nuntil idle\nexpect boot complete", []),
    ("complete, never set", "expect boot complete", [f"t:8: failed: the boot didn't reach its end: {IDLE}"]),
    # -- order
    ("events", "expect event init before event boot", []),
    ("events, after", "expect event boot before event init", ["t:8: failed: event boot came at trace line 53, after event init at trace line 6"]),
    ("events, never", "expect event init before event charger", [f"t:8: failed: event charger never came; {IDLE}"]),
    ("actions", f"expect action init in {R} before action boot in {R}", []),
    ("actions, after", f"expect action boot in {R} before action init in {R}", [f"t:8: failed: action boot in {R} came at trace line 54, after action init in {R} at trace line 7"]),
    ("actions, a change", f"@d set go 1\nuntil idle\nexpect action boot in {R} before action go=1 in {R}", []),
    ("spawns", "expect spawn a before spawn b", []),
    ("spawns, never", "expect spawn a before spawn never", [f"t:8: failed: spawn never never came (never never started: no action starts it); {IDLE}"]),
    ("sets", "expect set p.ready before set done.x yes", []),
    ("sets, another value", "expect set p.ready 2 before set done.x", [f"t:8: failed: set p.ready 2 never came (p.ready is 1, set by a client's set of p.ready (trace line 29)); {IDLE}"]),
    ("a set and a spawn", "expect set done.x before spawn a", ["t:8: failed: set done.x came at trace line 39, after spawn a at trace line 9"]),
    # -- acts
    ("exit, nothing", "exit aa 1\nexpect running a", ["t:8: failed: exit aa 1: no process has this name then (a?)"]),
    ("file", "file /data/f x\nexpect running a", []),
    ("file, refused", "file /dev/x/y %\nexpect running a", ["t:8: failed: file /dev/x/y %: the model's tree refuses the file: Tree NotDir"]),
    ("tick, too far", "tick 9007199254740992\ntick 1\nexpect running a", ["t:9: failed: tick 1: the clock would pass its end"]),
    ("set", "@d set go 1\nstep 2\nexpect running late", []),
    ("step, too few", "@d set go 1\nexpect running late", [f"t:9: failed: late never started: {R}:16 (start late) didn't run, since `on property:go=1` never held; {LEFT.format(67)}"]),
    ("read, sync, catch", "@d read go\n@d sync\n@d catch\nexpect idle", []),
    ("a client of a service", "@of_b set q 1\nexpect no wait open", [
        f"t:8: failed: @of_b set q 1: of_b can't ask; b was killed by {R}:14 (stop b) (trace line {STOPPED_B}), and is stopping; {IDLE}"]),
    # -- until
    ("until quiet", "until quiet\nexpect idle", []),
    ("until running", "@d set go 1\nuntil running late\nexpect running late", []),
    ("until running, never", "until running late\nexpect idle", [
        f"t:8: failed: until running late: not reached; late never started: {R}:16 (start late) didn't run, since `on property:go=1` never held; {IDLE}"]),
    ("until prop", "@d set go 1\nuntil prop init.svc.late running\nexpect running late", []),
    ("until prop, another", "until prop done.x no\nexpect idle", [f"t:8: failed: until prop done.x no: not reached; {IDLE}"]),
    ("until blocked, idle", "until blocked\nexpect idle", [f"t:8: failed: until blocked: not reached; {IDLE}"]),
    ("until within", "exit a 3\nuntil running a within 60s\nexpect running a", ["t:9: note: until running a: 5000 ms passed, in 2 ticks"]),
    ("until within, too little", "exit a 3\nuntil running a within 4s\nexpect idle", [
        "t:9: failed: until running a: not reached, and nothing more happens by itself in the 4000 ms that may pass; "
        "a exited with the status 3 (trace line 68), and is restarting; " + IDLE]),
    ("until at most", "@d set loop 1\nuntil prop q 1 at most 3 steps\nexpect no wait open", [f"t:9: failed: until prop q 1: not reached after 3 steps; {LEFT.format(82)}"]),
    ("a note of what wasn't done", "until blocked\n@d set q 1\nexpect no prop q", [
        f"t:8: failed: until blocked: not reached; {IDLE}", "t:9: note: from here on no act was done"]),
    # -- rules
    ("when running", "when running late then @d set q 1\n@d set go 1\nuntil idle\nexpect prop q 1", []),
    ("when running, never", "when running late then @d set q 1\nuntil idle\nexpect no prop q", ["t:8: note: when running late: it never acted"]),
    ("when prop", "when prop go 1 then @d set q 1\n@d set go 1\nexpect prop q 1", []),
    ("when stopped", "when stopped b then @d set q 1\ntick 1\nexpect prop q 1", []),
    ("when restarting", "when restarting a then @d set q 1\nexit a 3\nexpect prop q 1", []),
    ("acts below a rule", "when prop go 1\n    @d set q 1\n    exit a 0\n    step 1\n@d set go 1\nexpect restarting a\nexpect running late", []),
    ("a rule again", "when restarting a then tick 5000\nexit a 1\nexit a 1\nexpect running a", []),
    ("a rule without end", "when prop loop x then @d set loop x\n@d set loop x\nexpect no wait open", [
        f"t:8: failed: when prop loop x: rules acted 100 times in a row, and it still holds; {LEFT.format(367)}"]),
]
# (what, the whole test, what is said)
WHOLE = [
    ("a file isn't there", "until idle\nexpect boot complete", [
        f"t:1: failed: until idle: not reached; init is waiting at {R}:3 (file /dev/x), trace line {WAIT_FILE}",
        f"t:2: failed: the boot didn't reach its end: init is waiting at {R}:3 (file /dev/x), trace line {WAIT_FILE}"]),
    ("until blocked", "until blocked\nexpect waiting for file /dev/x", []),
    ("until waiting", "when waiting for file /dev/x then file /dev/x %\nuntil waiting for exit of /bin/prog\nexpect running a", []),
    ("a wait that is over", "until waiting for file /dev/x\ntick 5000\nexpect waiting for file /dev/x", [f"t:3: failed: {LEFT.format(15)}"]),
    ("a wait's time passes", "until waiting for exit of *exec within 60s\nexpect running a", ["t:1: note: until waiting for exit of *exec: 5000 ms passed, in 1 tick"]),
    ("a program's wait", "when waiting for file /dev/x then file /dev/x %\nuntil quiet\nexpect no wait open", [
        f"t:3: failed: init is waiting at {R}:4 (exit of /bin/prog), trace line {WAIT_EXIT}"]),
    ("a plan", "plan /bin/prog 70 0\nwhen waiting for file /dev/x then file /dev/x %\nuntil waiting for prop p.ready 1 within 1s\nexpect no service crashed", [
        "t:3: note: until waiting for prop p.ready 1: 70 ms passed, in 1 tick"]),
    ("a plan of nothing", "plan /bin/latte 70 0\nuntil blocked\nexpect running a", ["t:1: failed: plan /bin/latte: no process of this path began (/bin/late?)"]),
    ("a client that lives nowhere yet", CLIENTS + "when waiting for file /dev/x then file /dev/x %\nwhen waiting for exit of *exec then exit *exec 0\n"
     "when waiting for prop p.ready 1 then @of_b set p.ready 1\nuntil idle\nexpect no wait open", [
        f"t:7: failed: until idle: not reached; b never started: {R}:6 (start b) hasn't run yet; init is waiting at {R}:5 (prop p.ready 1), trace line {WAIT_PROP}",
        f"t:8: failed: init is waiting at {R}:5 (prop p.ready 1), trace line {WAIT_PROP}",
        "t:6: note: when waiting for prop p.ready 1: it never acted"]),
    ("a refused set", CLIENTS + "when waiting for file /dev/x then file /dev/x %\nwhen waiting for exit of *exec then exit *exec 0\n"
     "when waiting for prop p.ready 1 then @other set p.ready 1\nuntil idle\nexpect no service crashed", [
        f"t:7: failed: until idle: not reached; init is waiting at {R}:5 (prop p.ready 1), trace line {WAIT_PROP}; other (other) asked for it, and was refused: Denied default_prop"]),
    ("complete, and still blocked", "client d d\nuntil blocked\n@d set sys.boot_completed 1\nexpect running b", [
        f"t:4: failed: b never started: {R}:6 (start b) hasn't run yet; init was waiting at {R}:3 (file /dev/x) when sys.boot_completed was set (trace line 16)"]),
]
# (what, a test, its faults)
FAULTS = [
    ("nothing is expected", "until idle\n", ["t:1: the test expects nothing; an `expect` is missing"]),
    ("another word", "untli idle\n", ["t:1: a line begins with area, plan, client, step, tick, exit, file, until, when, expect or @, not untli (until?)"]),
    ("two faults", "tick x\nexit a\nexpect idle\n", [
        "t:1: a number from 0 to 9007199254740992 without leading zeros is expected, not x", "t:2: exit NAME STATUS is expected, not exit a"]),
    ("a status", "exit a 256\nexpect idle", ["t:1: a number from 0 to 255 without leading zeros is expected, not 256"]),
    ("no steps", "step 0\nexpect idle", ["t:1: a number from 1 to 1000000 without leading zeros is expected, not 0"]),
    ("a q form", "file /a%2f %\nexpect idle", ["t:1: a text in q form is expected, not /a%2f"]),
    ("a character", "file /ä %\nexpect idle", ["t:1: the character \\xe4 may not stand in a test; in q form it is %C3%A4"]),
    ("a client that is none", "@x set a b\nexpect idle", ["t:1: client x is declared nowhere"]),
    ("two of a name", "client x d\nclient x e\nexpect idle", ["t:2: client x is declared in line 1 too"]),
    ("a client's words", "client x d at s\nexpect idle", ["t:1: client NAME DOMAIN, or client NAME DOMAIN in SERVICE, is expected"]),
    ("what a client asks", "client x d\n@x get a\nexpect idle", ["t:2: set, read, sync or catch is expected after the client, not get"]),
    ("a late declaration", "until idle\nplan /a 1 0\nexpect idle", ["t:2: area, plan and client stand before all acts, and line 1 has one"]),
    ("two plans", "plan /a 1 0\nplan /a 2 0\nexpect idle", ["t:2: plan /a is declared in line 1 too"]),
    ("a condition", "until runing a\nexpect idle", [
        "t:1: a condition begins with idle, blocked, quiet, running, stopped, restarting, prop, waiting for file, waiting for prop, waiting for exit of, not runing a"]),
    ("half a condition", "until prop a\nexpect idle", ["t:1: prop NAME VALUE is expected"]),
    ("a time", "until idle within 60\nexpect idle", ["t:1: a time such as 60s, 500ms or 2min is expected, not 60"]),
    ("a long time", "until idle within 1441min\nexpect idle", ["t:1: 1441min is more than a day"]),
    ("no time", "until idle within\nexpect idle", ["t:1: within TIME is expected, not nothing"]),
    ("words after", "until idle soon\nexpect idle", ["t:1: within TIME, at most N steps, or nothing is expected after the condition, not soon"]),
    ("a rule at rest", "when idle then step 1\nexpect idle", ["t:1: a rule can't act when idle: that would hold again and again"]),
    ("a rule without acts", "when running a\nexpect idle", ["t:1: an act is expected after `then`, or indented below it"]),
    ("a rule without then", "when running a exit a 0\nexpect idle", ["t:1: `then` with an act is expected after the condition, not exit a 0"]),
    ("an until in a rule", "when running a\n    until idle\nexpect idle", [
        "t:2: a line begins with area, plan, client, step, tick, exit, file, until, when, expect or @, not until (until?)"]),
    ("an indented line", "    step 1\nexpect idle", ["t:1: an indented line belongs to a `when`, or to an `expect .. but`, and none is above it"]),
    ("an expectation", "expect happiness", [
        "t:1: no prop, never started, no service crashed, no command failed, no set refused, no wait open, boot complete, started, idle, blocked, quiet, "
        "running, stopped, restarting, prop, waiting for file, waiting for prop, waiting for exit of, or A before B is expected after expect, not happiness"]),
    ("a side", "expect event a before boot", ["t:1: event NAME, action TRIGGER in FILE, spawn NAME, set NAME, or set NAME VALUE is expected on each side of `before`, not boot"]),
    ("but", "expect boot complete but\n    x", ["t:1: `but` may follow no service crashed, no command failed and no set refused alone",
     "t:2: an indented line belongs to a `when`, or to an `expect .. but`, and none is above it"]),
    ("but nothing", "expect no service crashed but", ["t:1: what may be is expected below it, indented"]),
]


def check_rows(check):
    root = check.tree("small", FILES)
    for what, lines, wanted in ROWS:
        check.expect(what, wanted, check.said(root, f"{BOOT}{lines}\n"))
    for what, test, wanted in WHOLE:
        check.expect(what, wanted, check.said(root, f"{test}\n"))


def check_faults(check):
    for what, test, wanted in FAULTS:
        check.expect(what, wanted, check.said("", test))
