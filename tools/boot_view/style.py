"""The colours of the picture and the page, light and dark. No meaning is by colour alone: each end of a life has a mark of its own form."""

VARIABLES = {
    "light": {
        "paper": "#ffffff", "ink": "#1b1f24", "quiet": "#57606a", "line": "#d0d7de", "band": "#eef1f4", "running": "#2f81c7", "exited": "#8a939c",
        "crash": "#c62f2f", "killed": "#c9821a", "action0": "#dfe8d8", "action1": "#c5d8b8", "value": "#e4e0f3", "differs": "#fff3bf", "mark": "#7a4d00",
    },
    "dark": {
        "paper": "#14181d", "ink": "#e6edf3", "quiet": "#9aa5b1", "line": "#39424c", "band": "#232a32", "running": "#58a6ff", "exited": "#8a949e",
        "crash": "#ff7b72", "killed": "#e3a33b", "action0": "#2c3a26", "action1": "#3d5233", "value": "#3a3560", "differs": "#4a3d0c", "mark": "#f2cc60",
    },
}  # fmt: skip
SHAPES = """
svg text { font: 11px "DejaVu Sans", Verdana, Arial, sans-serif; fill: var(--ink) }
svg .quiet, svg .clock { fill: var(--quiet); font-size: 10px }
svg .head { font-weight: bold }
svg .inside { font-size: 10px; pointer-events: none }
svg .lettered { paint-order: stroke; stroke: var(--paper); stroke-width: 3px; stroke-linejoin: round }
svg .name { font-size: 10.5px }
svg .differing { font-weight: bold; fill: var(--mark) }
svg .paper { fill: var(--paper) }
svg line { stroke: var(--line) }
svg .axis, svg .time { stroke: var(--ink) }
svg .grid, svg .row { stroke: var(--line); stroke-width: .5 }
svg .lead { stroke: var(--quiet); stroke-width: .7 }
svg .action0 { fill: var(--action0); stroke: var(--quiet); stroke-width: .4 }
svg .action1 { fill: var(--action1); stroke: var(--quiet); stroke-width: .4 }
svg .differs { stroke: var(--mark); stroke-width: 2; stroke-dasharray: 4 2 }
svg .wait { fill: url(#hatch); stroke: var(--ink); stroke-width: .8 }
svg .band { fill: url(#faint) }
svg .difference { fill: var(--differs) }
svg .running { fill: var(--running) }
svg .exited { fill: var(--exited) }
svg .crash { fill: var(--crash) }
svg .killed { fill: var(--killed) }
svg .crowd { fill: var(--band); stroke: var(--ink); stroke-width: 1.2; stroke-dasharray: 2 2 }
svg .value { fill: var(--value); stroke: var(--quiet); stroke-width: .5 }
svg .values { fill: var(--band); stroke: var(--ink); stroke-width: 1; stroke-dasharray: 2 2 }
svg path { fill: none; stroke: var(--ink); stroke-width: 1.6 }
svg path.solid { fill: var(--ink); stroke: var(--paper); stroke-width: 1 }
svg path.halo { stroke: var(--paper); stroke-width: 4 }
svg circle { fill: var(--paper); stroke: var(--ink); stroke-width: .6 }
"""


def variables(theme):
    return " ".join(f"--{name}: {value};" for name, value in VARIABLES[theme].items())


def colours(selector):
    """The colours by what the reader prefers; printed, they are the light ones."""
    return (
        f"{selector} {{ {variables('light')} color-scheme: light dark }}\n"
        f"@media screen and (prefers-color-scheme: dark) {{ {selector} {{ {variables('dark')} }} }}\n"
    )


PAGE = """
body { margin: 0 auto; padding: 16px; max-width: 1280px; background: var(--paper); color: var(--ink); font: 15px/1.45 system-ui, "DejaVu Sans", Arial, sans-serif }
h1 { font-size: 22px; margin: 0 0 4px } h2 { font-size: 18px; margin: 28px 0 6px } h3 { font-size: 15px; margin: 20px 0 4px }
p { margin: 4px 0 } a { color: inherit }
.picture { overflow-x: auto; border: 1px solid var(--line); margin: 8px 0 }
.picture svg { display: block; width: 100%; min-width: 960px; height: auto }
.scroll { overflow-x: auto }
table { border-collapse: collapse; font-size: 13px; margin: 4px 0 }
th, td { text-align: left; vertical-align: top; padding: 2px 14px 2px 0; border-bottom: 1px solid var(--line); overflow-wrap: anywhere }
th { white-space: nowrap } td.number { text-align: right; white-space: nowrap }
td.place { min-width: 9em }
ul.differences { list-style: none; padding: 0; margin: 6px 0; font: 13px/1.5 "DejaVu Sans Mono", Menlo, monospace }
ul.differences li { padding: 1px 6px 1px 26px; text-indent: -20px; overflow-wrap: anywhere; border-bottom: 1px solid var(--line) }
.quiet { color: var(--quiet) }
@media print {
  @page { size: A4 landscape; margin: 10mm }
  body { max-width: none; padding: 0; font-size: 11px }
  table, ul.differences { font-size: 10px }
  .picture { overflow: visible; border: none } .picture svg { min-width: 0; break-inside: avoid }
  tr, li { break-inside: avoid } h2, h3, .summary { break-after: avoid }
  * { -webkit-print-color-adjust: exact; print-color-adjust: exact }
}
"""
