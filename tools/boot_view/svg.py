"""Writes panels as SVG: each by itself for a page, or all in one picture."""
from xml.sax.saxutils import escape

from product.texts import printable
from boot_view.picture import WIDTH
from boot_view.shapes import Box, Glyph, Label, Line, Panel
from boot_view.style import SHAPES, colours

PATTERNS = """<defs>
<pattern id="hatch" width="6" height="6" patternUnits="userSpaceOnUse" patternTransform="rotate(45)"><rect class="paper" width="6" height="6"/><line x1="0" y1="0" x2="0" y2="6" style="stroke: var(--ink); stroke-width: 2.4"/></pattern>
<pattern id="faint" width="8" height="8" patternUnits="userSpaceOnUse" patternTransform="rotate(45)"><line x1="0" y1="0" x2="0" y2="8" style="stroke: var(--line); stroke-width: 2.5"/></pattern>
</defs>"""
# What the marks look like, around the point 0,0.
GLYPHS = {
    "running": '<path class="solid" d="M-1 -5 L6 0 L-1 5 Z"/>',
    "exited": '<path d="M0 -7 V7"/>',
    "crash": '<path class="halo" d="M-5 -5 L5 5 M-5 5 L5 -5"/><path d="M-5 -5 L5 5 M-5 5 L5 -5"/>',
    "killed": '<path class="solid" d="M0 -5 L5 0 L0 5 L-5 0 Z"/>',
    "restart": '<circle r="5.5"/><path d="M-3 0 a3 3 0 1 0 3 -3 M-1.5 -5.5 L1 -3 L-1.5 -.5"/>',
    "fold": '<path d="M-4 4 L-1 -4 M1 4 L4 -4"/>',
}
PLACES = {"running": 28, "restart": 5, "fold": 14}
LEGEND = [
    ("running", "running", "runs to the end"),
    ("exited", "exited", "exited with 0"),
    ("crash", "crash", "crashed"),
    ("killed", "killed", "killed by init"),
    ("restart", "running", "a restart"),
    (None, "crowd", "several lives"),
    (None, "wait", "init waits"),
    ("fold", None, "folded Nexts"),
]


def number(value):
    return f"{value:.1f}".removesuffix(".0")


def titled(tag, title, inside=""):
    """An element with its title, which is shown when one points at it."""
    inner = inside + (f"<title>{escaped(title)}</title>" if title else "")
    return f"<{tag}>{inner}</{tag.split(' ')[0]}>" if inner else f"<{tag}/>"


def escaped(text):
    """The text for XML. Control characters, and bytes that aren't UTF-8, are written as \\x0a."""
    return escape(printable(text), {'"': "&quot;"})


def element(it):
    if type(it) is Box:
        place = f'x="{number(it.x)}" y="{number(it.y)}" width="{number(it.width)}" height="{number(it.height)}"'
        return titled(f'rect {place} class="{it.style}"', it.title)
    if type(it) is Line:
        return f'<line x1="{number(it.x1)}" y1="{number(it.y1)}" x2="{number(it.x2)}" y2="{number(it.y2)}" class="{it.style}"/>'
    if type(it) is Label:
        style = f' class="{it.style}"' if it.style else ""
        anchor = "" if it.anchor == "start" else f' text-anchor="{it.anchor}"'
        return titled(f'text x="{number(it.x)}" y="{number(it.y)}"{anchor}{style}', it.title if it.title != it.text else "", escaped(it.text))
    return titled(f'g transform="translate({number(it.x)} {number(it.y)})"', it.title, GLYPHS[it.kind])


def elements(panel):
    return "\n".join(map(element, panel.shapes))


def legend():
    """A panel that says what each form means."""
    made, x = Panel("legend", 26), 8
    for glyph, style, text in LEGEND:
        if style:
            made.shapes.append(Box(x, 8, 28, 9, style))
        if glyph:
            made.shapes.append(Glyph(x + PLACES.get(glyph, 23), 12.5, glyph))
        made.shapes.append(Label(x + 40, 17, text))
        x += 148
    return made


def opened(height, inner):
    return f'<svg xmlns="http://www.w3.org/2000/svg" viewBox="0 0 {WIDTH} {number(height)}" width="{WIDTH}" height="{number(height)}" role="img">{inner}'


def panel_svg(panel, name):
    """A panel by itself, which takes its colours and patterns from the page."""
    label = f"<title>{escaped(name)}</title>"
    return f"{opened(panel.height, label)}\n{elements(panel)}\n</svg>"


def picture_svg(panels, name):
    """All panels in one picture, which is complete by itself."""
    made, y = [], 6
    for panel in [*panels, legend()]:
        made.append(f'<g transform="translate(0 {number(y)})">\n{elements(panel)}\n</g>')
        y += panel.height + 12
    style = f"<style>{colours('svg')}{SHAPES}</style>"
    head = f"<title>{escaped(name)}</title>\n{style}\n{PATTERNS}\n"
    paper = f'<rect class="paper" width="{WIDTH}" height="{number(y)}"/>\n'
    return f"{opened(y, chr(10) + head + paper)}{chr(10).join(made)}\n</svg>\n"
