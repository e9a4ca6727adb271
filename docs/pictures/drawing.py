"""What the drawings of this folder have in common: boxes, arrows and texts in SVG."""
from xml.sax.saxutils import escape

# Each color as a fill and a line, in light and in dark.
COLORS = {
    "plain": ("#f6f8fa", "#8c959f", "#161b22", "#6e7681"),
    "blue": ("#ddf4ff", "#0969da", "#0c2d4d", "#4493f8"),
    "green": ("#dafbe1", "#1a7f37", "#0f3020", "#3fb950"),
    "amber": ("#fff8c5", "#9a6700", "#372a08", "#d29922"),
    "red": ("#ffebe9", "#cf222e", "#3d1518", "#f85149"),
    "violet": ("#fbefff", "#8250df", "#271b44", "#a371f7"),
}
MONO = "ui-monospace, 'DejaVu Sans Mono', Menlo, Consolas, monospace"
# How wide a letter of the monospaced font is, of its size.
LETTER = 0.605


def style():
    """The style sheet, whose colors are those of the reader's scheme."""
    light = [".ground{fill:#ffffff}", "text{fill:#1f2328}", ".dim{fill:#59636e}",
             ".line{stroke:#57606a;fill:none}", ".head{fill:#57606a}"]
    dark = [".ground{fill:#0d1117}", "text{fill:#e6edf3}", ".dim{fill:#9198a1}",
            ".line{stroke:#9198a1}", ".head{fill:#9198a1}"]
    for name, (fill, line, dark_fill, dark_line) in COLORS.items():
        light.append(f".{name}{{fill:{fill};stroke:{line}}}")
        dark.append(f".{name}{{fill:{dark_fill};stroke:{dark_line}}}")
    fonts = f"text{{font:13px sans-serif}}.mono{{font:13px {MONO}}}.small{{font-size:11px}}"
    fonts += ".title{font-weight:bold}"
    return (f"<style>{fonts}{''.join(light)}"
            f"@media (prefers-color-scheme:dark){{{''.join(dark)}}}</style>")


class Drawing:
    """A picture of this size, with a title and a description for those who do not see it."""

    def __init__(self, width, height, title, description):
        self.parts = [
            f'<svg xmlns="http://www.w3.org/2000/svg" viewBox="0 0 {width} {height}" '
            f'width="{width}" height="{height}" role="img" aria-labelledby="title about">',
            f'<title id="title">{escape(title)}</title>',
            f'<desc id="about">{escape(description)}</desc>', style(),
            '<defs><marker id="head" viewBox="0 0 8 8" refX="7" refY="4" markerWidth="8" '
            'markerHeight="8" orient="auto"><path class="head" d="M0 0.5L8 4L0 7.5z"/></marker>'
            '</defs>',
            f'<rect class="ground" width="{width}" height="{height}" rx="8"/>']

    def box(self, x, y, width, height, color="plain", dashed=False):
        dash = ' stroke-dasharray="5 4"' if dashed else ""
        self.parts.append(f'<rect class="{color}" x="{x:g}" y="{y:g}" width="{width:g}" '
                          f'height="{height:g}" rx="4"{dash}/>')

    def text(self, x, y, text, kind="", anchor="middle"):
        name = f' class="{kind}"' if kind else ""
        space = ' xml:space="preserve"' if "  " in text else ""
        self.parts.append(f'<text{name} x="{x:g}" y="{y:g}" text-anchor="{anchor}"{space}>'
                          f'{escape(text)}</text>')

    def arrow(self, path, has_head=True):
        head = ' marker-end="url(#head)"' if has_head else ""
        self.parts.append(f'<path class="line" d="{path}"{head}/>')

    def __str__(self):
        return "\n".join([*self.parts, "</svg>", ""])
