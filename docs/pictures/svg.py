"""Shapes and texts of a picture as SVG, on a ground of its own, so that it is readable on a white and a dark page."""
from xml.sax.saxutils import escape, quoteattr

MONO = "DejaVu Sans Mono, Menlo, Consolas, monospace"
SANS = "DejaVu Sans, Verdana, Helvetica, Arial, sans-serif"
INK, PALE, WAY = "#1f2328", "#59636e", "#b42318"
# fill and stroke by what is shown
COLOURS = {
    "section": ("#cfe2ff", "#2f6fc4"),
    "relocation": ("#ffdfc0", "#c46a12"),
    "symbol": ("#d3eed1", "#2f8a3a"),
    "name": ("#e9d8f6", "#7c3fb0"),
    "other": ("#eceff2", "#9aa5ad"),
    "plain": ("#ffffff", "#59636e"),
}


def marker(name, colour):
    """The head of an arrow."""
    return (f'<marker id="{name}" viewBox="0 0 8 8" refX="7" refY="4" markerWidth="8" markerHeight="8" '
            f'markerUnits="userSpaceOnUse" orient="auto"><path d="M0 0 L8 4 L0 8 Z" fill="{colour}"/></marker>')


class Picture:
    """A picture of a width and a height, with a title for those who cannot see it."""

    def __init__(self, width, height, title):
        self.parts = [
            f'<svg xmlns="http://www.w3.org/2000/svg" viewBox="0 0 {width} {height}" width="{width}" height="{height}" '
            'role="img">',
            f"<title>{escape(title)}</title>",
            "<defs>" + marker("head", INK) + marker("way", WAY) + "</defs>",
            f'<rect x="0.5" y="0.5" width="{width - 1}" height="{height - 1}" rx="8" fill="#ffffff" stroke="#d0d7de"/>',
        ]

    def box(self, x, y, width, height, kind, radius=2, dashed=False):
        fill, stroke = COLOURS[kind]
        dash = ' stroke-dasharray="4 3"' if dashed else ""
        self.parts.append(f'<rect x="{x:g}" y="{y:g}" width="{width:g}" height="{height:g}" rx="{radius}" '
                          f'fill="{fill}" stroke="{stroke}"{dash}/>')

    def text(self, x, y, words, size=12, mono=False, anchor="start", colour=INK, bold=False):
        weight = ' font-weight="bold"' if bold else ""
        family = MONO if mono else SANS
        self.parts.append(f'<text x="{x:g}" y="{y:g}" font-family="{family}" font-size="{size}" text-anchor="{anchor}" '
                          f'fill="{colour}"{weight}>{escape(words)}</text>')

    def path(self, points, colour=INK, width=1.3, head=True):
        steps = " ".join(f"{'L' if k else 'M'}{x:g} {y:g}" for k, (x, y) in enumerate(points))
        marker = f' marker-end="url(#{"way" if colour == WAY else "head"})"' if head else ""
        self.parts.append(f'<path d="{steps}" fill="none" stroke="{colour}" stroke-width="{width}"{marker}/>')

    def badge(self, x, y, number):
        """A step of a way that is told below the picture."""
        self.parts.append(f'<circle cx="{x:g}" cy="{y:g}" r="9" fill="{INK}"/>')
        self.text(x, y + 4, str(number), 11, anchor="middle", colour="#ffffff", bold=True)

    def begin(self, **noted):
        """A group; what is noted of it, `data-..`, is what docs/check-examples compares."""
        self.parts.append("<g " + " ".join(f"data-{key}={quoteattr(str(value))}" for key, value in noted.items()) + ">")

    def end(self):
        self.parts.append("</g>")

    def bytes(self, x, y, cells, width=19.5, height=18):
        """Bytes in hexadecimal, each in a cell of its kind."""
        for k, (byte, kind) in enumerate(cells):
            self.box(x + k * width, y, width, height, kind, 0)
            self.text(x + (k + 0.5) * width, y + height - 5, f"{byte:02x}", 11, True, "middle")

    def save(self, path):
        with open(path, "w", encoding="utf-8") as file:
            file.write("\n".join(self.parts) + "\n</svg>\n")
