"""Plain SVG for the pictures of the documents, on a transparent background.

The colours are for light and for dark.
"""

import pathlib
import sys
from dataclasses import dataclass, field
from html import escape

# A line that begins with a blank continues the one before it.
STYLE = """
text{font-family:system-ui,-apple-system,"Segoe UI",Roboto,"Liberation Sans","DejaVu Sans",
 sans-serif}
.mono{font-family:ui-monospace,SFMono-Regular,Menlo,"Liberation Mono","DejaVu Sans Mono",monospace}
.bold{font-weight:600}
.ink{fill:#1f2328}.soft{fill:#59636e}.blue{fill:#0550ae}.green{fill:#116329}.red{fill:#a40e26}
 .amber{fill:#7d4e00}
.box{fill:#f6f8fa;stroke:#8c959f}.blue-box{fill:#ddf4ff;stroke:#0969da}
 .green-box{fill:#dafbe1;stroke:#1a7f37}
.red-box{fill:#ffebe9;stroke:#cf222e}.amber-box{fill:#fff8c5;stroke:#9a6700}
 .frame{fill:none;stroke:#8c959f}
.shade{fill:#ddf4ff;stroke:none}.dots{fill:#59636e}
.line{stroke:#59636e;fill:none}.ink-line{stroke:#1f2328;fill:none}
 .thin{stroke:#afb8c1;fill:none}.blue-line{stroke:#0969da;fill:none}
.green-line{stroke:#1a7f37;fill:none}.red-line{stroke:#cf222e;fill:none}
 .amber-line{stroke:#9a6700;fill:none}
.blue-fill{fill:#0969da}.grey-fill{fill:#8c959f}.pale-fill{fill:#c8d1da}.head{fill:#59636e}
@media (prefers-color-scheme:dark){
.ink{fill:#f0f6fc}.soft{fill:#b7bdc8}.blue{fill:#79c0ff}.green{fill:#56d364}.red{fill:#ff9492}
 .amber{fill:#e3b341}
.box{fill:#1c2128;stroke:#7d8590}.blue-box{fill:#0c2d4d;stroke:#4493f8}
 .green-box{fill:#0f2e1a;stroke:#3fb950}
.red-box{fill:#3c1418;stroke:#f85149}.amber-box{fill:#33260a;stroke:#d29922}.frame{stroke:#7d8590}
.shade{fill:#12283f}.dots{fill:#b7bdc8}
.line{stroke:#b7bdc8}.ink-line{stroke:#f0f6fc}.thin{stroke:#545d68}.blue-line{stroke:#4493f8}
.green-line{stroke:#3fb950}.red-line{stroke:#f85149}.amber-line{stroke:#d29922}
.blue-fill{fill:#4493f8}.grey-fill{fill:#7d8590}.pale-fill{fill:#444c56}.head{fill:#b7bdc8}
}
""".replace("\n ", "")

# Widths of characters as parts of the size of the font, for those that are far from the usual one.
NARROW, USUAL, CAPITAL, WIDE, MONO = 0.34, 0.6, 0.7, 0.95, 0.62


def width_of(text: str, size: float, mono: bool = False) -> float:
    """Returns about how wide a text is drawn, rather too much than too little."""
    if mono:
        return MONO * size * len(text)
    total = 0.0
    for character in text:
        if character in " .,:;'|!()[]ijlftI/":
            total += NARROW
        elif character in 'mwMW@':
            total += WIDE
        elif character.isupper():
            total += CAPITAL
        else:
            total += USUAL
    return total * size


def number(value: float) -> str:
    """Returns a coordinate in few characters."""
    return f'{value:.1f}'.removesuffix('.0')


@dataclass
class Picture:
    """A picture: its size, a title and description for those who do not see it, its elements."""

    width: int
    height: int
    title: str
    description: str
    elements: list[str] = field(default_factory=list)

    def rect(
        self,
        x: float,
        y: float,
        width: float,
        height: float,
        kind: str = 'box',
        radius: float = 6,
        dashed: bool = False,
    ) -> None:
        """Draws a rectangle."""
        dash = ' stroke-dasharray="5 4"' if dashed else ''
        self.elements.append(
            f'<rect class="{kind}" x="{number(x)}" y="{number(y)}" width="{number(width)}" '
            f'height="{number(height)}" rx="{number(radius)}"{dash}/>'
        )

    def text(
        self,
        x: float,
        y: float,
        text: str,
        kind: str = 'ink',
        size: float = 14,
        anchor: str = 'start',
        bold: bool = False,
        mono: bool = False,
    ) -> None:
        """Writes a text, which has to lie in the picture."""
        width = width_of(text, size, mono)
        left = {'start': x, 'middle': x - width / 2, 'end': x - width}[anchor]
        if left < 0 or left + width > self.width:
            raise ValueError(f'{self.title}: too wide for the picture: {text}')
        classes = ' '.join([kind, *(['bold'] if bold else []), *(['mono'] if mono else [])])
        self.elements.append(
            f'<text class="{classes}" x="{number(x)}" y="{number(y)}" font-size="{number(size)}" '
            f'text-anchor="{anchor}">{escape(text)}</text>'
        )

    def box(
        self,
        x: float,
        y: float,
        width: float,
        height: float,
        lines: list[str],
        kind: str = 'box',
        size: float = 14,
        dashed: bool = False,
        first: str = 'ink',
        mono: bool = False,
    ) -> None:
        """Draws a box with lines of text in its middle, of which the first is the heading.

        They have to fit.
        """
        self.rect(x, y, width, height, kind, dashed=dashed)
        step = size + 4
        top = y + height / 2 - step * len(lines) / 2 + size * 0.92
        for index, line in enumerate(lines):
            this = size if index == 0 else size - 2
            if width_of(line, this, mono and index == 0) > width - 4:
                raise ValueError(f'{self.title}: too wide for its box: {line}')
            self.text(
                x + width / 2,
                top + index * step,
                line,
                first if index == 0 else 'soft',
                this,
                'middle',
                bold=index == 0 and len(lines) > 1,
                mono=mono and index == 0,
            )

    def line(
        self,
        x1: float,
        y1: float,
        x2: float,
        y2: float,
        kind: str = 'line',
        thick: float = 1.5,
        dashed: bool = False,
    ) -> None:
        """Draws a line."""
        dash = ' stroke-dasharray="5 4"' if dashed else ''
        self.elements.append(
            f'<line class="{kind}" x1="{number(x1)}" y1="{number(y1)}" x2="{number(x2)}" '
            f'y2="{number(y2)}" stroke-width="{number(thick)}"{dash}/>'
        )

    def arrow(self, x1: float, y1: float, x2: float, y2: float) -> None:
        """Draws an arrow that goes to the right, to the left, up or down."""
        self.line(x1, y1, x2, y2)
        across, down = (x2 > x1) - (x2 < x1), (y2 > y1) - (y2 < y1)
        if across and down:
            raise ValueError(f'{self.title}: an arrow is neither level nor upright')
        corners = [(x2, y2), (x2 - 8 * across + 4 * down, y2 - 8 * down + 4 * across),
                   (x2 - 8 * across - 4 * down, y2 - 8 * down - 4 * across)]
        points = ' '.join(f'{number(x)},{number(y)}' for x, y in corners)
        self.elements.append(f'<polygon class="head" points="{points}"/>')

    def curve(self, x1: float, y1: float, x2: float, y2: float, kind: str = 'thin') -> None:
        """Draws a curve that leaves its first point and enters its last one upright."""
        middle = number((y1 + y2) / 2)
        self.elements.append(
            f'<path class="{kind}" d="M{number(x1)} {number(y1)}C{number(x1)} '
            f'{middle} {number(x2)} {middle} {number(x2)} {number(y2)}" stroke-width="1.2"/>'
        )

    def circle(self, x: float, y: float, radius: float, kind: str) -> None:
        """Draws a circle."""
        self.elements.append(
            f'<circle class="{kind}" cx="{number(x)}" cy="{number(y)}" r="{number(radius)}"/>'
        )

    def source(self) -> str:
        """Returns the text of the file."""
        head = (
            f'<svg xmlns="http://www.w3.org/2000/svg" width="{self.width}" height="{self.height}" '
            f'viewBox="0 0 {self.width} {self.height}" role="img" aria-labelledby="title desc">'
        )
        return '\n'.join(
            [
                head,
                f'<title id="title">{escape(self.title)}</title>',
                f'<desc id="desc">{escape(self.description)}</desc>',
                f'<style>{STYLE}</style>',
                *self.elements,
                '</svg>',
                '',
            ]
        )


def write(picture: Picture, script: str) -> None:
    """Writes the picture beside its script, under the name of the script.

    If the command line names a folder, it is written there.
    """
    path = pathlib.Path(script).resolve()
    folder = pathlib.Path(sys.argv[1]) if len(sys.argv) > 1 else path.parent
    (folder / f'{path.stem}.svg').write_text(picture.source())
