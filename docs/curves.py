"""Curves as SVG for the pictures of docs/: panels side by side, each with axes, lines and dots. The output depends
on the numbers alone, so a stored picture can be compared with a new one."""
import html
import math
import sys
from pathlib import Path

WIDTH, HEIGHT, LEFT, RIGHT, TOP, BOTTOM = 470, 370, 62, 14, 44, 48
COLOURS = ("#b0305c", "#c07000", "#3a7d2c", "#2060a0", "#6a3fb5")


class Panel:
    """Axes from `low` to `high` each, a logarithm's where its ticks say so, with ticks that are the number and its text."""

    def __init__(self, title, across, up, xs, ys, xlog=False, ylog=False):
        self.title, self.across, self.up, self.xs, self.ys, self.logs = title, across, up, xs, ys, (xlog, ylog)
        self.parts = []

    def place(self, x, y):
        def share(value, ticks, is_log):
            low, high, value = (math.log10(it) if is_log else it for it in (ticks[0][0], ticks[-1][0], value))
            return (value - low) / (high - low)
        return (LEFT + (WIDTH - LEFT - RIGHT) * share(x, self.xs, self.logs[0]),
                HEIGHT - BOTTOM - (HEIGHT - TOP - BOTTOM) * share(y, self.ys, self.logs[1]))

    def words(self, x, y, text, **style):
        """Adds a text at a place of the axes."""
        at = self.place(x, y)
        self.parts.append(text_at(*at, text, **style))

    def line(self, points, colour, width=2, dash=""):
        """Adds a line through these points; it ends where they leave the axes."""
        low, high = self.ys[0][0], self.ys[-1][0]
        places = [self.place(x, min(high, max(low, y))) for x, y in points]
        way = "M" + " L".join(f"{x:.1f} {y:.1f}" for x, y in places)
        self.parts.append(f'<path d="{way}" fill="none" stroke="{colour}" stroke-width="{width}" stroke-dasharray="{dash}"/>')

    def dots(self, points, colour, size=3):
        places = [self.place(x, y) for x, y in points]
        self.parts += [f'<circle cx="{x:.1f}" cy="{y:.1f}" r="{size}" fill="{colour}"/>' for x, y in places]

    def drawn(self, offset):
        right, bottom = WIDTH - RIGHT, HEIGHT - BOTTOM
        yield f'<g transform="translate({offset} 0)">'
        for value, text in self.xs:
            x = self.place(value, self.ys[0][0])[0]
            yield f'<path d="M{x:.1f} {TOP} V{bottom}" stroke="#dddddd"/>' + text_at(x, bottom + 16, text, anchor="middle")
        for value, text in self.ys:
            y = self.place(self.xs[0][0], value)[1]
            yield f'<path d="M{LEFT} {y:.1f} H{right}" stroke="#dddddd"/>' + text_at(LEFT - 6, y + 4, text, anchor="end")
        yield f'<rect x="{LEFT}" y="{TOP}" width="{right - LEFT}" height="{bottom - TOP}" fill="none" stroke="#888888"/>'
        yield text_at(LEFT, 18, self.title, size=14, weight="bold") + text_at(LEFT, TOP - 8, self.up)
        yield text_at(right, HEIGHT - 12, self.across, anchor="end")
        yield from self.parts
        yield "</g>"


def text_at(x, y, text, size=12, anchor="start", colour="#333333", weight="normal"):
    return (f'<text x="{x:.1f}" y="{y:.1f}" font-size="{size}" text-anchor="{anchor}" fill="{colour}" font-weight="{weight}">'
            f"{html.escape(text)}</text>")


def picture(panels):
    head = (f'<svg xmlns="http://www.w3.org/2000/svg" width="{WIDTH * len(panels)}" height="{HEIGHT}" font-family="Helvetica, sans-serif">\n'
            '<rect width="100%" height="100%" fill="white"/>')
    return "\n".join([head, *(part for place, panel in enumerate(panels) for part in panel.drawn(WIDTH * place)), "</svg>"]) + "\n"


def keep(file, text, check):
    """Writes a picture, or with `check` compares it with the one that is stored, and ends with status 1 where they differ."""
    path = Path(__file__).resolve().parent / file
    if not check:
        path.write_text(text)
    elif not path.exists() or path.read_text() != text:
        sys.exit(f"docs/{file} is another picture than its script draws")
