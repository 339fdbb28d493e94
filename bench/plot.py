"""Line plots as SVG text: panels side by side, a linear axis across, a logarithmic axis of milliseconds upwards."""
import math
from typing import NamedTuple

WIDTH, HEIGHT = 480, 340
LEFT, RIGHT, TOP, BOTTOM = 88, 16, 76, 52
COLOURS = ("#1f5fa8", "#3a7d44", "#c2571a")
DASHES = ("", ' stroke-dasharray="6 4"')


class Curve(NamedTuple):
    name: str  # of a program: its colour
    family: str  # of briefs: its dashes
    points: list  # (size, seconds)


def text(x, y, words, size=12, anchor="middle", colour="#222", more=""):
    return f'<text x="{x:.1f}" y="{y:.1f}" font-size="{size}" text-anchor="{anchor}" fill="{colour}"{more}>{words}</text>'


def segment(x1, y1, x2, y2, colour="#ddd", more=""):
    return f'<line x1="{x1:.1f}" y1="{y1:.1f}" x2="{x2:.1f}" y2="{y2:.1f}" stroke="{colour}"{more}/>'


def decades(curves):
    """The powers of ten, in milliseconds, that hold all times."""
    times = [1000 * seconds for curve in curves for _, seconds in curve.points]
    low, high = math.floor(math.log10(min(times))), math.ceil(math.log10(max(times)))
    return low, max(high, low + 1)


class Scale:
    """From a number of candidates and a time to a place in the panel."""

    def __init__(self, curves):
        self.sizes = sorted({size for curve in curves for size, _ in curve.points})
        self.low, self.high = decades(curves)

    def x(self, size):
        first, last = self.sizes[0], self.sizes[-1]
        return LEFT + (WIDTH - LEFT - RIGHT) * (size - first) / (last - first)

    def ticks(self):
        """Some of the sizes, so far apart that their numbers do not touch."""
        chosen = self.sizes[:1]
        for size in self.sizes[1:]:
            if self.x(size) - self.x(chosen[-1]) >= 40:
                chosen.append(size)
        return chosen

    def y(self, milliseconds):
        share = (math.log10(milliseconds) - self.low) / (self.high - self.low)
        return HEIGHT - BOTTOM - (HEIGHT - TOP - BOTTOM) * share


def axes(scale):
    for power in range(scale.low, scale.high + 1):
        y = scale.y(10.0**power)
        yield segment(LEFT, y, WIDTH - RIGHT, y)
        yield text(LEFT - 6, y + 4, f"{10**power:,} ms" if power >= 0 else f"{10.0**power:g} ms", 11, "end")
    for size in scale.ticks():
        yield segment(scale.x(size), HEIGHT - BOTTOM, scale.x(size), HEIGHT - BOTTOM + 4, "#222")
        yield text(scale.x(size), HEIGHT - BOTTOM + 18, size, 11)
    yield segment(LEFT, HEIGHT - BOTTOM, WIDTH - RIGHT, HEIGHT - BOTTOM, "#222")
    yield text((LEFT + WIDTH - RIGHT) / 2, HEIGHT - 14, "number of candidates")
    middle = (TOP + HEIGHT - BOTTOM) / 2
    yield text(16, middle, "CPU time, logarithmic scale", more=f' transform="rotate(-90 16 {middle:.1f})"')


def drawn(scale, curve, colour, dashes):
    places = [(scale.x(size), scale.y(1000 * seconds)) for size, seconds in curve.points]
    path = " ".join(f"{x:.1f},{y:.1f}" for x, y in places)
    yield f'<polyline points="{path}" fill="none" stroke="{colour}" stroke-width="2"{dashes}/>'
    for x, y in places:
        yield f'<circle cx="{x:.1f}" cy="{y:.1f}" r="3" fill="{colour}"/>'


def legend(names, families):
    for k, name in enumerate(names):
        yield text(LEFT + 110 * k, TOP - 10, name, 12, "start", COLOURS[k])
    for k, family in enumerate(families):
        left = LEFT + 186 * k
        yield segment(left, TOP - 32, left + 26, TOP - 32, "#222", DASHES[k])
        yield text(left + 32, TOP - 28, family, 11, "start")


def panel(title, curves, left):
    names = list(dict.fromkeys(curve.name for curve in curves))
    families = list(dict.fromkeys(curve.family for curve in curves))
    scale = Scale(curves)
    yield f'<g transform="translate({left},24)">'
    yield text((LEFT + WIDTH - RIGHT) / 2, TOP - 52, title, 13)
    yield from legend(names, families)
    yield from axes(scale)
    for curve in curves:
        yield from drawn(scale, curve, COLOURS[names.index(curve.name)], DASHES[families.index(curve.family)])
    yield "</g>"


def panels(title, content):
    """The whole drawing: content is a list of (title of the panel, its curves)."""
    width, height = WIDTH * len(content), HEIGHT + 24
    size = f'viewBox="0 0 {width} {height}" width="{width}" height="{height}"'
    head = f'<svg xmlns="http://www.w3.org/2000/svg" {size} font-family="sans-serif">'
    background = f'<rect width="{width}" height="{height}" fill="white"/>'
    lines = [head, f"<title>{title}</title>", background, text(width / 2, 18, title, 15)]
    for k, (name, curves) in enumerate(content):
        lines += panel(name, curves, k * WIDTH)
    return "\n".join(lines + ["</svg>"]) + "\n"
