"""A walk as a picture in SVG, for tools/show. It draws numbers that the proved replay printed, and works out only where they go on the page.

Ahead is to the right and left is up, in one scale, so that a turn to the left is seen as one.
"""
import math
from html import escape
from textwrap import wrap

WIDTH, LEFT, RIGHT, TOP = 960, 88, 32, 104
PLOT = WIDTH - LEFT - RIGHT
LOWEST, HIGHEST, PAD = 200, 620, 44
LINE = 25
INK, GREY, GRID, BLUE, RED, GREEN, VIOLET = "#1a1a1a", "#555555", "#e3e3e3", "#1f5fa8", "#c1121f", "#1b7837", "#7b3294"
# of the ellipse: how many standard deviations it reaches, and how small it may be on the page
DEVIATIONS, LEAST_ELLIPSE = 2, 24
MOST_LISTED = 8


def nice(least):
    """The least of 1, 2, 5, 10, 20, .. times a power of ten that is not below this."""
    power = 10.0 ** math.floor(math.log10(least))
    return next(power * x for x in (1, 2, 5, 10) if power * x >= least * (1 - 1e-9))


def plain(x):
    return f"{x:.6g}".replace("e+", "e").replace("-0", "0" if x == 0 else "-0", 1)


class Text:
    """The page, an element to a line."""

    def __init__(self):
        self.lines = []

    def add(self, element):
        self.lines.append(element)

    def say(self, x, y, words, size=15, colour=INK, anchor="start", more=""):
        self.add(f'<text x="{x:.1f}" y="{y:.1f}" font-size="{size}" fill="{colour}" text-anchor="{anchor}"{more}>{escape(words)}</text>')

    def label(self, x, y, words, colour, anchor="start"):
        """Words that stay readable on top of lines."""
        self.say(x, y, words, 15, "white", anchor, ' stroke="white" stroke-width="5" stroke-linejoin="round"')
        self.say(x, y, words, 15, colour, anchor, ' font-weight="bold"')

    def line(self, points, colour, width):
        spots = " ".join(f"{x:.1f},{y:.1f}" for x, y in points)
        self.add(f'<polyline points="{spots}" fill="none" stroke="{colour}" stroke-width="{width}" stroke-linejoin="round"/>')

    # the marks, of the drawing and of its legend

    def mark(self, x, y, heading, shape, paint):
        place = f"translate({x:.1f},{y:.1f}) rotate({-math.degrees(heading):.2f})"
        self.add(f'<path d="{shape}" transform="{place}" {paint}/>')

    def start(self, x, y):
        self.add(f'<circle cx="{x:.1f}" cy="{y:.1f}" r="9" fill="none" stroke="{GREEN}" stroke-width="3"/>')

    def end(self, x, y, heading):
        self.mark(x, y, heading, "M11,0 L-7,7 L-3,0 L-7,-7 Z", f'fill="{INK}"')

    def cross(self, x, y):
        self.mark(x, y, 0.0, "M-6,-6 L6,6 M-6,6 L6,-6", f'stroke="{RED}" stroke-width="3" stroke-linecap="round"')

    def arrow(self, x, y, heading):
        self.mark(x, y, heading, "M-6,-6 L4,0 L-6,6", f'fill="none" stroke="{BLUE}" stroke-width="2.5"')

    def ellipse(self, x, y, half_axes, heading, dashed):
        place = f"translate({x:.1f},{y:.1f}) rotate({-math.degrees(heading):.2f})"
        paint = f'fill="{VIOLET}" fill-opacity="0.15" stroke="{VIOLET}" stroke-width="2"' + ' stroke-dasharray="6 4"' * dashed
        self.add(f'<ellipse rx="{half_axes[0]:.2f}" ry="{half_axes[1]:.2f}" transform="{place}" {paint}/>')


class View:
    """Which part of the floor is seen, and at what scale: pixels to a metre."""

    def __init__(self, spots):
        (low_x, high_x), (low_y, high_y) = ((min(c), max(c)) for c in zip(*spots))
        wide, high = high_x - low_x, high_y - low_y
        if not math.isfinite(wide) or not math.isfinite(high):
            raise OverflowError
        # what lies in one spot is shown in a millimetre of floor
        scales = [(PLOT - 2 * PAD) / wide if wide else math.inf, (HIGHEST - 2 * PAD) / high if high else math.inf]
        self.scale = min(*scales, 1e6) if min(scales) < math.inf else 1e5
        self.height = max(LOWEST, min(HIGHEST, high * self.scale + 2 * PAD))
        self.west = low_x + wide / 2 - PLOT / 2 / self.scale
        self.north = low_y + high / 2 + self.height / 2 / self.scale

    def at(self, ahead, left):
        return LEFT + (ahead - self.west) * self.scale, TOP + (self.north - left) * self.scale


def axes_of(covariance):
    """Half-axes of one standard deviation, the longer first, and the longer one's direction."""
    a, b, c = covariance[0], covariance[1], covariance[4]
    middle, apart = (a + c) / 2, math.hypot((a - c) / 2, b)
    return [math.sqrt(max(v, 0.0)) for v in (middle + apart, middle - apart)], 0.5 * math.atan2(2 * b, a - c)


def extent(x, y, half_axes, heading):
    """Spots that a view of the ellipse has to hold."""
    major, minor = half_axes
    across = math.hypot(major * math.cos(heading), minor * math.sin(heading))
    along = math.hypot(major * math.sin(heading), minor * math.cos(heading))
    return [(x - across, y - along), (x + across, y + along)]


def clusters(marks):
    """Marks (x, y, number) that lie so close that they share a label: the first one's place, and the numbers."""
    found = []
    for x, y, number in marks:
        near = next((c for c in found if math.hypot(c[0] - x, c[1] - y) < 36), None)
        if near:
            near[2].append(number)
        else:
            found.append((x, y, [number]))
    return found


def refusals(page, marks):
    for x, y in sorted({(round(x), round(y)) for x, y, _ in marks}):
        page.cross(x, y)
    for x, y, numbers in clusters(marks):
        more = f" and {len(numbers) - 3} more" if len(numbers) > 3 else ""
        words, near_edge = ", ".join(map(str, numbers[:3])) + more, x > LEFT + PLOT - 170
        page.label(x - 12 if near_edge else x + 12, y - 10 if y > TOP + 40 else y + 22, words, RED, "end" if near_edge else "start")


def grid(page, view):
    step = nice(60 / view.scale)
    small = PLOT / view.scale < 1
    unit, per_metre = ("millimetres", 1000) if small else ("metres", 1)
    right, bottom = LEFT + PLOT, TOP + view.height
    first, last = math.ceil(view.west / step), math.floor((view.west + PLOT / view.scale) / step)
    for x, value in ((view.at(i * step, 0)[0], i * step * per_metre) for i in range(first, last + 1)):
        page.line([(x, TOP), (x, bottom)], GRID, 1)
        page.say(x, bottom + 20, plain(value), 14, GREY, "middle")
    first, last = math.ceil((view.north - view.height / view.scale) / step), math.floor(view.north / step)
    for y, value in ((view.at(0, i * step)[1], i * step * per_metre) for i in range(first, last + 1)):
        page.line([(LEFT, y), (right, y)], GRID, 1)
        page.say(LEFT - 8, y + 5, plain(value), 14, GREY, "end")
    page.add(f'<rect x="{LEFT}" y="{TOP}" width="{PLOT}" height="{view.height:.1f}" fill="none" stroke="{GREY}"/>')
    page.say(LEFT + PLOT / 2, bottom + 44, f"{unit} ahead of the start", 15, INK, "middle")
    turned = f' transform="rotate(-90 24 {TOP + view.height / 2:.1f})"'
    page.say(24, TOP + view.height / 2, f"{unit} to the left", 15, INK, "middle", turned)
    return unit


def walked(page, path):
    """The path, with a few arrows along it that say which way it goes."""
    page.line(path, BLUE, 2.5)
    lengths = [math.dist(p, q) for p, q in zip(path, path[1:])]
    whole, done, wanted = sum(lengths), 0.0, [0.2, 0.42, 0.65, 0.92]
    for p, q, length in zip(path, path[1:], lengths):
        done += length
        if wanted and whole > 150 and done >= wanted[0] * whole:
            wanted.pop(0)
            page.arrow(*q, math.atan2(p[1] - q[1], q[0] - p[0]))


def svg(title, lines, path, refused, heading, covariance, caption):
    """The page. `path` has (ahead, left) in metres, the start first; `refused` has (number, (ahead, left), words)."""
    half_axes, slant = axes_of(covariance)
    reach = [DEVIATIONS * x for x in half_axes]
    end = path[-1]
    view = View(path + extent(*end, reach, slant))
    factor = 1
    if 0 < reach[0] * view.scale < LEAST_ELLIPSE:
        factor = round(nice(LEAST_ELLIPSE / (reach[0] * view.scale)))
        view = View(path + extent(*end, [factor * x for x in reach], slant))
    page = Text()
    page.say(LEFT, 36, title, 21, INK, "start", ' font-weight="bold"')
    for i, words in enumerate(lines):
        page.say(LEFT, 62 + 22 * i, words, 15, GREY)
    unit = grid(page, view)
    walked(page, [view.at(*spot) for spot in path])
    if reach[0] > 0:
        page.ellipse(*view.at(*end), [factor * x * view.scale for x in reach], slant, factor > 1)
    page.start(*view.at(*path[0]))
    page.end(*view.at(*end), heading)
    refusals(page, [(*view.at(*spot), number) for number, spot, _ in refused])
    bottom = legend(page, view, unit, refused, reach[0] > 0, factor, caption)
    size = f'width="{WIDTH}" height="{bottom:.0f}"'
    head = f'<svg xmlns="http://www.w3.org/2000/svg" {size} viewBox="0 0 {WIDTH} {bottom:.0f}" font-family="sans-serif">'
    return "\n".join([head, f"<title>{escape(title)}</title>", f'<rect {size} fill="white"/>', *page.lines, "</svg>\n"])


def legend(page, view, unit, refused, uncertain, factor, caption):
    """What the marks are, and the scale bar. Answers where the page ends."""
    y = TOP + view.height + 82
    bar = nice(110 / view.scale)
    bar_end = LEFT + PLOT
    bar_begin = bar_end - bar * view.scale
    page.line([(bar_begin, y - 11), (bar_begin, y - 1), (bar_end, y - 1), (bar_end, y - 11)], INK, 2)
    page.say((bar_begin + bar_end) / 2, y - 10, plain(bar * 1000) + " mm" if unit == "millimetres" else plain(bar) + " m", 15, INK, "middle")
    page.start(LEFT + 10, y - 5)
    page.say(LEFT + 32, y, "start")
    page.end(LEFT + 110, y - 5, 0.0)
    page.say(LEFT + 132, y, "end, pointing the way that the cart faces")
    y += LINE
    if uncertain:
        enlarged = f", enlarged {factor:,} times to be seen" if factor > 1 else ""
        page.ellipse(LEFT + 10, y - 5, (12, 7), 0.0, factor > 1)
        page.say(LEFT + 32, y, f"how uncertain the end is: {DEVIATIONS} standard deviations{enlarged}")
    else:
        page.say(LEFT + 32, y, "no ellipse: the replay gives the end no uncertainty")
    for number, _, words in refused[:MOST_LISTED]:
        page.cross(LEFT + 10, y + LINE - 5)
        for part in wrap(f"reading {number} refused: {words}", 100):
            y += LINE
            page.say(LEFT + 32, y, part)
    if len(refused) > MOST_LISTED:
        y += LINE
        page.say(LEFT + 32, y, f"and {len(refused) - MOST_LISTED} more refused; tools/show lists them all")
    y += 8
    for words in wrap(caption, 118):
        y += 20
        page.say(LEFT, y, words, 14, GREY)
    return y + 22
