"""What a picture of examples/draw is made of: texts and shapes in SVG, and the plan of its rows and columns."""
import datetime
import math
import re
from collections import Counter
from xml.sax.saxutils import escape

from reports import count_of

WIDTH, MARGIN, SIDE = 1000, 28, 150
PLAIN, SMALL, MONO, BOLD = 7.0, 5.9, 6.7, 10.2  # how wide a character is in a text, a small one, one of equal widths, and a name
ARROW = 9  # between two arrows
MOST_COLUMNS = 160  # of packets
WIDEST_COLUMN = 14
MOST_LISTED = 24  # records, and commands
COLOURS = "#2f6db5", "#d97b18", "#3a8f5c", "#8a56a5", "#b8433f", "#1b8a97", "#7d6b2c", "#5b6470"
GOOD, BAD, INK, PALE, GROUND = "#2e7d46", "#b3362f", "#1f2933", "#68737f", "#f3f5f7"
STYLE = f"""
text {{ font-family: 'DejaVu Sans', Verdana, Helvetica, sans-serif; font-size: 12px; fill: {INK}; }}
.title {{ font-size: 19px; font-weight: bold; }}
.head {{ font-size: 14px; font-weight: bold; }}
.name {{ font-size: 14px; font-weight: bold; }}
.pale {{ fill: {PALE}; }}
.small {{ font-size: 10px; fill: {PALE}; }}
.over {{ paint-order: stroke; stroke: #ffffff; stroke-width: 3px; }}
.mono {{ font-family: 'DejaVu Sans Mono', Menlo, Consolas, monospace; font-size: 11px; }}
.good {{ fill: {GOOD}; font-weight: bold; }}
.bad {{ fill: {BAD}; font-weight: bold; }}
.number {{ fill: #ffffff; font-size: 10px; font-weight: bold; text-anchor: middle; }}
"""


def colour_of(instance):
    return COLOURS[instance % len(COLOURS)]


def nice(least):
    """The least of 1, 2, 5, 10, 20, 50 .. that isn't below."""
    power = 1
    while True:
        for step in 1, 2, 5:
            if step * power >= least:
                return step * power
        power *= 10


def wrapped(text, width, character):
    """The lines of a text that has so much room across. They end at a space or after a comma, where there is one."""
    lines, most = [], max(1, int(width / character))
    while len(text) > most:
        end = max(text.rfind(" ", 0, most + 1), text.rfind(",", 0, most) + 1)
        end = end if end > 0 else most
        lines.append(text[:end].rstrip())
        text = text[end:].lstrip()
    return [*lines, text]


def with_time(record):
    """A tracker's record with the time of its last packet as a date, in place of nanoseconds."""
    match = re.fullmatch("(.*) seen ([0-9]{1,20})", record)
    if not match:
        return record
    time = datetime.datetime.fromtimestamp(int(match[2]) // 10**9, datetime.timezone.utc)
    return f"{match[1]}, last seen {time:%Y-%m-%d %H:%M:%S} UTC"


class Picture:
    """The elements of an SVG picture, and how far down it goes."""

    def __init__(self):
        self.elements = []
        self.bottom = MARGIN

    def put(self, tag, content=None, **attributes):
        """An element. Numbers get at most one decimal; a `_` in an attribute's name is a `-`, and one behind it is left out."""
        said = "".join(
            f' {name.rstrip("_").replace("_", "-")}="{f"{value:.1f}".removesuffix(".0") if isinstance(value, float) else value}"'
            for name, value in attributes.items()
        )
        self.elements.append(f"<{tag}{said}/>" if content is None else f"<{tag}{said}>{content}</{tag}>")

    def text(self, x, y, content, **attributes):
        self.put("text", escape(content), x=x, y=y, **attributes)

    def texts(self, x, first, step, content, character, **attributes):
        """A text of as many lines as it needs, so far down from here and from line to line."""
        for place, line in enumerate(wrapped(content, WIDTH - MARGIN - x, character)):
            self.text(x, self.down(step if place else first), line, **attributes)

    def down(self, height):
        self.bottom += height
        return self.bottom

    def svg(self, title):
        height = self.bottom + MARGIN
        return "\n".join([
            f'<svg xmlns="http://www.w3.org/2000/svg" width="{WIDTH}" height="{height}" viewBox="0 0 {WIDTH} {height}" role="img">',
            f"<title>{escape(title)}</title>",
            f"<style>{STYLE}</style>",
            f'<rect width="{WIDTH}" height="{height}" fill="#ffffff"/>',
            *self.elements,
            "</svg>",
            "",
        ])


class Plan:
    """Where the rows and columns of the packets are. A column stands for `size` packets, and its right end is at `x(column)`."""

    def __init__(self, report):
        self.left = MARGIN + max(40, math.ceil(BOLD * max(map(len, report.names))) + 14)
        widest = max(len(line) for instance in range(len(report.names)) for line in counts_beside(report, instance))
        self.right = WIDTH - MARGIN - max(SIDE, math.ceil(PLAIN * widest))
        self.row, self.gap = (44, 22) if len(report.names) <= 4 else (26, 18)
        self.top = 0
        self.size = nice(len(report.done) / MOST_COLUMNS)
        self.columns = -(-len(report.done) // self.size)
        self.width = min(WIDEST_COLUMN, (self.right - self.left) / max(1, self.columns))
        self.place = {number: place for place, (number, _) in enumerate(report.done, 1)}
        shares = Counter((place // self.size, instance) for place, (_, instance) in enumerate(report.done))
        self.most = max(shares.values(), default=0)  # packets of a column at one instance

    def x(self, column):
        return self.left + column * self.width

    def y(self, instance):
        """The top of the instance's row."""
        return self.top + self.gap + instance * (self.row + self.gap)

    def behind(self, packet):
        """Right behind a packet; 0 is before all, and one that isn't there behind all."""
        return self.x(self.place.get(packet, len(self.place) if packet else 0) / self.size)


def counts_beside(report, instance):
    """The two lines that stand beside an instance's row."""
    left, standing = f"{count_of(report.live[instance], 'record')} left", len(report.standing[instance])
    return [count_of(report.processed(instance), "packet"), f"{left}, {standing:,} in standby" if standing else left]
