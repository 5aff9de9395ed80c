"""Reads the report of a failover, and draws what is left: for examples/draw.

Below the title a row has the packets of the capture by their numbers; the lost and the open ones stand out, and where there are many packets
a column stands for several of them. Then come the affected units, those that lost most first where not all have room, each with the record
that is promoted and the one that has caught up.
"""
from typing import NamedTuple
from xml.sax.saxutils import escape

from picture import BAD, GOOD, GROUND, MARGIN, MONO, MOST_COLUMNS, MOST_LISTED, PALE, PLAIN, SMALL, WIDEST_COLUMN, WIDTH, Picture, nice, with_time
from reports import NAME, NUMBER, TOP_FORMS, UNIT, Fault, count_of, lines_by_word

FIRST_LINE = "opennf failover 1"
ROW = 44  # the height of the packets' row
# The lines by their first words, in their order. What is promoted and what is gone stand among each other.
FORMS = {
    "opennf": "opennf failover 1",
    **TOP_FORMS,
    "fail": rf"fail ({NAME}) after (\d{{1,20}})",
    "promote": rf"promote ({UNIT}) to ({NAME}) ([ -~]+)",
    "gone": rf"gone ({UNIT})",
    "lost": r"lost (\d{1,7})",
    "open": r"open (\d{1,7})",
    "caught": rf"caught ({UNIT}) ({NAME}) ([ -~]+)",
    "end": "end",
}


class Left(NamedTuple):
    """What the lines of the report of a failover say."""

    function: str
    packets: int
    failed: str
    after: int
    to: str  # empty where no unit is affected
    lost: list
    pending: list
    units: list  # of (unit, the record that is promoted or None, the one that has caught up), in order


def left_of(name, text):
    found = lines_by_word(name, text, FORMS, {"gone": "promote"})
    for word in "opennf", "function", "trace", "fail", "end":
        if len(found[word]) != 1:
            raise Fault(f"{name}: hasn't one line '{word}'")
    (failed, after), packets = found["fail"][0], int(found["trace"][0][0])
    standing = {unit: record for unit, _, record in found["promote"]}
    units = [(unit, standing.get(unit), record) for unit, _, record in found["caught"]]
    affected = sorted([*standing, *(unit for (unit,) in found["gone"])])
    if sorted(unit for unit, *_ in units) != affected or len(set(affected)) < len(affected):
        raise Fault(f"{name}: hasn't one line 'caught' for each affected unit")
    names = {line[1] for word in ("promote", "caught") for line in found[word]}
    if len(names) > 1 or failed in names:
        raise Fault(f"{name}: hasn't one instance that takes over")
    lost, pending = ([int(number) for (number,) in found[word]] for word in ("lost", "open"))
    if any(numbers != sorted(set(numbers)) or numbers[:1] == [0] or max(numbers, default=0) > packets for numbers in (lost, pending)):
        raise Fault(f"{name}: its lost or open packets aren't in the order of the capture")
    if set(lost) & set(pending):
        raise Fault(f"{name}: a packet is both lost and open")
    return Left(found["function"][0][0], packets, failed, int(after), "".join(names), lost, pending, units)


# --- The picture ---


def draw_left(left):
    title = f"What is left where {left.failed} fails"
    picture = Picture()
    picture.text(MARGIN, picture.down(14), title, class_="title")
    after = f"{left.failed} stops after {count_of(left.after, 'choice')} of a run of {left.function}"
    told = f"{after}, and {left.to} takes over" if left.to else f"{after}; no record is live there"
    picture.text(MARGIN, picture.down(22), told, class_="pale")
    picture.text(MARGIN, picture.down(18), counts_of(left), class_="pale")
    draw_packets(picture, left)
    if left.units:
        draw_units(picture, left)
    return picture.svg(title)


def counts_of(left):
    gone = sum(standing is None for _, standing, _ in left.units)
    units = f"{count_of(len(left.units), 'unit')} affected: {len(left.units) - gone:,} promoted, {gone:,} gone"
    return f"{units}; {count_of(len(left.lost), 'packet')} lost, {len(left.pending):,} open, of {left.packets:,}"


def draw_packets(picture, left):
    """The packets by their numbers, and the axis below them."""
    size = nice(max(1, left.packets) / MOST_COLUMNS)
    columns = -(-left.packets // size)
    width = min(WIDEST_COLUMN, (WIDTH - 2 * MARGIN) / max(1, columns))
    top = picture.down(24)
    picture.put("rect", x=MARGIN, y=top, width=max(1.0, width * columns), height=ROW, fill=GROUND)
    for column, (lost, pending) in sorted(by_column(left, size).items()):
        draw_column(picture, left, column, size, width, top, lost, pending)
    y = picture.down(ROW)
    step = nice(max(size, 44 / width * size))
    for number in range(0, left.packets + 1, step):
        x = MARGIN + number / size * width
        picture.put("line", x1=x, y1=y, x2=x, y2=y + 4, stroke=PALE)
        picture.text(x, y + 15, f"{number:,}", class_="small", text_anchor="middle" if number else "start")
    each = "Each place is a packet of the capture" if size == 1 else f"Each column is {count_of(size, 'packet')} of the capture"
    lost = "Lost ones are red: they were processed, and what stood by hadn't seen them."
    said = f"{each}, by number. {lost} Open ones are hollow: they came and weren't processed."
    picture.down(16)
    picture.texts(MARGIN, 15, 13, said, SMALL, class_="small")


def by_column(left, size):
    """How many packets are lost and how many open, for each column that has some."""
    found = {}
    for place, numbers in enumerate((left.lost, left.pending)):
        for number in numbers:
            found.setdefault((number - 1) // size, [0, 0])[place] += 1
    return found


def draw_column(picture, left, column, size, width, top, lost, pending):
    """The lost packets from the bottom, and the open ones above them, by their part of the column."""
    first, last = column * size + 1, min((column + 1) * size, left.packets)
    place = f"packet {first}" if size == 1 else f"packets {first:,} to {last:,}"
    gap, bottom = (1 if width >= 4 else 0), top + ROW
    for count, word, colours in (lost, "lost", {"fill": BAD}), (pending, "open", {"fill": "#ffffff", "stroke": BAD}):
        if not count:
            continue
        height = ROW * count / (last - first + 1)
        bottom -= height
        title = f"<title>{escape(f'{place}: {word}' if size == 1 else f'{place}: {count:,} {word}')}</title>"
        picture.put("rect", title, x=MARGIN + column * width + gap / 2, y=bottom, width=width - gap, height=height, **colours)


def draw_units(picture, left):
    """The affected units in order; of too many, the gone ones and those that are behind come first."""
    picture.text(MARGIN, picture.down(36), f"Units whose records were live at {left.failed}", class_="head")
    listed = left.units
    if len(listed) > MOST_LISTED:
        listed = sorted(sorted(listed, key=kind_of)[:MOST_LISTED], key=left.units.index)
    for unit, standing, caught in listed:
        colour = [BAD, BAD, GOOD][kind_of((unit, standing, caught))]
        fill = "#ffffff" if standing is None else colour
        picture.put("rect", x=MARGIN, y=picture.bottom + 13, width=10, height=10, fill=fill, stroke=colour)
        picture.text(MARGIN + 20, picture.down(22), unit, class_="mono")
        said = "gone: no record stood by" if standing is None else f"promoted: {with_time(standing)}"
        picture.texts(MARGIN + 40, 15, 14, said, MONO, class_="mono pale")
        said = "nothing is missing" if caught == standing else f"caught up: {with_time(caught)}"
        picture.texts(MARGIN + 40, 15, 14, said, MONO, class_="mono pale")
    if len(listed) < len(left.units):
        kinds = [kind_of(unit) for unit in left.units]
        told = f"{kinds.count(0):,} gone, {kinds.count(1):,} promoted and behind, {kinds.count(2):,} promoted with nothing missing"
        said = f"All {len(kinds):,} units: {told}."
        picture.texts(MARGIN, 24, 14, said, PLAIN, class_="pale")


def kind_of(line):
    """0 where the unit is gone, 1 where its record is behind, and 2 where nothing of it is missing."""
    _, standing, caught = line
    return 0 if standing is None else 1 if standing != caught else 2
