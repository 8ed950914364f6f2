"""Draws the run of a script: a column for each step, with what stands after it."""

from picture_parts import code_width, coloured, cross, cut_text, diamond, down, framed, label_width, legend, line, right
from picture_parts import short, style, text, tick, title_of

# Pixels: the part of a column before its boxes, a row of boxes, a box, a row of words, a tick, and the least
# column.
GUTTER, ROW, BOX, WORDS, TICK, LEAST = 38, 28, 20, 24, 18, 80
# Where in a column a receiver's mark changes, a message comes in, and the first one goes out.
CHANGES, COMES, GOES = 7, 15, 21

LIGHT = """.ground { fill: white } text { fill: #202020 } .label { fill: #555555 } .lane { fill: #f2f4f6 }
.between { stroke: #d8dce0 } .capacity { stroke: #404040 } .waiting { fill: white; stroke: #808080 }
.woken { fill: #ffdf80; stroke: #9a6c00 } .round { fill: #9a6c00; stroke: #9a6c00 } .box { fill: white }
.accepted { stroke: #23763a } .filled { fill: white }"""
DARK = """.ground { fill: #14181c } text { fill: #e6e6e6 } .label { fill: #a8b0b8 } .lane { fill: #20262c }
.between { stroke: #3a4248 } .capacity { stroke: #c8c8c8 } .waiting { fill: #14181c; stroke: #8a9298 }
.woken { fill: #665000; stroke: #e0b040 } .round { fill: #e0b040; stroke: #e0b040 } .box { fill: #14181c }
.accepted { stroke: #7fd08c } .filled { fill: #14181c }"""
SHAPES = """.code { font-family: monospace; font-size: 13px } .small { font-size: 11px }
.path { fill: none; stroke: currentColor }
.path, .accepted { stroke-width: 2 } .head { fill: currentColor } .accepted { fill: none }
.box, .filled { stroke: currentColor; stroke-width: 1.5 } .back, .blocked { stroke-dasharray: 4 3 }
.capacity { stroke-dasharray: 2 3 } .links { stroke-dasharray: 1 3; fill: none }"""


def listed(numbers):
    return " ".join(map(str, numbers))


def round_words(moment):
    """What a wake round, or the closing, does at a step."""
    said = [f"wakes {listed(moment.woken)}"] if moment.woken else []
    if moment.filled is not None:
        said.append(f"fills {moment.filled}")
    return ("closing " if said and moment.closes else "") + ", ".join(said)


def ends_words(moment):
    """What becomes of the ends at a step."""
    said = []
    for name in ("senders", "receivers"):
        count = getattr(moment.after, name)
        if count != getattr(moment.before, name):
            said.append(f"{count} {name[:-1] if count == 1 else name}")
    if moment.after.is_over and not moment.before.is_over:
        said.append("over")
    elif moment.closes:
        said.append("closed")
    return ", ".join(said)


def capacity_words(moment):
    changed = moment.after.capacity != moment.before.capacity
    return f"now {moment.after.capacity}" if changed else ""


def accepted_words(moment):
    return " ".join(f"#{ticket}" for ticket in moment.accepted)


# The rows of words between the line and the receivers: a label, and what one says of a step.
ROWS = [("accepted", accepted_words), ("wake rounds", round_words), ("capacity", capacity_words),
        ("ends", ends_words)]


def box_width(offer, is_blocked):
    """How wide the box of a message in the line is; a blocked one has its ticket beside its value."""
    value = 12 + code_width(str(offer.message))
    return value + (8 + label_width(f"#{offer.ticket}") if is_blocked else 0)


def mark_words(entry):
    return f"filled {entry.held}" if entry.mark == "filled" else entry.mark


class Layout:
    """Where all stands: the columns' left sides, and the heights of the lanes."""

    def __init__(self, title, made):
        self.made = made
        self.parked = [entry for moment in made for entry in moment.after.entries
                       if moment.before.entry(entry.ticket) is None]
        self.rows = [row for row in ROWS if any(row[1](moment) for moment in made)]
        labels = [self.lane_label(entry) for entry in self.parked] + [name for name, _ in self.rows]
        self.margin = 26 + max(map(label_width, labels + ["blocked"]))
        self.lefts = [self.margin]
        for moment in made:
            self.lefts.append(self.lefts[-1] + self.column_width(moment))
        self.end = self.lefts[-1] + 14
        self.width = max(self.end + 6, 520, 40 + 9 * len(title))
        self.set_heights()

    @staticmethod
    def lane_label(entry):
        return f"receiver {entry.ticket}, {entry.kind}"

    def column_width(self, moment):
        """As wide as the widest that stands in it."""
        after = moment.after
        inside = [box_width(offer, False) for offer in after.queue]
        inside += [box_width(offer, True) for offer in after.blocked]
        inside += [label_width(mark_words(entry)) for entry in after.entries
                   if moment.before.entry(entry.ticket) != entry]
        inside += [TICK + label_width(short(words(moment))) for _, words in self.rows]
        texts = [code_width(short(words)) for words in (moment.step, moment.reply)]
        return max([LEAST] + [GUTTER + width + 12 for width in inside] + [16 + width for width in texts])

    def set_heights(self):
        channels = [moment.after for moment in self.made] + [moment.before for moment in self.made[:1]]
        capacities = [channel.capacity for channel in channels if channel.capacity is not None]
        queued = [len(channel.queue) for channel in channels] + [n for n in capacities if n <= 4]
        self.queue_rows = max(queued + [1])
        self.blocked_rows = max([len(channel.blocked) for channel in channels] + [0])
        self.steps = 66
        self.queue = 86
        self.blocked = self.queue + self.queue_rows * ROW + 10
        self.words = self.blocked + (self.blocked_rows * ROW + 10 if self.blocked_rows else 0)
        self.lanes = self.words + len(self.rows) * WORDS + 8
        self.replies = self.lanes + len(self.parked) * ROW + 34
        self.bottom = self.replies + 12

    def place(self, channel, offer):
        """The height of the middle of an offer's box, and the width of the box, where it is in the line."""
        place = channel.line.index(offer)
        if place < channel.boundary:
            return self.queue + place * ROW + ROW // 2, box_width(offer, False)
        return self.blocked + (place - channel.boundary) * ROW + ROW // 2, box_width(offer, True)

    def lane(self, ticket):
        """The height of the middle of a receiver's lane."""
        place = next(place for place, entry in enumerate(self.parked) if entry.ticket == ticket)
        return self.lanes + place * ROW + ROW // 2


def grounds(at):
    """The lanes' grounds and labels, and the lines between columns."""
    end = at.end
    yield (f'<rect class="lane" x="8" y="{at.queue}" width="{end - 8}" '
           f'height="{at.queue_rows * ROW}"/>' + text(16, at.queue + 18, "queued"))
    if at.blocked_rows:
        yield (f'<rect class="lane" x="8" y="{at.blocked}" width="{end - 8}" '
               f'height="{at.blocked_rows * ROW}"/>' + text(16, at.blocked + 18, "blocked"))
    for place, (name, _) in enumerate(at.rows):
        yield text(16, at.words + place * WORDS + 16, name)
    for entry in at.parked:
        y = at.lane(entry.ticket)
        yield f'<rect class="lane" x="8" y="{y - 12}" width="{end - 8}" height="24"/>'
        yield text(16, y + 4, at.lane_label(entry))
    for x in at.lefts[: len(at.made)]:
        yield line(x, at.steps - 18, x, at.bottom, "between")
    yield text(16, at.steps, "step") + text(16, at.replies, "reply")


def capacities(at):
    """A line under as many rows of the queue as the capacity is, where it is drawn at all."""
    for x, end, moment in zip(at.lefts, at.lefts[1:], at.made):
        capacity = moment.after.capacity
        if capacity is not None and capacity <= at.queue_rows:
            y = at.queue + capacity * ROW
            yield line(x, y, end, y, "capacity")


def words_of_steps(at):
    """The steps, the replies, and the rows of words."""
    for x, moment in zip(at.lefts, at.made):
        yield cut_text(x + 8, at.steps, moment.step, "code")
        yield cut_text(x + 8, at.replies, moment.reply, "code")
        for place, (_, words) in enumerate(at.rows):
            y = at.words + place * WORDS + 12
            if words(moment):
                start = x + GUTTER + (TICK if words is accepted_words else 0)
                yield cut_text(start, y + 4, words(moment), "words")
                yield tick(x + GUTTER + 6, y) if words is accepted_words else ""
                yield diamond(x + CHANGES, y) if words is round_words else ""


def boxes(at):
    """The messages in line after each step."""
    for left, moment in zip(at.lefts, at.made):
        for offer in moment.after.line:
            y, width = at.place(moment.after, offer)
            x, value = left + GUTTER, 12 + code_width(str(offer.message))
            is_blocked = offer in moment.after.blocked
            kind = "box blocked" if is_blocked else "box"
            parts = [f'<rect class="{kind}" x="{x}" y="{y - 10}" width="{width}" height="{BOX}" rx="3"/>',
                     text(x + 6, y + 5, str(offer.message), "code")]
            if is_blocked:
                parts += [line(x + value, y - 10, x + value, y + 10, "path"),
                          text(x + value + 5, y + 4, f"#{offer.ticket}", "words small")]
            yield coloured(offer.number, parts)


def coming_in(at, left, moment):
    """The arrow of a message from its step to its box, or to the receiver that it fills at once."""
    offer, x, top = moment.offer, left + COMES, at.steps + 6
    if offer in moment.after.line:
        y = at.place(moment.after, offer)[0]
        end = left + GUTTER - 1
        path = f'<path class="path" d="M{x} {top} V{y - 6} Q{x} {y} {x + 6} {y} H{end - 7}"/>'
        return coloured(offer.number, [path, right(end, y)])
    if moment.after.is_over or moment.filled is None:
        return ""
    y = at.lane(moment.filled) - 10
    return coloured(offer.number, [f'<path class="path" d="M{x} {top} V{y - 7}"/>', down(x, y)])


def standing(at, number, offer):
    """The part of a message's path between its boxes after two steps."""
    before, after = at.made[number].before, at.made[number].after
    y, width = at.place(before, offer)
    x, end = at.lefts[number - 1] + GUTTER + width, at.lefts[number] + GUTTER
    below, _ = at.place(after, offer)
    path = f"M{x} {y} C{x + 16} {y} {end - 22} {below} {end} {below}"
    return coloured(offer.number, [f'<path class="path" d="{path}"/>'])


def going_out(at, number, offer, place, bottom, kind="path"):
    """The arrow of a message from its box after the step before, down to this height."""
    y, width = at.place(at.made[number].before, offer)
    apart = 15 / max(3, len(at.made[number].handed) - 1)
    x = round(at.lefts[number] + GOES + apart * place, 1)
    start = at.lefts[number - 1] + GUTTER + width
    path = f"M{start} {y} H{x - 5} Q{x} {y} {x} {y + 5} V{bottom - 7}"
    return coloured(offer.number, [f'<path class="{kind}" d="{path}"/>', down(x, bottom)])


def lost(at, number, offer):
    """The end of the path of a message that goes with the last end."""
    y, width = at.place(at.made[number].before, offer)
    x, end = at.lefts[number - 1] + GUTTER + width, at.lefts[number] + COMES
    return coloured(offer.number, [f'<path class="path" d="M{x} {y} H{end}"/>', cross(end, y)])


def paths(at):
    """The paths of all messages, step by step, up to where they leave the line."""
    for number, moment in enumerate(at.made):
        filled = moment.filled
        bottom = at.replies - 14 if filled is None else at.lane(filled) - 10
        for place, offer in enumerate(moment.handed):
            if offer is not moment.offer:
                yield going_out(at, number, offer, place, bottom)
        if moment.withdrawn:
            yield going_out(at, number, moment.withdrawn, 0, at.replies - 14, "path back")
        for offer in moment.before.line:
            if offer in moment.after.line:
                yield standing(at, number, offer)
        for offer in moment.lost:
            yield lost(at, number, offer)
        if moment.offer:
            yield coming_in(at, at.lefts[number], moment)


def held_by(made):
    """The offer that each filled receiver was given, by its ticket."""
    return {moment.filled: moment.handed[0] for moment in made if moment.filled is not None}


def stretches(at, ticket):
    """A receiver's lane, parted where its mark changes: the first step, the one past it, the entry."""
    found = []
    for number, moment in enumerate(at.made):
        entry = moment.after.entry(ticket)
        if entry is None:
            continue
        if found and found[-1][2] == entry and found[-1][1] == number:
            found[-1][1] = number + 1
        else:
            found.append([number, number + 1, entry])
    return found


def lane(at, entry, held):
    """A receiver's lane: a bar for each stretch, and how it ends."""
    y = at.lane(entry.ticket)
    for first, past, stood in stretches(at, entry.ticket):
        x = at.lefts[first] + CHANGES
        end = at.lefts[past] + CHANGES if past < len(at.made) else at.end - 6
        leaves = past < len(at.made) and at.made[past].after.entry(entry.ticket) is None
        collects = leaves and stood.mark == "filled" and not at.made[past].after.is_over
        end += GOES - CHANGES + 6 if collects else 0
        bar = f'<rect class="{stood.mark}" x="{x}" y="{y - 9}" width="{end - x}" height="18" rx="3"/>'
        bar += text(at.lefts[first] + GUTTER, y + 4, mark_words(stood), "words")
        yield bar if stood.mark != "filled" else coloured(held[entry.ticket].number, [bar])
        if collects:
            x, bottom = at.lefts[past] + GOES, at.replies - 14
            parts = [f'<path class="path" d="M{x} {y + 9} V{bottom - 7}"/>', down(x, bottom)]
            yield coloured(held[entry.ticket].number, parts)
        elif leaves and stood.mark == "filled":
            yield coloured(held[entry.ticket].number, [cross(end, y)])


def rounds(at):
    """A mark where a wake round, or the closing, meets a receiver, with a line from the row of words."""
    names = [name for name, _ in at.rows]
    for left, moment in zip(at.lefts, at.made):
        met = moment.woken + ([] if moment.filled is None else [moment.filled])
        if met and not moment.after.is_over:
            top = at.words + names.index("wake rounds") * WORDS + 12
            x, bottom = left + CHANGES, max(map(at.lane, met))
            yield line(x, top, x, bottom, "round links")
            yield "".join(diamond(x, at.lane(ticket)) for ticket in met)


def signs(at):
    """The signs that the picture has, each with its words: what draws it around a point."""
    made, rows = at.made, [name for name, _ in at.rows]
    offers = [moment.offer for moment in made if moment.offer]
    one = offers[0] if offers else None

    def box(kind):
        size = 'width="20" height="14"'
        return lambda x, y: coloured(one.number, [f'<rect class="{kind}" x="{x - 10}" y="{y - 7}" {size}/>'])

    def arrow(kind):
        return lambda x, y: coloured(
            one.number, [f'<path class="{kind}" d="M{x - 11} {y} H{x + 4}"/>', right(x + 11, y)])

    if any(moment.after.queue for moment in made):
        yield box("box"), "queued message"
    if at.blocked_rows:
        yield box("box blocked"), "blocked message, #: its sender's ticket"
    if any(moment.handed for moment in made):
        yield arrow("path"), "the way of a message"
    if any(moment.withdrawn for moment in made):
        yield arrow("path back"), "given back to its sender"
    if "accepted" in rows:
        yield tick, "the ticket is accepted: its message is taken in"
    if "wake rounds" in rows:
        yield diamond, "a receiver is woken or filled"
    if any(capacities(at)):
        yield lambda x, y: line(x - 11, y, x + 11, y, "capacity"), "the capacity"
    if one and any(moment.lost or moment.after.is_over for moment in made):
        yield lambda x, y: coloured(one.number, [cross(x, y)]), "gone with the last end"


def drawing(name, capacity, made):
    """The whole picture."""
    title = title_of(name, capacity)
    at = Layout(title, made)
    held = held_by(made)
    parts = [*grounds(at), *capacities(at), *paths(at), *boxes(at)]
    for entry in at.parked:
        parts += lane(at, entry, held)
    drawn, height = legend(signs(at), at.bottom, at.width)
    parts += [*rounds(at), *words_of_steps(at), *drawn]
    return framed(title, at.width, height, style(SHAPES, LIGHT, DARK), parts)
