"""Draws a recording: a row for each thread, a bar for each call, and a tick for each step that explains it."""

import dataclasses
import html
import re

from picture_parts import code_width, coloured, cross, cut_text, framed, label_width, legend, line, short, style
from picture_parts import text, title_of

# Pixels: a row, the middle of a bar in it, half of a bar, the least distance of two items, and what is free beside
# texts.
ROW, MIDDLE, HALF, APART, FREE = 54, 34, 7, 26, 16

SHAPES = """.code { font-family: monospace; font-size: 13px } .bar { fill: currentColor; fill-opacity: 0.2 }
.bar { stroke: currentColor; stroke-width: 1.5 } .tick { stroke-width: 2.5 } .links { stroke-dasharray: 1 3 }
.end { text-anchor: end } .wrong { stroke-dasharray: 4 3 } .path { fill: none; stroke-width: 2 }"""
LIGHT = """.ground { fill: white } text { fill: #202020 } .label { fill: #555555 } .lane { fill: #f2f4f6 }
.tick { stroke: #202020 } .links { stroke: #808080 } .plain { color: #70777e }
.wrong, .path { stroke: #c01818 } .told { fill: #c01818 }"""
DARK = """.ground { fill: #14181c } text { fill: #e6e6e6 } .label { fill: #a8b0b8 } .lane { fill: #20262c }
.tick { stroke: #e6e6e6 } .links { stroke: #8a9298 } .plain { color: #98a0a8 }
.wrong, .path { stroke: #ff7070 } .told { fill: #ff7070 }"""


@dataclasses.dataclass
class Item:
    """What a line tells of a thread: it `begins` a call, `makes` a step, or `returns` an answer."""

    thread: str
    does: str
    words: str
    reply: str = ""


@dataclasses.dataclass
class Call:
    """A call of a thread: its text, the place of the item that begins it, and of the one behind it in its row; what it
    returned, if it returned, and whether it is open up to the right side."""

    thread: str
    words: str
    begins: int
    ends: int | None = None
    answer: str | None = None


def item_of(told):
    """What a line tells, of a recording or of what ./judge --steps prints."""
    if told.startswith("  "):
        thread, _, rest = told[2:].partition(" makes ")
        step, _, reply = rest.partition(" -> ")
        return Item(thread, "makes", step, reply)
    first, _, rest = told.partition(" ")
    if first.endswith(":"):
        return Item(first[:-1], "begins", rest)
    return Item(first, "returns", rest.removeprefix("-> "))


def calls_in(items):
    """The calls, in the order in which they begin. One that its thread doesn't end before it begins another one ends
    there, with no answer; an answer of no call is a call with no text."""
    calls, of_thread = [], {}
    for place, item in enumerate(items):
        last = of_thread.get(item.thread)
        if item.does == "returns":
            if last is None or last.ends is not None:
                last = Call(item.thread, "", place)
                calls.append(last)
            last.ends, last.answer = place, item.words
        elif item.does == "begins":
            if last is not None and last.ends is None:
                last.ends = place
            of_thread[item.thread] = Call(item.thread, item.words, place)
            calls.append(of_thread[item.thread])
    return calls


def message_of(call):
    """The number of the message that a call sent, or got."""
    found = re.fullmatch(r"(?:send|try_send|send_timeout|send_async) (\d+)", call.words)
    found = found or re.fullmatch(r"got (\d+)", call.answer or "")
    return found and found[1]


class Layout:
    """Where all stands: how far to the right an item is, and how far down a thread's row."""

    def __init__(self, title, items, wrong):
        self.items, self.calls = items, calls_in(items)
        self.threads = list(dict.fromkeys(item.thread for item in items))
        self.messages = list(dict.fromkeys(filter(None, map(message_of, self.calls))))
        self.has_steps = any(item.does == "makes" for item in items)
        self.margin = 26 + max(map(label_width, map(short, [*self.threads, "reply"])))
        self.set_places()
        told = 0 if wrong is None else self.x(wrong[0]) + 12 + label_width(wrong[1])
        self.width = max(self.end + 6, told, 520, 40 + 9 * len(title))
        self.rows = 46
        self.steps = self.rows + ROW * len(self.threads) + 20
        self.bottom = self.steps + (24 if self.has_steps else 0 if wrong else -16)

    def set_places(self):
        """Each item stands right of those before it, and a call is as wide as its text and its answer."""
        ending = {call.ends: call for call in self.calls if call.ends is not None}
        self.places, x = [], self.margin
        for place, item in enumerate(self.items):
            call = ending.get(place)
            if call and call.begins < place:
                texts = code_width(short(call.words)) + code_width(short(call.answer or ""))
                x = max(x, self.places[call.begins] + texts + FREE)
            self.places.append(x)
            texts = max(code_width(short(item.words)), code_width(short(item.reply)))
            x += max(APART, texts + FREE if item.does == "makes" else 0)
        texts = [self.places[call.begins] + code_width(short(call.words)) for call in self.calls if call.ends is None]
        self.end = max([x, *texts]) + 8

    def x(self, place):
        return self.places[place] if place < len(self.places) else self.end - APART // 2

    def y(self, thread):
        """The height of the middle of the bars of a thread."""
        return self.rows + ROW * self.threads.index(thread) + MIDDLE


def rows(at):
    """The ground of each thread's row, with its name."""
    for thread in at.threads:
        y = at.y(thread)
        yield f'<rect class="lane" x="8" y="{y - MIDDLE + 2}" width="{at.end - 8}" height="{ROW - 4}"/>'
        yield cut_text(16, y + 4, thread, "label")


def in_colour(at, call, parts):
    """Parts in the colour of a call's message."""
    message = message_of(call)
    return coloured(at.messages.index(message), parts) if message else f'<g class="plain">{"".join(parts)}</g>'


def open_bar(x, y, end):
    """A bar with no right side."""
    return f'<path class="bar" d="M{end} {y - HALF} H{x} V{y + HALF} H{end}"/>'


def bar(x, y, end):
    return f'<rect class="bar" x="{x}" y="{y - HALF}" width="{max(end - x, 2)}" height="{2 * HALF}" rx="2"/>'


def bars(at):
    """A bar for each call, with its text above its beginning and its answer above its end."""
    for call in at.calls:
        x, y = at.x(call.begins), at.y(call.thread)
        if call.answer is None:
            end = at.end - 4 if call.ends is None else at.x(call.ends) - 6
            yield in_colour(at, call, [open_bar(x, y, end)])
        else:
            yield in_colour(at, call, [bar(x, y, at.x(call.ends))])
            yield cut_text(at.x(call.ends), y - HALF - 6, call.answer, "code end")
        yield cut_text(x, y - HALF - 6, call.words, "code")


def ticks(at):
    """A tick for each step, and below all rows its text and its reply."""
    for place, item in enumerate(at.items):
        if item.does == "makes":
            x, y = at.x(place), at.y(item.thread)
            told = html.escape(f"{item.thread} makes {item.words} -> {item.reply}")
            drawn = line(x, y - HALF - 4, x, y + HALF + 4, "tick")
            yield line(x, y + HALF + 4, x, at.steps + 24, "links")
            yield f"<g><title>{told}</title>{drawn}</g>"
            yield cut_text(x + 5, at.steps, item.words, "code") + cut_text(x + 5, at.steps + 20, item.reply, "code")
    if at.has_steps:
        yield text(16, at.steps, "step") + text(16, at.steps + 20, "reply")


def mark(at, wrong):
    """The first wrong event, and what is told of it."""
    place, told = wrong
    x = at.x(place)
    yield line(x, at.rows, x, at.steps + 4, "wrong")
    if place < len(at.items):
        yield cross(x, at.y(at.items[place].thread))
    yield text(x + 6, at.steps, told, "told")


def signs(at, wrong):
    """The signs that the picture has, each with its words: what draws it around a point."""
    first = at.calls[0] if at.calls else None
    if any(call.answer is not None for call in at.calls):
        yield lambda x, y: in_colour(at, first, [bar(x - 11, y, x + 11)]), "a call, from its beginning to its return"
    if any(call.answer is None for call in at.calls):
        yield lambda x, y: in_colour(at, first, [open_bar(x - 11, y, x + 11)]), "a call that hasn't returned"
    if at.has_steps:
        yield lambda x, y: line(x, y - HALF - 3, x, y + HALF + 3, "tick"), "a step, as the call may have made it there"
    if wrong is not None and "not decided" not in wrong[1]:
        yield cross, "the first wrong event"


def drawing(name, capacity, told, wrong):
    """The whole picture, of these lines behind the first one. `wrong` is the place of the first wrong event, and what is
    told of it; or None."""
    title = title_of(name, capacity)
    at = Layout(title, list(map(item_of, told)), wrong)
    drawn, height = legend(signs(at, wrong), at.bottom, at.width)
    parts = [*rows(at), *bars(at), *ticks(at), *([] if wrong is None else mark(at, wrong)), *drawn]
    return framed(title, at.width, height, style(SHAPES, LIGHT, DARK), parts)
