"""The run of a script as a picture has it: what `./play --states` prints of it, read to what each step changed."""

import re
from collections import namedtuple

# A message in the channel: its number, from 0, its text, and its ticket or None.
Offer = namedtuple("Offer", "number message ticket")
# A parked receiver; `held` is the message that it is filled with.
Entry = namedtuple("Entry", "ticket kind mark held")

NUMBER = "[0-9]+"
RECEIVER = f"#({NUMBER}) (block|plain|stream|arm) (waiting|woken|filled)(?: ({NUMBER}))?"
STATE = re.compile(
    rf"  queue((?: {NUMBER})*) \| blocked((?: {NUMBER}#{NUMBER})*) \| parked((?:,? {RECEIVER})*)"
    rf" \| (?:unbounded|capacity ({NUMBER})) \| senders ({NUMBER}) \| receivers ({NUMBER})")


class NoStates(Exception):
    """A text that `./play --states` doesn't print of the script."""


class Channel(namedtuple("Channel", "capacity line boundary entries senders receivers")):
    """A state: `line` has the offers, of which so many are queued as `boundary` says."""

    @property
    def queue(self):
        return self.line[: self.boundary]

    @property
    def blocked(self):
        return self.line[self.boundary :]

    @property
    def is_closed(self):
        return min(self.senders, self.receivers) == 0

    @property
    def is_over(self):
        return max(self.senders, self.receivers) == 0

    def entry(self, ticket):
        return next((entry for entry in self.entries if entry.ticket == ticket), None)


def state_of(text):
    """The state that a line tells of. Its offers have no numbers yet."""
    found = STATE.fullmatch(text)
    if not found:
        raise NoStates(f"{text!r} is no state of a channel")
    queue = [Offer(None, message, None) for message in found[1].split()]
    blocked = [Offer(None, *word.split("#")) for word in found[2].split()]
    entries = tuple(Entry(*it) for it in re.findall(RECEIVER, found[3]))
    capacity = None if found[8] is None else int(found[8])
    return Channel(capacity, tuple(queue + blocked), len(queue), entries, int(found[9]), int(found[10]))


class Moment:
    """One step: the channel before and after, and what the step changed."""

    def __init__(self, before, step, reply, after, number):
        self.before, self.step, self.reply = before, step, reply
        word, _, rest = reply.partition(" ")
        value = step.partition(" ")[2].lstrip("0") or "0"
        self.offer = None
        if word in ("sent", "pending"):
            self.offer = Offer(number, value, rest if word == "pending" else None)
        self.withdrawn = None
        if word == "returned":
            self.withdrawn = next((it for it in before.blocked if it.ticket == value), None)
        line = [it for it in (*before.line, self.offer) if it not in (None, self.withdrawn)]
        gone = len(line) - len(after.line)
        if gone < 0 or [it.message for it in line[gone:]] != [it.message for it in after.line]:
            raise NoStates(f"{step!r}, answered {reply!r}, doesn't lead to the messages that stand after it")
        self.after = after._replace(line=tuple(line[gone:]))
        self.lost = before.line if self.after.is_over else ()
        self.handed = () if self.after.is_over else line[:gone]

    @property
    def closes(self):
        return self.after.is_closed and not self.before.is_closed

    @property
    def filled(self):
        """The ticket of the receiver that this step fills, or None."""
        entries = [it for it in self.after.entries if it.mark == "filled" and self.before.entry(it.ticket) != it]
        return entries[0].ticket if entries else None

    @property
    def accepted(self):
        """The tickets of the sends whose messages are taken in by this step."""
        if self.after.is_over:
            return []
        left = [it.ticket for it in self.after.blocked]
        return [it.ticket for it in self.before.blocked if it is not self.withdrawn and it.ticket not in left]

    @property
    def woken(self):
        """The tickets of the receivers that this step wakes, in the order in which they waited."""
        return [entry.ticket for entry in self.before.entries if entry.mark == "waiting"
                and (self.after.entry(entry.ticket) or entry).mark == "woken"]


def moments(steps, told):
    """The new channel, and a Moment for each step: what is told is a state, and then replies with a state after each."""
    if len(told) != 2 * len(steps) + 1:
        raise NoStates(f"{len(steps)} steps, and {len(told)} lines in place of {2 * len(steps) + 1}")
    opened = channel = state_of(told[0])
    made, number = [], 0
    for step, reply, state in zip(steps, told[1::2], told[2::2]):
        made.append(Moment(channel, step, reply, state_of(state), number))
        number += made[-1].offer is not None
        channel = made[-1].after
    return opened, made
