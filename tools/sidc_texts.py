"""The texts of `sidc` as the tools for people read them: a session, with the reason why a line of it is bad, a record, and the
entries of a journal. docs/FORMATS.md says what they are. Nothing here is proved: what `sidc` says holds.

Texts have one character for each byte (`text_of`), so that a place in a line is a column.
"""
from __future__ import annotations

import json
import re
import sys
from collections import deque
from dataclasses import dataclass, field
from datetime import date
from typing import Any, Iterator, NamedTuple, NoReturn, Optional, Sequence, Union

from sidc_words import (
    HEADINGS,
    ITEM,
    PARTS,
    VERBS,
    counted,
    date_of,
    days_before,
    instant_of,
    listed,
    nearest,
    quoted,
)

MOST_SESSION_BYTES = 8388608
MOST_RECORD_BYTES = 134217728
MOST_ZONES = 64
MOST_BORDERS = 128
MOST_CALLERS = 64
MOST_COMMANDS = 262144
MOST_ITEMS = 8

# The line that divides a record.
DIVIDER = "journal"

# The phases of an hour, and how many seconds before it starts it goes to them.
PHASES = ["open", "local", "closed"]
LOCAL_SECONDS = 3600
CLOSED_SECONDS = 300


def text_of(data: bytes) -> str:
    """The text of some bytes, a character for each."""
    return data.decode("latin-1")


def read_bytes(name: Optional[str]) -> bytes:
    """What a file holds, or standard input where none is named."""
    if name is None:
        return sys.stdin.buffer.read()
    with open(name, "rb") as file:
        return file.read()


def split_record(text: str) -> tuple[str, Optional[str]]:
    """The session of a record, and its journal: none where no line divides the text."""
    if text.startswith(DIVIDER + "\n"):
        return "", text[len(DIVIDER) + 1 :]
    session, divider, journal = text.partition(f"\n{DIVIDER}\n")
    return (session + "\n", journal) if divider else (text, None)


class BadText(Exception):
    """A text is not what it has to be; the message says why."""


class BadSession(BadText):
    """The first bad line of a text, counted from 1, its columns that are at fault, why it is bad, and the form that it should
    have, if it has begun as one."""

    def __init__(self, line: int, text: str, columns: tuple[int, int], reason: str, form: str = "") -> None:
        super().__init__(f"line {line} of the session is bad: {reason}")
        self.line = line
        self.text = text
        self.columns = columns
        self.reason = reason
        self.form = form


class Command(NamedTuple):
    """A command: its caller, its verb with its words, and those of the clock line that stands for it, if one does."""

    caller: str
    words: str
    clock: str


@dataclass
class Session:
    """What the lines of a session say: each name with the line that declares it."""

    day: Optional[date] = None
    day_line: int = 0
    zones: dict[str, int] = field(default_factory=dict)
    borders: dict[tuple[str, str], int] = field(default_factory=dict)
    callers: dict[str, int] = field(default_factory=dict)
    roles: dict[str, str] = field(default_factory=dict)
    begin_line: int = 0
    commands: list[Command] = field(default_factory=list)


def read_session(text: str) -> Session:
    """The session that a text is, or `BadSession`."""
    reader = Reader()
    *lines, rest = text.split("\n")
    for number, line in enumerate(lines, 1):
        if line and line[0] != "#":
            reader.read_line(Line(number, line))
    after = len(lines) + 1
    if rest:
        end = (len(rest), len(rest) + 1)
        raise BadSession(after, rest, end, "the last line does not end with a line feed")
    if not reader.session.begin_line:
        raise BadSession(after, "", (0, 1), f"the text ends before `begin`; {reader.said_due()}")
    return reader.session


# What is said of characters that stand in no word.
ODD = {
    "\t": "a tab stands in the line, and a single space is due between words",
    "\r": "a carriage return stands in the line, which ends with a line feed alone",
}


class Line:
    """A line that counts, with its words."""

    def __init__(self, number: int, text: str) -> None:
        self.number = number
        self.text = text
        if not text.isascii() or not text.isprintable() or "  " in text or text != text.strip(" "):
            odd = re.search("[^!-~ ]|^ +| +$|  +", text)
            raise BadSession(number, text, odd.span(), reason_of_odd(odd, text))
        self.words = text.split(" ")

    def refuse(self, reason: str, place: int, form: str = "", count: int = 1) -> NoReturn:
        """The words from a place on are at fault; the place behind the last word is where one is missing."""
        start = sum(len(word) + 1 for word in self.words[:place])
        marked = " ".join(self.words[place : place + count])
        raise BadSession(self.number, self.text, (start, start + max(1, len(marked))), reason, form)

    def check_words(self, first: int, parts: Sequence[str], form: str) -> None:
        """The words from the first on spell these parts, and there are no others."""
        for place, (word, name) in enumerate(zip(self.words[first:], parts), first):
            if not PARTS[name].is_spelled(word):
                self.refuse(PARTS[name].refusal(word), place, form)
        end = first + len(parts)
        if len(self.words) < end:
            part = PARTS[parts[len(self.words) - first]]
            reason = f"{part.called} is missing after {quoted(self.words[-1])}: it is {part.spelling}"
            self.refuse(reason, len(self.words), form)
        if len(self.words) > end:
            most = f", as a basket has at most {MOST_ITEMS} items" if form.endswith("..") else ""
            word, surplus = quoted(self.words[end]), len(self.words) - end
            what = f"{word} is a word" if surplus == 1 else f"from {word} on {surplus} words are"
            self.refuse(f"{what} too many{most}", end, form, surplus)


def reason_of_odd(odd: "re.Match[str]", text: str) -> str:
    """What is said of spaces, or of a character that stands in no word."""
    if odd[0][0] != " ":
        if text.startswith("\xef\xbb\xbf"):
            return "a byte order mark stands in front of the line"
        return ODD.get(odd[0], f"{quoted(odd[0])} is a byte that stands in no word")
    spaces = f"{counted(len(odd[0]), 'space')} stand{'s' if len(odd[0]) == 1 else ''}"
    if odd.start() == 0:
        return f"{spaces} in front of the first word, and none may"
    if odd.end() == len(text):
        return f"{spaces} behind the last word, and none may"
    return f"{spaces} between two words, and a single one is due"


class Reader:
    """Reads the lines of a session one after another; which may come next follows from what is there."""

    def __init__(self) -> None:
        self.session = Session()
        self.phases: dict[str, list[int]] = {}

    def read_line(self, line: Line) -> None:
        if self.session.begin_line:
            self.read_command(line)
        else:
            self.read_header(line)

    def said_due(self) -> str:
        """Which lines may come next before the commands."""
        session = self.session
        if session.day is None:
            names = ["day"]
        elif not session.zones:
            names = ["zone"]
        elif session.callers:
            names = ["trader", "operator", "begin"]
        else:
            names = ["border", "trader", "operator", "begin"] if session.borders else list(HEADINGS)[1:]
        return f"{listed([form_of_heading(name) for name in names], 'or')} is due"

    def read_header(self, line: Line) -> None:
        heading = line.words[0]
        if heading in self.session.callers and heading not in HEADINGS:
            line.refuse(f"a command of {quoted(heading)} comes before the line `begin`", 0)
        if heading not in HEADINGS:
            near = nearest(heading, list(HEADINGS))
            line.refuse(f"no line before `begin` begins with {quoted(heading)}{near}; {self.said_due()}", 0)
        reason = self.reason_of_order(heading)
        if reason:
            line.refuse(f"{reason}; {self.said_due()}", 0)
        line.check_words(1, HEADINGS[heading].split(), form_of_heading(heading))
        if heading == "day":
            self.session.day, self.session.day_line = date_of(line.words[1]), line.number
        elif heading == "zone":
            self.declare(line, self.session.zones, "zone", MOST_ZONES)
        elif heading == "border":
            self.declare_border(line)
        elif heading == "begin":
            self.session.begin_line = line.number
        else:
            self.declare(line, self.session.callers, "caller", MOST_CALLERS)
            self.session.roles[line.words[1]] = heading

    def reason_of_order(self, heading: str) -> str:
        """Why no line with this heading may come now, if so."""
        session = self.session
        if heading == "day":
            return f"the day was declared before, on line {session.day_line}" if session.day else ""
        if not session.day:
            return f"the line {quoted(heading)} comes before the day's"
        if heading == "zone":
            return behind("zones", {"border": session.borders, "caller": session.callers})
        if not session.zones:
            return f"the line {quoted(heading)} comes before any zone's"
        return behind("borders", {"caller": session.callers}) if heading == "border" else ""

    def declare(self, line: Line, names: dict[str, int], what: str, most: int) -> None:
        """A name of a zone or a caller that is not there yet."""
        name = line.words[1]
        if name in names:
            line.refuse(f"the {what} {quoted(name)} was declared before, on line {names[name]}", 1)
        if len(names) == most:
            line.refuse(f"this is {what} {most + 1}, and a session has at most {most}", 0, count=2)
        names[name] = line.number

    def declare_border(self, line: Line) -> None:
        """A border of two declared zones that none joins yet."""
        borders, ends = self.session.borders, (line.words[1], line.words[2])
        for place, zone in enumerate(ends, 1):
            if zone not in self.session.zones:
                near = nearest(zone, list(self.session.zones))
                line.refuse(f"no zone {quoted(zone)} is declared{near}", place)
        if ends[0] == ends[1]:
            line.refuse("a border joins two different zones", 2)
        before = borders.get(ends) or borders.get(ends[::-1])
        if before:
            line.refuse(f"a border of these two zones was declared before, on line {before}", 1, count=2)
        if len(borders) == MOST_BORDERS:
            line.refuse(f"this is border {MOST_BORDERS + 1}, and a session has at most {MOST_BORDERS}", 0, count=3)
        borders[ends] = line.number

    def read_command(self, line: Line) -> None:
        caller = line.words[0]
        if caller not in self.session.callers:
            line.refuse(self.reason_of_caller(line), 0)
        if len(line.words) == 1:
            line.refuse(f"a verb is missing after {quoted(caller)}: it is {listed(list(VERBS), 'or', len(VERBS))}", 1)
        verb = line.words[1]
        if verb not in VERBS:
            near = nearest(verb, list(VERBS))
            line.refuse(f"{quoted(verb)} is not a verb{near}: a verb is {listed(list(VERBS), 'or', len(VERBS))}", 1)
        line.check_words(2, parts_of(verb, line.words[2:]), f"CALLER {verb} {VERBS[verb]}")
        if verb == "clock":
            self.take_clock(line)
        else:
            self.take(line, [line.text[len(caller) + 1 :]])

    def reason_of_caller(self, line: Line) -> str:
        """Why no command begins with the first word of this line, which is no caller."""
        word, callers = line.words[0], list(self.session.callers)
        if word == "begin":
            return f"`begin` stands on line {self.session.begin_line} already"
        if word in HEADINGS:
            return f"a line {quoted(word)} has its place before `begin`, which stands on line {self.session.begin_line}"
        if word in VERBS:
            return f"the name of a caller is due in front of the verb {quoted(word)}"
        if line.text == DIVIDER:
            return f"{quoted(DIVIDER)} divides a record, which audit and ship read, and is no line of a session"
        if not callers:
            return f"no caller {quoted(word)} is declared: the session has none"
        near, are = nearest(word, callers), "is" if len(callers) == 1 else "are"
        return f"no caller {quoted(word)} is declared{near}: {listed(callers)} {are}"

    def take_clock(self, line: Line) -> None:
        """The gates for which a clock line stands."""
        caller, day = line.words[0], self.session.day
        before = self.phases.get(caller, [0] * hours_of(day))
        self.phases[caller] = phases_at(day, instant_of(line.words[2]))
        self.take(line, gates_between(before, self.phases[caller]), line.text[len(caller) + 1 :])

    def take(self, line: Line, commands: list[str], clock: str = "") -> None:
        given = self.session.commands
        if len(given) + len(commands) > MOST_COMMANDS:
            stands = f"the clock line stands for {counted(len(commands), 'gate')}, " if clock else ""
            reason = f"{stands}{len(given)} commands come before this line, and a session has at most {MOST_COMMANDS}"
            line.refuse(reason, 0, count=len(line.words))
        given.extend(Command(line.words[0], words, clock) for words in commands)


def form_of_heading(heading: str) -> str:
    """The form of a line before the commands."""
    return f"{heading} {HEADINGS[heading]}".strip()


def behind(what: str, others: dict[str, dict[Any, int]]) -> str:
    """Why a line comes too late where lines are there that come after it."""
    for name, lines in others.items():
        if lines:
            return f"the {what} come before the {name}s, the first of which stands on line {min(lines.values())}"
    return ""


def parts_of(verb: str, words: Sequence[str]) -> list[str]:
    """The parts that the words after a verb must spell."""
    if verb == "basket":
        items = -(-len(words) // len(ITEM))
        return ITEM * min(MOST_ITEMS, max(1, items))
    parts = VERBS[verb].split()
    if parts[-1] != "[KIND]":
        return parts
    kind = words[len(parts) - 1 :]
    return parts[:-1] + (["KIND"] if kind else []) + (["QUANTITY", "DELTA"] if kind[:1] == ["iceberg"] else [])


# ---- The day and its phases ----


def midnight_of(day: date) -> int:
    """The second from 1970-01-01T00:00:00Z at which a delivery day begins."""
    is_summer = 3 < day.month < 10 or (day.month in (3, 10) and has_sunday_left(day) == (day.month == 10))
    return 86400 * days_before(day) - (7200 if is_summer else 3600)


def has_sunday_left(day: date) -> bool:
    """Whether a date of a month of 31 days is a Sunday or has one after it in its month."""
    return day.day + 6 - day.weekday() <= 31


def hours_of(day: date) -> int:
    """How many hours a delivery day has."""
    is_last_sunday = day.weekday() == 6 and day.day > 24
    return {3: 23, 10: 25}.get(day.month, 24) if is_last_sunday else 24


def phases_at(day: date, instant: int) -> list[int]:
    """The phase of each hour of a day, by its place in the list of phases."""
    since = instant - midnight_of(day)
    starts = range(0, 3600 * hours_of(day), 3600)
    return [(start - LOCAL_SECONDS <= since) + (start - CLOSED_SECONDS <= since) for start in starts]


def gates_between(before: list[int], now: list[int]) -> list[str]:
    """The gates of the hours whose phase is later now than before."""
    return [f"gate h{hour} {PHASES[new]}" for hour, (old, new) in enumerate(zip(before, now), 1) if new > old]


# ---- Numbers and times ----


def units_of(text: str) -> int:
    """The cents of a price, as `-3.50`, and the lots of a quantity, as `4.0`."""
    return int(text.replace(".", ""))


def hour_of(text: str) -> int:
    """The hour of an hour, a quarter or a half: 12 of `h12`, `h12q4` and `h12f1`."""
    return int(re.match("h([0-9]+)", text)[1])


def quarters_of(contract: str) -> range:
    """The quarters in which a contract delivers, counted from 0 through the day."""
    first = 4 * (hour_of(contract) - 1)
    for letter, length in (("q", 1), ("f", 2)):
        if letter in contract:
            first += length * (int(contract.split(letter)[1]) - 1)
            return range(first, first + length)
    return range(first, first + 4)


# ---- The journal ----

Field = Union[str, "list[str]"]

# The fields whose values are lists.
LISTS = ("route", "zones")


class Told(NamedTuple):
    """What an entry tells: an event, a row of a view or a refusal, by its name, with its fields."""

    name: str
    fields: dict[str, Field]


class Entry(NamedTuple):
    """An entry of a journal: its number, its caller, which of the caller's commands it answers, `done`, `rows` or `refused`,
    and what it tells."""

    number: int
    caller: str
    command: int
    reply: str
    told: list[Told]


class BadEntry(BadText):
    """The first line of a journal, counted from 1, that is no entry."""

    def __init__(self, line: int) -> None:
        super().__init__(f"line {line} of the journal is no entry")


# The fields of each event and refusal, and what it says in words. An event of a name is told by how many fields it has.
EVENTS = {
    "entered": [
        ("order contract", "{order} entered in {contract}"),
        ("order first last", "block {order} entered, {first} to {last}"),
    ],
    "leg": [("order partner quantity price route", "{order} traded {quantity} MW with {partner} at {price}, {route}")],
    "blockleg": [
        ("order partner quantity price route", "block {order} traded {quantity} MW with {partner} at {price}, {route}")
    ],
    "granted": [("arc first last quantity", "{quantity} MW granted on {arc}, {first} to {last}")],
    "offered": [("arc first last quantity", "{quantity} MW offered on {arc}, {first} to {last}")],
    "halted": [("arc first last", "border {arc} halted, {first} to {last}")],
    "resumed": [("arc first last", "border {arc} resumed, {first} to {last}")],
    "gated": [("first phase", "{first} is {phase} now")],
    "withdrawn": [("order quantity", "{order} withdrawn with {quantity} MW left")],
    "reduced": [("order quantity", "{order} reduced by {quantity} MW")],
}
CUT = "orders in {zones} and the arcs at their borders give {quantity} MW at most"
REFUSALS = {
    "WrongRole": ("", "the caller's role may not give this command"),
    "UnknownHour": ("", "an hour that is named is not one of the day's"),
    "UnknownContract": ("", "a quarter that is named is not 1 to 4, or a half not 1 or 2"),
    "UnknownZone": ("", "a zone that is named was not declared"),
    "UnknownBorder": ("", "no border joins the two zones of the arc"),
    "BadPeriod": ("", "a period is not 2 to 24 hours in order, or a range ends before it begins"),
    "BadBasket": ("", "a basket is 2 to 8 orders of strictly ascending hours"),
    "PriceOutOfRange": ("", "a price is not -9999.00 to 9999.00"),
    "QuantityOutOfRange": (
        "",
        "a quantity is not 0.1 to 999.0 MW, an offer above 100000.0 MW, or what is to be left not less than what is left",
    ),
    "BadPeak": (
        "",
        "a peak is 0.0 or not below the quantity, there are over 100 peaks, or the last one's price is out of range",
    ),
    "Closed": ("first", "{first} is closed"),
    "GateBack": ("phase", "the hour is {phase}, and the phase asked for is not later"),
    "UnknownOrder": ("", "the caller has no such order open"),
    "BelowFlow": ("first quantity", "in {first} {quantity} MW flow over the arc, more than is offered"),
    "NoRoom": ("first quantity", "in {first} the arc has room for {quantity} MW"),
    "Unfilled": ("zones quantity", "it cannot be filled: " + CUT),
    "BasketUnfilled": ("first zones quantity", "its order of {first} cannot be filled: " + CUT),
    "DeskFull": ("", "4096 other orders and blocks of the hour are open"),
}
ROW = ("price quantity", "{quantity} MW at {price}")


def read_journal(text: str) -> list[Entry]:
    """The entries of a journal's lines, or `BadEntry`."""
    lines = text.split("\n")
    entries = []
    for number, line in enumerate(lines if lines[-1] else lines[:-1], 1):
        try:
            entries.append(read_entry(json.loads(line)))
        except (AttributeError, LookupError, TypeError, ValueError):
            raise BadEntry(number) from None
    return entries


def read_entry(line: Any) -> Entry:
    """The entry that a line's JSON is; `read_journal` names what is raised where it is none."""
    (reply,) = line.keys() - {"caller", "command", "entry"}
    if reply == "refused":
        told = [read_told(REFUSALS[line[reply][0]][0], line[reply])]
    elif reply == "rows":
        told = [read_told(ROW[0], ["row", *row]) for row in line[reply]]
    elif reply == "done":
        told = [read_told(form_of_event(event)[0], event) for event in line[reply]]
    else:
        raise ValueError(reply)
    return Entry(int(line["entry"]), str(line["caller"]), int(line["command"]), reply, told)


def form_of_event(event: Sequence[Any]) -> tuple[str, str]:
    """The fields of an event and its words, by its name and how many values follow it."""
    return {len(form[0].split()): form for form in EVENTS[event[0]]}[len(event) - 1]


def read_told(fields: str, told: Sequence[Any]) -> Told:
    """What is told by a name and the values of its fields."""
    name, *values = told
    names = fields.split()
    if len(names) != len(values) or not all(map(is_field, names, values)):
        raise ValueError(name)
    return Told(name, dict(zip(names, values)))


def is_field(name: str, value: Any) -> bool:
    """Whether a value can be that of a field."""
    if name in LISTS:
        return isinstance(value, list) and all(isinstance(one, str) for one in value)
    return isinstance(value, str)


def commands_answered(entries: list[Entry], commands: list[Command]) -> Iterator[Optional[Command]]:
    """The command that each entry answers, if there is one: each caller's commands come in their order."""
    waiting: dict[str, deque[Command]] = {}
    for command in commands:
        waiting.setdefault(command.caller, deque()).append(command)
    for entry in entries:
        own = waiting.get(entry.caller)
        yield own.popleft() if own else None


def words_of(told: Told) -> str:
    """What is told, in words."""
    if told.name == "row":
        words = ROW[1]
    elif told.name in REFUSALS:
        words = REFUSALS[told.name][1]
    else:
        words = form_of_event([told.name, *told.fields])[1]
    return words.format(**{name: in_words(name, value) for name, value in told.fields.items()})


def in_words(name: str, value: Field) -> str:
    """The value of a field as it stands in a sentence."""
    if name == "route":
        return "over " + ", ".join(value) if value else "within a zone"
    return ", ".join(value) if name == "zones" else str(value)
