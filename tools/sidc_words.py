"""The parts of a session's lines: which words spell them, and why another word does not. docs/FORMATS.md has their spelling.
Nothing here is proved: what `sidc` says holds.

A word has one character for each byte, so that its length is that in bytes.
"""
from __future__ import annotations

import difflib
import re
from dataclasses import dataclass
from datetime import date
from typing import Callable, Optional, Sequence


def shown(text: str) -> str:
    """A text with what cannot be printed spelled out, so that it can be seen."""
    return "".join(char if " " <= char <= "~" else f"\\x{ord(char):02x}" for char in text)


def quoted(word: str) -> str:
    """A word as it stands in a sentence."""
    return f"`{shown(word) if len(word) <= 40 else shown(word[:38]) + '..'}`"


def listed(words: Sequence[str], last: str = "and", most: int = 8) -> str:
    """Some words in a row, the last of them after `and`, or `or`."""
    given = [quoted(word) for word in words[:most]]
    if len(words) > most:
        return ", ".join(given) + " .."
    return f" {last} ".join(filter(None, [", ".join(given[:-1]), given[-1]]))


def counted(number: int, what: str) -> str:
    """A number of things, as `1 digit` or `2 digits`."""
    return f"{number} {what}{'' if number == 1 else 's'}"


def nearest(word: str, words: Sequence[str]) -> str:
    """What to say of the word that was probably meant, if there is one."""
    near = difflib.get_close_matches(word[:40].lower(), words, 1)
    return f" (is {quoted(near[0])} meant?)" if near else ""


def like(pattern: str) -> Callable[[str], object]:
    """What is true of the words that are wholly of a pattern."""
    return re.compile(pattern).fullmatch


def date_of(word: str) -> Optional[date]:
    """The date of the years 2000 to 2099 that a word spells."""
    if not is_like_date(word) or not word.startswith("20"):
        return None
    try:
        return date(*map(int, word.split("-")))
    except ValueError:
        return None


def instant_of(word: str) -> Optional[int]:
    """The instant that a word spells, in seconds from 1970-01-01T00:00:00Z."""
    day = date_of(word[:10])
    if day is None or not is_like_time(word[10:]):
        return None
    return 86400 * days_before(day) + 3600 * int(word[11:13]) + 60 * int(word[14:16]) + int(word[17:19])


def days_before(day: date) -> int:
    """How many days lie between 1970-01-01 and a date."""
    return day.toordinal() - date(1970, 1, 1).toordinal()


is_like_date = like("[0-9]{4}-[0-9]{2}-[0-9]{2}")
is_like_time = like("T([01][0-9]|2[0-3]):[0-5][0-9]:[0-5][0-9]Z")


@dataclass(frozen=True)
class Part:
    """A part of a line: how it is called and spelled, which words spell it, and what is to be said of another word."""

    called: str
    spelling: str
    is_spelled: Callable[[str], object]
    look: Callable[[str], str] = lambda word: ""

    def refusal(self, word: str) -> str:
        """Why the word is no such part."""
        closer = self.look(word)
        return f"{quoted(word)} is not {self.called}{closer and ', as ' + closer}: {self.called} is {self.spelling}"


# What is to be said of a word that is no such part, if it is more than the spelling.


def look_at_name(word: str) -> str:
    odd = re.search("[^A-Za-z0-9_-]", word)
    if odd:
        return f"{quoted(odd[0])} is none of its characters"
    return f"it has {len(word)} characters" if len(word) > 16 else ""


def look_at_digits(digits: str, most: int, before: str) -> str:
    odd = re.search("[^0-9]", digits)
    if not digits:
        return f"no digit follows {before}"
    if odd:
        return f"{quoted(odd[0])} is no digit"
    return f"{counted(len(digits), 'digit')} follow {before}" if len(digits) > most else ""


def look_at_hour(word: str) -> str:
    for part in (QUARTER, HALF, ORDER):
        if part.is_spelled(word):
            return f"it is {part.called}"
    return look_at_hour_number(word)


def look_at_hour_number(word: str) -> str:
    return look_at_digits(word[1:], 2, "`h`") if word[:1] == "h" else "it does not begin with `h`"


def look_at_contract(word: str) -> str:
    if ORDER.is_spelled(word):
        return f"it is {ORDER.called}"
    hour, letter, number = re.fullmatch("([^qf]*)([qf]?)(.*)", word, re.DOTALL).groups()
    if letter and HOUR.is_spelled(hour):
        return look_at_digits(number, 1, quoted(letter))
    return look_at_hour_number(hour)


def look_at_quarter(word: str) -> str:
    for part in (HOUR, HALF):
        if part.is_spelled(word):
            return f"it is {part.called}"
    return look_at_contract(word)


def look_at_order(word: str) -> str:
    hour, sign, number = word.partition("#")
    if not sign:
        return "it has no `#`"
    return look_at_digits(number, 9, "`#`") if HOUR.is_spelled(hour) else look_at_hour(hour)


def look_at_arc(word: str) -> str:
    start, sign, end = word.partition(">")
    if not sign:
        return "it has no `>`"
    if not start or not end:
        return f"no zone stands {'after' if start else 'before'} `>`"
    name = end if NAME.is_spelled(start) else start
    return f"{quoted(name)} is not a name"


def look_at_side(word: str) -> str:
    return "the orders of a basket are fill-or-kill without a word" if word in ("ioc", "fok", "iceberg") else ""


def look_at_amount(word: str, places: int) -> str:
    whole, point, rest = word.partition(".")
    odd = re.search("[^0-9]", whole + rest)
    if "," in word:
        return "it has a comma"
    if not point:
        return "it has no point"
    if odd:
        return f"{quoted(odd[0])} is no digit"
    if not whole:
        return "no digit stands before the point"
    if len(rest) != places:
        return f"{counted(len(rest), 'digit')} follow{'s' if len(rest) == 1 else ''} the point"
    return f"{len(whole)} digits stand before the point" if len(whole) > 7 else "0 stands before other digits"


def look_at_price(word: str) -> str:
    return "0 has no sign" if word == "-0.00" else look_at_amount(word[1:] if word[:1] == "-" else word, 2)


def look_at_date(word: str) -> str:
    if not is_like_date(word):
        return ""
    if not word.startswith("20"):
        return f"its year is {word[:4]}"
    return "its month has no such day" if 1 <= int(word[5:7]) <= 12 else "there is no such month"


def look_at_instant(word: str) -> str:
    if len(word) != 20:
        return f"it has {counted(len(word), 'character')} and not 20"
    if not is_like_date(word[:10]):
        return f"{quoted(word[:10])} is not a date"
    if date_of(word[:10]) is None:
        return look_at_date(word[:10])
    return f"{quoted(word[10:])} is not a time"


WHOLE = "(0|[1-9][0-9]{0,6})"
A_NAME = "[A-Za-z0-9_-]{1,16}"
AN_HOUR = "h[0-9]{1,2}"
NAME = Part("a name", "1 to 16 letters or digits of ASCII, `_` or `-`", like(A_NAME), look_at_name)
ZONE = Part("the name of a zone", NAME.spelling, like(A_NAME), look_at_name)
HOUR = Part("an hour", "`h` and 1 or 2 digits, as `h12`", like(AN_HOUR), look_at_hour)
QUARTER = Part("a quarter", "an hour, `q` and one digit, as `h12q1`", like(AN_HOUR + "q[0-9]"), look_at_quarter)
HALF = Part("a half", "an hour, `f` and one digit, as `h12f1`", like(AN_HOUR + "f[0-9]"))
CONTRACT = Part(
    "a contract",
    "an hour, a quarter or a half, as `h12`, `h12q1` or `h12f1`",
    like(AN_HOUR + "([qf][0-9])?"),
    look_at_contract,
)
ORDER = Part(
    "the name of an order", "an hour, `#` and 1 to 9 digits, as `h12#4`", like(AN_HOUR + "#[0-9]{1,9}"), look_at_order
)
ARC = Part("an arc", "the names of two zones with `>` between, as `DE>FR`", like(f"{A_NAME}>{A_NAME}"), look_at_arc)
SIDE = Part("a side", "`buy` or `sell`", like("buy|sell"), look_at_side)
PHASE = Part("a phase", "`open`, `local` or `closed`", like("open|local|closed"))
KIND = Part("a kind", "`ioc`, `fok` or `iceberg QUANTITY DELTA`, or nothing", like("ioc|fok|iceberg"))
QUANTITY = Part(
    "a quantity",
    "1 to 7 digits without a leading 0, `.` and one digit, as `4.0`",
    like(WHOLE + r"\.[0-9]"),
    lambda word: look_at_amount(word, 1),
)
PRICE = Part(
    "a price",
    "`-` or nothing, 1 to 7 digits without a leading 0, `.` and two digits, as `-3.50`",
    like(rf"(?!-0\.00)-?{WHOLE}\.[0-9]{{2}}"),
    look_at_price,
)
DELTA = Part(
    "a delta",
    "1 to 7 digits without a leading 0, `.` and two digits, as `0.10`",
    like(WHOLE + r"\.[0-9]{2}"),
    lambda word: look_at_amount(word, 2),
)
DATE = Part(
    "a date", "`YYYY-MM-DD`, existing and of the years 2000 to 2099", date_of, look_at_date
)
INSTANT = Part(
    "an instant",
    "`YYYY-MM-DDTHH:MM:SSZ` with a date of the years 2000 to 2099 and a time up to 23:59:59",
    lambda word: instant_of(word) is not None,
    look_at_instant,
)

# The parts by the words of the forms below.
PARTS = {
    "NAME": NAME,
    "ZONE": ZONE,
    "HOUR": HOUR,
    "QUARTER": QUARTER,
    "CONTRACT": CONTRACT,
    "ORDER": ORDER,
    "ARC": ARC,
    "SIDE": SIDE,
    "PHASE": PHASE,
    "KIND": KIND,
    "QUANTITY": QUANTITY,
    "PRICE": PRICE,
    "DELTA": DELTA,
    "YYYY-MM-DD": DATE,
    "INSTANT": INSTANT,
}

# The words after the first one of each line before the commands, and after the verb of each command line.
HEADINGS = {
    "day": "YYYY-MM-DD",
    "zone": "NAME",
    "border": "NAME NAME",
    "trader": "NAME",
    "operator": "NAME",
    "begin": "",
}
VERBS = {
    "buy": "CONTRACT ZONE QUANTITY PRICE [KIND]",
    "sell": "CONTRACT ZONE QUANTITY PRICE [KIND]",
    "buyblock": "HOUR HOUR ZONE QUANTITY PRICE",
    "sellblock": "HOUR HOUR ZONE QUANTITY PRICE",
    "basket": "SIDE CONTRACT ZONE QUANTITY PRICE ..",
    "cancel": "ORDER",
    "reduce": "ORDER QUANTITY",
    "blocks": "HOUR HOUR",
    "offer": "ARC QUARTER QUARTER QUANTITY",
    "request": "ARC QUARTER QUARTER QUANTITY",
    "halt": "ARC HOUR HOUR",
    "resume": "ARC HOUR HOUR",
    "gate": "HOUR PHASE",
    "view": "CONTRACT SIDE ZONE",
    "clock": "INSTANT",
}
ITEM = ["SIDE", "CONTRACT", "ZONE", "QUANTITY", "PRICE"]
