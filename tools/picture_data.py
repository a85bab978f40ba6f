"""What the page of a record shows, as plain lists and numbers: quantities in lots, prices in cents, quarters counted from
0 through the day.

The journal's events are folded up, entry after entry. Of a border, an order and an hour there is a state wherever one
changed, so that the page finds what held at any place of the journal by looking it up, and reckons nothing itself.
"""
from __future__ import annotations

import json
from typing import Optional

from sidc_texts import (
    DIVIDER,
    BadText,
    Command,
    Entry,
    Session,
    Told,
    commands_answered,
    hour_of,
    hours_of,
    quarters_of,
    read_journal,
    read_session,
    split_record,
    units_of,
)
from zone_map import BOX_HEIGHT, WIDTH, box_width, places_of


class Border:
    """What is offered on a border's two arcs and what flows over it, in each quarter of the day."""

    def __init__(self, ends: tuple[str, str], quarters: int):
        self.ends = ends
        self.offered = [[0, 0] for _ in range(quarters)]
        self.traded = [0] * quarters
        self.granted = [0] * quarters
        self.halted = [False] * quarters
        self.changed: set[int] = set()
        self.states: list[list[int]] = []

    def offer(self, direction: int, quarters: range, lots: int) -> None:
        for quarter in quarters:
            self.offered[quarter][direction] = lots
        self.changed.update(quarters)

    def carry(self, flows: list[int], direction: int, quarters: range, lots: int) -> None:
        for quarter in quarters:
            flows[quarter] += -lots if direction else lots
        self.changed.update(quarters)

    def halt(self, quarters: range, is_halted: bool) -> None:
        for quarter in quarters:
            self.halted[quarter] = is_halted
        self.changed.update(quarters)

    def state(self, quarter: int) -> list[int]:
        forward, backward = self.offered[quarter]
        return [forward, backward, self.traded[quarter], self.granted[quarter], int(self.halted[quarter])]

    def settle(self, entry: int) -> None:
        """Notes what an entry has changed: a row for each run of quarters that are alike."""
        runs: list[list[int]] = []
        for quarter in sorted(self.changed):
            if runs and runs[-1][2] == quarter - 1 and runs[-1][3:] == self.state(quarter):
                runs[-1][2] = quarter
            else:
                runs.append([entry, quarter, quarter, *self.state(quarter)])
        self.states += runs
        self.changed.clear()


class Order:
    """An order or a block that was entered, with its moment, what it shows and what is left of it. The moment is a place among the
    events of the whole journal, which is in the order of those among an hour's."""

    def __init__(self, name: str, contract: str, quarters: range, caller: str, words: list[str], moment: int):
        side, self.zone, quantity, price, *kind = words
        self.name = name
        self.contract = contract
        self.quarters = quarters
        self.caller = caller
        self.side = side
        self.left = units_of(quantity)
        self.first_price = units_of(price)
        self.filled = 0
        self.moment = moment
        self.kind = kind[0] if kind else "limit"
        self.peak, self.delta = map(units_of, kind[1:]) if self.kind == "iceberg" else (0, 0)
        self.states: list[list[int]] = []

    def fill(self, lots: int, moment: int) -> None:
        self.filled += lots
        self.left -= lots
        if self.peak and self.filled % self.peak == 0:
            self.moment = moment

    def price(self) -> int:
        steps = self.filled // self.peak * self.delta if self.peak else 0
        return self.first_price + (steps if self.side == "sell" else -steps)

    def shows(self) -> int:
        return min(self.peak - self.filled % self.peak, self.left) if self.peak else self.left

    def settle(self, entry: int) -> None:
        self.states.append([entry, self.price(), self.shows(), self.left, self.moment])


class Folded:
    """All that the entries so far have made."""

    def __init__(self, session: Session, entries: list[Entry]):
        quarters = 4 * hours_of(session.day)
        self.borders = [Border(ends, quarters) for ends in session.borders]
        self.orders: dict[str, Order] = {}
        self.phases: list[list] = []
        self.trades: list[list] = []
        self.sold = {zone: [0] * quarters for zone in session.zones}
        self.bought = {zone: [0] * quarters for zone in session.zones}
        self.touched: dict[str, Order] = {}
        self.events = 0
        self.rows: list[list] = []
        for number, (entry, command) in enumerate(zip(entries, commands_answered(entries, session.commands)), 1):
            if command is None:
                raise BadText(f"line {number} of the journal answers no command")
            try:
                self.add(entry, command)
            except (AttributeError, IndexError, KeyError, TypeError, ValueError) as fault:
                raise BadText(f"line {number} of the journal does not follow from those before it") from fault

    def add(self, entry: Entry, command: Command) -> None:
        wanted = asked_orders(command)
        for told in entry.told if entry.reply == "done" else []:
            self.events += 1
            if told.name == "entered":
                self.enter(command.caller, wanted.pop(0), *told.fields.values())
            else:
                getattr(self, f"add_{told.name}")(entry.number, *told.fields.values())
        for border in self.borders:
            border.settle(entry.number)
        for order in self.touched.values():
            order.settle(entry.number)
        self.touched.clear()
        self.rows.append(row_of(entry, command))

    def enter(self, caller: str, words: list[str], name: str, first: str, last: Optional[str] = None) -> None:
        contract = f"{first} to {last}" if last else first
        self.orders[name] = Order(name, contract, span(first, last or first), caller, words, self.events)
        self.touched[name] = self.orders[name]

    def touch(self, name: str) -> Order:
        self.touched[name] = self.orders[name]
        return self.orders[name]

    def arc(self, text: str) -> tuple[Border, int]:
        """The border of an arc, and 0 for its forward arc, 1 for the other."""
        start, end = text.split(">")
        for border in self.borders:
            if border.ends in ((start, end), (end, start)):
                return border, int(border.ends != (start, end))
        raise KeyError(text)

    def add_leg(self, entry: int, taker: str, maker: str, quantity: str, price: str, route: list[str]) -> None:
        lots = units_of(quantity)
        pair = [self.touch(taker), self.touch(maker)]
        quarters = pair[1].quarters
        for order in pair:
            order.fill(lots, self.events)
        buy, sell = sorted(pair, key=lambda order: order.side)
        for quarter in quarters:
            self.bought[buy.zone][quarter] += lots
            self.sold[sell.zone][quarter] += lots
        for arc in route:
            border, direction = self.arc(arc)
            border.carry(border.traded, direction, quarters, lots)
        self.trades.append(
            [entry, pair[1].contract, quarters.start, quarters.stop, taker, maker, sell.zone, buy.zone, lots, units_of(price)]
            + [" ".join(route)]
        )

    add_blockleg = add_leg

    def add_granted(self, _entry: int, arc: str, first: str, last: str, quantity: str) -> None:
        border, direction = self.arc(arc)
        border.carry(border.granted, direction, span(first, last), units_of(quantity))

    def add_offered(self, _entry: int, arc: str, first: str, last: str, quantity: str) -> None:
        border, direction = self.arc(arc)
        border.offer(direction, span(first, last), units_of(quantity))

    def add_halted(self, _entry: int, arc: str, first: str, last: str) -> None:
        self.arc(arc)[0].halt(span(first, last), True)

    def add_resumed(self, _entry: int, arc: str, first: str, last: str) -> None:
        self.arc(arc)[0].halt(span(first, last), False)

    def add_gated(self, entry: int, hour: str, phase: str) -> None:
        self.phases.append([entry, hour_of(hour), phase])

    def add_withdrawn(self, _entry: int, name: str, quantity: str) -> None:
        self.touch(name).left -= units_of(quantity)

    add_reduced = add_withdrawn


def span(first: str, last: str) -> range:
    """The quarters from those of one hour or quarter to those of another."""
    return range(quarters_of(first).start, quarters_of(last).stop)


def asked_orders(command: Command) -> list[list[str]]:
    """Of each order or block that a command enters: its side, zone, quantity, price and kind."""
    verb, *words = command.words.split(" ")
    if verb in ("buy", "sell"):
        return [[verb, *words[1:]]]
    if verb in ("buyblock", "sellblock"):
        return [[verb.removesuffix("block"), *words[2:5], "block"]]
    if verb == "basket":
        return [[words[at], *words[at + 2 : at + 5], "fok"] for at in range(0, len(words), 5)]
    return []


# What the page says of an event and of a row of a view, by its name. An empty route is left out.
SAID = {
    "entered": "{order} enters {contract}",
    "entered block": "{order} enters {first} to {last}",
    "leg": "{order} trades with {partner} {quantity} MW at {price} EUR/MWh over {route}",
    "blockleg": "{order} trades with {partner} {quantity} MW at {price} EUR/MWh over {route}",
    "granted": "granted on {arc}, {first} to {last}: {quantity} MW",
    "offered": "offered on {arc}, {first} to {last}: {quantity} MW",
    "halted": "halted: {arc}, {first} to {last}",
    "resumed": "resumed: {arc}, {first} to {last}",
    "gated": "{first} is {phase}",
    "withdrawn": "{order} is withdrawn, {quantity} MW",
    "reduced": "{order} is reduced by {quantity} MW",
    "row": "{quantity} MW at {price} EUR/MWh",
}
NOTHING = {"rows": "no rows", "done": "nothing happens"}


def said_of(told: Told) -> str:
    """What is told, in words; a refusal by its name, with what it says besides."""
    fields = {name: ", ".join(value) if isinstance(value, list) else value for name, value in told.fields.items()}
    name = "entered block" if told.name == "entered" and "last" in fields else told.name
    if name not in SAID:
        return f"{name} {'; '.join(fields.values())}".strip()
    return SAID[name].format(**fields).removesuffix(" over ")


def row_of(entry: Entry, command: Command) -> list:
    """An entry as the table of the journal has it: number, caller, command, how it is answered, and the answer."""
    asked = f"{command.clock}: {command.words}" if command.clock else command.words
    return [entry.number, entry.caller, asked, entry.reply, "; ".join(map(said_of, entry.told)) or NOTHING[entry.reply]]


def positions_of(folded: Folded) -> list[list]:
    """Quarter, zone, lots sold and bought, where there are any: what the schedule's lines `position` say."""
    quarters = range(len(next(iter(folded.sold.values()))))
    return [
        [quarter, zone, folded.sold[zone][quarter], folded.bought[zone][quarter]]
        for quarter in quarters
        for zone in folded.sold
        if folded.sold[zone][quarter] or folded.bought[zone][quarter]
    ]


def exchanges_of(folded: Folded) -> list[list]:
    """Quarter, forward arc, lots traded and granted over a border that carries some: the schedule's lines `exchange`."""
    quarters = range(len(next(iter(folded.sold.values()))))
    return [
        [quarter, ">".join(border.ends), border.traded[quarter], border.granted[quarter]]
        for quarter in quarters
        for border in folded.borders
        if border.traded[quarter] or border.granted[quarter]
    ]


def data_of(record: str) -> dict[str, list]:
    """All that the page of a record shows, by name, or `BadText`."""
    text, journal = split_record(record)
    if journal is None:
        raise BadText(f"it has no line `{DIVIDER}`")
    session = read_session(text)
    folded = Folded(session, read_journal(journal))
    places, height = places_of(session.zones)
    return {
        "day": [session.day.isoformat(), hours_of(session.day)],
        "map": [WIDTH, height, BOX_HEIGHT],
        "callers": [[name, role] for name, role in session.roles.items()],
        "zones": [[zone, x, y, box_width(zone)] for zone, (x, y) in zip(session.zones, places)],
        "borders": [[*border.ends, border.states] for border in folded.borders],
        "phases": folded.phases,
        "orders": [
            [order.name, order.contract, order.zone, order.side, order.kind, order.caller, order.states]
            for order in folded.orders.values()
        ],
        "trades": folded.trades,
        "exchanges": exchanges_of(folded),
        "positions": positions_of(folded),
        "entries": folded.rows,
    }


def json_of(data: dict[str, list]) -> str:
    """The data as JSON, with a line for each item, so that two of them can be compared line by line."""
    lists = []
    for name, items in data.items():
        lines = ",\n".join(json.dumps(item, separators=(",", ":")) for item in items)
        lists.append(f"{json.dumps(name)}:[\n{lines}\n]" if lines else f"{json.dumps(name)}:[]")
    return "{\n" + ",\n".join(lists) + "\n}\n"
