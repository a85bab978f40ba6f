#!/usr/bin/env python3
"""Draws a session with commands of every kind, in which few lots are offered, so that orders wait for room.

    bench/draw_session.py SEED COMMANDS > session

The same seed draws the same session. `crates/engine_comparison/stdin` is that of seed 7 with 800 commands.
"""
import random
import sys

ZONES = ["DE", "FR", "NL", "BE", "AT"]
BORDERS = [("DE", "FR"), ("FR", "BE"), ("BE", "NL"), ("NL", "DE"), ("DE", "AT"), ("DE", "BE")]
TRADERS = ["ann", "bob", "cat", "dan"]
HOURS = list(range(9, 15))
PARTS = ["", "", "", "q1", "q2", "q3", "q4", "f1", "f2"]


class Draw:
    def __init__(self, seed):
        self.random = random.Random(seed)
        self.entered = {hour: 0 for hour in range(1, 25)}

    def one_of(self, values):
        return values[self.random.randrange(len(values))]

    def hour(self):
        return self.one_of(HOURS)

    def period(self, most):
        first = self.hour()
        return first, min(24, first + self.random.randrange(most))

    def lots(self, most):
        return "%d.%d" % divmod(1 + self.random.randrange(most), 10)

    def price(self, side):
        base = 3000 if side == "sell" else 2600
        return "%d.%02d" % divmod(base + 50 * self.random.randrange(40), 100)

    def arc(self):
        ends = self.one_of(BORDERS)
        return ">".join(ends if self.random.randrange(2) else reversed(ends))

    def item(self, hour):
        side = self.one_of(["buy", "sell"])
        contract = "h%d%s" % (hour, self.one_of(PARTS))
        return "%s %s %s %s %s" % (side, contract, self.one_of(ZONES), self.lots(60), self.price(side))

    def enter(self, kind):
        hour = self.hour()
        self.entered[hour] += 1
        return "%s %s%s" % (self.one_of(TRADERS), self.item(hour), kind)

    def iceberg(self):
        peak = self.one_of(["0.5", "1.0", "2.0"])
        return self.enter(" iceberg %s %s" % (peak, self.one_of(["0.00", "0.50", "1.00"])))

    def block(self):
        first, last = self.period(3)
        last = max(last, first + 1)
        self.entered[first] += 1
        side = self.one_of(["buy", "sell"])
        lots = self.one_of(["1.0", "2.0", "3.0"])
        return "%s %sblock h%d h%d %s %s %s" % (
            self.one_of(TRADERS), side, first, last, self.one_of(ZONES), lots, self.price(side))

    def basket(self):
        hours = sorted(self.random.sample(HOURS, 2 + self.random.randrange(2)))
        if self.random.randrange(12) == 0:
            hours.reverse()
        items = []
        for hour in hours:
            side = self.one_of(["buy", "sell"])
            price = "60.00" if side == "buy" else "20.00"
            items.append("%s h%d%s %s %s %s" % (side, hour, self.one_of(PARTS), self.one_of(ZONES), self.lots(15), price))
        return "%s basket %s" % (self.one_of(TRADERS), " ".join(items))

    def name(self):
        hour = self.hour()
        return "h%d#%d" % (hour, 1 + self.random.randrange(self.entered[hour] + 1))

    def quarters(self):
        first, last = self.period(2)
        low = 1 + self.random.randrange(4)
        high = 1 + self.random.randrange(4)
        if first == last and high < low:
            low, high = high, low
        return "h%dq%d h%dq%d" % (first, low, last, high)

    def broken(self):
        return self.one_of([
            "ann buy h30 DE 1.0 30.00", "bob sell h10 XX 1.0 30.00", "cat buy h10 DE 0.0 30.00",
            "dan offer DE>FR h9q1 h9q4 1.0", "tso buy h10 DE 1.0 30.00", "tso offer DE>XX h9q1 h9q4 1.0",
            "ann buyblock h12 h9 DE 1.0 40.00", "bob sell h10q7 DE 1.0 40.00", "tso halt AT>NL h9 h10",
            "cat view h10 buy XX", "dan reduce h10#1 0.0", "tso gate h10 open"])

    def command(self):
        kinds = [
            (30, lambda: self.enter("")), (6, lambda: self.enter(" ioc")), (6, lambda: self.enter(" fok")),
            (6, self.iceberg), (9, self.block), (5, self.basket),
            (6, lambda: "%s cancel %s" % (self.one_of(TRADERS), self.name())),
            (5, lambda: "%s reduce %s %s" % (self.one_of(TRADERS), self.name(), self.lots(20))),
            (3, lambda: "%s blocks h%d h%d" % ((self.one_of(TRADERS),) + self.period(3))),
            (6, lambda: "tso offer %s %s %s" % (self.arc(), self.quarters(), self.lots(80))),
            (4, lambda: "%s request %s %s %s" % (self.one_of(TRADERS), self.arc(), self.quarters(), self.lots(15))),
            (2, lambda: "tso halt %s h%d h%d" % ((self.arc(),) + self.period(2))),
            (3, lambda: "tso resume %s h%d h%d" % ((self.arc(),) + self.period(3))),
            (6, lambda: "%s view h%d%s %s %s" % (
                self.one_of(TRADERS), self.hour(), self.one_of(PARTS), self.one_of(["buy", "sell"]), self.one_of(ZONES))),
            (2, self.broken)]
        place = self.random.randrange(sum(weight for weight, _ in kinds))
        for weight, draw in kinds:
            if place < weight:
                return draw()
            place -= weight
        raise AssertionError


def main():
    seed, count = int(sys.argv[1]), int(sys.argv[2])
    draw = Draw(seed)
    print("day 2025-06-17")
    for zone in ZONES:
        print("zone", zone)
    for ends in BORDERS:
        print("border", *ends)
    for trader in TRADERS:
        print("trader", trader)
    print("operator tso")
    print("begin")
    for place in range(count):
        # Towards the end some hours are closed, one after the other.
        if place >= count - 6:
            print("tso gate h%d %s" % (HOURS[place % 3], draw.one_of(["local", "closed"])))
        else:
            print(draw.command())
    # Commands of several hours of which the first or the last is closed by now.
    for hour in HOURS[:3]:
        print("ann basket buy h%d DE 0.1 60.00 buy h14 DE 0.1 60.00" % hour)
        print("ann basket buy h8 DE 0.1 60.00 buy h%d DE 0.1 60.00" % hour)
        print("bob sellblock h%d h14 DE 1.0 40.00" % hour)
        print("bob sellblock h8 h%d DE 1.0 40.00" % hour)
        print("tso offer DE>FR h%dq1 h14q4 9.0" % hour)
        print("tso offer DE>FR h8q1 h%dq4 9.0" % hour)
        print("bob blocks h8 h%d" % hour)
        print("cat buy h%d FR 0.1 60.00" % hour)
        print("dan cancel h%d#1" % hour)


main()
