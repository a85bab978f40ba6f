#!/usr/bin/env python3
"""Writes the session that `sidc generate N` plays.

    bench/generated_session.py N > session

It follows the definition of the generated session (docs/DEFINITIONS.md).
"""
import sys

ZONES = ["Z%02d" % number for number in range(1, 13)]
BORDERS = [(place, (place + 1) % 12) for place in range(12)] + [(place, place + 4) for place in range(8)]


class Draws:
    def __init__(self):
        self.state = 1

    def below(self, bound):
        self.state = (self.state * 6364136223846793005 + 1442695040888963407) % 2**64
        return (self.state >> 33) % bound


def lots(number):
    return "%d.%d" % divmod(number, 10)


def offer(draws, place):
    ends = BORDERS[place // 2]
    first, second = ends if place % 2 == 0 else (ends[1], ends[0])
    return "tso offer %s>%s h1q1 h24q4 %s" % (ZONES[first], ZONES[second], lots(500 + draws.below(500)))


def entry(draws):
    trader = draws.below(6) + 1
    hour = draws.below(24) + 1
    zone = ZONES[draws.below(12)]
    side = "buy" if draws.below(2) == 0 else "sell"
    quantity = draws.below(100) + 1
    price = "%d.%02d" % divmod(4000 + draws.below(2001), 100)
    form = draws.below(10)
    if form == 9:
        first = 23 if hour == 24 else hour
        return "t%d %sblock h%d h%d %s 5.0 %s" % (trader, side, first, first + 1, zone, price)
    contract, kind = "h%d" % hour, ""
    if form == 5:
        contract += "q%d" % (draws.below(4) + 1)
    elif form == 6:
        kind = " ioc"
    elif form == 7:
        kind = " fok"
    elif form == 8:
        quantity, kind = quantity + 10, " iceberg 1.0 0.05"
    return "t%d %s %s %s %s %s%s" % (trader, side, contract, zone, lots(quantity), price, kind)


def main():
    draws = Draws()
    lines = ["day 2025-06-17"] + ["zone " + zone for zone in ZONES]
    lines += ["border %s %s" % (ZONES[first], ZONES[second]) for first, second in BORDERS]
    lines += ["trader t%d" % number for number in range(1, 7)] + ["operator tso", "begin"]
    for place in range(int(sys.argv[1])):
        lines.append(offer(draws, place) if place < 40 else entry(draws))
    print("\n".join(lines))


main()
