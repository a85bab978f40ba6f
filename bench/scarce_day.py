#!/usr/bin/env python3
"""Draws a day of few lots of room, in which every tenth command is a view.

    bench/scarce_day.py ZONES COMMANDS > session

Zones stand in a ring with borders across it, at most 128 in all. Orders wait for room, icebergs among them, in the three
hours that are traded. The same numbers draw the same session.
"""
import random
import sys

zones, commands = map(int, sys.argv[1:])
draw = random.Random(zones * 1000003 + commands)
names = [f"Z{zone:02d}" for zone in range(1, zones + 1)]
borders = [(zone, (zone + 1) % zones) for zone in range(zones)]
borders += [(zone, (zone + 5) % zones) for zone in range(0, zones, 2)]
borders = borders[:128]
hours = ("h10", "h11", "h12")

print("day 2025-06-17")
for name in names:
    print("zone", name)
for start, end in borders:
    print("border", names[start], names[end])
for trader in ("ann", "bob", "cat"):
    print("trader", trader)
print("operator tso\nbegin")
for start, end in borders:
    for one, other in ((start, end), (end, start)):
        print(f"tso offer {names[one]}>{names[other]} h10q1 h12q4 {draw.randrange(10, 60)}.0")
for place in range(commands):
    hour = draw.choice(hours) + draw.choice(("", "", "q1", "f2"))
    zone, caller = draw.choice(names), draw.choice(("ann", "bob", "cat"))
    if place % 10 == 9:
        print(f"{caller} view {hour} {draw.choice(('buy', 'sell'))} {zone}")
        continue
    side = draw.choice(("buy", "sell"))
    cents = draw.randrange(-150, 150) + (4900 if side == "buy" else 5100)
    order = f"{caller} {side} {hour} {zone} {draw.randrange(1, 30)}.{draw.randrange(10)} {cents / 100:.2f}"
    if draw.randrange(8) == 0:
        order += " iceberg 1.0 0.00"
    print(order)
