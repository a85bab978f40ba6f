#!/usr/bin/env python3
"""Prints a session of commands that take little to plan: after the offers of a generated session six traders take turns, each in
an hour of its own, so many times each, with a buy far below the market that rests and with its withdrawal.

usage: bench/quick_session.py [COMMANDS]     by each trader, 20000 if none is named
"""
import subprocess
import sys
from pathlib import Path

TRADERS = range(1, 7)
commands = int(sys.argv[1]) if len(sys.argv) > 1 else 20000
generated = Path(__file__).resolve().with_name("generated_session.py")
print(subprocess.run([generated, "40"], capture_output=True, check=True, text=True).stdout, end="")
for nth in range(commands):
    for trader in TRADERS:
        hour = f"h{trader * 3:02}"
        print(f"t{trader} cancel {hour}#{(nth + 1) // 2}" if nth % 2 else f"t{trader} buy {hour} Z01 0.1 10.00")
