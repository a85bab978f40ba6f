"""The session of one-sale, with comments behind it up to a number of bytes."""
import sys


def write(size):
    sale = open("one-sale.session").read()
    sys.stdout.write(sale)
    left = size - len(sale)
    while left > 0:
        line = "#" * (min(left, 4096) - 1) + "\n"
        sys.stdout.write(line)
        left -= len(line)
