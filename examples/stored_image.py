"""The image of the lines of a journal."""
import sys
from pathlib import Path

HERE = Path(__file__).resolve().parent


def lines_of(name):
    """The lines of the journal of an example, each without its line feed."""
    return (HERE / f"{name}.journal").read_bytes().split(b"\n")[:-1]


def block(line):
    """A line as it is stored: a byte 1, the length in eight bytes, and the line."""
    return b"\1" + len(line).to_bytes(8, "big") + line


def write_image(lines):
    """The image: the lines, and a byte 0 behind them."""
    sys.stdout.buffer.write(b"".join(map(block, lines)) + b"\0")
