"""The record of an example: its session, the line `journal`, and its journal."""
import sys
from pathlib import Path

HERE = Path(__file__).resolve().parent


def write(name):
    sys.stdout.write((HERE / f"{name}.session").read_text() + "journal\n" + (HERE / f"{name}.journal").read_text())
