"""200 sessions with commands of every kind, by four traders and an operator."""
import json
import subprocess
import sys
from pathlib import Path

DRAW = Path(__file__).resolve().parent.parent / "bench" / "draw_session.py"


def drawn(seed):
    found = subprocess.run([sys.executable, "-B", DRAW, str(seed), "100"], capture_output=True, check=True)
    return found.stdout.decode()


print(json.dumps([drawn(seed) for seed in range(1, 201)]))
