"""Where the zones of a session stand on a map, without any randomness.

Where all zones are zones of Europe's coupled market by their public names, they stand roughly where they lie; otherwise
they stand in the order of their declaration: a few round an ellipse, many in rows, to and fro.
"""
import math

WIDTH = 1100
BOX_HEIGHT = 24
ROUND_MOST = 16

# Rough places of bidding zones, drawn apart so that what stands at their borders can be read.
PLACES = {
    "NO4": (470, 40),
    "SE1": (680, 50),
    "FI": (880, 130),
    "NO3": (330, 130),
    "SE2": (600, 150),
    "NO5": (180, 210),
    "NO1": (400, 235),
    "SE3": (620, 265),
    "NO2": (200, 330),
    "EE": (970, 245),
    "LV": (980, 340),
    "LT": (940, 435),
    "DK1": (415, 355),
    "DK2": (550, 430),
    "SE4": (680, 385),
    "NL": (230, 520),
    "DE-LU": (480, 545),
    "DE": (480, 545),
    "PL": (790, 530),
    "BE": (140, 620),
    "CZ": (650, 620),
    "SK": (830, 640),
    "FR": (180, 725),
    "AT": (550, 710),
    "HU": (790, 745),
    "ES": (150, 880),
    "PT": (50, 975),
    "NORD": (390, 790),
    "SI": (590, 800),
    "HR": (700, 840),
    "CNOR": (400, 880),
    "SARD": (290, 965),
    "CSUD": (470, 955),
    "SUD": (630, 965),
    "CALA": (690, 1030),
    "SICI": (490, 1030),
    "RO": (980, 745),
    "BG": (1000, 850),
    "GR": (930, 960),
}


def box_width(name: str) -> int:
    """The width of the box that a name is written in."""
    return max(40, 9 * len(name) + 14)


def spread(zones: list[str], height: int) -> list[tuple[int, int]]:
    """The zones' places, moved and stretched so that they fill the map."""
    places = [PLACES[zone] for zone in zones]
    left, right = min(x for x, _ in places), max(x for x, _ in places)
    top, bottom = min(y for _, y in places), max(y for _, y in places)
    scale = min((WIDTH - 150) / max(1, right - left), (height - 80) / max(1, bottom - top))
    return [
        (
            round(WIDTH / 2 + scale * (x - (left + right) / 2)),
            round(height / 2 + scale * (y - (top + bottom) / 2)),
        )
        for x, y in places
    ]


def round_an_ellipse(zones: list[str], height: int) -> list[tuple[int, int]]:
    """The first zone stands at the left, and the others clockwise."""
    across = WIDTH / 2 - max(box_width(zone) for zone in zones) / 2 - 10
    down = height / 2 - 40
    angles = [math.pi + 2 * math.pi * number / len(zones) for number in range(len(zones))]
    return [(round(WIDTH / 2 + across * math.cos(at)), round(height / 2 + down * math.sin(at))) for at in angles]


def in_rows(zones: list[str]) -> tuple[list[tuple[int, int]], int]:
    """Every second box of a row stands lower, so that a line between two others does not pass behind it."""
    widest = max(box_width(zone) for zone in zones)
    columns = WIDTH // (widest + 40)
    places = []
    for number in range(len(zones)):
        row, at = divmod(number, columns)
        column = at if row % 2 == 0 else columns - 1 - at
        places.append((round((column + 0.5) * WIDTH / columns), 40 + 110 * row + 40 * (column % 2)))
    return places, places[-1][1] + 80


def places_of(zones: list[str]) -> tuple[list[tuple[int, int]], int]:
    """The middle of each zone's box, and the height of the map."""
    height = {1: 100, 2: 240}.get(len(zones), 620)
    if len({PLACES.get(zone) for zone in zones} - {None}) == len(zones):
        height = 1080 if len(zones) > ROUND_MOST else height
        return spread(zones, height), height
    if len(zones) <= ROUND_MOST:
        return round_an_ellipse(zones, height), height
    return in_rows(zones)
