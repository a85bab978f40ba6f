#!/usr/bin/env python3
"""Prints a list of texts, each with the line that must be reported of it, or 0 where it must be read, and with the
journal that must be written then, where that is told."""
import json

HEADER = (
    "day 2025-06-17\nzone DE\nzone FR\nborder DE FR\ntrader ann\noperator tso\nbegin\n"
)

# Whole texts, and the line that is reported.
DAYS = [
    ('', 1),
    ('day 2025-06-17', 1),
    ('day 2025-06-17\n', 2),
    ('# day\n\nday 2025-06-17\n#\n', 5),
    ('begin\n', 1),
    ('zone DE\n', 1),
    ('day 2025-06-17\nday 2025-06-18\n', 2),
    ('day 2025-02-29\n', 1),
    ('day 2025-06-31\n', 1),
    ('day 2025-13-01\n', 1),
    ('day 2025-00-01\n', 1),
    ('day 2025-01-00\n', 1),
    ('day 1999-12-31\n', 1),
    ('day 2100-01-01\n', 1),
    ('day 2025-6-17\n', 1),
    ('day 02025-06-17\n', 1),
    ('day 2025/06/17\n', 1),
    ('day +025-06-17\n', 1),
    ('day\n', 1),
    ('day \n', 1),
    ('day  2025-06-17\n', 1),
    ('day 2025-06-17 \n', 1),
    (' day 2025-06-17\n', 1),
    ('day\t2025-06-17\n', 1),
    ('day 2025-06-17\r\n', 1),
    ('Day 2025-06-17\n', 1),
]

# What follows a day line, and the line that is reported.
HEADERS = [
    ('begin\n', 2),
    ('trader ann\nzone DE\nbegin\n', 2),
    ('border DE FR\n', 2),
    ('zone DE\n', 3),
    ('zone DE', 2),
    ('zone DE\nbegin', 3),
    ('zone DE\nbegin\n# the end', 4),
    ('zone DE\nbegin\nbegin\n', 4),
    ('zone DE\nbegin\nzone FR\n', 4),
    ('zone DE\nbegin now\n', 3),
    ('zone DE\nzone DE\nbegin\n', 3),
    ('zone\n', 2),
    ('zone \n', 2),
    ('zone DE FR\n', 2),
    ('zone seventeen_letters\n', 2),
    ('zone D.E\n', 2),
    ('zone DE\nborder DE DE\n', 3),
    ('zone DE\nborder DE FR\n', 3),
    ('zone DE\nborder FR DE\n', 3),
    ('zone DE\nzone FR\nborder DE FR\nborder DE FR\n', 5),
    ('zone DE\nzone FR\nborder DE FR\nborder FR DE\n', 5),
    ('zone DE\nzone FR\nborder DE\n', 4),
    ('zone DE\nzone FR\nborder DE FR DE\n', 4),
    ('zone DE\nzone FR\nborder DE FR\nzone AT\n', 5),
    ('zone DE\nzone FR\ntrader ann\nborder DE FR\n', 5),
    ('zone DE\ntrader ann\nzone FR\n', 4),
    ('zone DE\ntrader ann\ntrader ann\n', 4),
    ('zone DE\ntrader ann\noperator ann\n', 4),
    ('zone DE\noperator seventeen_bytes_x\n', 3),
    ('zone DE\ntrader \n', 3),
    ('zone DE\ntrader ann tso\n', 3),
    ('zone DE\ntrader ann\nann buy h1 DE 1.0 1.00\n', 4),
    ('zone DE\nbegin\nann buy h1 DE 1.0 1.00\n', 4),
]

# Headers that are read.
READ_HEADERS = [
    'day 2025-06-17\nzone DE\nbegin\n',
    'day 2000-01-01\nzone DE\nbegin\n',
    'day 2099-12-31\nzone DE\nbegin\n',
    'day 2024-02-29\nzone DE\nbegin\n',
    'day 2025-06-17\nzone -\nbegin\n',
    'day 2025-06-17\nzone sixteen_bytes_xx\nbegin\n',
    'day 2025-06-17\nzone day\nzone zone\nzone begin\nbegin\n',
    'day 2025-06-17\nzone DE\nzone de\nborder DE de\nbegin\n',
    'day 2025-06-17\nzone A\nzone B\nzone C\nborder C B\nborder A C\nbegin\n',
    'day 2025-06-17\nzone DE\ntrader DE\nbegin\n',
    'day 2025-06-17\nzone DE\noperator tso\ntrader ann\noperator bob\nbegin\n',
    'day 2025-06-17\nzone DE\ntrader begin\nbegin\nbegin buy h1 DE 1.0 1.00\n',
    '#\n\nday 2025-06-17\n#\nzone DE\n\ntrader ann\n# last\nbegin\n',
    'day 2025-06-17\nzone A\nzone B\nborder A B\ntrader B\nbegin\n',
]

# Lines after a whole header that are read.
READ = [
    '\n',
    '#\n',
    '# ann buy h1 DE 1.0 1.00\n',
    '#\r\t\x00ÿ\n',
    '## \n\n\n#\n',
    'ann clock 2000-01-01T00:00:00Z\n',
    'tso clock 2024-02-29T23:59:59Z\n',
    'tso clock 2025-06-16T20:59:59Z\n',
    'tso clock 2025-06-16T20:59:59Z\ntso clock 2025-06-16T20:59:58Z\n',
    'ann clock 2025-01-01T00:00:00Z\ntso clock 2025-06-15T12:30:45Z\n',
    'tso clock 2025-06-16T10:00:00Z\n',
]

# Lines after a whole header that are bad.
BAD = [
    'ann\n',
    'ann \n',
    'bob buy h12 DE 1.0 10.00\n',
    'DE buy h12 DE 1.0 10.00\n',
    'ann buys h12 DE 1.0 10.00\n',
    'ann Buy h12 DE 1.0 10.00\n',
    'ann buy h12 DE 1.0\n',
    'ann buy h12 DE 1.0 10.00 \n',
    ' ann buy h12 DE 1.0 10.00\n',
    'ann buy  h12 DE 1.0 10.00\n',
    'ann buy h12 DE 1.0 10.00 limit\n',
    'ann\tbuy h12 DE 1.0 10.00\n',
    'ann buy h12 DE 1.0 10.00\r\n',
    'ann buy h12 DE 1.0 10.00',
    'ann buy h DE 1.0 10.00\n',
    'ann buy h123 DE 1.0 10.00\n',
    'ann buy 12 DE 1.0 10.00\n',
    'ann buy H12 DE 1.0 10.00\n',
    'ann buy h-1 DE 1.0 10.00\n',
    'ann buy h12q DE 1.0 10.00\n',
    'ann buy h12q10 DE 1.0 10.00\n',
    'ann buy h12f DE 1.0 10.00\n',
    'ann buy h12f10 DE 1.0 10.00\n',
    'ann buy h12x1 DE 1.0 10.00\n',
    'ann buy hq1 DE 1.0 10.00\n',
    'ann buy h12 D>E 1.0 10.00\n',
    'ann buy h12 seventeen_bytes_x 1.0 10.00\n',
    'ann buy h12 DE 01.0 10.00\n',
    'ann buy h12 DE 00.0 10.00\n',
    'ann buy h12 DE 1.00 10.00\n',
    'ann buy h12 DE 1 10.00\n',
    'ann buy h12 DE 1. 10.00\n',
    'ann buy h12 DE .1 10.00\n',
    'ann buy h12 DE 1,0 10.00\n',
    'ann buy h12 DE -1.0 10.00\n',
    'ann buy h12 DE 12345678.0 10.00\n',
    'ann buy h12 DE 1.x 10.00\n',
    'ann buy h12 DE 1.0 -0.00\n',
    'ann buy h12 DE 1.0 +1.00\n',
    'ann buy h12 DE 1.0 1.0\n',
    'ann buy h12 DE 1.0 1.000\n',
    'ann buy h12 DE 1.0 01.00\n',
    'ann buy h12 DE 1.0 --1.00\n',
    'ann buy h12 DE 1.0 -\n',
    'ann buy h12 DE 1.0 -01.00\n',
    'ann buy h12 DE 1.0 12345678.00\n',
    'ann enter h12 DE 1.0 10.00\n',
    'ann buy h12 DE 1.0 10.00 Ioc\n',
    'ann buy h12 DE 1.0 10.00 ioc fok\n',
    'ann buy h12 DE 1.0 10.00 iceberg\n',
    'ann buy h12 DE 1.0 10.00 iceberg 1.0\n',
    'ann buy h12 DE 1.0 10.00 iceberg 1.0 -0.01\n',
    'ann buy h12 DE 1.0 10.00 iceberg 1.0 0.01 fok\n',
    'ann buyblock h1 DE 1.0 10.00\n',
    'ann sellblock h1q1 h2 DE 1.0 10.00\n',
    'ann sellblock h1 h2 DE 1.0 10.00 fok\n',
    'ann basket\n',
    'ann basket buy h1 DE 1.0\n',
    'ann basket buy h1 DE 1.0 10.00 fok\n',
    'ann cancel h12\n',
    'ann cancel h12#1234567890\n',
    'ann reduce h12#7\n',
    'ann blocks h1\n',
    'tso offer DE h1q1 h24q4 1.0\n',
    'ann request DE>FR h1 h2 1.0\n',
    'tso halt DE>FR h1\n',
    'tso resume DE>FR h1q1 h1q4\n',
    'tso gate h12 shut\n',
    'tso gate h12q1 closed\n',
    'ann view h12 DE buy\n',
    'ann clock\n',
    'ann clock 2025-06-17\n',
    'ann clock 2025-06-16T10:00:00\n',
    'ann clock 2025-06-16T10:00:00Z now\n',
    'ann clock 2025-06-16T24:00:00Z\n',
    'ann clock 2025-06-16 10:00:00Z\n',
    'ann clock 2025-02-30T10:00:00Z\n',
    'ann clock 1999-12-31T23:59:59Z\n',
    'ann clock 2100-01-01T00:00:00Z\n',
]

# Words after a caller that break the form of their verb.
BROKEN = [
    '',
    'enter h12 DE 10.0 50.00',
    'buy h12 DE 10.0',
    'buy h12 DE 10.0 50.00 ',
    'buy h12 DE 10.0 50.00 limit',
    'buy h12 DE 10.0 50.00 ioc fok',
    'buy h12 DE 10.0 50.00 iceberg',
    'buy h12 DE 10.0 50.00 iceberg 1.0',
    'buy h12 DE 10.0 50.00 iceberg 1.0 -0.01',
    'buy h12 DE 10.0 50.00 iceberg 1.0 0.0',
    'buy h12 DE 10.0 50.00 iceberg 1 0.00',
    'buy h12 DE 10.0 50.00 iceberg 1.0 0.00 ioc',
    'buy h12 DE 10.0 50.00 Ioc',
    'buyblock h1 DE 1.0 1.00',
    'buyblock h1 h2 DE 1.0 1.00 fok',
    'buyblock h1q1 h2 DE 1.0 1.00',
    'sellblock h1 h2 D.E 1.0 1.00',
    'cancel',
    'cancel h12',
    'cancel h12#',
    'cancel h12#1 h12#2',
    'cancel h12#1234567890',
    'cancel h12q1#1',
    'reduce h12#7',
    'reduce h12#7 5.00',
    'reduce h12#7 -5.0',
    'reduce h12#7 5.0 5.0',
    'blocks h1',
    'blocks h1 h2 h3',
    'blocks h1q1 h2',
    'offer DE>FR h1q1 h24q4',
    'offer DE>FR h1 h24 1.0',
    'offer DE>FR h1q1 h24q4 1.0 1.0',
    'offer DE h1q1 h24q4 1.0',
    'offer DE>FR>AT h1q1 h24q4 1.0',
    'offer >FR h1q1 h24q4 1.0',
    'offer DE> h1q1 h24q4 1.0',
    'offer DE FR h1q1 h24q4 1.0',
    'request DE>FR h1f1 h1f2 1.0',
    'request DE>FR h1q1 h1q1 01.0',
    'halt DE>FR h1',
    'halt DE>FR h1q1 h1q4',
    'halt DE>FR h1 h2 h3',
    'resume DE-FR h1 h2',
    'resume DE>FR h1 h2 now',
    'gate h12',
    'gate h12 shut',
    'gate h12 Closed',
    'gate h12q1 closed',
    'gate h12 open closed',
    'view h12 buy',
    'view h12 both DE',
    'view h12 DE buy',
    'view h12 buy DE FR',
    'view h12 buy seventeen_bytes_x',
    'basket',
    'basket buy h1 DE 1.0',
    'basket buy h1 DE 1.0 1.00 fok',
    'basket buy h1 DE 1.0 1.00 buy h2 DE 1.0',
    'basket bid h1 DE 1.0 1.00',
    'basket buy h1 DE 1.0 1.00 buy h2 DE 1.0 1.0',
    'basket buy h1 D 1.0 1.00 buy h2 D 1.0 1.00 buy h3 D 1.0 1.00 buy h4 D 1.0 1.00 buy h5 D 1.0 1.00 buy h6 D 1.0 1.00 buy h7 D 1.0 1.00 buy h8 D 1.0 1.00 buy h9 D 1.0 1.00',
]

# Lines of a clock, and the gates that they stand for: from which hour to which, and to which phase.
CLOCKS = [
    ('tso clock 2025-06-16T21:00:00Z\n', [(1, 1, 'local')]),
    ('tso clock 2025-06-16T21:55:00Z\n', [(1, 1, 'closed')]),
    ('tso clock 2025-06-16T22:00:00Z\n', [(1, 1, 'closed'), (2, 2, 'local')]),
    ('tso clock 2025-06-17T10:00:00Z\n', [(1, 13, 'closed'), (14, 14, 'local')]),
    ('tso clock 2025-06-17T10:55:00Z\n', [(1, 14, 'closed')]),
    ('tso clock 2099-12-31T23:59:59Z\n', [(1, 24, 'closed')]),
    ('tso clock 2025-06-16T21:00:00Z\ntso clock 2025-06-16T22:00:00Z\n', [(1, 1, 'local'), (1, 1, 'closed'), (2, 2, 'local')]),
    ('tso clock 2025-06-16T22:00:00Z\ntso clock 2025-06-16T21:00:00Z\n', [(1, 1, 'closed'), (2, 2, 'local')]),
    ('tso clock 2025-06-16T21:55:00Z\ntso clock 2025-06-16T20:00:00Z\ntso clock 2025-06-16T21:00:00Z\n', [(1, 1, 'closed'), (1, 1, 'local')]),
    ('tso clock 2025-06-16T21:00:00Z\ntso gate h1 closed\ntso clock 2025-06-16T21:55:00Z\n', [(1, 1, 'local'), (1, 1, 'closed'), (1, 1, 'closed')]),
]

# Delivery days, and how many hours they have.
HOURS = [
    ("2025-06-17", 24),
    ("2025-03-30", 23),
    ("2025-03-23", 24),
    ("2025-03-31", 24),
    ("2025-10-26", 25),
    ("2025-10-19", 24),
    ("2025-11-30", 24),
    ("2000-03-26", 23),
    ("2099-10-25", 25),
    ("2024-02-29", 24),
    ("2024-03-31", 23),
    ("2027-10-31", 25),
]


def gated(gates):
    """The journal of an operator's gates, some of which go back."""
    phases, lines = ["open", "local", "closed"], []
    now = dict.fromkeys(range(1, 26), "open")
    for first, last, phase in gates:
        for hour in range(first, last + 1):
            place = len(lines) + 1
            if phases.index(phase) > phases.index(now[hour]):
                now[hour] = phase
                lines.append(
                    f'{{"caller":"tso","command":{place},"done":[["gated","h{hour}","{phase}"]],"entry":{place}}}\n'
                )
            else:
                lines.append(
                    f'{{"caller":"tso","command":{place},"entry":{place},"refused":["GateBack","{now[hour]}"]}}\n'
                )
    return "".join(lines)


def of_day(day, hours):
    """A session of a day in its last hour and in the one after it, and its journal."""
    text = f"day {day}\nzone DE\ntrader DE\nbegin\n"
    text += f"DE buy h{hours} DE 1.0 1.00\nDE buy h{hours + 1} DE 1.0 1.00\n"
    journal = f'{{"caller":"DE","command":1,"done":[["entered","h{hours}#1","h{hours}"]],"entry":1}}\n'
    journal += '{"caller":"DE","command":2,"entry":2,"refused":["UnknownHour"]}\n'
    return text, 0, journal


LIMITS = []
zones = "day 2025-06-17\n" + "".join(f"zone Z{zone}\n" for zone in range(64))
LIMITS += [(zones + "begin\n", 0), (zones + "zone last\n", 66)]
borders = zones + "".join(f"border Z{border // 32} Z{32 + border % 32}\n" for border in range(128))
LIMITS += [(borders + "begin\n", 0), (borders + "border Z5 Z6\n", 194)]
callers = borders + "".join(f"trader t{caller}\noperator o{caller}\n" for caller in range(32))
LIMITS += [(callers + "begin\n", 0), (callers + "trader last\n", 258)]
commands = HEADER + 262144 * "ann view h1 buy DE\n"
LIMITS += [(commands, 0), (commands + "#\ntso view h1 buy DE\n#", 262153)]
day = "ann clock 2099-12-31T23:59:59Z\nann clock 2000-01-01T00:00:00Z\n"
gates = HEADER + 10922 * day + "ann clock 2025-06-17T10:00:00Z\nann clock 2000-01-01T00:00:00Z\n"
LIMITS += [(gates + "ann clock 2025-06-16T22:00:00Z\n", 0), (gates + "ann clock 2025-06-16T23:00:00Z\n", 21854)]

print(
    json.dumps(
        DAYS
        + [("day 2025-06-17\n" + text, line) for text, line in HEADERS]
        + [(text, 0) for text in READ_HEADERS]
        + [(HEADER + text, 0) for text in READ]
        + [(HEADER + text, 8) for text in BAD]
        + [(HEADER + f"{caller} {words}\n", 8) for caller in ("ann", "tso") for words in BROKEN]
        + [(HEADER + text, 0, gated(gates)) for text, gates in CLOCKS]
        + [of_day(day, hours) for day, hours in HOURS]
        + LIMITS
    )
)
