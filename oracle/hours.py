"""C-15, worked out from document 02: whether an hour acts, and the heating setpoint that it then stores.

The Rust has no hours. In place of one that acts compare.py asks it for a heating write of this setpoint. Python's standard library is
all it needs.
"""

import re

WORKDAY = [1700] * 6 + [2000] * 12 + [1700] * 6
WEEK = WORKDAY * 5 + [1700] * 24 * 2
ACTING = [hour for hour in range(168) if WEEK[hour] != WEEK[hour - 1]]  # behind hour 0 stands WEEK[-1], hour 167
HEATING = 0x12


def refusal(config, words):
    """The number that refuses this hour on a record that passes row 28, or 0."""
    if int(words[1]) >= len(WEEK):
        return 32
    return 0 if config.serves(HEATING) else 24


def stored(config, words, state):
    """What an hour that is not refused stores, or nothing. `words` are those of the line, `state` is the record before it, as an answer has
    it."""
    hour = int(words[1])
    if hour not in ACTING:
        return None
    field = dict(re.findall(r"(\w+)=(\S+)", state))
    low, high = (int(field["minh"]), int(field["maxh"])) if config.heat_limits else config.limits[:2]
    return sorted((low, WEEK[hour], high))[1]


def is_clipped(words, value):
    return value != WEEK[int(words[1])]
