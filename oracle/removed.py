"""C-12, worked out from document 02: the amounts removed, asked less given, in which every answer of the console ends.

The Rust does not tell them, so compare.py holds the console's beside these. Python's standard library is all it needs.
"""

import re

REPAIRS = "open", "ooblimits", "reset"  # they end in repair, whose first clamp of each setpoint counts
CLAMPS = *REPAIRS, "oobheat", "oobcool", "raise"


def asked(config, words, heating, cooling):
    """What is asked of each side, none of one that is not named; `heating` and `cooling` are the setpoints before the call."""
    if words[0] == "reset":
        return config.defaults[0], config.defaults[1]
    if words[0] == "open":
        return int(words[1]), int(words[2])
    if words[0] == "ooblimits":
        return heating, cooling
    if words[0] == "raise":
        mode, amount = int(words[1]), 10 * int(words[2])
        return heating + amount if mode in (0, 2) else None, cooling + amount if mode in (1, 2) else None
    value = int(words[1])
    return (value, None) if words[0] == "oobheat" else (None, value)


def beyond(low, value, high):
    """How far above the upper limit; below the lower one it is negative."""
    return max(value - high, 0) + min(value - low, 0)


def removed(config, words, before, number, after):
    """Heating's amount and cooling's. `words` are those of the line; `before` and `after` are the record before it and in its answer, as an
    answer has it; `number` is the answer's."""
    if number != 0 or words[0] not in CLAMPS:
        return 0, 0
    old, new = (dict(re.findall(r"(\w+)=(\S+)", state)) for state in (before, after))
    # repair clamps to the limits that it has repaired; the others change none
    limits = [int((new if words[0] in REPAIRS else old)[name]) for name in ("minh", "maxh", "minc", "maxc")]
    low_heat, high_heat = (limits if config.heat_limits else config.limits)[:2]
    low_cool, high_cool = (limits if config.cool_limits else config.limits)[2:]
    heating, cooling = asked(config, words, int(old["h"]), int(old["c"]))
    return (
        beyond(low_heat, heating, high_heat) if config.heats and heating is not None else 0,
        beyond(low_cool, cooling, high_cool) if config.cools and cooling is not None else 0,
    )
