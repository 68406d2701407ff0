"""C-14, worked out from document 02: the answer to a raise/lower of both sides, on a record that passes row 28.

The Rust keeps document 01's rule of Both, so compare.py holds the console's answers beside these. Python's standard library is all it
needs.
"""

import itertools
import re

TIMESTAMP = 0x32
NO_READINGS = "0 0 - - - 0".split(" ")


def is_both(words):
    return words[0] == "raise" and int(words[1]) == 2


def nearest(low, value, high):
    return sorted((low, value, high))[1]


def raise_both(config, words, state):
    """`words` are those of the line, `state` is the record before it, as an answer has it."""
    amount = int(words[2]) * 10
    before, after, _, hook, node, _ = words[words.index("@") + 1 :] if "@" in words else NO_READINGS
    field = dict(re.findall(r"(\w+)=(\S+)", state))
    pair = int(field["h"]), int(field["c"])
    limits = [int(field[name]) for name in ("minh", "maxh", "minc", "maxc")]
    low_heat, high_heat = (limits if config.heat_limits else config.limits)[:2]
    low_cool, high_cool = (limits if config.cool_limits else config.limits)[2:]

    # the pair at entry, and after each store
    pairs = [pair]
    if config.heats:
        pairs.append((nearest(low_heat, pair[0] + amount, high_heat), pair[1]))
    if config.cools:
        pairs.append((pairs[-1][0], nearest(low_cool, pair[1] + amount, high_cool)))
    targets = pairs[-1]
    if config.auto:
        most = nearest(low_heat, targets[1] - 10 * config.dead_band, high_heat)
        pairs.append((min(targets[0], most), targets[1]))
    heating, cooling = pairs[-1]

    # raise/lower arms before anything is recorded
    if config.serves(TIMESTAMP):
        field["armed"] = node if node == "-" else int(node)
    notices = []
    for code, old, new in zip((0x12, 0x11), pair, targets):
        if new != old:
            seconds = [int(second) for second in (hook, field["armed"]) if second != "-"] + [0]
            field.update(src=2, amt=nearest(-32768, new - old, 32767), ts=seconds[0], armed="-")
            notices += [code, 0x30, 0x31, 0x32]
    if heating != targets[0]:
        notices.append(0x12)
    if (int(before) ^ int(after)) & config.relays:
        notices += [0x29, 0x1E]
    told = [f"{code:x}" for code in notices if config.serves(code)]

    if any(one != other for one, other in itertools.pairwise(pairs)):
        field["dirty"] = 1
    if config.events:
        field["pend"] = int(field["pend"]) | 0x200
    field.update(h=heating, c=cooling, att=f"{heating * config.heats}/{cooling * config.cools}")
    record = " ".join(f"{name}={value}" for name, value in field.items())
    return f"0 {record} order={field['mode']}/{heating}/{cooling} notices={','.join(told) or '-'} events=-"
