#!/usr/bin/env python3
"""The console beside the Rust: both get the same lines, and every answer is compared whole.

    python3 oracle/compare.py [CALLS [SEED [CONSOLE [ORACLE]]]]    1,000,000 calls, seed 1; about two minutes
    python3 oracle/compare.py --repair [CALLS [SEED ..]]           openings and limits messages alone, at repair's edges
    python3 oracle/compare.py --both [CALLS [SEED ..]]             raise/lower of both sides alone, at the edges of limits and gap
    python3 oracle/compare.py --reset [CALLS [SEED ..]]            resets alone, of the row's defaults and of others, at repair's edges
    python3 oracle/compare.py --hours [CALLS [SEED ..]]            hours almost alone, at the edges of limits and gap
    python3 oracle/compare.py --replay CALLS OUTDIR                lines in OUTDIR/stdin, the Rust's answers in OUTDIR/stdout,
                                                                   but the port's where C-14 or C-20 sets them apart, marked,
                                                                   each with the amounts of removed.py

The paths are crates/console/out/console and oracle/target/release/oracle if none are given.

It draws configurations (their numbers from the oracle's table), records, readings and calls, near the edges more often than
not, and goes on until CALLS of them lie in document 01's domain. In turn with these come lists that are run through completely
(SHORT LISTS below), as far as CALLS reaches. The same SEED gives the same lines.

A difference is listed only where a rule of `Judge` says so: for the paper's rows 20, 24, 26, 27 and 28, and for C-11, C-14, C-15 and C-20.
This program works out for itself where they are due. At a row the console must give exactly that number and the record as it was; where
both setpoints moved, cooling's amount and all else as the Rust. To Both it must answer as raise_both.py does; with AUTO the Rust may
answer otherwise, and goes on with the console's record. At a reset the Rust is asked twice: `reset`, which must just put the defaults in,
and an opening on the defaults, whose settings and order the console must give; then too it goes on with the console's record. In place of
an hour that acts the Rust is asked for a heating write of what hours.py gives, and goes on with the console's record; the console must
answer alike, with source 1 where the Rust records 2. At any other hour it is asked nothing, and the console's record must stay as it was.
Every answer of the console must end in the amounts that removed.py gives (C-12); it is compared with the Rust's without them. Any other
difference, and a row or amount that is due and does not come, is unlisted: the first of these are cut down and printed, and the exit code
is 1.
Python's standard library is all it needs.
"""

import argparse
import collections
import itertools
import pathlib
import random
import re
import subprocess
import sys
import tempfile
import time

import hours
from raise_both import is_both, raise_both
from removed import CLAMPS, removed

ROOT = pathlib.Path(__file__).resolve().parent.parent
BATCH = 20000  # lines for one run of the two programs

# --- Document 01, as far as the listed differences and the drawing need it

LAST_CLOCK = 18446744073709491615
HEAT, COOL, AUTO, LTNE, TEVT = FEATURES = 0x01, 0x02, 0x20, 0x40, 0x200
MANDATORY = [0x00, 0x1B, 0x1C, 0x12, 0x11, 0x19]
HEAT_LIMITS = [0x03, 0x04, 0x15, 0x16]
COOL_LIMITS = [0x05, 0x06, 0x17, 0x18]
LIMITS = HEAT_LIMITS + COOL_LIMITS
CHANGES = [0x30, 0x31, 0x32]
NAMED = [*MANDATORY, *LIMITS, 0x1E, 0x29, *CHANGES]
UNNAMED = [code for code in range(64) if code not in NAMED]
WRITES = {"heat": 0x12, "cool": 0x11, "minheat": 0x15, "maxheat": 0x16, "mincool": 0x17, "maxcool": 0x18}
# What the Rust's types hold.
MODES, SOURCES, RUNNING_MODES, SEQUENCES = [0, 1, 3, 4, 5, 6, 7, 8, 9], [0, 1, 2], [0, 3, 4], [0, 1, 2, 3, 4, 5]


def bits(codes):
    return sum(1 << code for code in set(codes))


class Config:
    def __init__(self, served, numbers):
        self.served, self.numbers = list(served), list(numbers)
        self.revision, self.features, self.attributes, self.events, self.commands = served
        *self.limits, self.dead_band, self.sequence, self.delta = numbers[:7]
        self.defaults = self.numbers[7:] or [0] * 7
        self.heats, self.cools, self.auto, self.hidden, self.tells = (bool(self.features & bit) for bit in FEATURES)
        self.heat_limits = all(map(self.serves, HEAT_LIMITS))
        self.cool_limits = all(map(self.serves, COOL_LIMITS))
        self.band = 10 * self.dead_band if self.auto else 0
        self.sequence_heats, self.sequence_cools = self.sequence in (2, 3, 4, 5), self.sequence in (0, 1, 4, 5)
        self.modes = [0] + [1] * self.auto + [3] * self.sequence_cools + [4] * self.sequence_heats
        self.relays = 0x64 | 0x09 * self.sequence_heats | 0x12 * self.sequence_cools
        self.row = next((row for row, refused in self.rows() if refused), 0)
        self.line = "config " + " ".join(map(str, self.served + self.numbers))

    @classmethod
    def read(cls, words):
        numbers = list(map(int, words[1:]))
        return cls(numbers[:5], numbers[5:])

    def serves(self, code):
        return bool(self.attributes >> code & 1)

    def rows(self):
        """Rows 1 to 21, in order, and whether each refuses."""
        min_heat, max_heat, min_cool, max_cool = self.limits
        yield 1, self.revision != 11
        yield 2, self.features & ~sum(FEATURES)
        yield 3, not self.heats and not self.cools
        yield 4, self.auto and not (self.heats and self.cools)
        for code, due in zip(MANDATORY, (True, True, True, self.heats, self.cools, self.auto)):
            yield 5, due and not self.serves(code)
            yield 6, not due and self.serves(code)
        for codes in HEAT_LIMITS, COOL_LIMITS:
            yield 7, len(set(map(self.serves, codes))) > 1
        yield 8, self.heat_limits and not self.heats or self.cool_limits and not self.cools
        yield 9, self.auto and self.heat_limits != self.cool_limits
        yield 10, self.serves(0x1E) and not self.auto
        yield 11, self.events & bits((2, 6, 7))
        for code, applies in (0, True), (1, not self.hidden), (3, True), (4, True), (5, self.auto):
            served = self.events >> code & 1
            yield 12, served and not self.tells
            yield 13, served and not applies
            yield 14, self.tells and applies and not served
        yield 15, self.delta < 0
        yield 16, not self.commands & 1
        yield 17, min_heat > max_heat
        yield 18, min_cool > max_cool
        yield 19, self.auto and self.dead_band < 0
        yield 20, self.auto and (min_heat > min_cool - self.band or max_heat > max_cool - self.band)
        yield 21, (self.heats, self.cools) != (self.sequence_heats, self.sequence_cools)

    def gap_leaves_16_bits(self):
        return self.auto and min(self.limits[2:]) - self.band < -32768

    def unsound(self, settings, last):
        """Why row 28 is due for a record with these, in a few words, or nothing."""
        heating, cooling, min_heat, max_heat, min_cool, max_cool, mode = settings
        abs_min_heat, abs_max_heat, abs_min_cool, abs_max_cool = self.limits
        if self.row:
            return "configuration refused"
        if self.heat_limits and not abs_min_heat <= min_heat <= max_heat <= abs_max_heat:
            return "heating limits"
        if self.cool_limits and not abs_min_cool <= min_cool <= max_cool <= abs_max_cool:
            return "cooling limits"
        if self.auto and self.heat_limits and (min_heat > min_cool - self.band or max_heat > max_cool - self.band):
            return "limits closer than AUTO allows"
        low, high = (min_heat, max_heat) if self.heat_limits else (abs_min_heat, abs_max_heat)
        if self.heats and not low <= heating <= high:
            return "heating outside"
        low, high = (min_cool, max_cool) if self.cool_limits else (abs_min_cool, abs_max_cool)
        if self.cools and not low <= cooling <= high:
            return "cooling outside"
        if mode not in self.modes:
            return "mode unsupported"
        if last != "-" and int(last) > LAST_CLOCK:
            return "last event too late"
        return ""

    def added(self, words):
        """The number that the paper gives this call on a record that passes row 28, and the Rust does not; or 0."""
        if words[0] in ("sweep", "timer") and len(words) > 1 and int(words[-1]) > LAST_CLOCK:
            return 27
        if words[0] in WRITES and not self.serves(WRITES[words[0]]):
            return 24
        if words[0] == "oobmode" and int(words[1]) not in self.modes:
            return 26
        if words[0] == "hour":
            return hours.refusal(self, words)
        return 0


# --- A record's state: what an answer says between its number and ` order=`

BLANK = "h=0 c=0 minh=0 maxh=0 minc=0 maxc=0 mode=0 dirty=0 pend=0 shadow=- last=- src=0 amt=- ts=0 att=- armed=-"
STATE = re.compile(" ".join(name + r"=(\S+)" for name in re.findall(r"(\w+)=", BLANK)))
ANSWER = re.compile(r"(\d+) (.*?) order=(\S+) notices=(\S+) events=(\S+)(?: deadline=(\S+))?")
NOTHING = "order=- notices=- events=-"


def number(word):
    return word if word == "-" else int(word)


def state_of(words):
    """The state that a `record` line lends, and whether the Rust's types hold it."""
    *settings, dirty, pending, source, amount, stamp, heating, cooling, armed, last = map(number, words[1:17])
    shadow = list(map(number, words[17:]))
    held = settings[6] in MODES and source in SOURCES and (not shadow or shadow[3] in MODES and shadow[5] in RUNNING_MODES)
    fields = *settings, dirty, pending, "/".join(map(str, shadow)) or "-", last, source, amount, stamp
    pair = "-" if heating == "-" else f"{heating}/{cooling}"
    names = re.findall(r"\w+=", BLANK)
    return " ".join(name + str(field) for name, field in zip(names, (*fields, pair, armed))), held


def state_in(said):
    """The state in an answer, or the one that a `record` line lends."""
    return state_of(said.split(" "))[0] if said.startswith("record ") else STATE.search(said)[0]


def record_of(state):
    """The `record` line that lends a state."""
    *fields, shadow, last, source, amount, stamp, pair, armed = STATE.fullmatch(state).groups()
    pair = "- -" if pair == "-" else pair.replace("/", " ")
    snapshot = "" if shadow == "-" else " " + shadow.replace("/", " ")
    return f"record {' '.join(fields)} {source} {amount} {stamp} {pair} {armed} {last}{snapshot}"


def why_unsound(config, state):
    fields = STATE.fullmatch(state).groups()
    return config.unsound(list(map(int, fields[:7])), fields[10])


# --- C-20

ATTRIBUTES = 1 << 9  # the pending bit with which a sweep attributes a local change
CHANGE_NOTICES = {f"{code:x}" for code in CHANGES}  # what a recorded change notices, as far as it is served


def amount_of(text):
    return re.search(r" amt=(\S+)", text)[1]


def with_amount(text, amount):
    return re.sub(r" amt=\S+", f" amt={amount}", text)


def moved_both(config, words, state):
    """Heating's and cooling's saturated difference, if this call on this record is a sweep that finds both moved; else nothing."""
    if words[0] != "sweep" or not (config.heats and config.cools):
        return None
    field = dict(re.findall(r"(\w+)=(\S+)", state))
    if not int(field["pend"]) & ATTRIBUTES or field["att"] == "-":
        return None
    claimed = map(int, field["att"].split("/"))
    moved = [int(field[name]) - old for name, old in zip(("h", "c"), claimed)]
    return [str(max(-32768, min(32767, difference))) for difference in moved] if all(moved) else None


# --- C-14

def goes_apart(config, words):
    """Whether the Rust may answer this call otherwise: only with AUTO does a store move the other side."""
    return config.auto and is_both(words)


# --- C-11

SETTINGS = "h c minh maxh minc maxc mode".split()


def opening_on_defaults(config):
    """The line at which the Rust repairs the defaults. In place of a mode that its types lack it gets 5, which no plant supports either."""
    *settings, mode = config.defaults
    return " ".join(map(str, ("open", *settings, mode if mode in MODES else 5)))


def with_fields(state, changes):
    fields = dict(re.findall(r"(\w+)=(\S+)", state)) | changes
    return " ".join(f"{name}={value}" for name, value in fields.items())


def settings_in(state):
    return dict(zip(SETTINGS, STATE.fullmatch(state).groups()))


def reset_due(before, opened):
    """The answer to a reset on a record that passes row 28, from the Rust's to an opening on the defaults: its settings, its order and its
    pending bit beside those that there are; the mark cleared, one notice, and all else as it was."""
    repaired = ANSWER.fullmatch(opened)
    pending = {"pend": int(STATE.fullmatch(before)[9]) | int(STATE.fullmatch(repaired[2])[9])}
    state = with_fields(before, settings_in(repaired[2]) | {"dirty": 0} | pending)
    return f"0 {state} order={repaired[3]} notices=ffff events=-"


def defaults_put_in(config, before):
    """The Rust's answer to a reset."""
    state = with_fields(before, dict(zip(SETTINGS, config.defaults)) | {"dirty": 0})
    return f"0 {state} order=- notices=ffff events=-"


def with_order(config, theirs):
    """The Rust's answer to a reset, with the order that its settings give and the bit of an order."""
    state = ANSWER.fullmatch(theirs)[2]
    field = dict(re.findall(r"(\w+)=(\S+)", state))
    pending = int(field["pend"]) | 0x200 * bool(config.events)
    rest = theirs.split(" order=- ")[1]
    return f"0 {with_fields(state, {'pend': pending})} order={field['mode']}/{field['h']}/{field['c']} {rest}"


# --- C-15

SCHEDULE, EXTERNAL = "1", "2"


def field_of(state, name):
    return re.search(rf"\b{name}=(\S+)", state)[1]


def with_source(text, source):
    return re.sub(r" src=\S+", f" src={source}", text)


def heating_write(config, words, state):
    """What the Rust is asked for in place of an hour that acts on this record; nothing for any other call."""
    if words[0] != "hour" or why_unsound(config, state) or config.added(words):
        return None
    value = hours.stored(config, words, state)
    readings = (word if word in "@-" else int(word) for word in words[2:])  # without zeros in front, so that the line gets no longer
    return None if value is None else " ".join(map(str, ("heat", value, *readings)))


# --- C-12

SIDES = {(True, False): "heating", (False, True): "cooling", (True, True): "both"}


def cut_due(config, words, before, answer):
    """The field due at the end of an answer, which is given as ANSWER reads it, and whose amounts in it are other than 0, if any."""
    amounts = removed(config, words, before, int(answer[1]), answer[2])
    return " cut={}/{}".format(*amounts), SIDES.get(tuple(map(bool, amounts)))


def without_cut(answer):
    """An answer without that field, and the field, empty if there is none."""
    rest, label, amounts = answer.rpartition(" cut=")
    return (rest, label + amounts) if label else (answer, "")


# --- The rules

BOTH, CONSOLE_ALONE, UNREADABLE = range(3)  # how a line is meant

BOTH_MOVED, BOTH_HAD_MOVED, BOTH_RAISED = "both moved", "both had moved", "both raised"
RESET, RESET_REPAIRED, RESET_OPENED = RESETS = "reset", "reset, repaired", "reset, beside an opening"
HOUR_ACTS, HOUR_IDLE = "hour that acts", "hour that does not act"
LISTED = {
    HOUR_ACTS: "DIFFERENCES 12: C-15, an hour that acts, beside a heating write",
    HOUR_IDLE: "DIFFERENCES 12: C-15, an hour that does not act",
    32: "DIFFERENCES 12: C-15, row 32",
    RESET: "DIFFERENCES 11: C-11, reset, defaults that need no repair",
    RESET_REPAIRED: "DIFFERENCES 11: C-11, reset, defaults that need repair",
    RESET_OPENED: "DIFFERENCES 11: C-11, reset, defaults of no row: its opening alone",
    BOTH_RAISED: "DIFFERENCES 9: C-14, Both with AUTO",
    BOTH_MOVED: "DIFFERENCES 8: C-20, both setpoints moved",
    BOTH_HAD_MOVED: "DIFFERENCES 8: C-20's amount still stands",
    20: "DIFFERENCES 1: row 20, the Rust's subtraction leaves 16 bits",
    24: "DIFFERENCES 3: row 24",
    26: "DIFFERENCES 2: row 26, the Rust leaves the record as it was",
    27: "DIFFERENCES 3: row 27",
    28: "DIFFERENCES 3: row 28, ",
}


class Counts:
    def __init__(self):
        self.lines = self.calls = self.compared = 0
        self.kinds, self.numbers, self.left_out, self.hours = (collections.Counter() for _ in range(4))
        self.listed, self.removed = (collections.defaultdict(collections.Counter) for _ in range(2))

    def domain(self):
        """Calls in document 01's domain, resets, and hours that act: all but those answered 24, 27, 28 or 32, other hours, and those whose
        values the Rust's types lack."""
        rows = 20, 26, BOTH_MOVED, BOTH_HAD_MOVED, BOTH_RAISED, *RESETS, HOUR_ACTS
        return self.compared + sum(sum(self.listed[LISTED[row]].values()) for row in rows)


class Judge:
    """Follows an input through both programs' answers. `step` gives a complaint, or nothing."""

    def __init__(self, counts, table):
        self.counts = counts
        self.table = table
        self.config = Config([0] * 5, [0] * 7)
        self.lend(BLANK, held=True)

    def lend(self, state, held):
        self.state = state
        self.held = held  # whether the Rust's types hold the record
        self.level = True  # whether the Rust has the console's record, but for the amount
        self.rusts = amount_of(state)  # the amount that the Rust has
        self.lost = False  # whether an unlisted difference came up since

    def step(self, line, how, at, ours, theirs, beside):
        """`beside` are the Rust's answers to what it was asked beside the line."""
        self.due = ""  # the field of C-12, or the answer to a reset or an hour, where the console's is another
        self.beside = beside
        self.counts.lines += 1
        if how == UNREADABLE:
            self.counts.kinds["(unreadable)"] += 1
            return None if ours == theirs == f"error {at}" else "the line is unreadable"
        words = line.split(" ")
        if words[0] in ("config", "record"):
            if words[0] == "config":
                self.config = Config.read(words)
            else:
                self.lend(*state_of(words))
            return None if ours == theirs == "ok" else "ok is due"

        self.counts.calls += 1
        self.counts.kinds[words[0]] += 1
        ours, cut = without_cut(ours)
        answer = ANSWER.fullmatch(ours)
        if not answer or (answer[6] is None) == (words[0] == "deadline"):
            return "no answer of this form is due"
        self.counts.numbers[int(answer[1])] += 1
        before, self.state = self.state, answer[2]
        why = self.beside_the_rust(words, how, before, ours, theirs)
        due, sides = cut_due(self.config, words, before, answer)
        if sides:
            self.counts.removed[words[0]][sides] += 1
        if cut != due:
            self.due += due
            why = why or ("C-12's amounts are due" if cut else "the field of C-12 is missing")
        return why

    def beside_the_rust(self, words, how, before, ours, theirs):
        if words[0] == "open":
            return self.opening(words, ours, theirs)
        if self.lost:
            self.counts.left_out["after an unlisted difference"] += 1
            return None
        why = self.call(words, how, before, ours, theirs)
        if goes_apart(self.config, words) or words[0] == "reset" or heating_write(self.config, words, before):
            self.lend(*state_of(record_of(self.state).split(" ")))
        return why

    def opening(self, words, ours, theirs):
        self.lend(self.state, int(words[7]) in MODES)
        row = self.config.row
        if row and ours != f"{row} {BLANK} {NOTHING}":
            return f"row {row} is due, and the blank record"
        if row == 20 and self.held and theirs.startswith("? panic") and self.config.gap_leaves_16_bits():
            self.level = False
            return self.list(20, outcome(theirs))
        if not self.held:
            return self.leave_out("opening", theirs)
        return self.equal(ours, theirs)

    def call(self, words, how, before, ours, theirs):
        reason = why_unsound(self.config, before)
        row = 28 if reason else self.config.added(words)
        if row:
            if ours != f"{row} {before} {NOTHING}" + " deadline=-" * (words[0] == "deadline"):
                return f"row {row} is due, and the record as it was"
            if row == 26 and (not self.held or int(words[1]) not in MODES):
                return self.leave_out("record" if not self.held else "oobmode", theirs)
            if row == 26 and theirs != f"0 {with_amount(before, self.rusts)} {NOTHING}":
                return "row 26 is due, and the Rust does not just leave the record as it was"
            self.level &= row == 26 or how == CONSOLE_ALONE or words[0] == "hour"
            if words[0] == "hour":
                self.counts.hours[f"refused by {row}"] += 1
            return self.list(row, outcome(theirs), reason)
        if words[0] == "hour":
            return self.hour(words, before, ours, theirs)
        if is_both(words) and ours != raise_both(self.config, words, before):
            return "C-14's answer is due"
        if words[0] == "reset":
            return self.reset(before, ours, theirs)
        if not self.held:
            return self.leave_out("record", theirs)
        if not self.level:
            return "compare.py asks on after a listed difference"
        if goes_apart(self.config, words) and not theirs.startswith("?"):
            amount = amount_of(before) if amount_of(theirs) == self.rusts else amount_of(theirs)  # C-20's may still stand
            return self.list(BOTH_RAISED, "answers the same" if ours == with_amount(theirs, amount) else "answers otherwise")
        lacking = {"mode": (MODES, 22), "sequence": (SEQUENCES, 0)}.get(words[0])
        if lacking and int(words[1]) not in lacking[0]:
            if ours != f"{lacking[1]} {before} {NOTHING}":
                return f"row {lacking[1]} is due, and the record as it was"
            return self.leave_out(words[0], theirs)
        return self.attributed(words, before, ours, theirs)

    def reset(self, before, ours, theirs):
        opened = self.beside[0]
        if not opened.startswith("0 "):
            return "the Rust does not open on the defaults: " + opened
        if ours != reset_due(before, opened):
            self.due = reset_due(before, opened)
            return "C-11's answer is due"
        kept = list(settings_in(ANSWER.fullmatch(opened)[2]).values()) == list(map(str, self.config.defaults))
        if self.config.numbers[:7] + self.config.defaults not in self.table:
            rust = "leaves them as they are" if kept else "repairs them"
            return self.list(RESET_OPENED, rust) if theirs == "? table" else "the Rust has other defaults"
        if not self.held:
            return self.leave_out("record", theirs)
        if not self.level:
            return "compare.py asks on after a listed difference"
        if theirs != defaults_put_in(self.config, with_amount(before, self.rusts)):
            return "the Rust does not just put the defaults in"
        if kept and ours != with_amount(with_order(self.config, theirs), amount_of(before)):
            return "the answers differ, and not by order and bit 9 alone"
        bit = " pend={} ".format(STATE.fullmatch(ANSWER.fullmatch(ours)[2])[9]) in theirs
        return self.list(RESET if kept else RESET_REPAIRED, "no order" if bit else "no order, no bit 9")

    def hour(self, words, before, ours, theirs):
        value = hours.stored(self.config, words, before)
        if value is None:
            self.counts.hours["not acting"] += 1
            self.lost = ours != f"0 {before} {NOTHING}"
            return "the hour does not act, and the record as it was is due" if self.lost else self.list(HOUR_IDLE, outcome(theirs))
        if not self.held:
            return self.leave_out("record", theirs)
        if not self.level:
            return "compare.py asks on after a listed difference"
        recorded = str(value) != field_of(before, "h")
        if theirs.startswith("?") or field_of(theirs, "src") != (EXTERNAL if recorded else field_of(before, "src")):
            return "the Rust does not just write the setpoint"
        due = with_source(theirs, SCHEDULE) if recorded else theirs
        if not recorded and amount_of(theirs) == self.rusts:  # C-20's may still stand
            due = with_amount(theirs, amount_of(before))
        if ours != due:
            self.due = due
            return "C-15's answer is due"
        self.counts.hours["acting"] += 1
        self.counts.hours["acting, recorded"] += recorded
        self.counts.hours["acting, the entry clamped"] += hours.is_clipped(words, value)
        self.counts.hours["acting, cooling moves"] += field_of(ours, "c") != field_of(before, "c")
        self.list(HOUR_ACTS, "another source" if recorded else "answers the same")

    def attributed(self, words, before, ours, theirs):
        """Equal answers but for the amount of C-20, from the sweep that records it until another is recorded."""
        if theirs.startswith("?"):
            return self.equal(ours, theirs)
        had, self.rusts = self.rusts, amount_of(theirs)
        if moved := moved_both(self.config, words, before):
            heating, cooling = moved
            if self.rusts != heating:
                return "both setpoints moved, and the Rust does not record heating's amount"
            return self.amount(BOTH_MOVED, cooling, ours, theirs)
        recorded = CHANGE_NOTICES.intersection(ANSWER.fullmatch(theirs)[4].split(","))
        if ours != theirs and had == self.rusts != amount_of(before) and not recorded:
            return self.amount(BOTH_HAD_MOVED, amount_of(before), ours, theirs)
        return self.equal(ours, theirs)

    def amount(self, row, amount, ours, theirs):
        self.lost = ours != with_amount(theirs, amount)
        if self.lost:
            return "cooling's amount is due, and all else as the Rust" if row == BOTH_MOVED else "the answers differ"
        self.list(row, "the same amount" if self.rusts == amount else "heating's amount")

    def equal(self, ours, theirs):
        self.counts.compared += 1
        self.lost = ours != theirs
        return "the answers differ" if self.lost else None

    def list(self, row, rust, reason=""):
        self.counts.listed[LISTED[row] + reason][rust] += 1

    def leave_out(self, where, theirs):
        self.counts.left_out["? type: " + where] += 1
        return None if theirs == "? type" else "a value is held that the Rust's types lack"


def outcome(theirs):
    """What the Rust did, in a word or two."""
    if theirs is None:
        return "not asked"
    return " ".join(theirs.split(" ")[:2]) if theirs.startswith("?") else "answers " + theirs.split(" ")[0]


# --- The two programs

class Pair:
    def __init__(self, console, oracle, folder, table):
        self.programs, self.folder, self.table = (console, oracle), pathlib.Path(folder), table

    def ask(self, items):
        """Both programs' answers to lines, each with how it is meant, none where no answer is due; and the Rust's to what it is asked
        beside the line."""
        ours = self.answers(self.programs[0], [line for line, _ in items])
        asked = []  # of the Rust, at each line: behind Both with AUTO, a reset and an hour that acts, it gets the console's record
        config, had = Config([0] * 5, [0] * 7), BLANK
        for (line, how), answer in zip(items, ours):
            asked.append([line if how != CONSOLE_ALONE else "#"])
            words = line.split(" ")
            if how == BOTH and words[0] == "config":
                config = Config.read(words)
            if how == BOTH and words[0] == "reset":
                asked[-1].append(opening_on_defaults(config))
            write = None
            if how == BOTH and words[0] == "hour":
                write = heating_write(config, words, state_in(had))
                asked[-1] = [write or "#"]
            apart = how == BOTH and (words[0] == "reset" or goes_apart(config, words) or write)
            if apart and (done := ANSWER.fullmatch(without_cut(answer)[0])):
                asked[-1].append(record_of(done[2]))
            if how != UNREADABLE and words[0] == "record":
                had = line
            elif answer is not None and STATE.search(answer):
                had = answer
        theirs = self.answers(self.programs[1], [line for lines in asked for line in lines])
        return ((answer, *told) for answer, told in zip(ours, by_line(asked, theirs)))

    def answers(self, program, lines):
        """A program's answer to each line, or none where none is due."""
        path = self.folder / "lines"
        path.write_bytes("".join(line + "\n" for line in lines).encode("latin-1"))
        with open(path, "rb") as stdin:
            done = subprocess.run([program], stdin=stdin, stdout=subprocess.PIPE)
        told = done.stdout.decode("latin-1").split("\n")
        due = list(filter(answered, lines))
        if told.pop() or done.returncode or len(told) != len(due):
            at = (due + ["the end"])[min(len(told), len(due))]
            sys.exit(f"{program}: exit {done.returncode}, {len(told)} answers where {len(due)} are due, as far as: {at}")
        told = iter(told)
        return [next(told) if answered(line) else None for line in lines]


def answered(line):
    return line != "" and line[0] != "#"


def by_line(asked, answers):
    """The answer to each line, and those to what was asked beside it. An unreadable line has its number without what was asked beside."""
    answers, more = iter(answers), 0
    for lines in asked:
        answer, *beside = [next(answers) for _ in lines]
        unreadable = re.fullmatch(r"error (\d+)", answer or "")
        yield f"error {int(unreadable[1]) - more}" if unreadable else answer, beside
        more += len(beside)


Complaint = collections.namedtuple("Complaint", "why lines longer ours theirs due")


def run(pair, items, counts):
    """Complaints about a batch, each with the least lines that should draw it, and the lines since the record was set."""
    judge = Judge(counts, pair.table)
    config, since = [], 0
    for index, ((line, how), (ours, theirs, beside)) in enumerate(zip(items, pair.ask(items))):
        if ours is None:
            continue
        state, word = judge.state, line.split(" ")[0]
        why = judge.step(line, how, index + 1, ours, theirs, beside)
        if why:
            lead = [] if word in ("config", "open", "record") else [record_of(state)]
            least = [line] if how == UNREADABLE else [*config, *lead, line]
            yield Complaint(why, least, [*config, *(each for each, _ in items[since : index + 1])], ours, theirs, judge.due)
        if how != UNREADABLE and word == "config":
            config = [line]
        if how != UNREADABLE and word in ("open", "record"):
            since = index


def cut_down(pair, found, plant):
    """The same complaint, drawn by fewer words and lesser numbers."""

    def drawn(lines):
        """The complaint, if these lines draw it at their end and no other."""
        try:
            again = list(run(pair, [(line, BOTH) for line in lines], Counts()))
        except (SystemExit, ValueError, TypeError, AttributeError, IndexError):
            return None  # not the same kind of lines any more
        same = [each.why for each in again] == [found.why] and again[0].lines[-1] == lines[-1]
        return again[0]._replace(lines=lines) if same else None

    def smaller(words):
        if "@" in words:
            yield words[: words.index("@")]
        if words[0] == "record":
            yield words[:17]
            yield words[:13] + ["-", "-"] + words[15:]
        if words[0] == "config":
            yield words[:6] + plant
            for place in 2, 3, 4, 5:
                value = int(words[place])
                for bit in range(64):
                    if value >> bit & 1:
                        yield words[:place] + [str(value - (1 << bit))] + words[place + 1 :]
        else:
            for place in range(1, len(words)):
                if words[place] not in ("@", "-"):
                    yield words[:place] + ["-"] + words[place + 1 :]
                    yield words[:place] + ["0"] + words[place + 1 :]

    if found.why == "the line is unreadable":
        return found
    best = drawn(found.lines)
    if not best:
        return found._replace(lines=found.longer)
    again = True
    while again:
        again = False
        for index, line in enumerate(best.lines):
            for words in smaller(line.split(" ")):
                lines = best.lines[:index] + [" ".join(words)] + best.lines[index + 1 :]
                less = drawn(lines) if lines != best.lines else None
                if less:
                    best, again = less, True
                    break
    return best


# --- Drawing

class Draw(random.Random):
    def of(self, *options):
        return options[int(self.random() * len(options))]

    def chance(self, part):
        return self.random() < part

    def below(self, bound):
        return int(self.random() * bound)

    def some(self, codes, part=0.5):
        return [code for code in codes if self.chance(part)]

    def within(self, low, high):
        """A number from low to high, often at an end."""
        return self.of(low, high, min(low + 1, high), max(high - 1, low), *(low + self.below(high - low + 1) for _ in range(3)))

    def any16(self):
        return self.of(-32768, -32767, -1, 0, 1, 32766, 32767, self.below(65536) - 32768, self.below(65536) - 32768)

    def near(self, points, band):
        """At or beside one of the points, or a dead band from it, or between two, or anywhere."""
        kind, point = self.below(20), self.of(*points)
        if kind < 7:
            value = point
        elif kind < 10:
            value = point + self.of(-1, 1)
        elif kind < 14:
            value = point + self.of(-band, band) + self.of(0, 0, -1, 1)
        elif kind < 18:
            low, high = sorted((point, self.of(*points)))
            value = low + self.below(high - low + 1)
        else:
            value = self.any16()
        return max(-32768, min(32767, value))

    def seconds(self):
        return self.of("-", "-", 0, 1, self.below(1 << 32), (1 << 32) - 1)

    def relays(self):
        return self.of(0, 1 << self.below(8), self.below(128), self.below(128), 127, self.getrandbits(16))


def attributes(draw, features):
    """Right for the features; what is optional is there or not."""
    heats, cools, auto = (bool(features & bit) for bit in (HEAT, COOL, AUTO))
    heat_limits = heats and draw.chance(0.7)
    cool_limits = heat_limits if auto else cools and draw.chance(0.7)
    codes = [0x00, 0x1B, 0x1C] + [0x12] * heats + [0x11] * cools + [0x19] * auto
    codes += HEAT_LIMITS * heat_limits + COOL_LIMITS * cool_limits + draw.some([0x1E] * auto + [0x29], 0.7)
    codes += CHANGES if draw.chance(0.6) else draw.some(CHANGES)
    if draw.chance(0.1):
        codes += draw.some(UNNAMED)
    return bits(codes)


def events(draw, features):
    """Right for the features, and perhaps one that document 01 does not name."""
    codes = [0, 3, 4] + [1] * (not features & LTNE) + [5] * bool(features & AUTO) if features & TEVT else []
    return bits(codes + [8 + draw.below(56)] * draw.chance(0.08))


def good_config(draw, table):
    """Accepted by rows 1 to 21."""
    while True:
        numbers = draw.of(*table, *[table[0]] * (len(table) // 8))
        heats, cools = numbers[5] in (2, 3, 4, 5), numbers[5] in (0, 1, 4, 5)
        features = HEAT * heats | COOL * cools | AUTO * (heats and cools and draw.chance(0.75))
        features |= LTNE * draw.chance(0.15) | TEVT * draw.chance(0.75)
        commands = draw.of(1, 1, draw.getrandbits(64) | 1)
        config = Config([11, features, attributes(draw, features), events(draw, features), commands], numbers)
        if not config.row:
            return config


def bad_config(draw, table):
    """Most often refused, by any of rows 1 to 21."""
    features = draw.of(HEAT, COOL, HEAT | COOL, HEAT | COOL | AUTO, HEAT | COOL | AUTO)
    features |= LTNE * draw.chance(0.2) | TEVT * draw.chance(0.5)
    served = [11, features, attributes(draw, features), events(draw, features), 1]
    for _ in range(draw.of(1, 1, 2)):
        kind = draw.below(12)
        if kind == 0:
            served[0] = draw.of(0, 10, 12, 65535)
        elif kind == 1:
            served[1] ^= 1 << draw.below(32)
        elif kind == 2:
            served[1] = draw.of(0, AUTO, HEAT | AUTO, COOL | AUTO, LTNE, TEVT)
        elif kind in (3, 4):
            served[2] ^= 1 << draw.of(*NAMED)
        elif kind == 5:
            served[2] ^= bits(draw.of(HEAT_LIMITS, COOL_LIMITS))
        elif kind in (6, 7):
            served[3] ^= 1 << draw.below(8)
        elif kind == 8:
            served[4] = draw.of(0, 2, draw.getrandbits(64) & ~1)
        elif kind == 9:
            served[2] = draw.getrandbits(64)
    return Config(served, draw.of(*table))


class Record:
    """One that passes row 28, and is otherwise anything."""

    def __init__(self, draw, config):
        abs_min_heat, abs_max_heat, abs_min_cool, abs_max_cool = config.limits
        min_heat, max_heat, min_cool, max_cool = (draw.any16() for _ in range(4))
        whole = draw.chance(0.4)
        if config.cool_limits:
            min_cool = abs_min_cool if whole else draw.within(abs_min_cool, abs_max_cool)
            max_cool = abs_max_cool if whole else draw.within(min_cool, abs_max_cool)
        if config.heat_limits:
            tops = (min(abs_max_heat, cool - config.band) if config.auto else abs_max_heat for cool in (min_cool, max_cool))
            low, high = tops
            min_heat = abs_min_heat if whole else draw.within(abs_min_heat, low)
            max_heat = high if whole else draw.within(min_heat, high)
        low, high = (min_heat, max_heat) if config.heat_limits else (abs_min_heat, abs_max_heat)
        heating = draw.within(low, high) if config.heats else draw.any16()
        low, high = (min_cool, max_cool) if config.cool_limits else (abs_min_cool, abs_max_cool)
        cooling = draw.within(low, high) if config.cools else draw.any16()
        if config.auto and draw.chance(0.5):
            cooling = max(low, min(high, heating + config.band + draw.of(0, 0, 1, -1, 10, 100)))
        self.settings = [heating, cooling, min_heat, max_heat, min_cool, max_cool, draw.of(*config.modes)]
        self.points = [*self.settings[:6], *config.limits]

        pair = [heating if config.heats else 0, cooling if config.cools else 0]
        moved = [draw.near(pair, 10) if draw.chance(0.5) else value for value in pair]
        self.pair = draw.of(["-", "-"], pair, pair, moved, [draw.any16(), draw.any16()])
        self.dirty = draw.below(2)
        some = draw.below(1024)
        self.pending = draw.of(0, 512, 512 | 1 << draw.below(10), some, some | 512, 1023, 1 << draw.below(16), draw.getrandbits(16))
        self.source = draw.of(*SOURCES)
        self.amount = draw.of("-", 0, draw.any16())
        self.timestamp = draw.of(0, draw.below(1 << 32), (1 << 32) - 1)
        self.armed = draw.seconds()
        late = draw.of(draw.getrandbits(64) % LAST_CLOCK, LAST_CLOCK - 1, LAST_CLOCK)
        self.last = draw.of("-", "-", 0, 1, 60000, draw.below(10**7), late)
        self.shadow = []
        if draw.chance(0.75):
            relays = draw.relays() & draw.of(config.relays, config.relays, 0xFFFF)
            running = 4 if relays & config.relays & 0x09 else 3 if relays & config.relays & 0x12 else 0
            self.shadow = [
                draw.of("-", 2000, 2000, draw.any16(), draw.any16()),
                draw.of(heating, heating, draw.near(self.points, config.band)),
                draw.of(cooling, cooling, draw.near(self.points, config.band)),
                draw.of(*[self.settings[6]] * 6, *config.modes, *MODES),
                relays,
                draw.of(running, running, *RUNNING_MODES),
            ]

    def spoil(self, draw, config):
        """Makes row 28 due."""
        while not config.unsound(self.settings, self.last):
            kind = draw.below(9)
            if kind < 6:
                self.settings[kind] = draw.near(self.points, config.band)
            elif kind == 6:
                self.settings[6] = draw.of(*MODES)
            elif kind == 7:
                self.last = draw.of(LAST_CLOCK + 1, (1 << 64) - 1)
            else:
                self.settings[:6] = [draw.any16() for _ in range(6)]

    def outgrow(self, draw):
        """Gives it a value that the Rust's types lack."""
        if self.shadow and draw.chance(0.7):
            place, lacking = draw.of((3, (2, 10, 255)), (5, (1, 2, 5, 255)))
            self.shadow[place] = draw.of(*lacking)
        else:
            self.source = draw.of(3, 4, 255)

    def line(self):
        rest = self.dirty, self.pending, self.source, self.amount, self.timestamp, *self.pair, self.armed, self.last, *self.shadow
        return "record " + " ".join(map(str, (*self.settings, *rest)))


KINDS = (
    "heat cool mode raise oobheat oobcool ooblimits sweep sweep timer".split() * 3
    + "minheat maxheat mincool maxcool oobmode deadline start arm".split() * 2
    + "oobtemp oobrunning oobupdate sequence".split()
)


def call(draw, config, points):
    """A call without its readings, its numbers near the points."""
    word = draw.of(*KINDS)
    while word in WRITES and not config.serves(WRITES[word]) and draw.chance(0.9):
        word = draw.of(*KINDS)
    if word in WRITES or word in ("oobheat", "oobcool"):
        return f"{word} {draw.near(points, config.band)}"
    if word == "ooblimits":
        limits = [draw.near(points, config.band) for _ in range(4)]
        if draw.chance(0.25):  # stored limits, the heating ones raised: repair may take them back
            limits = [min(32767, limit + draw.of(0, 1, 100, 32767)) for limit in points[2:4]] + points[4:6]
        return " ".join(map(str, (word, *limits)))
    if word in ("mode", "oobmode"):
        return f"{word} {draw.of(*config.modes * 4, *MODES, draw.below(256) if draw.chance(0.1) else 0)}"
    if word == "sequence":
        return f"{word} {draw.of(*SEQUENCES, draw.below(256))}"
    if word == "raise":
        mode = draw.of(0, 1, 2, 0, 1, 2, 0, 1, 2, 3, draw.below(256))
        return f"{word} {mode} {draw.of(-128, 127, 0, 1, -1, draw.below(256) - 128, draw.below(41) - 20)}"
    return word


def readings(draw, line, relays, temperatures, clock):
    if draw.chance(0.15 if line in ("sweep", "timer", "start", "deadline") else 0.4):
        return ""
    before = draw.of(relays, relays, draw.relays())
    after = draw.of(before, before, draw.relays())
    return f" @ {before} {after} {draw.of(*temperatures)} {draw.seconds()} {draw.seconds()} {clock}"


def around(temperature, delta):
    """Temperatures about as far from this one as an event takes."""
    base = 2000 if temperature == "-" else temperature
    steps = 0, 0, 1, delta, -delta, delta - 1, 1 - delta, delta + 1, -delta - 1
    return ["-", "-", -32768, 32767, *(max(-32768, min(32767, base + step)) for step in steps)]


def clock_after(draw, last):
    """A clock about as long after the last event as the next one takes, or at row 27."""
    base = last if last != "-" else draw.of(0, 0, 60000, LAST_CLOCK - 60000)
    step = draw.of(0, 0, 1, 59999, 60000, 60000, 60001, -1, -60000, 10**9)
    clock = max(0, min(LAST_CLOCK, base + step))
    return draw.of(LAST_CLOCK, LAST_CLOCK + 1, (1 << 64) - 1) if draw.chance(0.06) else clock


def padded(draw, line, length):
    """The line with zeros in front of one of its numbers, so that it gets this length."""
    words = line.split(" ")
    places = [place for place, word in enumerate(words) if re.fullmatch(r"-?\d+", word)]
    if not places or len(line) >= length:
        return line
    place = draw.of(*places)
    sign, digits = re.fullmatch(r"(-?)(\d+)", words[place]).groups()
    return " ".join(words[:place] + [sign + "0" * (length - len(line)) + digits] + words[place + 1 :])


def unreadable(draw, line):
    """The line with something in it that cannot be read."""
    words = line.split(" ")
    kind = draw.below(9)
    if kind == 0:
        return line + " 7"
    if kind == 1:
        return line + draw.of(" ", "\r", "\t", "\0", "@", "\xff", " @", " #", ",")
    if kind == 2:
        return draw.of(" ", "\t", "+", "-", "\0", "\xef\xbb\xbf") + line
    if kind == 3:
        place = draw.below(len(words))
        return " ".join(words[:place] + [words[place].upper() if place == 0 else words[place] + "x"] + words[place + 1 :])
    if kind == 4:
        place = draw.below(len(words) + 1)
        return " ".join(words[:place] + [""] + words[place:])
    if kind == 5 and len(words) > 2:
        return " ".join(words[:-1])
    if kind == 6 and len(words) > 1:
        past = "18446744073709551616", "-18446744073709551616", "1" * 60
        return " ".join([words[0], draw.of(*past, "+5", "--5", "5-", "0x5", "1.0", "1e3", "", "--", "5\0", "\xb2"), *words[2:]])
    if kind == 7 and len(words) > 1:
        return padded(draw, line, 251)
    words = "hea 5", "heatt 5", "records", "conf", "Open", "@", "- 5", "0", "heat", "heat 5 @", "heat 5 @ 0 0 - - -", "raise 1", "arm 0"
    return draw.of(*words)


def said(draw, line):
    """The line, to both; now and then with zeros in it, and with something beside it that asks nothing."""
    if draw.chance(0.01):
        yield draw.of("", "#", "# heat 2000", "#" + "x" * 300, "#\0\r"), BOTH
    if draw.chance(0.01):
        yield unreadable(draw, line), UNREADABLE
    yield padded(draw, line, len(line) + draw.of(1, 3, 25, 250 - len(line))) if draw.chance(0.02) else line, BOTH


def records_script(draw, table):
    """Records of one configuration, each lent for a call or a few."""
    config = good_config(draw, table)
    yield config.line, BOTH
    for _ in range(15):
        record = Record(draw, config)
        sound = draw.chance(0.94)
        if not sound:
            record.spoil(draw, config)
        elif draw.chance(0.02):
            record.outgrow(draw)
        temperature, *_, relays, _ = record.shadow or ["-", 0, 0]
        yield from said(draw, record.line())
        for _ in range(draw.of(1, 1, 2, 3)):
            line = call(draw, config, record.points)
            line += readings(draw, line, relays, around(temperature, config.delta), clock_after(draw, record.last))
            yield from said(draw, line)
            if sound and config.added(line.split(" ")) in (24, 27):
                break  # the Rust goes its own way


def opening(draw, config, modes):
    points = [*config.limits, draw.any16(), draw.any16()]
    settings = [draw.near(points, config.band) for _ in range(6)]
    if draw.chance(0.5):
        settings[2:] = config.limits
    line = "open " + " ".join(map(str, (*settings, draw.of(*config.modes * 3, *modes))))
    return line + readings(draw, line, draw.relays(), around("-", config.delta), clock_after(draw, "-")) * draw.chance(0.5)


def chain_script(draw, table):
    """Hundreds of calls on one record that nothing sets again; rows 24 and 27 are asked of the console alone."""
    config = good_config(draw, table)
    yield config.line, BOTH
    record = Record(draw, config)
    yield opening(draw, config, MODES) if draw.chance(0.8) else record.line(), BOTH
    points = record.points + config.limits + [draw.within(*config.limits[side : side + 2]) for side in (0, 2)]
    words = [0, draw.relays(), draw.relays(), draw.relays()]
    temperatures = around(draw.of(2000, 2000, draw.any16()), config.delta)
    clock = draw.of(0, 1, 10**6, draw.getrandbits(60), LAST_CLOCK - 10**7)
    for _ in range(100 + draw.below(500)):
        clock = max(0, clock + draw.of(0, 0, 1, 1000, 30000, 59999, 60000, 60001, 10**6, -60000))
        line = call(draw, config, points)
        line += readings(draw, line, draw.of(*words), temperatures, min(clock, (1 << 64) - 1))
        if config.added(line.split(" ")) in (24, 27):
            yield line, CONSOLE_ALONE
        else:
            yield from said(draw, line)


def refused_script(draw, table):
    """Openings of configurations that are mostly refused, and calls on what they return."""
    for _ in range(10):
        config = bad_config(draw, table)
        yield from said(draw, config.line)
        yield from said(draw, opening(draw, config, MODES if draw.chance(0.95) else [2, 10, 255]))
        if config.row and draw.chance(0.3):
            if draw.chance(0.5):
                yield from said(draw, Record(draw, good_config(draw, table)).line())
            yield from said(draw, call(draw, config, config.limits * 2))


def changed_script(draw, table):
    """A configuration that changes under a record: a call, for which row 28 may be due or not."""
    for _ in range(8):
        config = good_config(draw, table)
        yield config.line, BOTH
        record = Record(draw, config)
        yield record.line(), BOTH
        if draw.chance(0.6):
            features = config.features ^ TEVT
            config = Config([11, features, attributes(draw, features), events(draw, features), 1], config.numbers)
        else:
            config = good_config(draw, table)
        yield config.line, BOTH
        yield from said(draw, call(draw, config, record.points))


def beside(draw, config, points, count):
    """Numbers, each at or beside a point or another one of them, or a dead band from it."""
    for _ in range(count):
        points = [*points, draw.near(points, config.band)]
    return points[-count:]


def repair_script(draw, table):
    """Openings and limits messages alone: each number at or beside another one of them, or a dead band from it."""
    config = good_config(draw, table)
    yield config.line, BOTH
    for _ in range(20):
        settings = beside(draw, config, config.limits, 6)
        yield "open " + " ".join(map(str, (*settings, draw.of(*config.modes * 3, *MODES)))), BOTH
        for _ in range(draw.of(0, 1, 1, 2)):
            yield "ooblimits " + " ".join(map(str, beside(draw, config, [*config.limits, *settings], 4))), BOTH


def both_script(draw, table):
    """Both alone, on records with and without a gap, by amounts that just reach a limit or do not."""
    config = good_config(draw, table)
    yield config.line, BOTH
    for _ in range(20):
        record = Record(draw, config)
        yield record.line(), BOTH
        steps = [(point - side) // 10 + step for point in record.points for side in record.settings[:2] for step in (0, 1)]
        for _ in range(draw.of(1, 1, 2, 3)):
            amount = draw.of(-128, 127, 0, 0, 1, -1, draw.below(256) - 128, draw.of(*steps), draw.of(*steps))
            line = f"raise 2 {max(-128, min(127, amount))}"
            yield line + readings(draw, line, draw.relays(), ["-"], 0), BOTH


def other_defaults(draw, config):
    """The configuration with defaults that stand in no row, or with none."""
    settings = beside(draw, config, config.limits, 6)
    if draw.chance(0.3):
        settings[2:] = config.limits
    defaults = draw.of([], *[[*settings, draw.of(*config.modes * 3, *MODES, 2, 10, 255)]] * 3)
    return Config(config.served, config.numbers[:7] + defaults)


def reset(draw):
    clock = draw.of(0, LAST_CLOCK, LAST_CLOCK + 1, (1 << 64) - 1)  # row 27 is not for a reset
    return "reset" + readings(draw, "reset", draw.relays(), ["-", 2000, draw.any16()], clock)


def with_resets(draw, script):
    """A script with resets among its calls, and now and then other defaults; drawn apart, so that all else in it stays as it was."""
    for line, how in script:
        word = line.split(" ")[0]
        if how == BOTH and word == "config" and draw.chance(0.2):
            line = other_defaults(draw, Config.read(line.split(" "))).line
        if how != UNREADABLE and word in KINDS and draw.chance(0.04):
            yield from said(draw, reset(draw))
        yield line, how


def hour(draw):
    acting, weekend = draw.of(*hours.ACTING), draw.of(126, 138, 150, 162)
    number = draw.of(*[acting] * 8, acting + draw.of(-1, 1), weekend, draw.of(0, 167, 168, 255), draw.below(256))
    line = f"hour {number}"
    clock = draw.of(0, LAST_CLOCK, LAST_CLOCK + 1, (1 << 64) - 1)  # row 27 is not for an hour
    return line + readings(draw, line, draw.relays(), ["-", 2000, draw.any16()], clock)


def with_hours(draw, script):
    """A script with hours among its calls; drawn apart, so that all else in it stays as it was."""
    for line, how in script:
        if how != UNREADABLE and line.split(" ")[0] in KINDS and draw.chance(0.06):
            yield from said(draw, hour(draw))
        yield line, how


def towards_the_week(draw, config, record):
    """Puts some of the record's numbers at or beside an entry of the week, or a dead band from one, as far as row 28 allows."""
    for _ in range(draw.of(0, 2, 4, 8)):
        place = draw.below(6)
        had = record.settings[place]
        record.settings[place] = draw.near([1700, 2000], config.band)
        if config.unsound(record.settings, record.last):
            record.settings[place] = had


def hours_script(draw, table):
    """Hours on records of every kind, some of them behind one another; now and then something else between."""
    config = good_config(draw, table)
    yield config.line, BOTH
    for _ in range(20):
        record = Record(draw, config)
        towards_the_week(draw, config, record)
        if draw.chance(0.03):
            record.spoil(draw, config)
        elif draw.chance(0.02):
            record.outgrow(draw)
        yield record.line(), BOTH
        for _ in range(draw.of(1, 1, 2, 4)):
            yield hour(draw), BOTH
            if draw.chance(0.1):
                line = draw.of("sweep", "arm", "oobheat 1700", "oobheat 2000", "oobcool 2000", "maxheat 2000", "minheat 1700")
                yield line + " @ 1 2 2000 - 7 0", CONSOLE_ALONE if config.added(line.split(" ")) else BOTH


def reset_script(draw, table):
    """Resets alone, on records of every kind, some of them behind one another."""
    config = good_config(draw, table)
    for _ in range(20):
        yield (config if draw.chance(0.5) else other_defaults(draw, config)).line, BOTH
        record = Record(draw, config)
        if draw.chance(0.03):
            record.spoil(draw, config)
        elif draw.chance(0.02):
            record.outgrow(draw)
        yield record.line(), BOTH
        for _ in range(draw.of(1, 1, 1, 2)):
            yield reset(draw), BOTH


def scripts_of(script, seed, table):
    draw = Draw(seed)
    while True:
        yield list(script(draw, table))


def drawn_scripts(seed, table):
    draw, resets, hourly = Draw(seed), Draw(f"{seed} resets"), Draw(f"{seed} hours")
    scripts = [chain_script] * 4 + [refused_script] * 4 + [changed_script] + [records_script] * 31
    while True:
        yield list(with_hours(hourly, with_resets(resets, draw.of(*scripts)(draw, table))))


# --- SHORT LISTS, run through completely

BOTH_SIDES = HEAT | COOL | AUTO
OPENING = "open 2000 2250 700 2900 1600 3200 1"
LENT = "record 2000 2250 700 2900 1600 3200 1 0 512 0 - 0 2000 2250 - -"
LIST_CALLS = """
heat 2000; heat 2900; cool 1600; cool 2250; minheat 2100; maxheat 1350; mincool 2500; maxcool 3150; mode 0; mode 4 @ 0 1 - - - 0
raise 2 10 @ 0 2 - - 7 0; raise 0 127; raise 1 -128; raise 3 0 @ 0 0 - - 9 0; arm @ 0 0 - - 5 0
oobheat 2900; oobcool 1600; oobmode 3; oobmode 5; ooblimits 2000 1000 1600 1600; oobupdate; start @ 1 0 2000 - - 0
sweep @ 0 0 2050 - 3 60000; sweep @ 2 0 2100 8 - 119999; timer @ 1 0 2000 - - 120000; deadline @ 0 0 2100 - - 0
"""


def plain(numbers, features=BOTH_SIDES | TEVT, without=()):
    """All that the features allow, but for some attributes."""
    sides = (HEAT, [0x12, *HEAT_LIMITS]), (COOL, [0x11, *COOL_LIMITS]), (AUTO, [0x19, 0x1E])
    absent = [code for bit, codes in sides if not features & bit for code in codes]
    told = [0, 3, 4] + [1] * (not features & LTNE) + [5] * bool(features & AUTO) if features & TEVT else []
    return Config([11, features, bits(NAMED) & ~bits([*absent, *without]), bits(told), 1], numbers)


def subsets(codes):
    return itertools.chain.from_iterable(itertools.combinations(codes, count) for count in range(len(codes) + 1))


def all_configs(table):
    """What rows 1 to 21 look at, each group of it through all its values."""
    plant = table[0]

    def but(config, **changes):
        names = "revision", "features", "attributes", "events", "commands"
        return Config([changes.get(name, value) for name, value in zip(names, config.served)], config.numbers)

    for features in map(sum, subsets(FEATURES)):
        config = plain(plant, features)
        for served in subsets(MANDATORY):
            yield but(config, attributes=config.attributes & ~bits(MANDATORY) | bits(served))
        for told in range(256):
            yield but(config, events=told)
    for features, numbers in (HEAT, table[3]), (COOL, table[2]), (HEAT | COOL, plant), (BOTH_SIDES, plant):
        config = plain(numbers, features)
        for served in subsets(LIMITS):
            limits = config.attributes & ~bits(LIMITS) | bits(served)
            yield but(config, attributes=limits)
            yield but(config, attributes=limits ^ 1 << 0x1E)
    for numbers in table:
        for features in HEAT, COOL, HEAT | COOL, BOTH_SIDES:
            yield plain(numbers, features)
    for bit in range(32):
        yield but(plain(plant), features=(BOTH_SIDES | TEVT) ^ 1 << bit)
    for value in range(256):
        yield but(plain(plant), revision=value)
        yield but(plain(plant), commands=value)


def fitting(config, seed=1, **changes):
    """A record for a configuration, always the same one but for the changes."""
    record = Record(Draw(seed), config)
    vars(record).update(dict(pending=512, armed="-", source=0) | changes)
    return record


def temperature_cases(config):
    """The edges of delta and interval, with nothing else changed and with another mode."""
    for previous, last, mode in itertools.product(("-", 2000, -32768), ("-", 0, 1000, LAST_CLOCK), (0, 9)):
        record = fitting(config, last=last)
        record.shadow = [previous, *record.settings[:2], mode or record.settings[6], 0, 0]
        for current in dict.fromkeys(around(previous, config.delta)):
            for step in 0, 59999, 60000, 60001:
                clock = min((0 if last == "-" else last) + step, LAST_CLOCK)
                yield record.line(), f"timer @ 0 0 {current} - - {clock}"
                yield record.line(), f"sweep @ 0 0 {current} - - {clock}"
            yield record.line(), f"deadline @ 0 0 {current} - - 0"


def hour_cases():
    """Either entry of the week, on the plant with limits and setpoints at and beside the entries, the gap kept or short."""
    numbers = 700, 1699, 1700, 1701, 1850, 1999, 2000, 2001, 2900
    for low, high in itertools.combinations_with_replacement(numbers, 2):
        for heating, gap, hour in itertools.product(numbers, (-500, 249, 250, 251, 500), (6, 18)):
            if low <= heating <= high:
                least = max(1600, low + 250)
                cooling = max(least, min(heating + gap, 3200))
                yield f"record {heating} {cooling} {low} {high} {least} 3200 1 0 0 2 5 6 - - 7 -", f"hour {hour}"


def lent_calls(table):
    """Configurations with pairs of a record and a call on it."""
    plant, tight = table[0], table[16]
    cools, heats, loose = table[2], table[3], table[4]
    # Limits messages on limits that touch and that do not.
    for limits in "1350 1350 1600 1600", "700 2900 1600 3200", "1000 2650 1600 2900":
        record = f"record 1350 1600 {limits} 1 0 0 0 - 0 - - - -"
        messages = itertools.product((700, 1350, 1600, 2000, 2900), repeat=4)
        yield plain(plant), ((record, "ooblimits {} {} {} {}".format(*message)) for message in messages)
    # Every number that a write can name on the plant, with some room.
    for word in (*WRITES, "oobheat", "oobcool"):
        yield plain(plant), ((LENT, f"{word} {value}") for value in range(600, 3301))
    yield plain(plant), hour_cases()
    shapes = [
        plain(plant), plain(plant, without=LIMITS), plain(plant, without=[0x1E, 0x29, *CHANGES]), plain(plant, BOTH_SIDES),
        plain(plant, BOTH_SIDES | TEVT | LTNE), plain(plant, HEAT | COOL | TEVT), plain(heats, HEAT | TEVT), plain(cools, COOL | TEVT),
        plain(loose), plain(tight),
    ]  # fmt: skip
    for config in shapes:
        # Every amount, mode, sequence and set of pending bits.
        for seed in 1, 2:
            record = fitting(config, seed).line()
            yield config, ((record, f"raise {mode} {amount}") for mode in range(4) for amount in range(-128, 128))
        yield config, ((record, f"{word} {value}") for word in ("mode", "oobmode", "sequence") for value in range(256))
        yield config, ((record, f"raise {mode} 5") for mode in range(256))
        yield config, ((fitting(config, pending=pending).line(), "sweep @ 5 0 2000 - 4 70000") for pending in range(1024))
        yield config, ((fitting(config, pending=pending).line(), "reset @ 5 0 2000 - 4 70000") for pending in range(1024))
        # Every hour, on a record with everything pending and relays that move.
        for seed in 1, 2:
            record = fitting(config, seed, pending=1023, armed=4).line()
            yield config, ((record, f"hour {number} @ 5 0 2000 - 6 70000") for number in range(256))
    # Relays, before and after an order, and beside the snapshot.
    for config, step in (plain(plant), 1), (plain(heats, HEAT | TEVT), 8), (plain(cools, COOL | TEVT), 8):
        record = fitting(config)
        words = itertools.product(range(128), range(0, 128, step))
        yield config, ((record.line(), f"mode 0 @ {before} {after} - - - 0") for before, after in words)
        for relays in 0, 1, 2, 4, 8, 16, 32, 64, 127, 65535:
            snapshots = ([2000, *record.settings[:2], record.settings[6], told, 0] for told in range(128))
            lines = (fitting(config, shadow=shadow).line() for shadow in snapshots)
            yield config, ((line, f"timer @ {relays} 0 2000 - - 0") for line in lines)
    for delta in sorted({numbers[6] for numbers in table}):
        accepted = (config for config in map(plain, table) if config.delta == delta and not config.row)
        for config in itertools.islice(accepted, 1):
            yield config, temperature_cases(config)


def in_parts(items, count):
    items = iter(items)
    while part := list(itertools.islice(items, count)):
        yield part


def short_lists(table):
    # Before any configuration: this one must come first.
    yield [(line, BOTH) for line in (OPENING, "heat 2000", "sweep", "deadline", LENT, "cool 2000", "arm")]
    for configs in in_parts(all_configs(table), 100):
        yield [(line, BOTH) for config in configs for line in (config.line, OPENING)]
    for config, pairs in lent_calls(table):
        for part in in_parts(pairs, 200):
            yield [(config.line, BOTH)] + [(line, BOTH) for pair in part for line in pair]
    # Every list of three calls, from an opening.
    calls = [*LIST_CALLS.strip().replace("\n", "; ").split("; "), "reset @ 0 1 - - 6 0", "hour 6 @ 0 1 - - 6 0", "hour 18"]
    for config in plain(table[0]), plain(table[0], without=LIMITS), plain(table[4], HEAT | COOL | TEVT):
        meant = [(line, CONSOLE_ALONE if config.added(line.split(" ")) == 24 else BOTH) for line in calls]
        for lists in in_parts(itertools.product(meant, repeat=3), 50):
            yield [(config.line, BOTH)] + [item for three in lists for item in ((OPENING, BOTH), *three)]


# --- The run

def in_batches(scripts):
    items = []
    for script in scripts:
        items += script
        if len(items) >= BATCH:
            yield items
            items = []


def read_table(oracle):
    lines = subprocess.run([oracle, "--table"], stdout=subprocess.PIPE, check=True).stdout.decode().splitlines()
    return [list(map(int, line.split(" "))) for line in lines]


def compare(arguments):
    started = time.monotonic()
    table = read_table(arguments.oracle)
    counts, unlisted, kinds, complete = Counts(), 0, {}, False

    def scripts():
        nonlocal complete
        if arguments.repair:
            yield from scripts_of(repair_script, arguments.seed, table)
        if arguments.both:
            yield from scripts_of(both_script, arguments.seed, table)
        if arguments.reset:
            yield from scripts_of(reset_script, arguments.seed, table)
        if arguments.hours:
            yield from scripts_of(hours_script, arguments.seed, table)
        drawn = drawn_scripts(arguments.seed, table)
        for script in short_lists(table):
            yield script
            yield next(drawn)
        complete = True
        yield from drawn

    with tempfile.TemporaryDirectory() as folder:
        pair = Pair(arguments.console, arguments.oracle, folder, table)
        for items in in_batches(scripts()):
            for found in run(pair, items, counts):
                unlisted += 1
                kinds.setdefault((found.why, found.lines[-1].split(" ")[0], outcome(found.ours), outcome(found.theirs)), found)
            if counts.domain() >= arguments.calls or unlisted >= 1000:
                break
        smallest = [cut_down(pair, found, list(map(str, table[0]))) for found in itertools.islice(kinds.values(), 8)]
    for found in sorted(smallest, key=lambda found: len("".join(found.lines))):
        due = ["due:    " + found.due] if found.due else []
        print("UNLISTED: " + found.why, *found.lines, "console: " + found.ours, f"rust:    {found.theirs}", *due, "", sep="\n")

    def row(name, count, more=""):
        print(f"  {name:<64}{count:>9}{more}")

    print(f"seed {arguments.seed}, table of {len(table)} rows, {counts.lines} lines answered, {time.monotonic() - started:.0f} s")
    alone = "openings and limits messages alone" * arguments.repair or "Both alone" * arguments.both
    alone = alone or "resets alone" * arguments.reset or "hours almost alone" * arguments.hours
    print("  " + (alone or f"short lists {'complete' if complete else 'cut short'}"))
    row("calls", counts.calls)
    row("of them in document 01's domain, resets, or hours that act", counts.domain())
    print("lines by kind")
    for name, count in sorted(counts.kinds.items()):
        row(name, count)
    print("the console's answers by number")
    for name, count in sorted(counts.numbers.items()):
        row(str(name), count)
    print("answers with an amount removed other than 0 (C-12), by kind of call")
    for name, sides in sorted(counts.removed.items()):
        row(name, sum(sides.values()), "  " + ", ".join(f"{side} {count}" for side, count in sorted(sides.items())))
    print("hours (C-15), with what was compared of those that act")
    for name, count in sorted(counts.hours.items()):
        row(name, count)
    print("listed differences, and what the Rust did")
    for name, rust in sorted(counts.listed.items()):
        row(name, sum(rust.values()), "  " + ", ".join(f"{word} {count}" for word, count in rust.most_common()))
    print("left out (? type: the Rust's types lack a value)")
    for name, count in sorted(counts.left_out.items()):
        row(name, count)
    print(f"unlisted differences: {unlisted}")
    return 1 if unlisted else 0


# --- The replay: lines to which the Rust's answers can be kept, for a gate that has no Rust

def comparable_parts(pair, items):
    """Parts of a batch that hold no listed difference: the configuration, then a `record` or `open` and calls, with answers."""
    config, part, state = None, [], None
    for (line, how), (_, answer, _) in zip(items, pair.ask(items)):
        words = line.split(" ")
        if answer is None or how != BOTH:
            continue
        if words[0] in ("config", "open", "record"):
            if part:
                yield config, part
            part = []
        if words[0] == "config":
            config, state = Config.read(words), None
        elif words[0] == "record":
            state, part = state_of(words)[0], [(line, answer)]
        elif not answer.startswith("?") and (words[0] == "open" or state) and config:
            row = 0 if words[0] == "open" else 28 if why_unsound(config, state) else config.added(words)
            if not row:
                state = ANSWER.fullmatch(answer)[2]
                part.append((line, answer))
            elif row != 26:
                state = None  # the Rust goes on alone
        elif words[0] == "open":
            state = None


def signature(config, line, before, answer):
    """What an answer shows: call, number, notices, events, and which parts of the record moved."""
    numbered, after, order, notices, told, deadline = ANSWER.fullmatch(answer).groups()
    moved = tuple(old != new for old, new in zip(STATE.fullmatch(before).groups(), STATE.fullmatch(after).groups()))
    told = re.sub(r"\d+", "n", told.replace("(", ":"))
    return config.heats, config.cools, config.auto, line.split(" ")[0], numbered, order == "-", notices, told, moved, deadline == "-"


def replay_scripts(seed, table):
    """Configurations for each of rows 0 to 21, the calls of the short lists in a row, Both, chains, then records."""
    rows = collections.defaultdict(list)
    for config in all_configs(table):
        rows[config.row].append(config)
    for configs in rows.values():
        for config in configs[:: len(configs) // 6 + 1]:
            yield [(config.line, BOTH), (OPENING, BOTH)]
    calls = LIST_CALLS.strip().replace("\n", "; ").split("; ")
    yield [(line, BOTH) for line in (plain(table[0]).line, OPENING, *calls, *reversed(calls))]
    yield from itertools.islice(scripts_of(both_script, seed, table), 10)
    draw = Draw(seed)
    for _ in range(25):
        yield list(chain_script(draw, table))[:70]
    while True:
        yield list(draw.of(records_script, records_script, records_script, refused_script)(draw, table))


def shown_anew(config, part, seen):
    """How much of a part to keep: as far as its last answer that shows something new, or new but for twice."""
    state, keep = BLANK, 0
    for place, (line, answer) in enumerate(part, 1):
        if answer == "ok":
            state = state_of(line.split(" "))[0]
            continue
        shows = signature(config, line, state, answer)
        state = ANSWER.fullmatch(answer)[2]
        seen[shows] += 1
        if seen[shows] <= 3:
            keep = place
    return keep


def port_answers(lines, answers):
    """Each line with the Rust's answer, the port's, and the request that sets them apart, if one does; C-12's field is the port's alone."""
    config, state = None, BLANK
    for line, answer in zip(lines, answers):
        words, due, request = line.split(" "), answer, None
        if words[0] in ("config", "record"):
            if words[0] == "config":
                config = Config.read(words)
            else:
                state = state_of(words)[0]
            yield line, answer, answer, None
            continue
        if moved := moved_both(config, words, state):
            if moved[0] != amount_of(answer):
                sys.exit("both setpoints moved, and the Rust does not record heating's amount: " + answer)
            due, request = with_amount(answer, moved[1]), "C-20"
        elif goes_apart(config, words) and (raised := raise_both(config, words, state)) != answer:
            due, request = raised, "C-14"
        yield line, answer, due + cut_due(config, words, state, ANSWER.fullmatch(due))[0], request
        state = ANSWER.fullmatch(answer)[2]


def marked(lines, answers):
    """The lines; where a request sets the answers apart, its name before the call and the Rust's record behind it, so that all later
    answers are the Rust's."""
    for line, answer, _, request in port_answers(lines, answers):
        if request:
            numbers = re.match(r"\d+ (h=\S+ c=\S+) .*( amt=\S+)", answer)
            yield f"# {request}, the Rust {numbers[1]}{numbers[2]}"
        yield line
        if request:
            yield record_of(ANSWER.fullmatch(answer)[2])


def answers_of(program, path):
    with open(path, "rb") as stdin:
        return subprocess.run([program], stdin=stdin, stdout=subprocess.PIPE, check=True).stdout.decode().splitlines()


def replay(arguments):
    calls, folder = int(arguments.replay[0]), pathlib.Path(arguments.replay[1])
    table = [numbers[:7] for numbers in read_table(arguments.oracle)]  # without defaults: no reset is in it
    seen, kept, told, current = collections.Counter(), [], [], None
    with tempfile.TemporaryDirectory() as temporary:
        pair = Pair(arguments.oracle, arguments.oracle, temporary, table)
        batches = in_batches(replay_scripts(arguments.seed, table))
        for config, part in (found for items in batches for found in comparable_parts(pair, items)):
            keep = shown_anew(config, part, seen)
            if keep and config.line != current:
                current = config.line
                part, keep = [(current, "ok"), *part], keep + 1
            kept += [line for line, _ in part[:keep]]
            told += [answer for _, answer in part[:keep]]
            if len(told) - told.count("ok") >= calls:
                break
    folder.mkdir(parents=True, exist_ok=True)
    stored = list(marked(kept, told))
    (folder / "stdin").write_text("".join(line + "\n" for line in stored))
    asked = list(filter(answered, stored))
    cases = list(port_answers(asked, answers_of(arguments.oracle, folder / "stdin")))
    (folder / "stdout").write_text("".join(due + "\n" for _, _, due, _ in cases))
    again = [answer for _, answer, _, _ in cases if answer != "ok"]
    if again != [answer for answer in told if answer != "ok"]:
        sys.exit("the Rust answers otherwise than in its first run")
    numbers = collections.Counter(int(answer.split(" ")[0]) for answer in again)
    kinds = collections.Counter(line.split(" ")[0] for line in kept)
    requests = collections.Counter(request for *_, request in cases if request)
    size = sum((folder / name).stat().st_size for name in ("stdin", "stdout"))
    print(f"{len(again)} calls, {len(asked)} lines, {size} bytes")
    print("with the port's answer:", ", ".join(f"{name} {count}" for name, count in sorted(requests.items())))
    print("by kind:", ", ".join(f"{name} {count}" for name, count in sorted(kinds.items())))
    print("by answer:", ", ".join(f"{name}: {count}" for name, count in sorted(numbers.items())))
    cutting = collections.Counter(line.split(" ")[0] for line, _, due, _ in cases if not due.endswith(("ok", " cut=0/0")))
    print("with an amount removed other than 0:", ", ".join(f"{name} {count}" for name, count in sorted(cutting.items())))
    complete = set(numbers) == {*range(24), 25} and set(kinds) == {"config", "record", "open", *KINDS}
    complete &= {*cutting, "reset"} == set(CLAMPS)
    if not complete or len(requests) < 2:
        sys.exit("some kind of call, or answer, is not in it")
    return 0


def main():
    parser = argparse.ArgumentParser(description="Compares the console with the Rust.")
    parser.add_argument("calls", nargs="?", type=int, default=1000000)
    parser.add_argument("seed", nargs="?", type=int, default=1)
    parser.add_argument("console", nargs="?", default=str(ROOT / "crates/console/out/console"))
    parser.add_argument("oracle", nargs="?", default=str(ROOT / "oracle/target/release/oracle"))
    parser.add_argument("--repair", action="store_true")
    parser.add_argument("--both", action="store_true")
    parser.add_argument("--reset", action="store_true")
    parser.add_argument("--hours", action="store_true")
    parser.add_argument("--replay", nargs=2, metavar=("CALLS", "OUTDIR"))
    arguments = parser.parse_args()
    return replay(arguments) if arguments.replay else compare(arguments)


if __name__ == "__main__":
    sys.exit(main())
