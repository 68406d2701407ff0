#!/usr/bin/env python3
"""How the console reads lines: every statement of docs/CONSOLE.md about them, and beside the oracle, which reads the same lines. Its
answers lack the field of C-12. The Rust has no hours (C-15): in place of `hour` the oracle reads `mode`, which takes the same numbers.

    python3 oracle/console_lines.py [CONSOLE [ORACLE]]

Prints what fails, and a count. Python's standard library is all it needs.
"""

import os
import pathlib
import re
import select
import subprocess
import sys
import time

ROOT = pathlib.Path(__file__).resolve().parent.parent
CONSOLE = sys.argv[1] if len(sys.argv) > 1 else str(ROOT / "crates/console/out/console")
ORACLE = sys.argv[2] if len(sys.argv) > 2 else str(ROOT / "oracle/target/release/oracle")

READINGS = "wwHDDq"
FORMS = {
    "config": "wdqqqhhhhtbh", "open": "hhhhhhb", "record": "hhhhhhbfwbHdHHDQ", "heat": "h", "cool": "h", "minheat": "h", "maxheat": "h",
    "mincool": "h", "maxcool": "h", "mode": "b", "sequence": "b", "raise": "bt", "arm": "", "oobheat": "h", "oobcool": "h", "oobmode": "b",
    "ooblimits": "hhhh", "oobtemp": "", "oobrunning": "", "oobupdate": "", "start": "", "sweep": "", "timer": "", "deadline": "",
    "reset": "", "hour": "b",
}  # fmt: skip
MORE = {"config": "hhhhhhb", "record": "Hhhbwb"}  # what may follow, all of it or nothing; at the others the readings
AMOUNT = rb"(0|-?[1-9]\d*)"
ANSWER = re.compile(rb"ok|error \d+|\d+ h=\S+ c=.* events=\S+( deadline=\S+)? cut=" + AMOUNT + b"/" + AMOUNT)
RANGES = {"b": (0, 255), "w": (0, 65535), "d": (0, 2**32 - 1), "q": (0, 2**64 - 1), "t": (-128, 127), "h": (-32768, 32767), "f": (0, 1)}

checks = failures = 0


def check(true, *what):
    global checks, failures
    checks += 1
    if not true:
        failures += 1
        print("FAILS:", *(repr(each)[:300] for each in what))


def ask(program, data):
    done = subprocess.run([program], input=data, stdout=subprocess.PIPE, stderr=subprocess.PIPE)
    check(done.returncode == 0 and done.stderr == b"", program, done.returncode, done.stderr)
    check(done.stdout == b"" or done.stdout.endswith(b"\n"), "whole lines", done.stdout[-50:])
    return done.stdout.split(b"\n")[:-1]


def lines_of(lines):
    return b"".join(line + b"\n" for line in lines)


def without_hours(line):
    """The line with `mode` for `hour`, where that is its first word."""
    return re.sub(rb"\Ahour(?![^ ])", b"mode", line)


def both(lines):
    """Pairs of answers to lines that each have one."""
    ours, theirs = ask(CONSOLE, lines_of(lines)), ask(ORACLE, lines_of(map(without_hours, lines)))
    check(len(ours) == len(theirs) == len(lines), "an answer a line", len(ours), len(theirs), len(lines))
    others = [answer for answer in ours if not ANSWER.fullmatch(answer)]
    check(not others, "the fields of an answer", *others[:3])
    return list(zip(ours, theirs))


def nothing_cut(answers):
    """Answers that lack the field of C-12, as the oracle's do, with it where nothing was removed."""
    return [answer if answer == b"ok" or answer.startswith(b"error") else answer + b" cut=0/0" for answer in answers]


def is_error(answer, at):
    return answer == b"error %d" % at


def expect(cases):
    """Lines, each with whether it can be read: both programs say so, with the right line number."""
    for at, ((line, readable), (ours, theirs)) in enumerate(zip(cases, both([line for line, _ in cases])), 1):
        check(is_error(ours, at) != readable and ours.startswith(b"error") != readable, "console", line, readable, ours)
        check(is_error(theirs, at) != readable and theirs.startswith(b"error") != readable, "oracle", line, readable, theirs)


def shapes():
    """Every form that a line may have: its first word, and the letters, `@` among them."""
    for word, letters in FORMS.items():
        yield word, letters
        yield word, letters + MORE.get(word, "@" + READINGS)


def put(word, letters, changes=None):
    fields = ["@" if letter == "@" else "0" for letter in letters]
    for place, text in (changes or {}).items():
        fields[place] = text
    return " ".join([word, *fields]).encode("latin-1")


def types():
    """Every number of every form, at its ends, one past them, and written in every way."""
    cases = []
    for word, letters in shapes():
        cases.append((put(word, letters), True))
        for place, letter in enumerate(letters):
            if letter == "@":
                for text in "0", "-", "@@", "", "@0", "#":
                    cases.append((put(word, letters, {place: text}), False))
                continue
            low, high = RANGES[letter.lower()]
            pair = {12: 13, 13: 12}.get(place) if word == "record" else None  # both of the attributed pair, or neither
            for value in low, low + 1, high - 1, high, 0, 1:
                cases.append((put(word, letters, {place: str(value)}), True))
                sign, digits = ("-", str(-value)) if value < 0 else ("", str(value))
                cases.append((put(word, letters, {place: sign + "0" * 30 + digits}), True))
            for value in low - 1, high + 1, -(2**63), 2**63, -(2**64), 2**64, 2**64 + 1, 10**25, -(10**25), 2**128, 2**128 + 1:
                readable = low <= value <= high
                cases.append((put(word, letters, {place: str(value)}), readable))
            if low == 0:
                cases.append((put(word, letters, {place: "-1"}), False))
            for text in "-0", "-00", "00":
                cases.append((put(word, letters, {place: text}), True))
            cases.append((put(word, letters, {place: "-"}), letter in "DQH" and pair is None))
            if pair:
                cases.append((put(word, letters, {place: "-", pair: "-"}), True))
            for text in *"+5 +0 --5 -+5 5- 0x1 1.0 1e1 1_0 1,0 -- + @ a".split(), "", "\xb2", "\0", "0\0", "\r", "0\r", "0\t":
                cases.append((put(word, letters, {place: text}), False))
    expect([case for case in cases if len(case[0]) <= 250])
    return len(cases)


def counts_of_numbers():
    cases = []
    for word, letters in FORMS.items():
        whole = letters + MORE.get(word, "@" + READINGS)
        fields = put(word, whole).split(b" ")
        for count in range(len(whole) + 1):
            cases.append((b" ".join(fields[: count + 1]), count in (len(letters), len(whole))))
        for more in 1, 2, 7, 50:
            cases.append((b" ".join(fields + [b"0"] * more), False))
        bare = put(word, letters)
        tails = b" ", b"  ", b" 0", b"\t", b"\r", b"\0", b" @", b" -", b"#", b" #", b"\x0b", b"\xa0"
        cases += [(bare + tail, False) for tail in tails]
        cases += [(head + bare, False) for head in (b" ", b"\t", b"\0", b"-", b"+", b"0", b"@", b"\xef\xbb\xbf")]
        cases += [(other.encode() + bare[len(word) :], False) for other in (word.upper(), word[:-1], word + "x")]
        cases += [(bare.replace(b" ", gap), False) for gap in (b"  ", b"\t", b"\r", b"\0") if b" " in bare]
    cases += [(word, False) for word in b"nothing oobrunningx oobrunnin configs - @ \0 \r \t ok".split(b" ")]
    cases += [(word, False) for word in (b"x" * 250, b"x" * 11, b" ", b"error 1")]
    expect(cases)


def every_byte():
    """Lines with one byte replaced, put in or taken out, through all its values: both read them, or neither."""
    sources = [b"record 1 -2 3 4 5 6 0 1 2 0 - 7 - - - 8 - 1 2 3 4 0", b"config 11 547 5 59 1 7 29 16 32 25 4 50"]
    sources += [b"config 11 3 5 0 1 7 29 16 32 25 4 50 20 22 7 29 -16 32 4", b"reset @ 1 2 - 3 - 60000"]
    sources += [b"heat 20 @ 1 2 - 3 - 60000", b"raise 2 -10", b"arm", b"hour 18 @ 1 2 - 3 - 60000"]
    lines = []
    for source in sources:
        for place in range(len(source) + 1):
            for byte in range(256):
                lines.append(source[:place] + bytes([byte]) + source[place:])
                lines.append(source[:place] + bytes([byte]) + source[place + 1 :])
            lines.append(source[:place] + source[place + 1 :])
    lines = [line for line in lines if b"\n" not in line and line and line[:1] != b"#"]
    for at, (line, (ours, theirs)) in enumerate(zip(lines, both(lines)), 1):
        check(ours.startswith(b"error") == theirs.startswith(b"error"), line, ours, theirs)
        if ours.startswith(b"error"):
            check(ours == theirs == b"error %d" % at, at, line, ours, theirs)
    return len(lines)


def lengths():
    cases = []
    for length in 249, 250, 251, 252, 255, 256, 257, 300, 511, 512, 1000, 65535, 65536, 65537, 100000, 200000:
        cases.append((b"heat " + b"0" * (length - 9) + b"2000", length <= 250))
        cases.append((b"heat -" + b"0" * (length - 10) + b"2000", length <= 250))
        cases.append((b"x" * length, False))
        cases.append((b" " * length, False))
        cases.append((b"\0" * length, False))
    cases.append((b"heat 2000", True))
    expect(cases)
    # Passed over, at any length, and counted.
    for length in 1, 250, 251, 65535, 65536, 65537, 100000:
        data = b"#" * length + b"\n\n#\0\r\t\xff\nheat\n"
        for program in CONSOLE, ORACLE:
            check(ask(program, data) == [b"error 4"], program, length)


def ends():
    """No newline at the end, carriage returns, nothing at all."""
    for data, answers in (
        (b"", 0), (b"\n", 0), (b"\n\n\n", 0), (b"#", 0), (b"# x", 0), (b"#" * 100000, 0), (b"arm", 1), (b"arm\n", 1),
        (b"arm\narm", 2), (b"\narm", 1), (b"arm\n#", 1), (b"x", 1), (b"x" * 250, 1), (b"x" * 251, 1), (b"x" * 100000, 1),
    ):  # fmt: skip
        for program in CONSOLE, ORACLE:
            check(len(ask(program, data)) == answers, program, data[:40], answers)
    check(ask(CONSOLE, b"arm") == ask(CONSOLE, b"arm\n"), "the last line may lack its newline")
    plant = b"config 11 547 1972525402030201 59 1 700 2900 1600 3200 25 4 50\nopen 2000 2250 700 2900 1600 3200 1\nheat 2100\n"
    check(ask(CONSOLE, plant) == nothing_cut(ask(ORACLE, plant)) == ask(CONSOLE, plant[:-1]), "the plant")
    crlf = plant.replace(b"\n", b"\r\n")
    check(ask(CONSOLE, crlf) == ask(ORACLE, crlf) == [b"error 1", b"error 2", b"error 3"], "carriage returns")
    # What cannot be read changes nothing.
    spoiled = plant.replace(b"heat", b"record 1\nconfig 11\nopen 1\nheat 1 2\nheat")
    told = ask(CONSOLE, spoiled)
    check(told[2:6] == [b"error %d" % at for at in (3, 4, 5, 6)] and told[:2] + told[6:] == ask(CONSOLE, plant), "unreadable lines between")
    # The start: all zero, and blank.
    blank = b"h=0 c=0 minh=0 maxh=0 minc=0 maxc=0 mode=0 dirty=0 pend=0 shadow=- last=- src=0 amt=- ts=0 att=- armed=-"
    blank += b" order=- notices=- events=-"
    told = ask(CONSOLE, b"open 1 2 3 4 5 6 1\narm\nreset\ndeadline\n")
    check(told == nothing_cut([b"1 " + blank, b"28 " + blank, b"28 " + blank, b"28 " + blank + b" deadline=-"]), "before any config")


def taken_as_written():
    """What a record line says comes back in the answer: at the ends of every type, on a call that changes nothing."""
    names = "h c minh maxh minc maxc mode dirty pend src amt ts".split()
    lines, states = [], []
    for place, letter in enumerate(FORMS["record"] + MORE["record"]):
        low, high = RANGES[letter.lower()]
        for value in [low, high, 0, high // 3, low // 3] + ["-"] * (letter in "DQH"):
            fields = "11 -22 33 -44 55 -66 7 0 88 9 -1 11 -12 13 14 15 -16 17 -18 19 20 21".split(" ")
            fields[place] = str(value)
            if place in (12, 13) and value == "-":
                fields[12] = fields[13] = "-"
            said = dict(zip(names, fields))
            said["att"] = "-" if fields[12] == "-" else "/".join(fields[12:14])
            said |= {"armed": fields[14], "last": fields[15], "shadow": "/".join(fields[16:])}
            order = "h c minh maxh minc maxc mode dirty pend shadow last src amt ts att armed".split()
            lines += [b"record " + " ".join(fields).encode(), b"sequence 4"]
            states += [b"ok", ("28 " + " ".join(f"{name}={said[name]}" for name in order) + " order=- notices=- events=-").encode()]
    check(ask(CONSOLE, lines_of(lines)) == nothing_cut(states), "records come back as written")


def amounts():
    """Every amount that can be removed from a setpoint, above a limit and below one, on either side."""
    low, high = RANGES["h"]
    for heating, cooling in (low, high), (high, low):  # each side's limits are one number; without AUTO they may lie anywhere
        lines = [b"config 11 3 403046401 0 1 %d %d %d %d 0 4 0" % (heating, heating, cooling, cooling)]
        lines += [b"open %d %d 0 0 0 0 0" % (value, -1 - value) for value in range(low, high + 1)]
        told = [answer.rpartition(b" ")[2] for answer in ask(CONSOLE, lines_of(lines))]
        due = [b"ok"] + [b"cut=%d/%d" % (value - heating, -1 - value - cooling) for value in range(low, high + 1)]
        check(told == due, "amounts removed", *[pair for pair in zip(told, due) if pair[0] != pair[1]][:3])


def defaults():
    """What a config line says of the defaults is what a reset puts in, on a plant that cuts nothing off: every number of 16 bits at each
    of the six, every mode. Without them they are 0."""
    plant = b"config 11 3 403046401 0 1 -32768 32767 -32768 32767 0 4 0"
    lent = b"record 1 -2 3 -4 5 -6 3 1 5 2 -7 8 9 -10 11 12 -13 14 -15 4 16 4"
    rest = b"dirty=0 pend=5 shadow=-13/14/-15/4/16/4 last=12 src=2 amt=-7 ts=8 att=9/-10 armed=11 order=%d/%d/%d notices=ffff"
    rest += b" events=- cut=0/0"

    def answer(*numbers, mode):
        mode = mode if mode in (0, 3, 4) else 0  # all others are unsupported there
        return b"0 h=%d c=%d minh=%d maxh=%d minc=%d maxc=%d mode=%d " % (*numbers, mode) + rest % (mode, *numbers[:2])

    def told(lines):
        return ask(CONSOLE, lines_of(lines))

    low, high = RANGES["h"]
    some = [11, -22, 33, -44, 55, -66, 4]
    for place in range(7):
        lines, due = [], []
        for value in range(low, high + 1) if place < 6 else range(256):
            said = [*some[:place], value, *some[place + 1 :]]
            lines += [b"%s %s" % (plant, " ".join(map(str, said)).encode()), lent, b"reset"]
            due += [b"ok", b"ok", answer(*said[:6], mode=said[6])]
        got = told(lines)
        check(got == due, "defaults", *[pair for pair in zip(got, due) if pair[0] != pair[1]][:3])
    full = plant + b" 11 -22 33 -44 55 -66 4"
    put_in, zeros = answer(*some[:6], mode=4), answer(*[0] * 6, mode=0)
    resets = b"reset", b"reset @ 1 2 2000 7 8 9", b"reset @ 0 65535 - - - 18446744073709551615"
    for line in resets:
        check(told([full, lent, line]) == [b"ok", b"ok", put_in], "a reset, whatever is read", line)
        check(told([plant, lent, line]) == [b"ok", b"ok", zeros], "no defaults", line)
        check(told([full, plant, lent, line]) == [b"ok", b"ok", b"ok", zeros], "no defaults behind some", line)
        check(told([plant, full, lent, line]) == [b"ok", b"ok", b"ok", put_in], "defaults behind none", line)
    numbers = full.split(b" ")
    for count in *range(14, 20), 21:  # words, with the first
        cut_short = b" ".join((numbers + [b"0"])[:count])
        check(told([full, cut_short, lent, b"reset"]) == [b"ok", b"error 2", b"ok", put_in], "changes nothing", cut_short)
        check(told([plant, cut_short, lent, b"reset"]) == [b"ok", b"error 2", b"ok", zeros], "changes nothing", cut_short)
    for place in range(13, 20):
        for text in b"-", b"@", b"32768", b"-32769" if place < 19 else b"256", b"-1" if place == 19 else b"+1":
            spoiled = b" ".join([*numbers[:place], text, *numbers[place + 1 :]])
            check(told([full, spoiled, lent, b"reset"]) == [b"ok", b"error 2", b"ok", put_in], "changes nothing", spoiled)
    for line in b"reset 0", b"reset -", b"reset @", b"reset @ 0 0 - - -", b"reset @ 0 0 - - - 0 0", b"reset ", b"Reset", b"resets":
        check(told([full, lent, line, b"reset"]) == [b"ok", b"ok", b"error 3", put_in], "no reset", line)


def hours():
    """Every number of 8 bits, in every way of writing it, is the hour that it says: 32 from 168 on, and the setpoint of those that act."""
    plant = b"config 11 547 1972525402030201 59 1 700 2900 1600 3200 25 4 50"
    lent = b"record 1850 2250 700 2900 1600 3200 1 0 0 2 5 6 - - - -"
    acting = {24 * day + hour: heating for day in range(5) for hour, heating in ((6, 2000), (18, 1700))}
    for number in b"%d", b"%03d", b"%025d":
        for readings in b"", b" @ 0 0 - - - 0", b" @ 65535 65535 -32768 4294967295 0 18446744073709551615":
            told = ask(CONSOLE, lines_of(line for hour in range(256) for line in (plant, lent, b"hour " + number % hour + readings)))
            due = [b"%d h=%d " % (0 if hour < 168 else 32, acting.get(hour, 1850)) for hour in range(256)]
            others = [pair for pair in zip(told[2::3], due) if not pair[0].startswith(pair[1])]
            check(not others and len(told) == 3 * len(due), "hours", number, readings, *others[:3])
    kept = ask(CONSOLE, lines_of([plant, lent, b"hour -0"]))
    for line in b"hour", b"hour 256", b"hour -1", b"hour -", b"hour 6 18", b"hour 6 @", b"hour 6 @ 0 0 - - -", b"Hour 6", b"hours 6":
        check(ask(CONSOLE, lines_of([plant, lent, line, b"hour -0"])) == [*kept[:2], b"error 3", kept[2]], "no hour", line)


def in_pieces():
    """The same answers, however the input is cut up."""
    plant = b"# plant\nconfig 11 547 1972525402030201 59 1 700 2900 1600 3200 25 4 50\n\n"
    plant += b"open 2000 2250 700 2900 1600 3200 1\nheat 2100\nx\nraise 0 10\n"
    data = plant * 400 + b"heat 2000"
    whole = ask(CONSOLE, data)
    check(whole == nothing_cut(ask(ORACLE, data)), "whole")
    for size in 1, 2, 7, 250, 251, 252, 4095, 4097, 65535, 65537:
        pieces = plant + b"heat 2000" if size == 1 else data
        process = subprocess.Popen([CONSOLE], stdin=subprocess.PIPE, stdout=subprocess.PIPE)
        got = b""
        for at in range(0, len(pieces), size):
            os.write(process.stdin.fileno(), pieces[at : at + size])
            while select.select([process.stdout], [], [], 0)[0]:
                got += os.read(process.stdout.fileno(), 1 << 16)
        process.stdin.close()
        got += process.stdout.read()
        check(process.wait() == 0 and got.split(b"\n")[:-1] == ask(CONSOLE, pieces), "pieces of", size)
    # Lines that lie across every place of the 64 KiB that are read at once.
    for shift in range(0, 60):
        data = b"#" * (65536 - 30 - shift) + b"\n" + b"arm @ 1 2 - - 3 4\nheat 5\n" * 20
        check(ask(CONSOLE, data) == ask(CONSOLE, b"\n" + data[data.index(b"\n") + 1 :]), "across the edge", shift)
    # An answer is there before more is asked for.
    process = subprocess.Popen([CONSOLE], stdin=subprocess.PIPE, stdout=subprocess.PIPE)
    for line in b"arm\n", b"x\n", b"heat 5\n":
        os.write(process.stdin.fileno(), line)
        check(select.select([process.stdout], [], [], 5)[0] and os.read(process.stdout.fileno(), 4096).endswith(b"\n"), "waits for", line)
    process.stdin.close()
    check(process.wait() == 0, "ends")
    process.stdout.close()


def speed():
    config = b"config 11 547 1972525402030201 59 1 700 2900 1600 3200 25 4 50\nopen 2000 2250 700 2900 1600 3200 1\n"
    calls = [b"heat %d @ 1 2 2050 7 - %d\n" % (700 + at * 37 % 2200, at * 60000) for at in range(99998)]
    for at in range(0, 99998, 5):
        calls[at] = b"sweep @ 2 2 %d - - %d\n" % (2000 + at % 700, at * 60000)
    for program in CONSOLE, ORACLE:
        best = 9e9
        for _ in range(3):
            started = time.monotonic()
            told = ask(program, config + b"".join(calls))
            best = min(best, time.monotonic() - started)
        print(f"100,000 lines: {best:.2f} s, {sum(map(len, told))} bytes of answers: {program}")
        check(len(told) == 100000, "100,000 answers")
    unreadable = b"heat 99999\n" * 100000
    started = time.monotonic()
    check(ask(CONSOLE, unreadable)[-1] == b"error 100000", "100,000 errors")
    print(f"100,000 unreadable lines: {time.monotonic() - started:.2f} s")


def odd_handles():
    """Standard input or output that is shut."""
    done = subprocess.run(f"{CONSOLE} <&-", shell=True, stdout=subprocess.PIPE, timeout=10)
    print(f"input shut: exit {done.returncode}, {done.stdout!r}")
    done = subprocess.run(f"printf 'arm\\narm\\n' | {CONSOLE} >&-", shell=True, timeout=10)
    print(f"output shut: exit {done.returncode}")
    done = subprocess.run(f"yes arm | {CONSOLE} | head -n 1", shell=True, stdout=subprocess.PIPE, timeout=20)
    check(done.stdout.startswith(b"28 "), "a reader that goes away")
    done = subprocess.run(f"printf 'arm\\n' | {CONSOLE} > /dev/full", shell=True, timeout=10)
    print(f"output full: exit {done.returncode}")


if __name__ == "__main__":
    print(types(), "numbers written in forms")
    counts_of_numbers()
    print(every_byte(), "lines with one byte changed")
    lengths()
    ends()
    taken_as_written()
    amounts()
    defaults()
    hours()
    in_pieces()
    speed()
    odd_handles()
    print(f"{checks} checks, {failures} failures")
    sys.exit(1 if failures else 0)
