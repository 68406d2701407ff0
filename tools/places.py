"""Lists the places of docs/DESIGN-PASS.md in crates/*/src, a point of the page each: places.py [COMMIT] [POINT ..].

Without a commit it reads the files as they stand. It goes by text: what it lists is read by a person, who says of each place
whether it is one.
"""
import re
import subprocess
import sys
from collections import defaultdict

KEYWORDS = set('pub fn let mut if else match return while for in struct enum impl trait const use mod as self crate true false '
               'ensures requires ghost loop'.split())


def files(commit):
    if commit:
        names = subprocess.run(['git', 'ls-tree', '-r', '--name-only', commit, 'crates'], capture_output=True, text=True).stdout
        read = lambda n: subprocess.run(['git', 'show', commit + ':' + n], capture_output=True, text=True).stdout
    else:
        names = subprocess.run(['git', 'ls-files', '-co', '--exclude-standard', 'crates'], capture_output=True, text=True).stdout
        read = lambda n: open(n, encoding='utf-8').read()
    out = {}
    for n in sorted(set(names.split('\n'))):
        if re.match(r'crates/\w+/(src/.*\.rt|proofs/.*\.antt)$', n):
            try:
                out[n] = read(n)
            except FileNotFoundError:
                pass
    return out


def block(text, start):
    """The text from the brace at or after `start` to its partner."""
    i = text.index('{', start)
    depth = 0
    for j in range(i, len(text)):
        depth += {'{': 1, '}': -1}.get(text[j], 0)
        if depth == 0:
            return text[i:j + 1]
    return text[i:]


def functions(text):
    """(line, name, head, body) of each function with a body."""
    for m in re.finditer(r'(?m)^[ \t]*(?:pub(?:\(crate\))? )?(?:extern "C" )?(?:const )?fn (\w+)', text):
        end = text.find('\n{', m.end())
        brace = text.find('{', m.end())
        rest = text[m.end():]
        body_at = re.search(r'\n[ \t]*\{\n|(?<=\S) \{\n', rest)
        if not body_at:
            continue
        at = m.end() + body_at.start()
        head = text[m.start():at]
        yield text.count('\n', 0, m.start()) + 1, m.group(1), head, block(text, at)


def src(fs):
    return {n: t for n, t in fs.items() if '/src/' in n}


def point1(fs):
    for n, t in src(fs).items():
        for m in re.finditer(r'(?m)^pub enum (\w+)|^enum (\w+)', t):
            name = m.group(1) or m.group(2)
            body = block(t, m.end())
            variants = re.findall(r'(?m)^    (\w+)(\(|,| \{| =)', body)
            bare = [v for v, k in variants if k == ',']
            full = [v for v, k in variants if k in ('(', ' {')]
            if full and (len(variants) == 2 and len(bare) == 1 or any(re.match(r'No[A-Z]|Never|Bad|Unreadable|Nothing|Absent', v) for v in bare)):
                yield n, t.count('\n', 0, m.start()) + 1, 'enum %s: %s' % (name, ', '.join(v for v, _ in variants))
        for m in re.finditer(r'(?m)^(?:pub )?struct (\w+)[^;{]*\{', t):
            body = block(t, m.start())
            flag = re.search(r'(?:pub )?(given|negative|present|found|valid|some): (bool|u\d+),', body)
            if flag:
                yield n, t.count('\n', 0, m.start()) + 1, 'struct %s: flag %s' % (m.group(1), flag.group(1))
        consts = re.findall(r'(?m)^(?:pub(?:\(crate\))? )?const (\w+): (u8|u16|u32|usize) = (?:0x)?[0-9A-Fa-f]+;', t)
        if len(consts) >= 3 or (consts and '/records/src/' in n and not re.search(r'(?m)^(pub )?(struct|enum|fn)', t)):
            yield n, 1, 'a set of %d numbers: %s ..' % (len(consts), ', '.join(c for c, _ in consts[:3]))
        for line, name, head, body in functions(t):
            if re.search(r'-> u8\b', head) and re.search(r'answer_number|Refusal|rest', head + body):
                yield n, line, 'fn %s: a refusal as a number' % name
            if re.search(r'-> usize\b', head) and re.search(r'unwrap_or\((rest|entry)?\.?len|\n    ROWS\n', body):
                yield n, line, 'fn %s: a place that stands for none' % name


def shape(text):
    seen = {}
    out = []
    for tok in re.findall(r"b?'.'|\"[^\"]*\"|\w+|[^\s\w]", text):
        if re.match(r"\w|b?'|\"", tok) and tok not in KEYWORDS:
            out.append(seen.setdefault(tok, 'x%d' % len(seen)))
        else:
            out.append(tok)
    return ' '.join(out)


def point2(fs):
    groups = defaultdict(list)
    for n, t in src(fs).items():
        for line, name, head, body in functions(t):
            sig = re.sub(r'\s*(ensures|requires)[\s\S]*', '', head)
            sig = re.sub(r'^[\s\S]*?fn \w+', 'fn F', sig)
            plain = re.sub(r'//[^\n]*', '', body)
            if len(re.findall(r'\w+', plain)) >= 3:
                groups[shape(sig + ' ' + plain)].append((n, line, name))
        for m in re.finditer(r'(?m)^pub (struct|enum) (\w+)[^;{]*\{', t):
            body = re.sub(r'//[^\n]*', '', block(t, m.start()))
            groups[m.group(1) + shape(body)].append((n, t.count('\n', 0, m.start()) + 1, m.group(1) + ' ' + m.group(2)))
    for places in groups.values():
        if len(places) > 1:
            n, line, _ = places[0]
            yield n, line, ' = '.join('%s::%s' % (p.split('/')[1], name) for p, _, name in places)


def point3(fs):
    for n, t in src(fs).items():
        for m in re.finditer(r'(?m)^\s*while [^\n]*\{', t):
            yield n, t.count('\n', 0, m.start()) + 1, m.group(0).strip()


def point4(fs):
    for n, t in src(fs).items():
        for line, name, head, body in functions(t):
            one = re.search(r'\(([^)]*)\) -> (\w+)', re.sub(r'\s+', ' ', head))
            if re.match(r'(is_)?(same|equal|less|wide_less)', name) or re.match(r'is_(same|wide_less|less)', name):
                yield n, line, 'fn %s: a comparison' % name
            elif re.match(r'(as_\w+|in_hundredths|widen|narrow|natural|whole|in_numbers|value_of|temperature|amount|second|moment|one_if|orders_of)$', name):
                yield n, line, 'fn %s: a conversion' % name
            elif re.match(r'(add|sub|asked_less_given|max|min|elapsed|lesser)$', name):
                yield n, line, 'fn %s: arithmetic by name' % name
            elif re.search(r'page: &mut Page|print_', head) and name in ('text', 'label', 'decimal', 'hex', 'signed', 'put', 'field', 'print_after', 'print_settings', 'print_line'):
                yield n, line, 'fn %s: printing' % name


def point5(fs):
    facts = defaultdict(list)
    runs = defaultdict(list)
    for n, t in src(fs).items():
        for line, name, head, body in functions(t):
            for c in re.findall(r'(?:ensures|requires)(?: \w+)? \{([^}]*)\}', head):
                for w in set(re.findall(r'(?<![.\w])([A-Z]\w+)(?= [\w(])', c)):
                    facts[w].append((n, line, name))
            params = re.findall(r'(\w+): (&?\w[\w<>\[\]; ]*)', head.split('->')[0])
            for k in range(3, 6):
                for i in range(len(params) - k + 1):
                    runs[tuple(params[i:i + k])].append((n, line, name))
            two = [(a, b) for (a, b), (c, d) in zip(params, params[1:]) if False]
            for (a, x), (b, y) in zip(params, params[1:]):
                if (a, b) in (('page', 'at'), ('h', 'c'), ('oldh', 'oldc'), ('line', 'page')):
                    runs[((a, x), (b, y))].append((n, line, name))
    for w, places in sorted(facts.items()):
        if len({p for p in places}) >= 3 and w not in ('Config', 'Some', 'None', 'Call', 'Probe', 'Events'):
            yield places[0][0], places[0][1], 'the fact %s in %d contracts: %s' % (w, len(set(places)), ', '.join(sorted({p[2] for p in places}))[:120])
    kept = []
    for run, places in sorted(runs.items(), key=lambda r: -len(r[0])):
        if len(set(places)) >= 3 and not any(set(run) <= set(k) and set(places) <= set(p) for k, p in kept):
            kept.append((run, places))
            yield places[0][0], places[0][1], 'the parameters (%s) in %d functions' % (', '.join(a for a, _ in run), len(set(places)))


def point6(fs):
    for n, t in src(fs).items():
        for m in re.finditer(r'(?m)^(?:pub )?struct (\w+)[^;{]*\{', t):
            body = block(t, m.start())
            if re.search(r': \[[^\]]*; ', body) and re.search(r'(len|next|filled|held): usize', body):
                yield n, t.count('\n', 0, m.start()) + 1, 'struct %s: an array and its length' % m.group(1)
            elif re.search(r'(held|filled): usize', body):
                yield n, t.count('\n', 0, m.start()) + 1, 'struct %s: lengths of arrays that are elsewhere' % m.group(1)
        for m in re.finditer(r'(?m)^pub type (\w+) = \[u8; \d+\];', t):
            yield n, t.count('\n', 0, m.start()) + 1, 'type %s: an array whose length is elsewhere' % m.group(1)
        for m in re.finditer(r'(?m)^(?:pub(?:\(crate\))? )?(?:const|static) (\w+): \[u8; \d+\] = \*b', t):
            yield n, t.count('\n', 0, m.start()) + 1, 'const %s: a table of fixed rows in one array' % m.group(1)
        for line, name, head, body in functions(t):
            if re.search(r'while row|while i', body) and re.search(r'return (row|false)', body):
                yield n, line, 'fn %s: a search by hand' % name


def point7(fs):
    for n, t in src(fs).items():
        for line, name, head, body in functions(t):
            for m in re.finditer(r'match [^{]*\{', body):
                arms = block(body, m.start())
                calls = re.findall(r'=> (?:return )?(?:Planned::Write\(|Some\()?\s*([a-z_]+(?:::[a-z_]+)*)\(', arms)
                if len(set(calls)) >= 3:
                    yield n, line, 'fn %s: a match that runs one of %d functions' % (name, len(set(calls)))
                    break


def point8(fs):
    for n in fs:
        if re.search(r'/proofs/.*(Answers|Proof|Invariants)\.antt$', n):
            yield n, 1, 'an answer file, %d lines' % fs[n].count('\n')
        elif '/proofs/' in n and not n.endswith('/Lib.antt'):
            yield n, 1, 'lemmas, %d lines' % fs[n].count('\n')


POINTS = [point1, point2, point3, point4, point5, point6, point7, point8]


def main():
    args = sys.argv[1:]
    wanted = [int(a) for a in args if re.match(r'[1-8]$', a)] or range(1, 9)
    commit = next((a for a in args if not re.match(r'[1-8]$', a)), None)
    fs = files(commit)
    for k in wanted:
        places = list(POINTS[k - 1](fs))
        print('point %d: %d places' % (k, len(places)))
        for n, line, what in places:
            print('  %s:%d: %s' % (n.removeprefix('crates/'), line, what))


main()
