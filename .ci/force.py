#!/usr/bin/env python3
"""force.py LOG: writes the tables of docs/FORCE.md from what a gate printed (`.ci/run > LOG`; `rt must-fail > LOG` has the same lines).

A row: the edit's title (its first line), the statement that fails and the place where the prover refused it. That is the first error that rt tells.
An edit with a line `-- law: NAME, FILE` is refused at several places, of which rt tells the first alone; so it is checked once more, in a copy, and the row has
the first error in FILE, the proof of that law. Some 130 checks, each core with a copy of its own.
"""
import concurrent.futures, glob, os, queue, re, shutil, subprocess, sys, tempfile

MARK = '<!-- the rest is written by .ci/force.py -->\n'
TOLD = re.compile(r'^(?:rt: )?must-fail (\w+)/(\S+)\.edit: refused, as it must be: (?:note: )?(?:\./)?((?:src|specs|proofs)/[^:\s]+):(\d+):\d+: (.*)$', re.M)
FUNCTION = re.compile(r' *(?:pub(?:\(\w+\))? )?(?:const )?(?:extern "C" )?fn (\w+)')


def read(path):
    with open(path, encoding='utf-8') as f:
        return f.read()


def applied(path, folder):
    """The texts that an edit makes of its files, by their names."""
    made, name, old = {}, None, None
    for line in read(path).split('\n'):
        word, _, text = line.partition(': ')
        if word == 'file':
            name = text
            made.setdefault(name, read(os.path.join(folder, name)))
        elif word == 'old':
            old = text
        elif word == 'new':
            if made[name].count(old) != 1:
                sys.exit('%s: not once: %s' % (path, old))
            made[name] = made[name].replace(old, text)
    return made


def law_place(top, crate, path, home):
    """The first error in the law's file, with the edit in a copy of the repository."""
    folder = os.path.join(top, 'crates', crate)
    made = applied(path, folder)
    before = {name: read(os.path.join(folder, name)) for name in made}
    try:
        for name, text in made.items():
            with open(os.path.join(folder, name), 'w', encoding='utf-8') as f:
                f.write(text)
        said = subprocess.run(['rt', 'check'], cwd=folder, capture_output=True, text=True).stdout
    finally:
        for name, text in before.items():
            with open(os.path.join(folder, name), 'w', encoding='utf-8') as f:
                f.write(text)
    errors = [int(m[1]) for m in re.finditer(r'(?m)^(?:\./)?%s:(\d+):\d+: error: (?!.*was not admitted)' % re.escape(home), said)]
    if not errors or 'logic=not-proved' not in said:
        sys.exit('%s is not refused in %s' % (path, home))
    return '%s:%d' % (home, min(errors))


def function_at(crate, file, line):
    """The function of src/ at a line: most are proved without a file."""
    text = read('crates/%s/%s' % (crate, file)).split('\n')
    before = [m[1] for m in map(FUNCTION.match, text[:line]) if m]
    after = [m[1] for m in map(FUNCTION.match, text[line - 1:]) if m]
    name = after[0] if text[line - 1].lstrip().startswith('#[') or not before else before[-1]
    module = file[len('src/'):-len('.rt')]
    opened = [i for i, l in enumerate(text[:line]) if l.startswith('impl')]
    method = opened and '}' not in text[opened[-1]:line]
    header = re.match(r'impl(?:<.*?>)? (.*?)(?: for (.*?))?(?: where .*)? \{', text[opened[-1]]) if method else None
    of = ['<%s as %s>' % (header[2], header[1]) if header[2] else header[1]] if method else []
    return '::'.join([crate] + ([] if module in ('lib', 'main') else module.split('/')) + of + [name])


def row(told, tops, crate, path):
    name = os.path.basename(path)[:-len('.edit')]
    lines = read(path).split('\n')
    title = lines[0].lstrip('- ').strip()
    law = next((l[len('-- law: '):] for l in lines if l.startswith('-- law: ')), None)
    if (crate, name) not in told:
        sys.exit('%s/%s is not told as refused' % (crate, name))
    file, line, text = told[crate, name]
    place = '%s:%s' % (file, line)
    if law:
        statement, home = law.split(', proofs/')
        top = tops.get()
        try:
            place = law_place(top, crate, path, 'proofs/' + home + '.antt')
        finally:
            tops.put(top)
    else:
        m = re.match(r'proofs/(.*)/(?:Answers|Invariants|Proof)\.antt', file)
        declared = re.match(r'error: `([^`]+)`', text)
        statement = crate + '::' + m[1].replace('/', '::') if m else declared[1] if declared else function_at(crate, file, int(line))
    return '| %s (`%s`) | `%s` | %s |' % (title, name, statement, place)


def main():
    if len(sys.argv) != 2:
        sys.exit('usage: .ci/force.py LOG')
    told = {(m[1], m[2]): (m[3], m[4], m[5]) for m in TOLD.finditer(read(sys.argv[1]))}
    os.chdir(os.path.join(os.path.dirname(os.path.abspath(__file__)), '..'))
    out = [read('docs/FORCE.md').split(MARK)[0].rstrip('\n') + '\n\n' + MARK]
    with tempfile.TemporaryDirectory() as room, concurrent.futures.ThreadPoolExecutor(os.cpu_count()) as pool:
        tops = queue.Queue()
        for core in range(os.cpu_count()):
            top = os.path.join(room, str(core))
            shutil.copytree('crates', os.path.join(top, 'crates'), ignore=shutil.ignore_patterns('out'))
            shutil.copy('crates.txt', top)
            tops.put(top)
        tables = []
        for line in read('crates.txt').split('\n'):
            crate = re.match(r'\w*', line)[0]
            edits = sorted(glob.glob('crates/%s/must-fail/*.edit' % crate)) if crate else []
            if edits:
                tables.append((crate, [pool.submit(row, told, tops, crate, e) for e in edits]))
        for crate, rows in tables:
            table = '\n'.join(r.result() for r in rows)
            out.append('\n## %s\n\n| wrong answer | statement that fails | refused at |\n|---|---|---|\n%s\n' % (crate, table))
    with open('docs/FORCE.md', 'w', encoding='utf-8') as f:
        f.write(''.join(out))


if __name__ == '__main__':
    main()
