#!/usr/bin/env python3
"""spelling.py [TOP]: spells the repository's own definitions and lemmas in snake case, where the kit's own script left them.

A name that specs/ or proofs/ declares, that has a dash or begins in lower case and has a capital, gets plain underscores: `inHundredths` is `in_hundredths`, `clamp-low` is `clamp_low`.
Types, facts, modules, files, functions of src/ and the names that Rattle makes (`returns-2`, `loop-i-preserved`) stay. A lemma that would get the name of a definition ends in `_lem`.
A proof of a function `f` is `f_spec`. Must-fail edits and documents follow, in words alone.
"""
import glob, os, re, sys

NAME = r'[^\s(){}.;,@"«»`]+'
WORD = re.compile(NAME)
DECLARED = re.compile(r'(?m)^ *(?:(?:pub|abbrev|unfoldable|data|record) )*(' + NAME + r')(?: \{[^{}\n]*\})*(?: \([^()\n]*\))* +:(?= |$)')
RULESET = re.compile(r'(?m)^ *(?:pub )?ruleset (' + NAME + ')')
DEFINITION = re.compile(r'(?m)^ *(?:(?:pub|abbrev|unfoldable) )*(?:abbrev|unfoldable)(?: pub)? (' + NAME + ')')
MADE = re.compile(r'(invariant|decreases|returns|loop)(-.*)?$|.*-requires$')


def plain(name):
    words = re.sub(r"(?<=[a-z0-9])[A-Z]", lambda m: "_" + m[0].lower(), name)
    return words.replace("-", "_")


def read(path):
    with open(path, encoding='utf-8') as f:
        return f.read()


def table(top):
    declared, defined, words = set(), set(), set()
    for path in glob.glob(top + '/crates/*/specs/*.antt') + glob.glob(top + '/crates/*/proofs/*.antt'):
        text = read(path)
        here = set(DECLARED.findall(text)) | set(RULESET.findall(text))
        declared |= here
        defined |= set(DEFINITION.findall(text))
        words |= set(WORD.findall(text))
    turned = {n for n in declared if not MADE.match(n) and (re.search('-', n[1:]) or re.match('[a-z][a-z0-9]*[A-Z]', n))}
    out, taken = {}, declared - turned
    for n in sorted(turned, key=lambda n: (n not in defined, n)):
        new = plain(n)
        if new in taken:
            print('spelling: %s would be %s' % (n, new), file=sys.stderr)
            new += '_lem'
        if new in words and new not in declared:
            print('spelling: %s is %s, a word of some file already' % (n, new), file=sys.stderr)
        taken.add(new)
        out[n] = new
    return out


def turn(text, names):
    return WORD.sub(lambda m: names.get(m[0]) or (plain(m[0]) if m[0].endswith('-spec') else m[0]), text)


def main():
    top = sys.argv[1] if len(sys.argv) > 1 else '.'
    kept = os.path.join(os.path.dirname(os.path.abspath(__file__)), 'spelling.tsv')
    if os.path.exists(kept):
        names = dict(line.rstrip('\n').split('\t') for line in open(kept, encoding='utf-8'))
    else:
        names = table(top)
        with open(kept, 'w', encoding='utf-8') as f:
            f.writelines('%s\t%s\n' % pair for pair in sorted(names.items()))
    paths = [p for kind in ('antt', 'rt', 'edit') for p in glob.glob(top + '/crates/**/*.' + kind, recursive=True)]
    paths += glob.glob(top + '/bench/*.edit') + glob.glob(top + '/*.md') + glob.glob(top + '/docs/**/*.md', recursive=True)
    for path in paths:
        if '/out/' in path:
            continue
        old = read(path)
        new = turn(old, names)
        if new != old:
            with open(path, 'w', encoding='utf-8') as f:
                f.write(new)


main()
