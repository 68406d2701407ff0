#!/usr/bin/env python3
"""answers.py CRATE..: puts a tactic attribute in the place of a proof by hand.

For each proofs/F/Proof.antt of a crate: the definitions that it unfolds and the lemmas that it cites go into `#[tactic(auto, using(..), unfolding(..))]`
above the function, `#![tactic(auto)]` above the first item of the crate, and the file goes. What the check then leaves open is answered by hand.
"""
import glob, os, re, sys

USE = re.compile(r'(?m)^use (\S+?)\.\{([^}]*)\}')
NAME = re.compile(r'[^\s(){}.;,@"«»`]+')


def source_of(crate, parts):
    """The file of a function and, for a method, its type."""
    src = 'crates/%s/src' % crate
    root = src + ('/lib.rt' if os.path.exists(src + '/lib.rt') else '/main.rt')
    mods = [p for p in parts[:-1] if not p[0].isupper()]
    types = [p for p in parts[:-1] if p[0].isupper()]
    path = src + '/' + '/'.join(mods) + '.rt' if mods else root
    return path, types[0] if types else None


def rust_path(crate, module, name):
    steps = module.split('.')[1:]
    steps[0] = 'crate' if steps[0] == crate else steps[0]
    return '::'.join(steps + [name])


def turn(crate, path):
    text = open(path, encoding='utf-8').read()
    parts = path.split('/proofs/')[1].split('/')[:-1]
    names = {}
    for module, items in USE.findall(text):
        for item in items.split(','):
            item = item.strip()
            if ' as ' in item:
                continue
            names[item] = module
    unfolded = []
    for line in re.findall(r'(?m)^unfolding (.*)$', text):
        unfolded += [n for n in line.split() if n not in unfolded]
    unfolding = [rust_path(crate, names[n], n) for n in unfolded if n in names and names[n].startswith('Rattle.')]
    body = re.sub(r'(?m)^(use|unfolding) .*$', '', text)
    words = set(NAME.findall(body))
    using = [rust_path(crate, m, n) for n, m in names.items()
             if m.startswith('Rattle.') and '.proofs.' in m and not re.search(r'\.proofs\.(.*\.)?(Statement|Tie)$', m) and n in words and re.fullmatch(r'\w+', n) and n[0].islower()]
    file, type_ = source_of(crate, parts)
    src = open(file, encoding='utf-8').read()
    f = parts[-1]
    m = None
    for m in re.finditer(r'(?m)^( *)((?:pub(?:\([a-z]+\))? )?(?:const )?(?:extern "C" )?fn %s\b)' % re.escape(f), src):
        if not type_ or src[:m.start()].rfind('impl ' + type_) > src[:m.start()].rfind('\n}\n'):
            break
    if m is None:
        print('no function for', path)
        return
    lists = ''.join(', %s(%s)' % (w, ', '.join(xs)) for w, xs in (('using', using), ('unfolding', unfolding)) if xs)
    if lists:
        src = src[:m.start()] + '%s#[tactic(auto%s)]\n' % (m[1], lists) + src[m.start():]
    with open(file, 'w', encoding='utf-8') as out:
        out.write(src)
    os.remove(path)
    folder = os.path.dirname(path)
    while folder.count('/') > 2 and not os.listdir(folder):
        os.rmdir(folder)
        folder = os.path.dirname(folder)


def main():
    for crate in sys.argv[1:]:
        for path in sorted(glob.glob('crates/%s/proofs/**/Proof.antt' % crate, recursive=True)):
            turn(crate, path)
        for root in ('lib.rt', 'main.rt'):
            p = 'crates/%s/src/%s' % (crate, root)
            if os.path.exists(p):
                text = open(p, encoding='utf-8').read()
                if '#![tactic(' not in text:
                    lead = re.match(r'(?:(?://.*)?\n)*', text)[0]
                    with open(p, 'w', encoding='utf-8') as out:
                        out.write(lead + '#![tactic(auto)]\n\n' + text[len(lead):])


main()
