#!/usr/bin/env python3
"""Makes docs/PROVED.md from the crates' own words, and tells more of single crates.

    docs/proved.py             writes docs/PROVED.md
    docs/proved.py NAME..      prints the public functions of these crates, each with its words and the names of its clauses
    docs/proved.py --check     ends with status 1 where PROVED.md is not what it would write, or where a page names a crate, a
                               function, a page, a heading or a file that is not there

What it reads: crates.txt, the `//!` lines at the head of each crate, the `///` lines above each public function, and the
files of the pages. It reads no proof and runs nothing.
"""
import os
import re
import sys

TOP = os.path.dirname(os.path.dirname(os.path.abspath(__file__)))
PAGE = 'docs/PROVED.md'

LAYERS = [
    ('def_', 'Definitions', 'What is meant, as functions that compute and as types. No crate of code stands below a crate of definitions but `ev_base`, which has the numbers, names, lists, texts, nouns and verbs that all speak of.'),
    ('ev', 'Code', 'What runs. Each public function has a contract that speaks of the definitions; `docs/proved.py NAME` prints its clauses by name.'),
    ('law_', 'Laws', 'Each public function has an empty body and no arguments: its contract is the law, and the check of the crate proves it. [LAWS.md](LAWS.md) asks and answers what the final ones say; the others lead to them.'),
    ('test_', 'Tests', 'Worked rows that are proved by computing, programs over examples, `#[test]` functions, and what `bench/` times. No other crate stands on them but tests.'),
]


def read(path):
    with open(os.path.join(TOP, path), encoding='utf-8') as file:
        return file.read()


def listed():
    """Each crate of crates.txt with what it stands on."""
    found = {}
    for line in read('crates.txt').splitlines():
        line = line.split('#')[0].strip()
        if ':' in line:
            name, rest = line.split(':', 1)
            found[name.split()[0]] = rest.split()
    return found


def sources(name):
    """The files of a crate's code, the root first."""
    root = os.path.join(TOP, 'crates', name, 'src')
    found = []
    for at, _, files in os.walk(root):
        found += [os.path.relpath(os.path.join(at, it), TOP) for it in files if it.endswith('.rt')]
    return sorted(found, key=lambda it: (os.path.basename(it) not in ('lib.rt', 'main.rt'), it))


def head_of(name):
    """The first paragraph of the `//!` lines of the crate's root."""
    words = []
    for line in read(sources(name)[0]).splitlines():
        if not line.startswith('//!'):
            break
        text = line[3:].strip()
        if not text:
            break
        words.append(text)
    return ' '.join(words)


def functions_in(path):
    """The public functions of a file: name, words, names of clauses."""
    found = []
    words, clauses, current = [], [], None
    for line in read(path).splitlines():
        text = line.strip()
        opened = re.match(r'(    )?pub (?:const )?fn (\w+)', line)
        if opened:
            current = (opened[2], ' '.join(words), [])
            found.append(current)
            words = []
        elif text.startswith('///'):
            words.append(text[3:].strip() or ' ')
        elif text.startswith('#['):
            pass
        elif current and re.match(r'ensures\b', text):
            clause = re.match(r'ensures (\w+) \{', text)
            if clause:
                current[2].append(clause[1])
        elif text in ('{', '{}') or text.endswith('{') and not text.startswith(('ensures', 'requires', 'ghost')):
            current, words = None, []
        elif text and not text.startswith(('ghost', '//', 'requires', 'ensures', '×', '→', ')', '(')):
            words = []
    return found


def functions(name):
    """Those of a crate."""
    return [it for path in sources(name) for it in functions_in(path)]


def words_of(path):
    """The `//!` lines of a file, which may say what all of its laws ask."""
    return ' '.join(line[3:].strip() for line in read(path).splitlines() if line.startswith('//!'))


def edits(name):
    folder = os.path.join(TOP, 'crates', name, 'must-fail')
    return len([it for it in os.listdir(folder) if it.endswith('.edit')]) if os.path.isdir(folder) else 0


def stands_on(name, all_of):
    """What a crate stands on, without what these stand on themselves."""
    below = {}

    def closure(it):
        if it not in below:
            below[it] = set()
            for lower in all_of.get(it, []):
                below[it] |= {lower} | closure(lower)
        return below[it]

    direct = all_of[name]
    hidden = set().union(*[closure(it) for it in direct]) if direct else set()
    return [it for it in direct if it not in hidden]


def layer_of(name):
    return next((at for at, (prefix, _, _) in enumerate(LAYERS) if name.startswith(prefix)), None)


def page():
    all_of = listed()
    out = [
        '# What is proved, crate by crate',
        '',
        '*Reading path: after [LAWS.md](LAWS.md), the last page. `docs/proved.py` makes this page from the crates\' own words and `crates.txt`; change those, not the page.*',
        '',
        'A crate is built only when each of its functions is proved to meet its contract, to be safe and to end. So what a crate proves are its contracts, and the words above each public function say them: `docs/proved.py NAME` prints these with the names of the clauses. Where a crate has a page of its own (`README.md` in its folder), its name leads there.',
        '',
        'Want of memory is the one answer of the code that no clause ties to a cause. A *must-fail edit* changes a line or two of a crate\'s code to a wrong one; the gate applies each by itself, and the prover has to refuse it. Those of other crates stand in `edits/`; `edits/try.py NAME` tries them, and `tools/deep` all of them.',
    ]
    for at, (prefix, title, words) in enumerate(LAYERS):
        names = sorted(it for it in all_of if layer_of(it) == at)
        out += ['', f'## {title} (`{prefix}..`)', '', words, '']
        laws = prefix == 'law_'
        out += ['| Crate | What it says | Public functions; must-fail edits; clauses by name | Stands on |' if not laws else '| Crate | What it says, and its laws by name | Stands on |']
        out += ['|---|---|---|---|' if not laws else '|---|---|---|']
        for name in names:
            has_page = os.path.isfile(os.path.join(TOP, 'crates', name, 'README.md'))
            title_of = f'[`{name}`](../crates/{name}/README.md)' if has_page else f'`{name}`'
            below = ', '.join(f'`{it}`' for it in stands_on(name, all_of))
            publics = functions(name)
            if laws:
                told = ', '.join(f'`{it[0]}`' for it in publics)
                out.append(f'| {title_of} | {head_of(name)}{" " + told if told else ""} | {below} |')
            else:
                count = edits(name)
                named = list(dict.fromkeys(f'`{it[0]}: {", ".join(it[2])}`' for it in publics if it[2]))
                told = [str(len(publics)) if publics else '', f'{count} edits' if count > 1 else '1 edit' if count else '', ', '.join(named)]
                out.append(f'| {title_of} | {head_of(name)} | {"; ".join(it for it in told if it)} | {below} |')
    return '\n'.join(out) + '\n'


def pages():
    """The pages that are kept by hand."""
    found = ['README.md', 'CONTRIBUTING.md', 'CHANGELOG.md'] + [f'docs/{it}' for it in sorted(os.listdir(os.path.join(TOP, 'docs'))) if it.endswith('.md') and f'docs/{it}' != PAGE]
    found += [f'crates/{it}/README.md' for it in sorted(os.listdir(os.path.join(TOP, 'crates'))) if os.path.isfile(os.path.join(TOP, 'crates', it, 'README.md'))]
    return found


def names_in(name):
    """Every function, type and definition that a crate's sources and definitions name."""
    found = set()
    for part in ('src', 'specs', 'proofs'):
        for at, _, files in os.walk(os.path.join(TOP, 'crates', name, part)):
            for it in files:
                if it.endswith(('.rt', '.antt')):
                    with open(os.path.join(at, it), encoding='utf-8') as file:
                        found |= set(re.findall(r'\w+', file.read()))
    return found


def anchors(path):
    """The names by which the headings of a page can be linked to."""
    heads = [line.lstrip('#').strip() for line in read(path).splitlines() if re.match(r'#+ ', line)]
    return {re.sub(r'[^\w\- ]', '', it.lower()).replace(' ', '-') for it in heads}


def lost_anchor(path, target, anchor):
    """Whether a link of the page leads to a heading that is not there."""
    file = os.path.normpath(os.path.join(os.path.dirname(path), target)) if target else path
    return file.endswith('.md') and os.path.isfile(os.path.join(TOP, file)) and anchor not in anchors(file)


def check():
    wrong = []
    all_of = listed()
    if not os.path.isfile(os.path.join(TOP, PAGE)) or read(PAGE) != page():
        wrong.append(f'{PAGE}: not what docs/proved.py writes')
    known = {}
    for path in pages():
        own = path.split('/')[1] if path.startswith('crates/') else None
        for number, line in enumerate(read(path).splitlines(), 1):
            def say(words):
                wrong.append(f'{path}:{number}: {words}')
            for target in re.findall(r'\]\(([^)#]+)(?:#[^)]*)?\)', line):
                if '://' not in target and not os.path.exists(os.path.normpath(os.path.join(TOP, os.path.dirname(path), target))):
                    say(f'no {target}')
            for target, anchor in re.findall(r'\]\(([^)#]*)#([^)]*)\)', line):
                if '://' not in target and lost_anchor(path, target, anchor):
                    say(f'no heading {target}#{anchor}')
            for crate in re.findall(r'`((?:ev|def|law|test)_[a-z_]+|evat)\b', line):
                if crate not in all_of:
                    say(f'no crate {crate}')
            for crate, word in re.findall(r'`((?:ev|def|law|test)_[a-z_]+)::(\w+(?:::\w+)*)', line):
                if crate in all_of:
                    known.setdefault(crate, names_in(crate))
                    for part in word.split('::'):
                        if part and part not in known[crate]:
                            say(f'no {part} in {crate}')
            for file in re.findall(r'`((?:crates/|docs/|bench/)?[\w./-]+\.(?:rt|antt|py|md|txt|edit))\b', line):
                near = [file, f'docs/{file}', f'crates/{file}']
                near += [f'crates/{it}/{part}{file}' for it in [own, *all_of.get(own, [])] for part in ('', 'src/', 'specs/', 'proofs/')] if own else []
                for it in re.findall(r'\b(?:ev|def|law|test)_[a-z_]+', line):
                    near += [f'crates/{it}/{part}{file}' for part in ('', 'src/', 'specs/', 'proofs/')]
                if 'NAME' not in file and not any(os.path.exists(os.path.join(TOP, it)) for it in near):
                    say(f'no file {file}')
            for file in re.findall(r'`(tools/\w+)', line):
                if not os.path.isfile(os.path.join(TOP, file)):
                    say(f'no file {file}')
    for it in wrong:
        print(it)
    return 1 if wrong else 0


def tell(names):
    for name in names:
        print(f'{name}: {head_of(name)}')
        for path in sources(name):
            found = functions_in(path)
            if found and os.path.basename(path) not in ('lib.rt', 'main.rt'):
                print(f'\n  {os.path.basename(path)}: {words_of(path)}')
            for function, words, clauses in found:
                print(f'\n  {function}' + (f' [{", ".join(clauses)}]' if clauses else ''))
                print('    ' + re.sub(r'\s{2,}', '\n    ', words.strip()))
        print()


def main():
    words = sys.argv[1:]
    if words == ['--check']:
        return check()
    if words:
        tell(words)
        return 0
    with open(os.path.join(TOP, PAGE), 'w', encoding='utf-8') as file:
        file.write(page())
    return 0


if __name__ == '__main__':
    sys.exit(main())
