#!/usr/bin/env python3
"""edges.py           prints where crates.txt and the crates disagree on what stands on what; status 1 where they do
edges.py --chain   prints the longest chain of crates, and how many edges there are
edges.py --write   writes crates.txt anew: the lines stay in their order, each with the crates that it cites

A crate cites another one where a file of its src/, specs/ or proofs/ names a path into it. Run it at the top of a clone.
"""
import re
import sys
from pathlib import Path

LIST = Path('crates.txt')


def listed():
    """The crates with what they stand on, in the order of the list."""
    rows = (line.partition(':') for line in LIST.read_text(encoding='utf-8').splitlines() if ':' in line and not line.startswith('#'))
    return {name.strip(): below.split() for name, _, below in rows}


def cited(crate, names):
    """The crates and libraries that a crate's files name; a module of its own hides a library of that name."""
    own = {path.stem for path in Path('crates', crate, 'src').rglob('*.rt')}
    any_of = '|'.join(sorted(names - own - {crate}))
    path = re.compile(rf'\bRattle\.({any_of})\.|(?<![\w.:])({any_of})::|\bcalls-({any_of})::')
    files = (file for part in ('src', 'specs', 'proofs') for file in Path('crates', crate, part).rglob('*') if file.suffix in ('.rt', '.antt'))
    return {next(filter(None, found)) for file in files for found in path.findall(file.read_text(encoding='utf-8'))}


def chain_of(crate, edges, known):
    """The longest chain of the repository's crates that ends with this one."""
    if crate not in known:
        known[crate] = max((chain_of(below, edges, known) for below in edges[crate] if below in edges), key=len, default=[]) + [crate]
    return known[crate]


def write(edges, order):
    rows = []
    for line in LIST.read_text(encoding='utf-8').splitlines():
        name = line.partition(':')[0].strip()
        if name in edges and not line.startswith('#'):
            line = f'{name}:' + ''.join(f' {below}' for below in sorted(edges[name], key=lambda it: (order.get(it, len(order)), it)))
        rows.append(line)
    LIST.write_text('\n'.join(rows) + '\n', encoding='utf-8')


def main(args):
    if set(args) - {'--chain', '--write'}:
        sys.exit(__doc__)
    lines = listed()
    names = set(lines) | {below for row in lines.values() for below in row}
    edges = {crate: cited(crate, names) for crate in lines}
    if '--write' in args:
        write(edges, {crate: number for number, crate in enumerate(lines)})
        return 0
    if '--chain' in args:
        product = {crate: below for crate, below in edges.items() if not crate.endswith('_tests')}
        longest = max((chain_of(crate, product, {}) for crate in product), key=len)
        print(f'{len(longest)}: {" < ".join(longest)}\n{sum(map(len, edges.values()))} edges')
        return 0
    wrong = [f'{crate} lists {below} and cites it nowhere' for crate in lines for below in lines[crate] if below not in edges[crate]]
    wrong += [f'{crate} cites {below} and does not list it' for crate in lines for below in sorted(edges[crate] - set(lines[crate]))]
    print('\n'.join(wrong + [f'{sum(map(len, lines.values()))} edges of {len(lines)} crates, {len(wrong)} of them wrong']))
    return 1 if wrong else 0


if __name__ == '__main__':
    sys.exit(main(sys.argv[1:]))
