#!/usr/bin/env python3
"""public_calls.py            lists the public functions that no test runs; status 1 where there is one
public_calls.py --program  compares those that the program does not run with the table of docs/ARCHITECTURE.md; status 1 where they differ

It goes by names, from the tests, or from `main`, through the bodies of the functions that they name; a function of another crate counts only
where the file names it with its crate. A method counts where a function that is run calls one of its name in a file that names its type, but
not on `iter()`; the few whose type is never written where they are called are listed below with such a place. Laws (functions with an empty
body) have nothing to run. Run it at the top of a clone.
"""
import re
import sys
from collections import defaultdict
from pathlib import Path
from typing import NamedTuple

FUNCTION = re.compile(r'^(\s*)(pub(?:\([^)]*\))?\s+)?(?:const\s+|unsafe\s+)*fn\s+(\w+)')
RECEIVER = re.compile(r"\(\s*(?:&\s*(?:'\w+\s+)?)?(?:mut\s+)?self\b")
NAME = re.compile(r'[A-Za-z_]\w*')
ELSEWHERE = {
    ('ScriptHosts', 'given'): 'replay, at each checkpoint',
    ('Found', 'add'): 'dump_format, for each part',
    ('Found', 'is_found'): 'dump_format, behind the sections',
    ('Gathered', 'judged'): 'dump_format, behind the sections',
    ('SharedLists', 'find'): 'dwarf_info, for each entry',
    ('Programs', 'lines'): 'cover_command, where it tells counts',
    ('Rows', 'first'): 'dwarf_line, for each sequence',
    ('Rows', 'nearest'): 'dwarf_line, for each address',
    ('IndexMap', 'helper'): 'unwind_rewrite, at a call_indirect',
    ('Globals', 'set'): 'machine_basics, at a global.set',
}
IN_TESTS = {
    ('Module', 'into_parts'): 'machine_tests, of a decoded module',
    ('Table', 'find'): 'dwarf_tests, of a table that is read',
    ('Attributes', 'all'): 'dwarf_tests, of each entry',
}


class Function(NamedTuple):
    file: str
    line: int
    owner: str
    name: str
    is_public: bool
    is_test: bool
    takes_self: bool
    body: str


def owner_of(line):
    bare = re.sub(r'<[^<>]*(?:<[^<>]*>[^<>]*)*>', '', line)
    found = re.match(r'(?:pub )?(?:trait\s+(\w+)|impl\s+(?:\w+\s+for\s+)?(\w+))', bare)
    return (found[1] or found[2] or '') if found else ''


def end_of(lines, first, indent):
    """The index behind the last line of the function that begins at a line."""
    for i in range(first, len(lines)):
        if lines[i].startswith(' ' * indent + '}') or (i == first and lines[i].rstrip().endswith('{}')):
            return i + 1
        if lines[i].rstrip().endswith(';') and '{' not in ''.join(lines[first:i + 1]):
            return i + 1
    return len(lines)


def without_clauses(lines):
    """The text of a function without clauses, comments and strings."""
    kept, depth = [], 0
    for line in lines:
        if depth or re.match(r'\s*(requires|ensures)\b', line):
            depth += line.count('{') - line.count('}')
            continue
        kept.append(re.sub(r'//.*|"(?:[^"\\]|\\.)*"', '', line))
    return '\n'.join(kept)


def functions_of(path):
    lines, owner = path.read_text(encoding='utf-8').split('\n'), ''
    for i, line in enumerate(lines):
        if re.match(r'(pub )?(impl|trait)\b', line):
            owner = owner_of(line)
        elif line.startswith('}'):
            owner = ''
        found = FUNCTION.match(line)
        if not found:
            continue
        above = i
        while above and lines[above - 1].strip().startswith(('#[', '//')):
            above -= 1
        text = without_clauses(lines[i:end_of(lines, i, len(found[1]))])
        is_test = any('#[test]' in above_it for above_it in lines[above:i]) or '_tests/' in str(path)
        public = (found[2] or '').strip() == 'pub'
        yield Function(str(path), i + 1, owner, found[3], public, is_test, bool(RECEIVER.search(text.split('{')[0])), text)


def crate_of(f):
    return Path(f.file).parts[1]


def may_call(f, g, files):
    """Whether a function that names this one can mean it."""
    return g.owner or crate_of(f) == crate_of(g) or re.search(rf'\b{crate_of(g)}::[^;]*\b{g.name}\b', files[f.file])


def run_from(begins, by_name, files):
    """The functions that these reach by names."""
    run, left = set(), begins
    while left:
        f = left.pop()
        if f not in run:
            run.add(f)
            left += [g for name in set(NAME.findall(f.body)) for g in by_name.get(name, ()) if may_call(f, g, files)]
    return run


def is_called(f, texts, files, elsewhere):
    """Whether a function that is run names this one, and where it is one of a type, the type too."""
    if not f.owner:
        return True
    if (f.owner, f.name) in elsewhere:
        return True
    call = re.compile(rf'(?<!\.iter\(\))\.{f.name}(?:::<[^()]*>)?\(' if f.takes_self else rf'\b(?:{f.owner}|Self)::(?:<[^>]*>::)?{f.name}\b')
    return any(call.search(text) and re.search(rf'\b{f.owner}\b', files[file]) for file, text in texts.items())


def not_run(begins, by_name, files, elsewhere):
    """The public functions that these do not reach, laws aside, and how many there are in all."""
    run, texts = run_from(begins, by_name, files), defaultdict(str)
    for f in run:
        texts[f.file] += f.body + '\n'
    public = [f for functions in by_name.values() for f in functions if f.is_public and not f.is_test and not f.body.rstrip().endswith('{}')]
    return sorted(f for f in public if f not in run or not is_called(f, texts, files, elsewhere)), len(public)


def listed():
    """The calls of the table of docs/ARCHITECTURE.md, with their crates."""
    text = Path('docs/ARCHITECTURE.md').read_text(encoding='utf-8')
    table = text.split("## A library's own calls\n")[1].split('\n## ')[0]
    return {(crate, call) for crate, row in re.findall(r'^\| `(\w+)` \| (.*?) \|', table, re.M) for call in re.findall(r'`([\w:]+)`', row)}


def title(f):
    return f.owner + '::' + f.name if f.owner else f.name


def compare(lacking):
    """What the table lacks, and what it has too much."""
    found, rows = {(crate_of(f), title(f)) for f in lacking if crate_of(f) != 'test_modules'}, listed()
    for crate, call in sorted(found - rows):
        print(f'{crate}: {call} is not run by the program and not listed')
    for crate, call in sorted(rows - found):
        print(f'{crate}: {call} is listed, and is run by the program or not there')
    print(f'{len(found)} public functions that the program does not run, {len(rows)} listed')
    return 1 if found != rows else 0


def main(args):
    if set(args) - {'--program'}:
        sys.exit(__doc__)
    by_name, files = defaultdict(list), {}
    for path in sorted(Path('crates').glob('*/src/**/*.rt')):
        files[str(path)] = path.read_text(encoding='utf-8')
        for f in functions_of(path):
            by_name[f.name].append(f)
    every = [f for functions in by_name.values() for f in functions]
    if args:
        return compare(not_run([f for f in every if f.file.endswith('pm_main/src/main.rt')], by_name, files, ELSEWHERE)[0])
    lacking, count = not_run([f for f in every if f.is_test], by_name, files, ELSEWHERE | IN_TESTS)
    for f in lacking:
        print(f'{f.file}:{f.line}: {title(f)} is run by no test')
    print(f'{count} public functions, {len(lacking)} of which no test runs')
    return 1 if lacking else 0


if __name__ == '__main__':
    sys.exit(main(sys.argv[1:]))
