#!/usr/bin/env python3
"""pages.py: compares the pages of this checkout with each other and with its files; status 1, and a line for each difference.

- The first line of crates/X/README.md is `# X: ` and the first sentence of the doc comment of the crate; so is the second column of the row
  of X in docs/ARCHITECTURE.md.
- A README says which file to read first, and then has the sections Calls, Proved and Tested. That of a crate of tests says what it tests.
- Each relative link of a page leads to a file, and to a heading of it where it names one.
- Each path into a crate stands for a file or a folder: `crates/X/..`, `X/specs/File`, `X/src/file.rt`, and in the README of a crate
  `specs/File` alone. Endings may be left out. A path with a star, in `out/`, or with a name in capitals for the crate is not looked at.
"""
import re
import sys
from pathlib import Path

TOP = Path(__file__).resolve().parent.parent
CRATES = TOP / 'crates'
SECTIONS = ['Calls', 'Proved', 'Tested']
ENDINGS = ['', '.antt', '.rt']
LINK = re.compile(r'(?<!!)\[[^\]]*\]\(([^)\s]+)\)')
IN_CRATE = re.compile(r'(?<![\w./*])(?:crates/)?(\w+)/(?:specs|src|proofs)\b[\w/.+]*')
UNDER_CRATES = re.compile(r'(?<![\w./*])crates/[a-z]\w*[\w/.+]*')
OWN = re.compile(r'`((?:specs|src|proofs)/[\w/.+]*)`')


def first_sentence(crate):
    """The first sentence of the doc comment at the head of a crate, in one line."""
    head = next(path for path in (crate / 'src/lib.rt', crate / 'src/main.rt') if path.exists())
    comment = []
    for line in head.read_text(encoding='utf-8').split('\n'):
        if not line.startswith('//!'):
            break
        comment.append(line[3:].strip())
    return re.match(r'.*?\.(?= [A-Z]|$)|.*', ' '.join(comment).strip())[0]


def rows_of_crates():
    """What the tables `Crate`, `Does` of docs/ARCHITECTURE.md have in their second column, by crates."""
    text, rows = (TOP / 'docs/ARCHITECTURE.md').read_text(encoding='utf-8'), {}
    for table in re.findall(r'^\| Crate \| Does \|.*\n((?:\|.*\n)*)', text, re.M):
        for name, column in re.findall(r'^\| `(\w+)` \| (.*?) \|', table, re.M):
            rows.setdefault(name, []).append(column)
    return rows


def is_of_tests(name):
    return name.endswith('_tests') or name == 'test_modules'


def differences_of_form(name, lines):
    """What the README of a crate lacks of the one form."""
    sections = [line[3:] for line in lines if line.startswith('## ')]
    if is_of_tests(name):
        if len(lines) < 3 or not lines[2]:
            yield 'nothing is said of what is tested'
        return
    if not (len(lines) > 2 and re.match(r'Read .* first[;.]', lines[2])):
        yield 'the file to read first is not said'
    if sections != SECTIONS:
        yield f'the sections are {", ".join(sections) or "none"}, and not {", ".join(SECTIONS)}'


def differences_of_crates():
    rows = rows_of_crates()
    yield from (f'docs/ARCHITECTURE.md: {name} is no crate' for name in sorted(rows) if not (CRATES / name).is_dir())
    for crate in sorted(path for path in CRATES.iterdir() if (path / 'src').is_dir()):
        name, page = crate.name, crate / 'README.md'
        wanted = first_sentence(crate)
        columns = rows.get(name, [])
        if len(columns) != 1:
            yield f'docs/ARCHITECTURE.md: {name} has {len(columns)} rows'
        for column in columns:
            if column != wanted:
                yield f'docs/ARCHITECTURE.md: {name}: "{column}" is not "{wanted}"'
        if not page.exists():
            yield f'crates/{name}/README.md is not there'
            continue
        lines = page.read_text(encoding='utf-8').split('\n')
        if lines[0] != f'# {name}: {wanted}':
            yield f'crates/{name}/README.md: "{lines[0]}" is not "# {name}: {wanted}"'
        yield from (f'crates/{name}/README.md: {difference}' for difference in differences_of_form(name, lines))


def headings(page):
    """The anchors of a page, as they are made of its headings."""
    titles = re.findall(r'^#+ (.*)$', page.read_text(encoding='utf-8'), re.M)
    return {re.sub(r'[^\w\- ]', '', title.lower()).replace(' ', '-') for title in titles}


def has_link(page, link):
    file, _, anchor = link.partition('#')
    target = (page.parent / file).resolve() if file else page
    return target.exists() and (not anchor or target.suffix != '.md' or anchor in headings(target))


def has_path(base, path):
    return any((base / (path.rstrip('./') + ending)).exists() for ending in ENDINGS)


def differences_of_paths(page, text):
    yield from (f'no link: {link}' for link in LINK.findall(text) if '://' not in link and not has_link(page, link))
    paths = {found[0].removeprefix('crates/') for found in IN_CRATE.finditer(text) if not found[1].isupper()}
    paths |= {path.removeprefix('crates/') for path in UNDER_CRATES.findall(text) if '/out/' not in path}
    yield from (f'no path: {path}' for path in sorted(paths) if not has_path(CRATES, path))
    if page.parent.parent == CRATES:
        yield from (f'no path: {path}' for path in OWN.findall(text) if not has_path(page.parent, path))


def main():
    pages = sorted(page for page in TOP.rglob('*.md') if not {'out', '.git'} & set(page.relative_to(TOP).parts))
    found = list(differences_of_crates())
    for page in pages:
        text = page.read_text(encoding='utf-8')
        found += [f'{page.relative_to(TOP)}: {difference}' for difference in differences_of_paths(page, text)]
    print('\n'.join(found + [f'{len(pages)} pages, {len(found)} differences']))
    return 1 if found else 0


if __name__ == '__main__':
    sys.exit(main())
