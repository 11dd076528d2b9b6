#!/usr/bin/env python3
"""forms.py   prints functions of crates/*/src with more than seven parameters or a body of more than 40 lines, and lines of more than
120 columns but attributes, which the formatter keeps on one line; status 1 where there are any

Run it at the top of a clone.
"""
import re
import sys
from pathlib import Path

PARAMETERS, BODY, LINE = 7, 40, 120
# One match with an arm for each instruction.
LONG = {('validate_body', 'shape_of')}
FUNCTION = re.compile(r'^( *)(?:pub(?:\(\w+\))? )?(?:const )?fn (\w+)', re.M)


def parameters(text, at):
    """How many parameters stand in the parentheses behind a function's name and its generics."""
    depth = count = 0
    opened, filled = '', False
    for mark in re.finditer(r'->|=>|[<({\[]|[>)}\]]|,|\S', text[at:]):
        word = mark[0]
        if word == ')' and depth == 1 and opened == '(':
            return count + filled
        if word in ('<', '(', '[', '{'):
            depth += 1
            opened = word if depth == 1 else opened
        elif word in ('>', ')', ']', '}'):
            depth -= 1
        elif depth == 1 and opened == '(':
            count, filled = (count + filled, False) if word == ',' else (count, True)
    return count


def body(lines, row, indent):
    """How many lines the body of the function that begins in this row has; none where it has no braces of its own."""
    begin = next((at for at in range(row, len(lines)) if lines[at] == f'{indent}{{' or lines[at].endswith((' {', '{}', ';'))), row)
    end = next((at for at in range(begin, len(lines)) if lines[at] == f'{indent}}}'), begin)
    return max(end - begin - 1, 0) if lines[begin].endswith('{') else 0


def wrong_in(file):
    text = file.read_text(encoding='utf-8')
    lines = text.split('\n')
    for found in FUNCTION.finditer(text):
        row = text.count('\n', 0, found.start())
        count, length = parameters(text, found.end()), body(lines, row, found[1])
        if count > PARAMETERS:
            yield f'{file}:{row + 1}: {found[2]} has {count} parameters'
        if length > BODY and (file.parts[1], found[2]) not in LONG:
            yield f'{file}:{row + 1}: {found[2]} has {length} lines'
    for row, line in enumerate(lines, 1):
        if len(line) > LINE and not line.lstrip().startswith('#['):
            yield f'{file}:{row}: {len(line)} columns'


def main(args):
    if args:
        sys.exit(__doc__)
    files = sorted(Path('crates').glob('*/src/**/*.rt'))
    wrong = [line for file in files for line in wrong_in(file)]
    print('\n'.join(wrong + [f'{len(files)} files, {len(wrong)} functions and lines too long']))
    return 1 if wrong else 0


if __name__ == '__main__':
    sys.exit(main(sys.argv[1:]))
