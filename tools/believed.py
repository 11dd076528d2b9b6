#!/usr/bin/env python3
"""believed.py                  says where a definition stands in the wrong folder, and where docs/DEFINITIONS.md and the tree disagree; status 1 where so
believed.py --list [ROOT..]  lists what must be believed for the contracts ROOT.. to say what they seem to say
believed.py --names [ROOT..] lists the definitions too, each with what first led to it
believed.py --commands       counts what must be believed of each command's answer

A file of which something must be believed stands directly in a crate's specs/, and no other file does. What contracts on the way say stands in
specs/calls/, what nobody outside the crate names in specs/inner/. The page has a row for each crate with its files, in a good order to read them.

Run it at the top of a clone. A ROOT is a function's name, FILE:NAME, or FILE for all its `pub` functions;
the default is post_mortem.

It goes by names: from the clauses of the roots through the definitions of specs/, and the structs, enums, type aliases and members of traits
in src/ that these mention. Of a type with an `impl Model` it follows what contracts see (`Value`), and not its fields. A name that a binder or
a field covers is not followed. Lines of definitions are those that are neither blank nor a comment; `use` and `mod` lines do not count.
"""
import re
import signal
import sys
from collections import defaultdict
from pathlib import Path
from typing import NamedTuple

DEFAULT = ['post_mortem']
TOP = Path('.')
STRING = re.compile(r'"(?:[^"\\]|\\.)*"')


# ---- tokens of antt

TOKEN = re.compile(r"[(){},;\[\]]|[^\s(){},;\[\]]+")
BINDERS_END = {'→', '->'}


def bare(text):
    """Text without strings and comments, with the brackets of `[]` as one name."""
    lines = []
    for line in STRING.sub('""', text).split('\n'):
        lines.append(re.sub(r'(^|\s)--(\s.*|-*)$', '', line))
    return '\n'.join(lines)


def tokens(text):
    return TOKEN.findall(bare(text).replace('«', '').replace('»', ''))


def mentioned(text, covered=(), clause=None, is_former=lambda name: False):
    """The names that a piece of antt mentions: `clause` is the name that it is a clause of, whose left side binds its variables."""
    found, depth = [], 0
    scope = [(-1, name) for name in covered]
    words = tokens(text)
    n = len(words)
    left = 0
    if clause is not None:
        level = 0
        for i, w in enumerate(words):
            level += (w in '([{') - (w in ')]}') if len(w) == 1 else 0
            if w == '=' and level == 0:
                left = i
                break
    i = 0
    while i < n:
        w = words[i]
        if w in ('(', '{', '['):
            depth += 1
            # a binder ( x y : A )
            j = i + 1
            while j < n and re.match(r'[^\W\d][^.]*\Z', words[j]):
                j += 1
            if w != '[' and j > i + 1 and j < n and words[j] == ':':
                # the type is read first: a name may stand in its own type
                scope += [(depth - 1, x) for x in words[i + 1:j]]
                i = j
        elif w in (')', '}', ']'):
            depth -= 1
            scope = [s for s in scope if s[0] <= depth]
        elif w == 'λ' or (w.startswith('λ') and len(w) > 1):
            if len(w) > 1:
                scope.append((depth, w[1:].rstrip('.')))
            j = i + 1
            done = len(w) > 1 and w.endswith('.')
            while j < n and not done and words[j] not in '(){}':
                done = words[j].endswith('.')
                scope.append((depth, words[j].rstrip('.')))
                j += 1
            i = j - 1
        elif w == 'let' and i + 1 < n:
            scope.append((depth, words[i + 1]))
        elif i + 1 < n and words[i + 1] == '=' and depth > 0:
            pass  # a field of a record, or an argument by name
        else:
            head = w.split('.')[0]
            if i < left and w != clause and not is_former(w):
                scope.append((-1, head))
            elif not any(x == head for _, x in scope):
                found.append(w.rstrip('.'))
        i += 1
    return found


# ---- files of specs/

class Definition:
    def __init__(self, file, name, kind):
        self.file, self.name, self.kind = file, name, kind
        self.pieces = []            # texts: the signature or the whole type, then each clause
        self.lines = 0
        self.fields = []            # fields or constructors
        self.block = None           # the module _ (..) where it stands

    def add(self, line, new):
        self.lines += 1
        if new or not self.pieces:
            self.pieces.append(line)
        else:
            self.pieces[-1] += '\n' + line


def parse_uses(text):
    """Names that `use` lines bring in: name -> (module, item), and alias -> module."""
    names, aliases = {}, {}
    for m in re.finditer(r'\buse\s+Rattle\.(\w+(?:\.[\w«»-]+)*?)(?:\.\{([^}]*)\}|\s+as\s+(\S+?)(?=;|\s|$)|(?=;|\s|$))', text):
        module, items, alias = m[1], m[2], m[3]
        if items is not None:
            for item in items.split(','):
                words = item.split()
                if words:
                    names[words[-1]] = (module, words[0])
        elif alias:
            aliases[alias] = module
        else:
            aliases[module.split('.')[-1]] = module
    return names, aliases


class File:
    HEADER = re.compile(r'((?:(?:unfoldable|abbrev|opaque|pub)\s+)*)((?:record|data|inductive)\s+)?(\S+)')

    def __init__(self, path):
        self.path = path
        self.crate = path.parts[path.parts.index('crates') + 1]
        inside = path.parts[path.parts.index('specs') + 1:]
        self.module = '.'.join((self.crate, 'specs') + inside)[:-len('.antt')]
        self.text = path.read_text()
        self.names, self.aliases = parse_uses(self.text)
        self.defs, self.owner = {}, {}     # definitions, and constructors with their types
        self.parse()

    def parse(self):
        base, current, block, infix, in_use = 0, None, None, [], False
        for line in self.text.split('\n'):
            code = line.strip()
            if not code or code.startswith('--'):
                continue
            indent = len(line) - len(line.lstrip())
            if in_use or re.match(r'use\s', line):
                in_use = '{' in line + ('{' if in_use else '') and '}' not in line
                continue
            if re.match(r'(pub )?mod\s', code):
                continue
            if re.match(r'module\s', line):
                block = self.defs.setdefault(f'module@{len(self.defs)}', Definition(self, code, 'block'))
                block.add(code, True)
                base, current = 2, block
                continue
            if indent == 0:
                base = 0
                block = None
            if indent > base:
                if current:
                    current.add(line, False)
                    self.field(current, line)
                continue
            if re.match(r'infix[lr]?\s', code):
                infix.append(code)
                continue
            m = self.HEADER.match(code)
            name = m[3]
            if m[1] or m[2] or (name not in self.defs and re.match(r'\S+ :(\s|$)', code)):
                kind = (m[2] or 'function').strip()
                current = self.defs.get(name) or Definition(self, name, kind)
                self.defs[name] = current
                current.kind, current.block = kind, block
                current.lines += len(infix)
                infix = []
                current.add(code, True)
            elif name in self.defs:
                current = self.defs[name]
                current.add(code, True)
            elif current:               # a clause of an operator begins with an argument
                current.add(code, True)
        for d in self.defs.values():
            for f in d.fields if d.kind != 'record' else []:
                self.owner.setdefault(f, d)

    @staticmethod
    def field(d, line):
        if d.kind in ('record', 'data', 'inductive'):
            m = re.match(r'\s+(?:pub )?([^\s:()]+)\s*:(\s|$)', line)
            if m:
                d.fields.append(m[1].strip('«»'))

    def lines(self):
        return sum(d.lines for d in self.defs.values())


# ---- Rust files

class RustType:
    """A struct, enum, type alias or trait of src/."""

    def __init__(self, crate, path, name, kind, text):
        self.crate, self.path, self.name, self.kind, self.text = crate, path, name, kind, text
        self.model = None               # the ghost items of its impl Model
        self.lines = count(text)


def count(text):
    return sum(1 for line in text.split('\n') if line.strip() and not line.strip().startswith('//') and not line.strip().startswith('#['))


def strip_rust(text):
    """The text without comments, with the same lines."""
    return re.sub(r'//[^\n]*', '', text)


def to_close(text, at):
    """The place behind the bracket that closes the one at `at`."""
    depth, i, pairs = 0, at, {'{': 1, '(': 1, '[': 1, '}': -1, ')': -1, ']': -1}
    while i < len(text):
        if text[i] == '"':
            m = STRING.match(text, i)
            if m:
                i = m.end()
                continue
        depth += pairs.get(text[i], 0)
        i += 1
        if depth == 0:
            return i
    return len(text)


class Function(NamedTuple):
    name: str
    public: bool
    head: str
    clauses: list
    of: str                             # the type or trait of a method


class RustFile:
    def __init__(self, path):
        self.path = path
        self.crate = path.parts[path.parts.index('crates') + 1]
        inside = path.with_suffix('').parts[path.parts.index('src') + 1:]
        self.module = '' if inside in (('lib',), ('main',)) else '::'.join(inside)
        self.text = strip_rust(path.read_text())
        self.test = bool(re.search(r'#!\[cfg\(test\)\]', self.text))
        self.test_modules = re.findall(r'#\[cfg\(test\)\]\s*(?:pub(?:\([^)]*\))? )?mod (\w+);', self.text)
        self.names, self.aliases = parse_uses(self.text)
        self.types, self.functions, self.ghosts = {}, [], []
        self.uses = {}                  # name -> (path of the item, its name)
        for m in re.finditer(r'\b(?<!ghost )use\s+([^;{]*?)(?:::)?(\{[^;]*\}|\w+(?:\s+as\s+\w+)?)\s*;', self.text):
            for item in m[2].strip('{}').split(','):
                words = item.split()
                if words:
                    self.uses[words[-1].split('::')[-1]] = (m[1] + '::' + '::'.join(words[0].split('::')[:-1]), words[0].split('::')[-1])
        self.parse_types()
        self.parse_functions()

    def parse_types(self):
        for m in re.finditer(r'^( *)(?:pub(?:\([^)]*\))? )?(struct|enum|type|trait) (\w+)', self.text, re.M):
            if m[1] and m[2] == 'type':
                continue
            at = re.compile(r'[{;(]').search(self.text, m.end())
            end = at.end() if not at or self.text[at.start()] == ';' else to_close(self.text, at.start())
            if m[2] == 'type':
                end = self.text.index(';', m.end()) + 1
            text = self.text[m.start():end]
            # a ghost invariant is no part of what a value is, but is said of it: it stays
            self.types[m[3]] = RustType(self.crate, self.path, m[3], m[2], text)
        self.models = {}
        for m in re.finditer(r'^ *impl(?:<[^{]*?>)? Model for (\w+)[^{]*\{', self.text, re.M):
            self.models[m[1]] = self.text[m.start():to_close(self.text, m.end() - 1)]

    def parse_functions(self):
        """Functions with their clauses, and ghost members that give meaning outside."""
        blocks = []                     # where impls and traits stand
        for m in re.finditer(r'^ *(?P<pub>pub(?:\([^)]*\))? )?(?:unsafe )?(?P<kind>impl|trait)\b(?P<head>[^{;]*)\{', self.text, re.M):
            end = to_close(self.text, m.end() - 1)
            of_trait = m['kind'] == 'impl' and re.search(r'\bfor\b', m['head'])
            model = bool(re.search(r'\bModel for\b', m['head']))
            public = of_trait or (m['kind'] == 'trait' and m['pub'] == 'pub ')
            of = self.subject(m['head'], m['kind'])
            blocks.append((m.start(), end, bool(public), of))
            for g in re.finditer(r'\bghost (\w+)(?:\s*[:=]\s*)\{', self.text[m.start():end]):
                at = m.start() + g.end() - 1
                text = self.text[at + 1:to_close(self.text, at) - 1]
                if public and not (model and g[1] != 'Value'):
                    self.ghosts.append((g[1], text, of))
        tests = [(m.start(), to_close(self.text, m.end() - 1)) for m in re.finditer(r'#\[cfg\(test\)\]\s*mod \w+ \{', self.text)]
        for m in re.finditer(r'^( *)((?:pub(?:\([^)]*\))? )?)((?:const |unsafe |final )*)fn (\w+)', self.text, re.M):
            if any(a <= m.start() < b for a, b in tests):
                continue
            inside = [b for b in blocks if b[0] <= m.start() < b[1]]
            at = self.text.find('(', m.end())
            at = to_close(self.text, at) if at >= 0 else m.end()
            clauses, i, head = [], at, self.text[m.start():at]
            while i < len(self.text):
                c = re.compile(r'\s*(requires|ensures)\*?\s*(?:[\w«»-]+\s*)?(?=\{)').match(self.text, i)
                if c:
                    end = to_close(self.text, c.end())
                    clauses.append(self.text[c.end() + 1:end - 1])
                    i = end
                    continue
                if self.text[i] in '{;':
                    break
                nxt = re.compile(r'\b(?:requires|ensures)\b|[{;]').search(self.text, i + 1)
                stop = nxt.start() if nxt else len(self.text)
                head += self.text[i:stop]
                i = stop
                if self.text[i:i + 1] in '{;':
                    break
            public = m[2] == 'pub ' or any(b[2] for b in inside)
            self.functions.append(Function(m[4], public, head, clauses, inside[-1][3] if inside else None))

    @staticmethod
    def subject(head, kind):
        """The type of an impl, or the name of a trait."""
        head = head.strip()
        if kind == 'impl':
            if head.startswith('<'):
                depth = 0
                for i, c in enumerate(head):
                    depth += (c == '<') - (c == '>' and head[i - 1] != '-')
                    if depth == 0:
                        head = head[i + 1:]
                        break
            head = head.split(' for ')[-1]
        m = re.match(r"\s*(?:&(?:'\w+\s+)?(?:mut\s+)?)?(?:\w+::)*(\w+)", head)
        return m[1] if m else None


# ---- the whole

class Repository:
    def __init__(self):
        if not (TOP / 'crates.txt').is_file():
            sys.exit('believed: no crates.txt here: run it at the top of a clone')
        self.deps = {}
        for line in (TOP / 'crates.txt').read_text().splitlines():
            line = line.split('#')[0]
            if ':' in line:
                self.deps[line.split(':')[0].split()[0]] = line.split(':', 1)[1].split()
        self.files = {}
        for path in sorted((TOP / 'crates').glob('*/specs/**/*.antt')):
            file = File(path)
            self.files[file.module] = file
        self.rust = [RustFile(p) for p in sorted((TOP / 'crates').glob('*/src/**/*.rt'))]
        tests = {(f.crate, f'{f.module}::{m}'.strip(':')) for f in self.rust for m in f.test_modules}
        for file in self.rust:
            file.test = file.test or any(c == file.crate and (file.module == m or file.module.startswith(m + '::')) for c, m in tests)
        self.types = defaultdict(dict)
        for file in self.rust:
            for name, t in file.types.items():
                t.file = file
                t.model = file.models.get(name)
                if not file.test:
                    self.types[file.crate].setdefault(name, t)
        for file in self.rust:      # an impl Model may stand in another file
            for name, text in file.models.items():
                if name in self.types[file.crate]:
                    self.types[file.crate][name].model = text
        self.unknown, self.kit = set(), set()

    def order(self):
        done = []

        def visit(crate):
            if crate in self.deps and crate not in done:
                for d in self.deps[crate]:
                    visit(d)
                if crate not in done:
                    done.append(crate)
        for crate in self.deps:
            visit(crate)
        return {c: i for i, c in enumerate(done)}

    # ---- what a name stands for

    def type_in(self, crate, name, seen=()):
        """A Rust type by its name in a crate, or in one that the crate passes on."""
        if name in self.types.get(crate, {}):
            return self.types[crate][name]
        if crate in seen:
            return None
        for file in self.rust:
            if file.crate == crate and name in file.uses:
                path, item = file.uses[name]
                first = path.strip(':').split('::')[0]
                if first in self.deps and first != crate:
                    return self.type_in(first, item, seen + (crate,))
        return None

    def member(self, module, item):
        """An item of a module, by its whole path."""
        parts = module.split('.')
        crate = parts[0]
        if crate not in self.deps:
            self.kit.add((module, item))
            return []
        if module in self.files:
            file = self.files[module]
            name = item.strip('«»')
            d = file.defs.get(item) or file.defs.get(name) or file.owner.get(name)
            if d is None:
                self.unknown.add(f'{module}.{item}')
            return [d] if d else []
        if parts[1:3] == ['specs', 'declared']:
            names = [p for p in parts[3:] if p not in ('TheVariants', 'TheImpl')]
            for name in ([names[-1]] if names else []) + [item]:
                t = self.type_in(crate, name)
                if t:
                    return [t]
        self.unknown.add(f'{module}.{item}')
        return []

    def resolve(self, word, names, aliases, file=None):
        """What a word of antt stands for."""
        parts = word.split('.')
        if parts[0] == 'Rattle':
            for k in range(len(parts) - 1, 1, -1):
                module = '.'.join(parts[1:k])
                if module in self.files or 'declared' in parts[1:k]:
                    return self.member(module, parts[k])
            return []
        if len(parts) > 1 and parts[0] in aliases:
            return self.member(aliases[parts[0]], parts[1])
        head = parts[0]
        if file is not None and head in file.defs:
            return [file.defs[head]]
        if file is not None and head in file.owner:
            return [file.owner[head]]
        if head in names:
            return self.member(*names[head])
        return []

    def operators(self, words, names, aliases, file=None):
        """Operators such as ◌⇒◌ and if◌then◌else◌, by their first word."""
        words = set(words)
        found = []
        for name in list(names) + (list(file.defs) if file else []):
            if '◌' in name:
                pieces = [p for p in name.split('◌') if p]
                if pieces and all(p in words for p in pieces):
                    found += self.resolve(name, names, aliases, file) if name not in names or file and name in file.defs else self.member(*names[name])
        return found

    def of_definition(self, d):
        """What a definition mentions."""
        file = d.file
        out = []
        covered = []
        if d.block is not None:
            out.append(d.block)
            covered += [x for m in re.finditer(r'\(([^():]+):', d.block.pieces[0]) for x in m[1].split()]

        def is_former(word):
            head = word.split('.')
            if len(head) > 1:
                return head[0] in file.aliases
            if word in file.owner:
                return True
            if word in file.names:
                module, item = file.names[word]
                if module.split('.')[0] not in self.deps or 'declared' in module:
                    return True
                f = self.files.get(module)
                return bool(f and item in f.owner and item not in f.defs) or bool(f and item in f.defs and f.defs[item].kind != 'function')
            return word[:1] in '0123456789"' or '◌' in word
        for k, piece in enumerate(d.pieces):
            whole = d.kind in ('record', 'data', 'inductive')
            fields = d.fields if whole and d.kind == 'record' else []
            body = re.sub(r'^(?:(?:unfoldable|abbrev|opaque|pub)\s+)*(?:(?:record|data|inductive)\s+)?\S+', '', piece, count=1) if k == 0 else piece
            words = mentioned(body, covered + fields, d.name if k > 0 else None, is_former)
            if whole:
                words = [w for w in words if w not in d.fields]
            for w in words:
                out += self.resolve(w, file.names, file.aliases, file)
            out += self.operators(tokens(body), file.names, file.aliases, file)
        return out

    def of_type(self, t):
        """What a Rust type mentions: of one with a model only what contracts see."""
        file, out = t.file, []
        if t.kind == 'trait':
            text = '\n'.join(re.findall(r'\bghost \w+\s*[:=]\s*\{[^}]*\}', t.text))
            return self.of_clause(text, file, t.crate)
        if t.model:
            names, aliases = parse_uses(t.model)
            m = re.search(r'\bghost Value\s*=\s*\{', t.model)
            if m:
                text = t.model[m.end():to_close(t.model, m.end() - 1) - 1]
                for w in mentioned(text):
                    out += self.resolve(w, {**file.names, **names}, {**file.aliases, **aliases}) or self.of_name(w.split('.')[0], file, t.crate)
            return out
        text = re.sub(r'\bghost use[^;]*;', '', t.text)
        names, aliases = parse_uses(t.text)
        ghosts = re.findall(r'\bghost \w+\s*:\s*\{(.*?)\}[,\s]', text, re.S)
        for g in ghosts:
            for w in mentioned(g):
                out += self.resolve(w, {**file.names, **names}, {**file.aliases, **aliases})
        for name in set(re.findall(r'\b[A-Z]\w*', re.sub(r'\bghost \w+\s*:\s*\{.*?\}[,\s]', '', text, flags=re.S))):
            if name != t.name:
                out += self.of_name(name, file, t.crate)
        return out

    def of_name(self, name, file, crate):
        """A Rust name in the scope of a file."""
        if name in file.types:
            return [self.types[crate].get(name, file.types[name])]
        if name in file.uses:
            path, item = file.uses[name]
            first = path.strip(':').split('::')[0]
            t = self.type_in(first if first in self.deps else crate, item)
            return [t] if t else []
        return []

    def of_clause(self, text, file, crate):
        out = []
        words = mentioned(text)
        for w in words:
            out += self.resolve(w, file.names, file.aliases) or self.of_name(w.split('.')[0], file, crate)
        return out + self.operators(tokens(text), file.names, file.aliases)

    # ---- roots and the closure

    def roots(self, said):
        """[(label, things)]"""
        found = []
        for root in said:
            path, _, name = root.rpartition(':') if ':' in root else ((root, '', '') if root.endswith('.rt') else ('', '', root))
            hits = [(f, fn) for f in self.rust for fn in f.functions
                    if (not path or f.path == Path(path)) and (fn.name == name if name else fn.public) and (path or not f.test)]
            if not path and len(hits) > 1:
                hits = [h for h in hits if h[1].public] or hits
            if not hits:
                sys.exit(f'believed: no function {root}')
            for file, fn in hits:
                things = []
                for clause in fn.clauses:
                    things += self.of_clause(clause, file, file.crate)
                for word in set(re.findall(r'\b[A-Z]\w*', fn.head)):
                    things += self.of_name(word, file, file.crate)
                found.append((f'{fn.name} in {file.path}, {len(fn.clauses)} clauses', things))
        return found

    def closure(self, things, label='a clause'):
        reached, todo = {}, [(t, label) for t in things]
        while todo:
            t, by = todo.pop()
            if t in reached:
                continue
            reached[t] = by
            out = self.of_type(t) if isinstance(t, RustType) else self.of_definition(t)
            todo += [(o, t) for o in out if o not in reached]
        return reached

    def file_order(self, modules):
        """Files in dependency order: by crate, and in a crate each behind those that it uses."""
        rank = self.order()
        done = []

        def visit(module, path=()):
            if module in done or module in path:
                return
            file = self.files[module]
            for m in sorted({m for m, _ in file.names.values()} | set(file.aliases.values())):
                if m in self.files and m.split('.')[0] == file.crate:
                    visit(m, path + (module,))
            done.append(module)
        for module in sorted(modules, key=lambda m: (rank.get(m.split('.')[0], 999), m)):
            visit(module)
        return sorted((m for m in done if m in modules), key=lambda m: (rank.get(m.split('.')[0], 999), done.index(m)))


PAGE = Path('docs/DEFINITIONS.md')
ROW = re.compile(r'\| `(\w+)` \| ([\w`, ]+) \| (.+) \|')
COMMAND = re.compile(r'\| (`\w+`|[a-z][\w ,]+) \| (\d+) \|$')
ANSWERS = {
    'check': ('pm_cli.specs.Answer', 'CheckAnswer'),
    'run': ('run_command.specs.RunAnswer', 'RunAnswer'),
    'instrument': ('instrument_command.specs.InstrumentAnswer', 'InstrumentAnswer'),
    'show': ('pm_cli.specs.Answer', 'ShowAnswer'),
    'debug': ('debug_command.specs.Answer', 'DebugAnswer'),
    'selftest': ('selftest_command.specs.SelftestAnswer', 'SelftestAnswer'),
    'replay': ('replay_command.specs.ReplayAnswer', 'ReplayAnswer'),
    'cover': ('cover_command.specs.CoverAnswer', 'CoverAnswer'),
}
# All files; all but those that say what DWARF says, and print its values; and those that whoever relies on one command has to read.
MOST, MOST_BESIDE_DWARF, MOST_OF_ONE = 6380, 4600, 5000
DWARF = ('dwarf', 'var_')


def lines_of(things):
    return sum(t.lines for t in things if isinstance(t, Definition))


def by_command(repository):
    """The lines of each command's answer, of all of them together, and of what the program's clauses say beside them of every command."""
    rows, answers = {}, {}
    for command, (module, name) in ANSWERS.items():
        (file,) = [f for m, f in repository.files.items() if m.endswith(module)]
        one = repository.closure([file.defs[name]], command)
        rows[f'`{command}`'] = lines_of(one)
        answers.update(one)
    rows['all answers'] = lines_of(answers)
    ((_, things),) = repository.roots(['post_mortem'])
    rows['words, files and want of memory'] = lines_of(t for t in repository.closure(things, 'post_mortem') if t not in answers)
    return rows


def misplaced(repository, believed):
    """Where a file of specs/ stands in a folder that is not its own, or is named from where it may not be."""
    for module, file in repository.files.items():
        folder = file.path.parts[3] if len(file.path.parts) > 4 else ''
        if module in believed and folder:
            yield f'{file.path}: it must be believed, and does not stand directly in specs/'
        if module not in believed and not folder and file.lines():
            yield f'{file.path}: nobody has to believe it, and it stands directly in specs/'
        for other in {m for m, _ in file.names.values()} | set(file.aliases.values()):
            if not folder and '.specs.inner' in other:
                yield f'{file.path}: it stands on {other}'
    inner = re.compile(r'\bRattle\.(\w+)\.specs\.inner\b|(?<![\w:.])(\w+)::specs::inner::')
    for path in sorted(p for p in TOP.glob('crates/*/**/*') if p.suffix in ('.rt', '.antt') and 'out' not in p.parts):
        crate = path.relative_to(TOP).parts[1]
        for found in sorted({a or b for a, b in inner.findall(path.read_text(encoding='utf-8'))} - {crate, 'crate'}):
            yield f'{path}: it names specs/inner/ of {found}'


def compared(repository, by_file):
    """Compares the page's rows with the files that are reached, and the counts of commands with the tree's."""
    tree = defaultdict(set)
    for module in by_file:
        tree[repository.files[module].crate].add(repository.files[module].path.stem)
    page = {m[1]: set(re.findall(r'\w+', m[2])) for m in map(ROW.match, PAGE.read_text(encoding='utf-8').splitlines()) if m}
    wrong = list(misplaced(repository, by_file))
    for crate in sorted(tree | page):
        wrong += [f'{PAGE} lacks {crate}/specs/{name}' for name in sorted(tree.get(crate, set()) - page.get(crate, set()))]
        wrong += [f'{PAGE} names {crate}/specs/{name}, of which nothing is reached' for name in sorted(page.get(crate, set()) - tree.get(crate, set()))]
    commands = by_command(repository)
    told = {m[1]: int(m[2]) for m in map(COMMAND.match, PAGE.read_text(encoding='utf-8').splitlines()) if m}
    wrong += [f'{row}: {told.get(row)} lines on the page, {count} in the tree' for row, count in commands.items() if told.get(row) != count]
    shared = commands['words, files and want of memory']
    wrong += [f'{row}: {count + shared} lines, more than {MOST_OF_ONE}' for row, count in commands.items()
              if row.startswith('`') and count + shared > MOST_OF_ONE]
    lines = lines_of(d for ds in by_file.values() for d in ds)
    beside = lines_of(d for module, ds in by_file.items() if not module.startswith(DWARF) for d in ds)
    wrong += [f'{count} lines must be believed{of}, more than {most}'
              for count, of, most in ((lines, '', MOST), (beside, ' beside what DWARF says', MOST_BESIDE_DWARF)) if count > most]
    for line in wrong:
        print(line)
    print(f'{len(by_file)} files with {lines} lines of definitions must be believed, {beside} of them beside what DWARF says; {len(wrong)} disagreements')
    return 1 if wrong else 0


def shown(t):
    if isinstance(t, str):
        return t
    return f'{t.crate}::{t.name}' if isinstance(t, RustType) else f'{t.file.module}.{t.name}'


def main(args):
    flags = [a for a in args if a.startswith('-')]
    if set(flags) - {'--names', '--list', '--commands'}:
        sys.exit(__doc__)
    repository = Repository()
    if '--commands' in flags:
        for row, count in by_command(repository).items():
            print(f'{count:6} {row}')
        return 0
    roots = repository.roots([a for a in args if not a.startswith('-')] or DEFAULT)
    reached, per_root = {}, []
    for label, things in roots:
        one = repository.closure(things, label.split(' ')[0])
        per_root.append((label, one))
        for t, by in one.items():
            reached.setdefault(t, by)
    defs = [t for t in reached if isinstance(t, Definition)]
    types = [t for t in reached if isinstance(t, RustType)]
    by_file = defaultdict(list)
    for d in defs:
        by_file[d.file.module].append(d)

    if not args:
        return compared(repository, by_file)

    for label, one in per_root:
        ds = [t for t in one if isinstance(t, Definition)]
        print(f'{label}: {sum(d.lines for d in ds)} lines of definitions in {len({d.file.module for d in ds})} files')
    print('\ndefinitions, in dependency order (lines reached, lines in the file):')
    crate = None
    for m in repository.file_order(by_file):
        file = repository.files[m]
        if file.crate != crate:
            crate = file.crate
            mine = [d for d in defs if d.file.crate == crate]
            print(f'{crate}: {sum(d.lines for d in mine)}')
        print(f'  {sum(d.lines for d in by_file[m]):5} of {file.lines():5}  {file.path}')
        if '--names' in flags:
            for d in by_file[m]:
                if d.kind != 'block':
                    print(f'                    {d.name} <- {shown(reached[d])}')
    print('\ndeclared in src/ (lines):')
    rank = repository.order()
    by_path = defaultdict(list)
    for t in types:
        by_path[t.path].append(t)
    for path, ts in sorted(by_path.items(), key=lambda x: (rank.get(x[1][0].crate, 999), x[0])):
        names = ', '.join(sorted(t.name + (' (trait)' if t.kind == 'trait' else ' (by its model)' if t.model else '') for t in ts))
        print(f'  {sum(type_lines(t) for t in ts):5}  {path}: {names}')
    traits = [t for t in types if t.kind == 'trait']
    more = [t for f in repository.rust for fn in f.functions for c in fn.clauses if any(t.file is f and t.name == fn.of for t in traits)
            for t in repository.of_clause(c, f, f.crate)]
    more = [t for t in repository.closure(more) if isinstance(t, Definition) and t not in reached]
    if traits:
        print(f'the clauses of the methods of these traits ({", ".join(sorted(t.name for t in traits))}) lead to {sum(d.lines for d in more)} further lines of definitions'
              + (': ' if more else '') + ', '.join(sorted({f'{d.file.crate} {d.file.path.stem}' for d in more})))
    total = sum(f.lines() for f in repository.files.values())
    lib = [f for f in repository.files.values() if f.lines()]
    whole = sum(1 for m in by_file if sum(d.lines for d in by_file[m]) == repository.files[m].lines())
    print(f'\nbelieved: {sum(d.lines for d in defs)} lines of {sum(1 for d in defs if d.kind != "block")} definitions in {len(by_file)} files ({whole} of them whole, '
          f'{sum(repository.files[m].lines() for m in by_file)} lines of definitions in all of them), '
          f'and {sum(type_lines(t) for t in types)} lines of {len(types)} types and traits in {len(by_path)} files of src/')
    print(f'all of specs/: {total} lines of definitions in {len(lib)} files; the kit\'s names that are reached: {len(repository.kit)}')
    if repository.unknown:
        print('names that were not found: ' + ', '.join(sorted(repository.unknown)))


def type_lines(t):
    """The lines of a type that are believed: of a model what contracts see, of a trait its members."""
    if t.kind == 'trait':
        return 1 + len(re.findall(r'\bghost (?!use)\w+', t.text))
    return 2 if t.model else t.lines


if __name__ == '__main__':
    signal.signal(signal.SIGPIPE, signal.SIG_DFL)
    sys.exit(main(sys.argv[1:]))
