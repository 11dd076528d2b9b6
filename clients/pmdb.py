#!/usr/bin/env python3
"""pmdb: a prompt over a core dump or a recorded run, with the words of gdb.

    pmdb.py [OPTION ..] MODULE DUMP                 a dump
    pmdb.py [OPTION ..] MODULE LOG ENTRY [ARG ..]   a run that `pm run --record LOG` recorded, forwards and backwards

`help` at the prompt lists the commands. Each of them calls `pm` anew, and nothing is written. README.md beside this
file is the page of use.
"""

import argparse
import cmd
import functools
import itertools
import math
import os
import re
import shutil
import subprocess
import sys

# ---- the texts of `pm`, the module, the dump and the steps of a run; pmdap.py and pm2lcov.py take from here too

FRAME = re.compile(r"#(?P<number>\d+) (?P<inlined>inlined )?(?P<name>.*?)"
                   r"(?: \(function (?P<function>\d+) offset (?P<offset>\d+)\))?(?: at (?P<file>.*):(?P<line>\d+))?$")
STEP = re.compile(r"step (\d+) of (\d+)(?: (.*))?$")
POINTER = re.compile(r"0x[0-9a-f]{8}$")
CONTROL = {code: f"\\x{code:02x}" for code in [*range(32), *range(127, 160)] if code not in (9, 10)}
# No dump has so many frames, so this command of `pm` prints one known line and changes nothing.
MARK = "frame 18446744073709551615"
LAST = 18446744073709551615
MOST_STATES = 1000
MOST_FRAMES = 200_000
MOST_KEPT = 20_000
MOST_BYTES = 4096
# The system takes no longer word than 131,072 bytes.
MOST_WORDS = 120_000
DEFAULTS = {"fuel": 100_000_000, "depth": 1000}
BOUNDS = {"fuel": (0, 1_000_000_000_000), "depth": (1, 10_000)}
ARGUMENT = "i32:N or i64:N, N of 1 to 20 digits, with - or without, from -2^31 to 2^32 - 1 or from -2^63 to 2^64 - 1"
TAKES = "the words are MODULE DUMP of a dump, or MODULE LOG ENTRY [ARG ..] of a recorded run"
TOOLS = ["llvm-dwarfdump", *(f"llvm-dwarfdump-{version}" for version in range(30, 13, -1))]


# How many numbers follow an opcode, of those that any follow. Behind 0xfc stands a second opcode; 0x0e has a list.
OPERANDS = {**dict.fromkeys([2, 3, 4, 0x0c, 0x0d, 0x10, *range(0x20, 0x25), 0x3f, 0x40, 0x41, 0x42], 1),
            **dict.fromkeys([0x11, *range(0x28, 0x3f)], 2)}
BULK = {10: 2, 11: 1}
CALLS = 0x10, 0x11
# Traps by the instructions that make them.
TRAPS = {1: "1 unreachable", 2: "2 integer divide by zero", 3: "3 integer overflow",
         4: "4 out of bounds memory access", 5: "5, 6 or 7, of an indirect call, or 8 call stack exhausted",
         8: "8 call stack exhausted"}
DIVISIONS = {*range(0x6d, 0x71), *range(0x7f, 0x83)}
TRAPPING = {1: {0}, 4: {*range(0x28, 0x3f), 0xfc}, 5: {0x11}, 8: {0x10}}


class Refused(Exception):
    """What stands in the way: the text of `pm`, or which program or file is missing, and hints in lines behind."""

    def __init__(self, text, status=1):
        super().__init__(text)
        self.status = status


def number_at(data, at):
    """An unsigned LEB128 number of up to five bytes, and where it ends."""
    value = 0
    for place in range(5):
        value |= (data[at + place] & 127) << 7 * place
        if data[at + place] < 128:
            return value, at + place + 1
    raise IndexError(at)


def behind_numbers(data, at, count):
    """Where so many LEB128 numbers of any size end."""
    for _ in range(count):
        while data[at] > 127:
            at += 1
        at += 1
    return at


def behind_instruction(data, at):
    """Where an instruction ends."""
    opcode, at = data[at], at + 1
    if opcode == 0x0e:
        count, at = number_at(data, at)
        return behind_numbers(data, at, count + 1)
    if opcode == 0xfc:
        second, at = number_at(data, at)
        return behind_numbers(data, at, BULK.get(second, 0))
    return behind_numbers(data, at, OPERANDS.get(opcode, 0))


def name_at(data, at):
    """A name, and where it ends."""
    size, at = number_at(data, at)
    return data[at:at + size].decode("utf-8", "backslashreplace").translate(CONTROL), at + size


class Module:
    """What is read of a module beside `pm`: imports, names of sections and functions, and where bodies begin."""

    def __init__(self, name):
        self.name, self.data = name, b""
        self.imports, self.sections, self.names, self.bodies, self.code = [], set(), {}, [], 0
        self.exports, self.types, self.defined, self.ends, self.decoded = {}, [], [], [], {}
        try:
            with open(name, "rb") as file:
                self.data = file.read()
            self._read()
        except (OSError, IndexError):
            # `pm` says what is wrong with it; here what was read up to there counts.
            return

    def _read(self):
        """Reads the sections."""
        at = 8
        readers = {0: self._custom, 1: self._types, 2: self._imports, 3: self._functions, 7: self._exports,
                   10: self._bodies}
        while at < len(self.data):
            kind = self.data[at]
            size, at = number_at(self.data, at + 1)
            if kind in readers:
                readers[kind](at, at + size)
            at += size

    def _custom(self, at, end):
        """The name of a custom section; of the section `name` the functions."""
        name, at = name_at(self.data, at)
        self.sections.add(name)
        while name == "name" and at < end:
            kind = self.data[at]
            size, at = number_at(self.data, at + 1)
            if kind == 1:
                self._function_names(at)
            at += size

    def _function_names(self, at):
        """Names of functions."""
        count, at = number_at(self.data, at)
        for _ in range(count):
            index, at = number_at(self.data, at)
            name, at = name_at(self.data, at)
            self.names.setdefault(index, name)

    def _imports(self, at, _end):
        """The imports."""
        count, at = number_at(self.data, at)
        for _ in range(count):
            module, at = name_at(self.data, at)
            name, at = name_at(self.data, at)
            self.imports.append((module, name))
            # `pm` takes imports of functions alone, whose type's index follows.
            index, at = number_at(self.data, at + 1)
            self.defined.append(index)

    def _types(self, at, _end):
        """The parameters of each type, as their bytes."""
        count, at = number_at(self.data, at)
        for _ in range(count):
            size, at = number_at(self.data, at + 1)
            self.types.append(self.data[at:at + size])
            size, at = number_at(self.data, at + size)
            at += size

    def _functions(self, at, _end):
        """The type's index of each function behind the imports."""
        count, at = number_at(self.data, at)
        for _ in range(count):
            index, at = number_at(self.data, at)
            self.defined.append(index)

    def _exports(self, at, _end):
        """The exported functions."""
        count, at = number_at(self.data, at)
        for _ in range(count):
            name, at = name_at(self.data, at)
            index, behind = number_at(self.data, at + 1)
            if self.data[at] == 0:
                self.exports[name] = index
            at = behind

    def _bodies(self, at, _end):
        """Where bodies begin and end."""
        self.code = at
        count, at = number_at(self.data, at)
        for _ in range(count):
            size, at = number_at(self.data, at)
            self.bodies.append(at)
            self.ends.append(at + size)
            at += size

    def is_rewritten(self):
        """Whether it imports from the collector, as a module does that dumps itself."""
        return any(module == "coredump" for module, _ in self.imports)

    def import_name(self, index):
        """An import's two names, or none."""
        return ".".join(self.imports[index]) if index < len(self.imports) else None

    def body(self, function):
        """Where a function's code offsets count from; an IndexError where it has no body."""
        index = function - len(self.imports)
        if index < 0:
            raise IndexError(function)
        return self.bodies[index]

    def first_offset(self, function):
        """The code offset of a function's first instruction, behind its locals."""
        begin = self.body(function)
        groups, at = number_at(self.data, begin)
        for _ in range(groups):
            _, at = number_at(self.data, at)
            at += 1
        return at - begin

    def parameters(self, entry):
        """The types of the parameters of an exported function; None where there is none of that name."""
        try:
            return [{0x7f: "i32", 0x7e: "i64"}.get(code, "?") for code in self.types[self.defined[self.exports[entry]]]]
        except (KeyError, IndexError):
            return None

    def opcode(self, function, offset):
        """The opcode at a place, or None outside a function."""
        try:
            return self.data[self.body(function) + offset]
        except IndexError:
            return None

    def instructions(self, function):
        """Code offset and opcode of each instruction of a function, and at last where they end."""
        if function not in self.decoded:
            found = []
            try:
                begin, end = self.body(function), self.ends[function - len(self.imports)]
                at = begin + self.first_offset(function)
                while at < end:
                    found.append((at - begin, self.data[at]))
                    at = behind_instruction(self.data, at)
                found.append((at - begin, None))
            except IndexError:
                found = []
            self.decoded[function] = found
        return self.decoded[function]

    def calls(self, function):
        """The code offsets of the calls in a function, each with that behind it."""
        found = self.instructions(function)
        return [(at, behind) for (at, opcode), (behind, _) in zip(found, found[1:]) if opcode in CALLS]

    def call_at(self, function, offset):
        """Of the call at a place: whom it calls, if that is told, and the code offset behind it; None at no call."""
        try:
            begin = self.body(function)
            code = self.data[begin + offset]
            if code not in CALLS:
                return None
            called = number_at(self.data, begin + offset + 1)[0] if code == 0x10 else None
            return called, behind_instruction(self.data, begin + offset) - begin
        except IndexError:
            return None

    def place_of(self, address):
        """Function and code offset of an address in the code section, as debugging information has it; or None."""
        at = self.code + address
        low, high = 0, len(self.bodies)
        while low < high:
            middle = (low + high) // 2
            low, high = (middle + 1, high) if self.bodies[middle] <= at else (low, middle)
        return (low - 1 + len(self.imports), at - self.bodies[low - 1]) if low else None


class Program:
    """The program `pm`."""

    def __init__(self, name):
        beside = os.path.join(os.path.dirname(os.path.dirname(os.path.abspath(__file__))), "pm")
        self.name = name or os.environ.get("PM") or (beside if os.path.exists(beside) else "pm")

    def ask(self, *words):
        """The lines that it prints; `Refused` where it ends otherwise than with status 0."""
        try:
            done = subprocess.run([self.name, *words], stdin=subprocess.DEVNULL, stdout=subprocess.PIPE, check=False)
        except (OSError, ValueError) as fault:
            cause = getattr(fault, "strerror", None) or fault
            raise Refused(f"the program can't be run: {self.name}: {cause} (--pm or PM names it)") from fault
        text = done.stdout.decode("utf-8", "backslashreplace").translate(CONTROL).rstrip("\n")
        if done.returncode:
            raise Refused(text or f"{self.name} ended with status {done.returncode}", done.returncode)
        return text.split("\n") if text else []


class Frame:
    """A frame: its line of `bt`, and before it those of the functions that are inlined there, the innermost first."""

    def __init__(self, rows):
        self.rows = rows
        self.number = int(rows[-1]["number"])
        self.site = int(rows[-1]["function"]), int(rows[-1]["offset"])
        first = rows[0]
        self.place = (first["file"], int(first["line"])) if first["line"] and int(first["line"]) else None

    def texts(self):
        """Its lines."""
        return [row[0] for row in self.rows]


def frames_of(lines):
    """The frames that lines of `bt` or `frame` tell."""
    frames, rows = [], []
    for found in filter(None, map(FRAME.match, lines)):
        rows.append(found)
        if found["function"]:
            frames.append(Frame(rows))
            rows = []
    return frames


class State:
    """A step of a run: how many steps it has behind it, how the run ended where it is the last one, and the frames."""

    def __init__(self, found):
        self.step, self.end, self.ending, self.lines = int(found[1]), int(found[2]), found[3], []

    @functools.cached_property
    def frames(self):
        """The frames, of which 0 is the innermost."""
        return frames_of(self.lines)

    def key(self):
        """What a step by lines compares: how deep it is, and the line."""
        frames = self.frames
        return len(frames), frames[0].place if frames else None


def states_of(lines):
    """The states that moves print, each with the lines behind it; None for a place that is not reached."""
    states = []
    for line in lines:
        if line == "not reached":
            states.append(None)
        elif found := STEP.match(line):
            states.append(State(found))
        elif states and states[-1]:
            states[-1].lines.append(line)
    return states


def each_answer(lines):
    """The lines of each command, of which each had MARK behind it."""
    answers = [[]]
    for line in lines:
        if line == f"no {MARK}":
            answers.append([])
        else:
            answers[-1].append(line)
    return answers


class Dump:
    """A core dump with its module: one state."""

    recorded = False

    def __init__(self, program, module, dump):
        self.program, self.module, self.dump = program, Module(module), dump
        self.tables = Lines(self.module)
        self.lines = self._debug("bt")
        self.frames = frames_of(self.lines)

    def trap(self):
        """How it died, by the instruction at which the innermost frame stands and its operands; None at another one."""
        opcode = self.module.opcode(*self.frames[0].site) if self.frames else None
        if opcode in DIVISIONS:
            operands = self.look(0, "operands")[0]
            is_zero = operands[-1].endswith(":0")
            return f"trap {TRAPS[2] if is_zero else TRAPS[3]}" if operands[-1].startswith("operand ") else None
        return next((f"trap {TRAPS[kind]}" for kind, opcodes in TRAPPING.items() if opcode in opcodes), None)

    def _debug(self, *commands):
        """What `pm debug` prints."""
        try:
            return self.program.ask("debug", "--", self.module.name, self.dump, *commands)
        except Refused as refused:
            raise advised(refused, self.module, []) from refused

    def look(self, frame, *commands):
        """What each of the debugger's commands prints on a frame."""
        lines = self._debug(f"frame {frame}", MARK, *[word for command in commands for word in (command, MARK)])
        return each_answer(lines)[1:len(commands) + 1]


class Recording:
    """A recorded run at one of its steps: at its end, at first."""

    recorded = True

    def __init__(self, program, module, words, limits):
        self.program, self.module, self.words = program, Module(module), words
        self.limits = {**DEFAULTS, **{name: limit for name, limit in limits.items() if limit is not None}}
        self.total, self.seen, self.is_spread, self.known = 0, {}, False, {}
        # Of calls that were gone over: the first step inside by the step of the return, and the other way round.
        self.calls, self.returns = {}, {}
        self.tables = Lines(self.module)
        self.state = states_of(self._replay([f"goto {LAST}", "bt"]))[-1]
        self.total, self.ending = self.state.end, self.state.ending
        self.last = self.state
        self._keep([self.last])

    @property
    def step(self):
        """How many steps the state has behind it."""
        return self.state.step

    @property
    def frames(self):
        """The frames of the state."""
        return self.state.frames

    @property
    def lines(self):
        """The lines of `bt`."""
        return self.state.lines

    def _replay(self, commands, near=0, end=None):
        """What `pm` prints on commands. It goes up to step `end`, and keeps a state shortly before step `near`."""
        end = self.total if end is None else min(end, self.total)
        fuel = end if end < self.total else self.limits["fuel"]
        options = ["--fuel", str(fuel), "--depth", str(self.limits["depth"]), "--every", str(spacing(near, end))]
        try:
            return self.program.ask("replay", *options, "--do", ";".join(commands), "--", self.module.name, *self.words)
        except Refused as refused:
            raise advised(refused, self.module, self.words[1:], self.limits) from refused

    def _learn(self, states):
        """Notes where lines begin, as far as the frames of these states tell."""
        for frame in [frame for state in states for frame in state.frames if frame.place]:
            sites = self.seen.setdefault(frame.place, {})
            function, offset = frame.site
            sites[function] = min(offset, sites.get(function, offset))

    def learned(self):
        """Where lines begin, by the states that were shown and by states all over the run."""
        if not self.is_spread:
            self.states(self.spread(0, self.total), "bt")
            self.is_spread = True
        return self.seen

    def look(self, frame, *commands):
        """What each of the debugger's commands prints on a frame of the state."""
        if any(";" in command for command in commands):
            return [["bad command"] for _ in commands]
        if len(commands) > MOST_STATES:
            return self.look(frame, *commands[:MOST_STATES]) + self.look(frame, *commands[MOST_STATES:])
        marked = [word for command in commands for word in (command, MARK)]
        lines = self._replay([f"goto {self.step}", f"frame {frame}", MARK, *marked], self.step, self.step)
        return each_answer(lines)[1:len(commands) + 1]

    def states(self, steps, *commands, near=None):
        """The states at these steps, in order, each with what the commands print there."""
        steps = [step for step in steps if 0 <= step <= self.total]
        moves = [word for step in steps for word in (f"goto {step}", *commands)]
        near = steps[0] if near is None and steps else near
        states = states_of(self._replay(moves, near, steps[-1])) if steps else []
        self._keep(states, commands)
        return states

    def _keep(self, states, commands=("bt",)):
        """Learns of these states, and keeps those of which all frames are told."""
        self._learn(states)
        if commands == ("bt",):
            if len(self.known) > MOST_KEPT:
                self.known = {}
            self.known.update((state.step, state) for state in states)

    def _known(self, step, way, calls=None):
        """The states that are kept, from a step on or back, without a gap, or with gaps at these calls alone."""
        while (state := self.known.get(step)) is not None:
            yield state
            step = (calls or {}).get(step + way, step + way)

    def spread(self, low, high):
        """Steps from `low` up to `high`, evenly spread; to go to all of them takes no more than the run once again."""
        # From a kept state it takes half of the part, or of the way between two kept states, on the average.
        way = max(1, min(high - low, self.total // 16))
        count = max(16, min(MOST_STATES, (self.total + 200_000) // way))
        return sorted({low + (high - low) * part // count for part in range(count)})

    def window(self):
        """How many neighbouring states are looked at in one call; they take no more than a quarter of a long run."""
        most = min(MOST_STATES, max(200, math.isqrt(self.total // 2)))
        return max(10, min(most, MOST_FRAMES // max(1, len(self.frames))))

    def goto(self, step):
        """Goes to a step."""
        step = max(0, min(step, self.total))
        self.state = self.known.get(step) or self.states([step], "bt")[-1]

    def next_line(self, into):
        """Goes to the next line, `into` calls or over them. It answers whether it was reached."""
        depth, place = self.state.key()

        def is_there(state):
            """Whether the state is the one to stop at."""
            deep, line = state.key()
            is_other = line is not None and (deep, line) != (depth, place) and (into or deep == depth)
            return state.step == self.total or deep < depth or is_other

        for _ in range(4):
            found = next(filter(is_there, self._known(self.step + 1, 1, None if into else self.returns)), None)
            window, ahead = ([], {}) if found else self._ahead(self.state, not into)
            self.state = found or next(filter(is_there, window), window[-1] if window else self.state)
            if not is_there(self.state) and not into and len(self.frames) > depth:
                hit = ahead.get(self.frames[len(self.frames) - depth].site)
                is_return = hit and hit.step > self.step and len(hit.frames) == depth
                before = [state.step for state in window if len(state.frames) == depth]
                self.state = hit if is_return else self._returned(self.state, depth)
                if before:
                    self.calls[self.step] = before[-1] + 1
                    self.returns[before[-1] + 1] = self.step
                self._keep([self.state])
            if is_there(self.state):
                return True
        return False

    def _ahead(self, state, is_over):
        """The states behind one, and, to go over calls, where the next two calls of its function return.

        The latter by the places of the calls. It is looked for in a part of the run behind them only, so that it does
        not take long where such a call is not made.
        """
        steps = range(state.step + 1, min(state.step + self.window(), self.total) + 1)
        end, calls, moves = steps[-1] if steps else state.step, [], []
        if is_over and state.frames:
            function, offset = state.frames[0].site
            calls = [call for call in self.module.calls(function) if call[0] >= offset][:2]
            end = max(end, state.step + self.total // 32) if calls else end
            moves = [word for _, behind in calls for word in (f"goto {state.step}", f"until {function}:{behind}", "bt")]
        moves = [word for step in steps for word in (f"goto {step}", "bt")] + moves
        states = states_of(self._replay(moves, state.step, end)) if steps else []
        self._keep(states[:len(steps)])
        returns = zip(calls, states[len(steps) + 1::2])
        return states[:len(steps)], {(function, at): hit for (at, _), hit in returns if hit}

    def _returned(self, state, depth):
        """The first state with no more than so many frames, behind the call under way there; or the end."""
        # Early in a run its end is far, and may not have to be gone to.
        ends = [state.step + self.total // 4, self.total] if state.step < self.total // 4 else [self.total]
        return next(filter(None, (self._returned_before(state, depth, end) for end in ends)), self.last)

    def _returned_before(self, state, depth, end):
        """That state up to a step; None where it is not there."""
        function, offset = state.frames[len(state.frames) - depth].site
        call = self.module.call_at(function, offset)
        for count in 1, 4, 16, 64, 256:
            until = [f"until {function}:{call[1]}", "bt"] * count if call else []
            states = states_of(self._replay([f"goto {state.step}", *until], state.step, end)) if call else []
            hits = [state for state in states[1:] if state]
            found = next((state for state in hits if len(state.frames) <= depth), None)
            if found or len(hits) < count:
                return found
            state = hits[-1]
        return state

    def finish(self, frame):
        """Goes to where a frame has returned to its caller, or to the end."""
        depth = len(self.frames) - frame - 1
        self.state = self._returned(self.state, depth) if depth > 0 else self.last

    def run_to(self, places):
        """Goes on to the next of these places, or to the end. It answers whether one was reached."""
        here = f"goto {self.step}"
        moves = [word for function, offset in places for word in (here, f"until {function}:{offset}", "bt")]
        states = states_of(self._replay(moves, self.step, self.total)) if moves else []
        hits = [state for state in states[1::2] if state]
        self.state = min(hits, key=lambda state: state.step, default=self.last)
        self._keep([self.state])
        return bool(hits)

    def _latest(self, places, spans, high, depth):
        """Of each place the last state that is found in front of step `high`, in one call.

        It is looked for from so far behind `high` as each of the spans says: twice, or once in a long one, through
        which a second look in vain would go again. Beside the state stand the steps between which there may be more:
        the last one seen there, and the next one behind which there are none.
        """
        starts = {max(0, high - 1 - span): 2 if span <= high // 8 else 1 for span in spans}
        moves = [word for function, offset in places for start, count in starts.items()
                 for word in (f"goto {start}", *[f"until {function}:{offset}", "bt"] * count)]
        rows, found = iter(states_of(self._replay(moves, min(starts), high - 1))), {}
        for place in places:
            above = high
            for start, count in starts.items():
                hits = list(itertools.islice(rows, count + 1))[1:]
                told = [state for state in hits if state and depth in (None, len(state.frames))]
                if place not in found and (told or all(hits)):
                    last = hits[-1].step if all(hits) else above
                    found[place] = told[-1] if told else None, last, above
                above = start + 1
        return found

    def _last_before(self, places, step, depth=None):
        """The last state before a step at which the innermost frame is at one of some places, with so many frames.

        It is looked for shortly before first, and then in all of the run; where it is found, the rest of that part is
        looked at until nothing is left. None where there is none.
        """
        empty, near = 0, max(256, step // 256)
        for spans in (doubled(1, near, near), doubled(2 * near, step // 8, step))[:1 if near >= step else 2]:
            found = self._latest(places, spans, step - empty, depth)
            for place, (state, last, above) in found.items():
                while last < above - 1:
                    span = above - last
                    again = self._latest([place], doubled(max(1, span // 256), span, span), above, depth)
                    hit, last, above = again.get(place, (None, above, above))
                    state = hit or state
                found[place] = state, last, above
            states = [state for state, _, _ in found.values() if state]
            if states:
                return max(states, key=lambda state: state.step)
            empty = near
        return None

    def back_to(self, places):
        """Goes back to the last of these places, or to step 0. It answers whether one was reached."""
        hit = self._last_before(list(dict.fromkeys(places)), self.step) if places and self.step > 1 else None
        if hit:
            self.state = hit
            self._keep([hit])
        else:
            self.goto(0)
        return hit is not None

    def line_before(self, into):
        """Goes back to where this line begins, or, from there, the line before it, `into` calls or over them.

        It answers whether that was reached.
        """
        depth, high, target = len(self.frames) or 1, self.step, None
        for _ in range(6):
            window = list(self._known(high - 1, -1)) or self._before(high)
            for state in window:
                if not state.key()[1] or not (into or state.key()[0] <= depth):
                    continue
                if target and state.key() != target.key():
                    self.state = target
                    return True
                target = state
            if not window or window[-1].step == 0:
                self.state = target or self.states([0], "bt")[0]
                return True
            high = window[-1].step if into else self._before_call(window[-1], depth)
        self.state = target or self.states([high], "bt")[0]
        return False

    def _before(self, high):
        """States before a step, the last one first."""
        return self.states(range(max(0, high - self.window()), high), "bt")[::-1]

    def _before_call(self, state, depth):
        """The step before which to look on: in front of the call in which a state with more than so many frames is."""
        if state.step in self.calls:
            return self.calls[state.step]
        deeper = len(state.frames) - depth
        call = self._last_before([state.frames[deeper].site], state.step, depth) if deeper > 0 else None
        return call.step + 1 if call else state.step

    def changed(self, path):
        """The text of `path` here, the last state with another one, its text there, and the next step seen.

        States shortly before this one are looked at, and others all over the run; then the part in which the value
        changed last is cut into parts, and so on. Steps at which there is no such variable are passed over. Where
        no other value was seen, the text here alone.
        """
        low, high, found, now = 0, self.step, None, None
        most = max(16, min(2 * MOST_STATES, MOST_WORDS // (len(path) + 80)))
        near = max(0, high - min(self.window(), 250))
        apart = spacing(near, high)
        # Those at which states are kept cost nothing.
        steps = sorted({step for step in range(0, high, apart)[:16]} | set(range(near, high + 1)))
        while True:
            told = self._told(steps, path, near)
            now = now or next((line for state, line in told if state.step == self.step), None)
            found = next(((state, line) for state, line in reversed(told) if line != now), found)
            if found is None or now is None:
                return now
            before = low, high
            low = found[0].step
            high = min([state.step for state, line in told if state.step > low], default=high)
            if high - low <= 1 or before == (low, high):
                return now, *found, high
            steps, near = range(low, high) if high - low <= most else self.spread(low, high), low

    def _told(self, steps, path, near):
        """The states at these steps at which a path has a value, each with the line that tells it."""
        states, told = self.states(steps, f"print {path}", MARK, "bt", near=near), []
        for state in states:
            value, state.lines = each_answer(state.lines)
            if is_told(value):
                told.append((state, value[-1]))
        self._keep(states)
        return told


def doubled(first, most, last):
    """A number, and each time twice as much, up to a most; and a last one behind them."""
    found = []
    while first <= most:
        found.append(first)
        first *= 2
    return [*found, last]


def is_told(lines):
    """Whether the answer to `print` tells a value."""
    return bool(lines) and not re.match(r"no variable |bad command|.* = <optimised out>$", lines[-1])


def spacing(near, end):
    """The value of --every by which one of the 16 states that are kept stands shortly before the step `near`."""
    parts = max(1, -(-16 * near // max(1, end)) - 1)
    apart = near // parts
    while apart > 1_000_000:
        apart //= 2
    return max(1, apart)


def parts(text):
    """The members of `{A = 1, B = {..}}`, or the elements of `{1, 2}`, with their names; none of another text."""
    if not (text.startswith("{") and text.endswith("}")):
        return []
    pieces, depth, begin, at, body = [], 0, 0, 0, text[1:-1]
    while at < len(body):
        if body[at] == "'" and body[at + 2:at + 3] == "'":
            at += 2
        depth += {"{": 1, "}": -1}.get(body[at], 0)
        if depth == 0 and body.startswith(", ", at):
            pieces.append(body[begin:at])
            begin = at + 2
        at += 1
    pieces += [body[begin:]] if body else []
    named = [re.match(r"([^\s{}=']+) = (.*)$", piece) for piece in pieces]
    return [(found[1], found[2]) if found else (f"[{index}]", pieces[index]) for index, found in enumerate(named)]


def without_spaces(path):
    """A path without the spaces that may stand around its signs."""
    return re.sub(r"\s*(->|[.*()\[\]])\s*", r"\1", path.strip())


def inside(path, name):
    """The path of a member or an element of what a path names."""
    whole = f"({path})" if path.startswith("*") else path
    return whole + name if name.startswith("[") else f"{whole}.{name}"


# ---- hints

def usage_of(arguments, limits):
    """Which word `pm` does not take, and what it takes."""
    for name, (least, most) in BOUNDS.items():
        if not least <= limits.get(name, least) <= most:
            return f"hint: --{name} {limits[name]}: it takes {least:,} to {most:,}"
    for word in arguments:
        found = re.fullmatch(r"i(32|64):(-?\d{1,20})", word, re.ASCII)
        bits = int(found[1]) if found else 0
        if not found or not -2 ** (bits - 1) <= int(found[2]) < 2 ** bits:
            return f"hint: {word} is no argument: {ARGUMENT}"
    return "hint: a word is not UTF-8; " + TAKES


def advised(refused, module, arguments=(), limits=()):
    """The refusal, with hints behind it."""
    text, hints = str(refused), []
    if refused.status == 2:
        hints.append(usage_of(arguments[1:], dict(limits)))
    if refused.status == 8 and len(arguments) > 0:
        hints += entry_hints(arguments, module)
    if refused.status == 11 and module.exports:
        hints.append("hint: " + TAKES)
    if refused.status == 12 and module.is_rewritten():
        hints.append(f"hint: {module.name} is a rewritten module: its dumps are read with the original")
    elif refused.status == 12:
        hints.append(f"hint: the dump is not of {module.name}: it is of another module, or of another build of it")
    return Refused("\n".join([text, *hints, *import_hints(text, module)]), refused.status)


def entry_hints(words, module):
    """What the entry takes, or which entries there are; of the words behind a module and a file of replies."""
    takes = module.parameters(words[0])
    if takes is None:
        return [f"hint: {module.name} exports {', '.join(module.exports) or 'no function'}"]
    given = [word.partition(":")[0] for word in words[1:]]
    return [f"hint: {words[0]} takes {', '.join(takes) or 'no arguments'}"] if given != takes else []


def import_hints(text, module):
    """Which import it is that nobody serves, or that got no reply."""
    found = re.search(r"not started: import (\d+)$", text)
    if found and module.import_name(int(found[1])):
        return [f"hint: import {found[1]} is {module.import_name(int(found[1]))}"]
    if re.search(r"host stopped: no reply for call \d+$", text):
        asked = [".".join(names) for names in module.imports if names[0] not in ("console", "counter")]
        return [f"hint: the call is of {'' if len(asked) == 1 else 'one of '}{', '.join(asked)}"]
    return []


def hints_of(subject):
    """What is worth saying of a dump or a recording that was read."""
    module, hints = subject.module, []
    if ".debug_info" not in module.sections:
        cause = "it is a rewritten module, its original has it" if module.is_rewritten() else "compile and link with -g"
        hints.append(f"hint: {module.name} has no debugging information: {cause}")
    ending = subject.ending if subject.recorded else None
    if ending == "fuel spent":
        most = BOUNDS["fuel"][1]
        hints.append(f"hint: the run goes on behind these {subject.total:,} steps: --fuel N takes up to {most:,}")
    if ending in ("no reply", "bad reply") and subject.frames:
        called = (module.call_at(*subject.frames[0].site) or (None,))[0]
        name = None if called is None else module.import_name(called)
        lacks = "the recording ends before" if ending == "no reply" else "the recording's reply does not fit"
        hints.append(f"hint: {lacks} the call of {name or 'an import'}")
    return hints


# ---- lines

TABLE = re.compile(
    r"(debug_line)\["
    r"|include_directories\[ *(?P<folder>\d+)\] = \"(?P<path>.*)\""
    r"|file_names\[ *(?P<file>\d+)\]:"
    r"| +name: \"(?P<name>.*)\""
    r"| +dir_index: (?P<of>\d+)"
    r"|0x(?P<address>[0-9a-f]{16}) +(?P<line>\d+) +(?P<column>\d+) +(?P<at>\d+) .*?(?P<flags>[a-z_ ]*)$")


def rows_of(lines):
    """File, line, address, column and flags of each row that llvm-dwarfdump prints, but those of removed code."""
    folders, files, number, is_live = {}, {}, None, None
    for found in filter(None, map(TABLE.match, lines)):
        if found[1]:
            folders, files = {}, {}
        elif found["folder"]:
            folders[found["folder"]] = found["path"]
        elif found["file"]:
            number = found["file"]
        elif found["name"] is not None:
            files[number] = found["name"]
        elif found["of"]:
            # Folder 0 is the compilation directory, which `pm` leaves out.
            folder = folders.get(found["of"], "") if found["of"] != "0" else ""
            files[number] = os.path.join(folder, files[number])
        else:
            address = int(found["address"], 16)
            if is_live is None:
                is_live = 0 < address < 0xfffffffe
            if is_live and found["line"] != "0" and "end_sequence" not in found["flags"]:
                yield files.get(found["at"], ""), int(found["line"]), address, int(found["column"]), found["flags"]
            if "end_sequence" in found["flags"]:
                is_live = None


ENTRY = re.compile(r"0x[0-9a-f]+:(?P<indent> +)DW_TAG_(?P<tag>\w+)$"
                   r"| +DW_AT_(?P<name>name|type|low_pc|high_pc)\s+"
                   r"\((?:0x(?P<number>[0-9a-f]+) ?)?(?:\"(?P<text>.*)\")?\)$")


def entries_of(lines):
    """The entries that llvm-dwarfdump prints, each with those above it."""
    above, found = [], []
    for match in filter(None, map(ENTRY.match, lines)):
        if match["tag"]:
            height = len(match["indent"]) // 2
            above = [*above[:height], {"tag": match["tag"]}]
            found.append((above[-1], above[:-1]))
        elif above:
            above[-1][match["name"]] = int(match["number"], 16) if match["name"].endswith("_pc") else match["text"]
    return found


def covers(entry, address):
    """Whether the code of an entry has an address, where it is in one piece that is told."""
    return "high_pc" not in entry or entry["low_pc"] <= address < entry["high_pc"]


class Lines:
    """Where lines and functions begin: by llvm-dwarfdump, or, where it is missing, by the states that `pm` showed."""

    def __init__(self, module):
        self.module, self.rows, self.columns = module, None, {}
        self.tool = next(filter(None, map(shutil.which, TOOLS)), None)

    def source(self):
        """Who tells lines."""
        return os.path.basename(self.tool) if self.tool else "pm alone"

    def dwarfdump(self, *words):
        """The lines that llvm-dwarfdump prints."""
        done = subprocess.run([self.tool, *words, self.module.name], stdin=subprocess.DEVNULL, stdout=subprocess.PIPE,
                              stderr=subprocess.DEVNULL, check=False)
        return done.stdout.decode("utf-8", "backslashreplace").split("\n")

    def types(self, function, offset, names):
        """The types of variables that are visible at a place, by their names, as far as llvm-dwarfdump tells them."""
        names = [name for name in dict.fromkeys(names) if re.fullmatch(r"\w+", name)]
        if not (self.tool and names):
            return {}
        try:
            address = self.module.body(function) + offset - self.module.code
        except IndexError:
            return {}
        lines = self.dwarfdump("--show-parents", *[f"--name={name}" for name in names])
        found = {}
        for entry, parents in entries_of(lines):
            is_variable = entry["tag"] in ("variable", "formal_parameter") and "name" in entry and "type" in entry
            if is_variable and all(covers(parent, address) for parent in parents):
                # The innermost one is the visible one; of two at one height, as `pm` takes it, the last.
                if len(parents) >= found.get(entry["name"], (0, ""))[0]:
                    found[entry["name"]] = len(parents), entry["type"]
        return {name: text for name, (_, text) in found.items()}

    def folders(self):
        """The folders in which the module was compiled."""
        units = self.dwarfdump("--debug-info", "--recurse-depth=0") if self.tool else []
        found = (re.match(r" +DW_AT_comp_dir\s+\(\"(.*)\"\)$", line) for line in units)
        return list(dict.fromkeys(match[1] for match in found if match))

    def table(self):
        """The rows by llvm-dwarfdump: file, line, function, code offset, whether the prologue ends there, column."""
        if self.rows is None:
            self.rows = []
            for file, line, address, column, flags in rows_of(self.dwarfdump("--debug-line")):
                place = self.module.place_of(address)
                if place:
                    self.rows.append((file, line, *place, "prologue_end" in flags, column))
        return self.rows

    def column(self, function, offset, line):
        """The column at a place on a line, counted from 1, or 0 where it is not told."""
        if not self.columns:
            rows = sorted(self.table() if self.tool else [], key=lambda row: row[3])
            for _, at_line, in_function, at, _, column in rows:
                self.columns.setdefault(in_function, []).append((at, at_line, column))
        before = [row for row in self.columns.get(function, []) if row[0] <= offset]
        return before[-1][2] if before and before[-1][1] == line else 0

    def _behind_prologue(self, function):
        """The place in a function from which on its variables are told."""
        rows = self.table() if self.tool else []
        ends = (offset for _, _, at, offset, is_end, _ in rows if at == function and is_end)
        return function, next(ends, self.module.first_offset(function))

    def of_function(self, name):
        """The places at which the functions of a name begin."""
        functions = {index for index, known in self.module.names.items() if known == name}
        entries = self.dwarfdump(f"--name={name}") if self.tool else []
        for found in filter(None, (re.match(r" +DW_AT_low_pc\s+\(0x0*([0-9a-f]+)\)$", line) for line in entries)):
            place = self.module.place_of(int(found[1], 16))
            functions |= {place[0]} if place else set()
        try:
            return [self._behind_prologue(function) for function in sorted(functions)]
        except IndexError:
            return []

    def rows_known(self, subject):
        """The rows of the table, or what the states of a recording tell of it."""
        if self.tool:
            return self.table()
        return [(*place, *site, False, 0) for place, sites in subject.learned().items() for site in sites.items()]

    def of_line(self, file, line, subject):
        """The first line with code from this one on: file, number, and where it begins in each function; or None."""
        rows = self.rows_known(subject)
        rows = [row for row in rows if row[1] >= line and (row[0] == file or row[0].endswith(f"/{file}"))]
        if not rows:
            return None
        name, number = min((row[1], row[0]) for row in rows)[::-1]
        places = {}
        for _, _, function, offset, *_ in [row for row in rows if row[:2] == (name, number)]:
            places[function] = min(offset, places.get(function, offset))
        for function, offset in places.items():
            if offset <= self.module.first_offset(function):
                places[function] = self._behind_prologue(function)[1]
        return name, number, sorted(places.items())

    def places(self, where, subject):
        """What FILE:LINE, LINE, FUNCTION or F:O names, as a text and as places."""
        if found := re.fullmatch(r"(\d+):(\d+)", where):
            return f"function {found[1]} offset {found[2]}", [(int(found[1]), int(found[2]))]
        if found := re.fullmatch(r"(?:(.+):)?(\d+)", where):
            here = subject.frames[0].place if subject.frames else None
            line = self.of_line(found[1] or (here or ("",))[0], int(found[2]), subject)
            if line is None:
                raise Refused(f"no line {where}, by {self.source()}")
            return f"{line[0]}:{line[1]}", line[2]
        places = self.of_function(where)
        if not places:
            raise Refused(f"no function {where}, by {self.source()}")
        return where, places


# ---- texts behind values

MOST_TEXT = 100
ELEMENT = re.compile(r"(-?\d+)( '.')?$", re.S)
ESCAPES = {"\n": "\\n", "\t": "\\t", "\r": "\\r", '"': '\\"', "\\": "\\\\"}


def quoted(data):
    """Bytes as a text in quotes; what is not UTF-8, or can't be printed, in octal digits."""
    shown = []
    for letter in data.decode("utf-8", "surrogateescape"):
        octal = "".join(f"\\{byte:03o}" for byte in letter.encode("utf-8", "surrogateescape"))
        shown.append(ESCAPES.get(letter) or (letter if letter.isprintable() else octal))
    return f'"{"".join(shown)}"'


def is_printable(data):
    """Whether bytes are UTF-8 that can be printed."""
    try:
        return all(letter.isprintable() or letter in ESCAPES for letter in data.decode("utf-8"))
    except UnicodeDecodeError:
        return False


def text_of(elements, length=None):
    """The text that elements hold, as `pm` prints them, up to a 0 or of so many; None where they are no text."""
    found = list(itertools.takewhile(bool, map(ELEMENT.match, elements)))
    values = [int(match[1]) for match in found]
    size = length if length is not None else values.index(0) if 0 in values else len(values)
    if size > len(values) or not all(-128 <= value <= 255 for value in values[:size]):
        return None
    data = bytes(value & 255 for value in values[:size])
    is_text = is_printable(data) if length is not None else any(match[2] for match in found[:size])
    is_cut = size == len(values) and (size == MOST_TEXT or elements[-1:] == ["..."])
    return quoted(data) + ("..." if is_cut else "") if is_text else None


def leaves(path, text):
    """The values in a value that have no parts themselves, each with its path."""
    members = parts(text)
    return [leaf for name, part in members for leaf in leaves(inside(path, name), part)] if members else [(path, text)]


def text_place(path, text):
    """Of a value that may be a text elsewhere: the path of the pointer to it, and how long it is where that is told."""
    if POINTER.match(text):
        return path, None
    values = leaves(path, text)
    pointers = [name for name, value in values if POINTER.match(value)]
    lengths = [int(value) for name, value in values if re.search(r"\.len(gth)?$", name) and value.isdigit()]
    return (pointers[0], min(lengths[0], MOST_TEXT)) if len(pointers) == len(lengths) == 1 else None


def with_texts(subject, frame, values):
    """The texts of values, each a path and what `pm` prints of it, with the characters that stand behind them."""
    places = [text_place(path, text) for path, text in values]
    counts = [0 if place is None else MOST_TEXT if place[1] is None else place[1] for place in places]
    elements = [inside(place[0], f"[{index}]") for place, count in zip(places, counts) for index in range(count)]
    asked = [f"print {element}" for element in elements]
    answers = iter(subject.look(frame, *asked) if asked else [])
    shown = []
    for (_, text), place, count in zip(values, places, counts):
        elements = [value_in(answer) for answer in itertools.islice(answers, count)]
        told = text_of(elements, place[1]) if place else text_of([part for _, part in parts(text)])
        shown.append(text if told is None else f"{text} {told}" if place else told)
    return shown


def value_in(answer):
    """What stands behind the `=` of an answer to `print`, or nothing."""
    return answer[-1].partition(" = ")[2] if answer else ""


def in_hexadecimal(text):
    """A value with its integers in hexadecimal."""
    return re.sub(r"(?<![\w.'])-?\d+(?![\w'])", lambda found: hex(int(found[0])), text)


# ---- the prompt

ALIASES = {
    "EOF": "quit", "b": "break", "bt": "backtrace", "c": "continue", "d": "delete", "f": "frame", "h": "help",
    "i": "info", "l": "list", "n": "next", "p": "print", "q": "quit", "rc": "reverse-continue", "reverse-stepi": "back",
    "ptype": "whatis", "rn": "reverse-next", "rs": "reverse-step", "rsi": "back", "s": "step", "si": "stepi",
    "u": "until",
    "where": "backtrace"}
INSTEAD = {word: f"{other} does that" for words, other in (
    ("watch rwatch awatch", "when PATH"), ("run r start", "goto 0"), ("advance", "until PLACE"),
    ("tbreak", "until PLACE"), ("display", "print PATH")) for word in words.split()}
A_DUMP = "a dump has one state; one that `pm run --record LOG` recorded has all: pmdb.py MODULE LOG ENTRY [ARG ..]"


class Prompt(cmd.Cmd):
    """The prompt. Each method `do_WORD` is a command; the first line of its text stands in `help`."""

    prompt = "(pm) "
    identchars = cmd.Cmd.identchars + "-"

    def __init__(self, subject, source):
        super().__init__()
        self.subject, self.source, self.frame = subject, source, 0
        self.breakpoints, self.count, self.names = {}, 0, {}
        self.tables = subject.tables

    # What the frame of Python's module asks for.

    def run(self):
        """Reads commands up to the end; behind Ctrl-C it goes on."""
        self.opened()
        self.say(hints_of(self.subject))
        while True:
            try:
                return self.cmdloop()
            except KeyboardInterrupt:
                print()

    def words(self):
        """The commands."""
        return sorted(name[3:].replace("_", "-") for name in dir(self) if name.startswith("do_"))

    def onecmd(self, line):
        """Does a command, which may be cut where no other one begins so."""
        if not sys.stdin.isatty() and line != "EOF":
            print(line)
        word, rest = re.match(r"\s*([\w-]*)\s*(.*?)\s*$", line, re.S).groups()
        if not word and not rest:
            return self.emptyline()
        self.lastcmd = line if line != "EOF" else ""
        word = ALIASES.get(word, word)
        found = [word] if word in self.words() else [name for name in self.words() if word and name.startswith(word)]
        if len(found) != 1:
            known = f"one of {', '.join(found)}" if found else INSTEAD.get(word, "help lists the commands")
            print(f"no command {word or rest}: {known}")
            return False
        try:
            return getattr(self, "do_" + found[0].replace("-", "_"))(rest)
        except Refused as refused:
            print(refused)
        except ValueError:
            print(self.usage(found[0]))
        return False

    def usage(self, word):
        """What a command takes."""
        return getattr(self, "do_" + word.replace("-", "_")).__doc__.split("\n")[0]

    def emptyline(self):
        """An empty line does the last command again."""
        return self.onecmd(self.lastcmd) if self.lastcmd and sys.stdin.isatty() else False

    def completenames(self, text, *_):
        """The commands that begin so."""
        return [name for name in self.words() if name.startswith(text)]

    def complete_info(self, text, *_):
        """What `info` tells of."""
        return [name for name in ("args", "breakpoints", "frame", "locals", "registers", "source")
                if name.startswith(text)]

    def complete_help(self, text, *_):
        """The commands that begin so."""
        return self.completenames(text)

    def completedefault(self, text, *_):
        """The variables that begin so."""
        key = getattr(self.subject, "step", 0), self.frame
        if key not in self.names:
            try:
                lines = self.subject.look(self.frame, "vars")[0]
            except Refused:
                lines = []
            self.names = {key: [line.split(" = ")[0] for line in lines if " = " in line]}
        return [name for name in self.names[key] if name.startswith(text)]

    # What commands share.

    def say(self, lines):
        """Prints lines."""
        for line in lines:
            print(line)

    def look(self, *commands):
        """Prints what `pm` answers on the chosen frame."""
        for answer in self.subject.look(self.frame, *commands):
            self.say(answer)

    def opened(self):
        """Shows what was opened; of a dump also its trap."""
        trap = None if self.subject.recorded else self.subject.trap()
        self.say([f"{trap}, by the instruction there"] if trap else [])
        self.arrive()

    def arrive(self):
        """Shows the state that was reached: the step, the innermost frame, its line."""
        self.frame = 0
        if self.subject.recorded:
            step, total = self.subject.step, self.subject.total
            print(f"step {step} of {total}" + (f" {self.subject.ending}" if step == total else ""))
        self.show_frame()

    def show_frame(self):
        """Shows the chosen frame and its line."""
        self.say([line for line in self.subject.lines if line.startswith("unreadable ")])
        if not self.subject.frames:
            print("no frames")
            return
        frame = self.subject.frames[self.frame]
        self.say(frame.texts())
        lines = self.source_lines(frame.place[0]) if frame.place else None
        if lines and frame.place[1] <= len(lines):
            print(f"{frame.place[1]}\t{lines[frame.place[1] - 1]}")

    def folders(self):
        """The folders in which sources are looked for."""
        return [self.source] if self.source else [".", *self.tables.folders()]

    def source_lines(self, file):
        """The lines of a source, or none where it is not there."""
        for folder in self.folders():
            try:
                with open(os.path.join(folder, file), encoding="utf-8", errors="replace") as source:
                    return source.read().translate(CONTROL).split("\n")
            except OSError:
                continue
        return None

    def recording(self):
        """The recording, for commands that move."""
        if not self.subject.recorded:
            raise Refused(A_DUMP)
        return self.subject

    def takes_nothing(self, line):
        """Refuses words behind a command that takes none: nothing is passed over in silence."""
        if line:
            raise ValueError(line)

    def step_back_or_on(self, steps):
        """Goes so many steps of the machine on, or back."""
        recording = self.recording()
        recording.goto(recording.step + steps)
        self.arrive()

    # The commands.

    def do_help(self, line):
        """help [COMMAND]: the commands, or one of them"""
        words = [word for word in self.words() if word.startswith(line)]
        self.say([self.usage(word) for word in words] or [f"no command {line}"])

    def do_quit(self, _line):
        """quit: ends"""
        if not sys.stdin.isatty() and not self.lastcmd:
            print()
        return True

    def do_backtrace(self, _line):
        """backtrace (bt, where): all frames, the innermost first"""
        self.say(self.subject.lines)

    def do_frame(self, line):
        """frame [N]: chooses frame N, and shows it"""
        number = int(line or self.frame)
        if not 0 <= number < len(self.subject.frames):
            print(f"no frame {number}")
            return
        self.frame = number
        self.show_frame()

    def do_up(self, line):
        """up [N]: chooses the frame that called"""
        self.do_frame(str(min(self.frame + int(line or 1), max(0, len(self.subject.frames) - 1))))

    def do_down(self, line):
        """down [N]: chooses the frame that was called"""
        self.do_frame(str(max(self.frame - int(line or 1), 0)))

    def do_info(self, line):
        """info locals | registers | frame | breakpoints | source: variables; the machine; the frame; who tells lines"""
        answers = {"locals": self.show_variables, "args": self.show_variables, "frame": self.show_frame,
                   "registers": lambda: self.look("locals", "operands", "globals"),
                   "breakpoints": self.show_breakpoints, "source": self.show_source}
        found = [name for name in answers if line and name.startswith(line)]
        if not found:
            raise ValueError(line)
        answers[found[0]]()

    def show_breakpoints(self):
        """Prints the breakpoints."""
        self.say([f"{number} {name}" for number, (name, _) in self.breakpoints.items()] or ["no breakpoints"])

    def show_source(self):
        """Prints who tells lines, and where sources are looked for."""
        print(f"lines by {self.tables.source()}; sources in {', '.join(self.folders())}")

    def show_variables(self):
        """Prints the variables of the chosen frame."""
        lines = self.subject.look(self.frame, "vars")[0]
        values = [tuple(line.partition(" = ")[::2]) for line in lines if " = " in line]
        self.say([line for line in lines if " = " not in line])
        self.say([f"{name} = {text}" for (name, _), text in zip(values, with_texts(self.subject, self.frame, values))])

    def do_print(self, line):
        """print[/x | /d] PATH: NAME with .NAME, ->NAME, [N], * and parentheses; in hexadecimal, or as pm prints it"""
        form, path = re.match(r"(?:/(\w)\s+)?(.*)$", line, re.S).groups()
        path = without_spaces(path)
        if not path or form not in (None, "x", "d"):
            raise ValueError(line)
        answer = self.subject.look(self.frame, f"print {path}")[0]
        if answer[-1:] == ["bad command"]:
            raise Refused(f"{path} is no path: {self.usage('print')}")
        text = value_in(answer)
        if not text or form == "d":
            self.say(answer)
        elif form == "x":
            print(f"{path} = {in_hexadecimal(text)}")
        else:
            print(f"{path} = {with_texts(self.subject, self.frame, [(path, text)])[0]}")

    def do_whatis(self, line):
        """whatis NAME (ptype): the type of a variable, by llvm-dwarfdump"""
        if not line or not self.subject.frames:
            raise ValueError(line)
        told = self.tables.types(*self.subject.frames[self.frame].site, [line])
        print(f"type = {told[line]}" if line in told else f"no type of {line}, by {self.tables.source()}")

    def numbers(self, *words):
        """The numbers that words tell: decimal, hexadecimal, or a variable that is a pointer or an integer."""
        paths = [word for word in words if not re.fullmatch(r"0x[0-9a-fA-F]+|\d+", word)]
        answers = dict(zip(paths, self.subject.look(self.frame, *[f"print {path}" for path in paths]) if paths else []))
        values = []
        for word in words:
            found = re.match(r"0x[0-9a-f]+|-?\d+", value_in(answers[word])) if word in answers else re.match(".*", word)
            if not found and value_in(answers[word]):
                raise Refused(f"{word} is no pointer and no integer: {self.usage('x')}")
            if not found:
                raise Refused("\n".join(answers[word]) if answers[word] != ["bad command"] else self.usage("x"))
            values.append(int(found[0], 0) & 0xffffffff)
        return values

    def do_x(self, line):
        """x[/COUNT | /s] ADDRESS [COUNT]: bytes of the memory, or the text there; numbers, 0x.. or variables"""
        found = re.match(r"(?:/(\d+|s)[bx]*\s+)?(\S+)(?:\s+(\S+))?$", line)
        if not found:
            raise ValueError(line)
        if found[1] == "s":
            address, = self.numbers(found[2])
            pieces = itertools.takewhile(bool, (piece for _, piece in self.memory(address, 256)))
            print(f"0x{address:08x} {quoted(b''.join(pieces).partition(bytes(1))[0])}")
            return
        for line, piece in self.memory(*self.numbers(found[2], found[3] or found[1] or "64")):
            if not piece:
                print(line)
                return
            print(f"{line:58} {''.join(chr(byte) if 32 <= byte < 127 else '.' for byte in piece)}")

    def memory(self, address, count):
        """Lines of `pm` on bytes of the memory, 16 to a line, each with its bytes, or none where it tells none."""
        starts = range(address, address + min(count, MOST_BYTES), 16)
        answers = self.subject.look(self.frame, *[f"x {at} {min(16, address + count - at)}" for at in starts])
        lines = [line for answer in answers for line in answer]
        return [(line, bytes.fromhex(line.partition(":")[2]) if ":" in line else b"") for line in lines]

    def do_list(self, line):
        """list [LINE | FILE:LINE]: the source around the chosen frame, or around a line"""
        frame = self.subject.frames[self.frame] if self.subject.frames else None
        place = frame.place if frame else None
        if line:
            file, _, number = line.rpartition(":")
            place = (file or (place or [""])[0], int(number))
        if not place:
            print("no line is told")
            return
        lines = self.source_lines(place[0])
        if lines is None:
            raise Refused(f"no source {place[0]}; --source DIR says where names of sources begin")
        if place[1] > len(lines):
            print(f"{place[0]} has {len(lines)} lines")
        for number in range(max(1, place[1] - 5), min(len(lines), place[1] + 5) + 1):
            is_here = frame and frame.place == (place[0], number)
            print(f"{'=>' if is_here else '  '} {number:5}  {lines[number - 1]}")

    def do_goto(self, line):
        """goto N: goes to step N of the run, counted from 0"""
        self.recording().goto(int(line))
        self.arrive()

    def do_stepi(self, line):
        """stepi [N] (si): N steps of the machine on"""
        self.step_back_or_on(int(line or 1))

    def do_back(self, line):
        """back [N] (reverse-stepi, rsi): N steps of the machine back"""
        self.step_back_or_on(-int(line or 1))

    def do_step(self, line):
        """step [N] (s): on to the next line, into calls, N times"""
        self.next_line(line, True)

    def do_next(self, line):
        """next [N] (n): on to the next line, over calls, N times"""
        self.next_line(line, False)

    def next_line(self, line, into):
        """Goes on so many lines, and shows the last."""
        recording = self.recording()
        is_there = all([recording.next_line(into) for _ in range(int(line or 1))])
        self.arrive()
        if not is_there:
            print("the line goes on behind this step")

    def line_before(self, into):
        """Goes back to where a line begins, and shows it."""
        is_there = self.recording().line_before(into)
        self.arrive()
        if not is_there:
            print("the line begins before this step")

    def do_reverse_step(self, line):
        """reverse-step (rs): back to where the line begins, or, from there, the line before it, into calls"""
        self.takes_nothing(line)
        self.line_before(True)

    def do_reverse_next(self, line):
        """reverse-next (rn): as reverse-step, over calls"""
        self.takes_nothing(line)
        self.line_before(False)

    def do_finish(self, line):
        """finish: on to where the chosen frame has returned"""
        self.takes_nothing(line)
        self.recording().finish(self.frame)
        self.arrive()

    def do_break(self, line):
        """break FILE:LINE | LINE | FUNCTION | F:O: a breakpoint; F:O is a function's index and a code offset"""
        if not line:
            raise ValueError(line)
        name, places = self.tables.places(line, self.recording())
        self.count += 1
        self.breakpoints[self.count] = name, places
        where = ", ".join(f"function {function} offset {offset}" for function, offset in places)
        told = "" if name == where else f": {where}, by {self.tables.source()}"
        print(f"breakpoint {self.count} at {name}{told}")

    def do_delete(self, line):
        """delete [N]: takes breakpoint N away, or all"""
        if line and int(line) not in self.breakpoints:
            print(f"no breakpoint {line}")
        for number in [int(line)] if line else list(self.breakpoints):
            self.breakpoints.pop(number, None)

    def places(self):
        """The places of all breakpoints."""
        return [place for _, places in self.breakpoints.values() for place in places]

    def do_continue(self, line):
        """continue (c): on to the next breakpoint, or to the end"""
        self.takes_nothing(line)
        self.recording().run_to(self.places())
        self.arrive()

    def do_reverse_continue(self, line):
        """reverse-continue (rc): back to the breakpoint before this step, or to step 0"""
        self.takes_nothing(line)
        self.recording().back_to(self.places())
        self.arrive()

    def do_until(self, line):
        """until FILE:LINE | LINE | FUNCTION | F:O: on to the next step there"""
        if not line:
            raise ValueError(line)
        name, places = self.tables.places(line, self.recording())
        before = self.subject.state
        if self.subject.run_to(places):
            self.arrive()
        else:
            self.subject.state = before
            print(f"not reached: {name}")

    def do_when(self, line):
        """when PATH: back to the last step at which PATH, in the innermost frame, had another value than here"""
        path = without_spaces(line)
        if not path:
            raise ValueError(line)
        found = self.recording().changed(path)
        if found is None:
            raise Refused("\n".join(self.subject.look(0, f"print {path}")[0]))
        if isinstance(found, str):
            raise Refused(f"{found} at all steps that were looked at")
        now, state, before, behind = found
        self.subject.goto(state.step)
        self.arrive()
        self.say([f"here {before}", f"at step {behind} {now}"])


def arguments():
    """The words of the command line."""
    words = argparse.ArgumentParser(description=__doc__, formatter_class=argparse.RawDescriptionHelpFormatter,
                                    usage="pmdb.py [OPTION ..] MODULE DUMP | MODULE LOG ENTRY [ARG ..]")
    words.add_argument("--pm", help="the program; else what PM names, or `pm` above this folder")
    words.add_argument("--source", help="where names of sources begin; else here, and where they were compiled")
    words.add_argument("--fuel", type=int, help="how many steps the run may have")
    words.add_argument("--depth", type=int, help="how many frames the run may have")
    words.add_argument("module", metavar="MODULE")
    words.add_argument("rest", metavar="WORD", nargs="+", help="DUMP, or LOG ENTRY [ARG ..]")
    return words.parse_args()


def main():
    """Opens the dump or the recording, and the prompt."""
    words = arguments()
    program = Program(words.pm)
    try:
        if len(words.rest) == 1:
            subject = Dump(program, words.module, words.rest[0])
        else:
            subject = Recording(program, words.module, words.rest, {"fuel": words.fuel, "depth": words.depth})
    except Refused as refused:
        print(refused)
        sys.exit(refused.status)
    try:
        Prompt(subject, words.source).run()
    except BrokenPipeError:
        # Nobody reads on; Python would say so once more at its end.
        os._exit(1)


if __name__ == "__main__":
    main()
