"""Helps clients.sh: plays the clients, and compares what they show with what others say.

usage: play_clients.py prompt FOLDER     pmdb.py at a pseudo-terminal
       play_clients.py editor FOLDER     pmdap.py, as an editor asks it
       play_clients.py refusals FOLDER   all three on bad input
       play_clients.py pages FOLDER NAME ..   pages of genhtml beside the files that gcov wrote
       play_clients.py page FOLDER README     the commands that a page shows behind a `$`, and what they print
       play_clients.py speed FOLDER STEPS     what moves take of the processor in a long run of module.wasm

FOLDER holds the modules tree, notes and values of bench/programs/traps with their dumps, the file of replies `log`,
and `symbols`, which is what llvm-symbolizer says of the frames of tree's dump. What is expected is read from the
sources and from what the programs leave in their memory, or said by other programs.
"""

import base64
import json
import os
import pty
import random
import re
import subprocess
import sys

# Nothing is written into the checkout.
sys.dont_write_bytecode = True
sys.path.append(os.path.join(os.path.dirname(os.path.abspath(__file__)), "..", "clients"))

from compare_cover import by_line, instructions, rows
from compare_debug import symbolized_frames
import pmdb

TOP = os.path.dirname(os.path.dirname(os.path.abspath(__file__)))
CLIENTS = os.path.join(TOP, "clients")
TRAPS = "bench/programs/traps/"
PROMPT = "(pm) "


class Checks:
    """Counts what was compared, and tells what differs."""

    def __init__(self, name):
        self.name, self.count, self.wrong = name, 0, 0

    def same(self, what, found, expected):
        """Compares two values."""
        self.count += 1
        if found != expected:
            self.wrong += 1
            print(f"  {self.name}: {what}: {found!r} beside {expected!r}")

    def has(self, what, found, part):
        """Looks for a part of a text."""
        self.same(what, found if part not in found else part, part)

    def end(self):
        """The status."""
        print(f"  {self.name}: {self.count} compared, {self.wrong} differ")
        return 1 if self.wrong or not self.count else 0


class Source:
    """A C program, of which lines are found by what stands in them."""

    def __init__(self, name):
        self.file = TRAPS + name
        with open(os.path.join(TOP, self.file), encoding="ascii") as file:
            self.lines = file.read().split("\n")

    def line(self, part):
        """The number of the only line with this part."""
        found = [number for number, line in enumerate(self.lines, 1) if part in line]
        if len(found) != 1:
            sys.exit(f"{self.file} has {len(found)} lines with {part}")
        return found[0]

    def shown(self, part):
        """The line as a prompt shows it."""
        number = self.line(part)
        return f"{number}\t{self.lines[number - 1]}"


def told_by_itself(dump):
    """What values.c left in its memory of its variables: paths and texts."""
    # The marks are also among the constants of the program, each with a zero behind it.
    with open(dump, "rb") as file:
        text = re.search(rb"<<([^\0]+)>>", file.read())[1].decode("ascii")
    return [line.split(" = ", 1) for line in text.splitlines()]


def key_of_tree(seed):
    """The key of the node that holds 0, as tree.c computes it."""
    return (((seed + 33) * 2654435761 & 0xffffffff) >> 8) % 1000


# ---- the prompt

class Terminal:
    """pmdb.py at a pseudo-terminal."""

    def __init__(self, folder, *words, **environment):
        self.process, self.file = pty.fork()
        if self.process == 0:
            os.chdir(folder)
            environment = {**os.environ, "TERM": "dumb", "INPUTRC": "/dev/null", **environment}
            os.execve(sys.executable, [sys.executable, os.path.join(CLIENTS, "pmdb.py"), *words], environment)
        self.opening = self._read()

    def _read(self):
        data = b""
        while not data.endswith(PROMPT.encode()):
            try:
                piece = os.read(self.file, 65536)
            except OSError:
                break
            if not piece:
                break
            data += piece
        return data.decode().replace("\r", "").removesuffix(PROMPT)

    def do(self, line):
        """What a command prints."""
        os.write(self.file, line.encode() + b"\n")
        return self._read().partition("\n")[2].rstrip("\n")

    def end(self):
        """Ends by Ctrl-D; the status."""
        os.write(self.file, b"\x04")
        self._read()
        os.close(self.file)
        return os.waitstatus_to_exitcode(os.waitpid(self.process, 0)[1])


def play_dump(checks, folder):
    """The story of the tree: frames by llvm-symbolizer, variables by the source."""
    symbols = [frame[0] for frame in symbolized_frames(os.path.join(folder, "symbols"))]
    key, source = key_of_tree(9), Source("tree.c")
    terminal = Terminal(folder, "tree.wasm", "tree.core")
    checks.has("the trap", terminal.opening, "trap 2 integer divide by zero, by the instruction")
    checks.has("the trap's line", terminal.opening, source.shown("from / at->value"))
    frames = re.findall(r"#\d+ (\w+) .* at .*?([\w.]+):(\d+)", terminal.do("bt"))
    checks.same("bt", [(name, file, int(line)) for name, file, line in frames], symbols)
    for command, expected in (("print key", f"key = {key}"), ("p/x key", f"key = {hex(key)}"),
                              ("p at->value", "at->value = 0"), ("p at -> key", f"at->key = {key}"),
                              ("p (*at).value", "(*at).value = 0")):
        checks.same(command, terminal.do(command), expected)
    memory = (key.to_bytes(4, "little") + bytes(4)).hex(" ")
    checks.has("x at 8", terminal.do("x at 8"), memory)
    number, _, text = source.shown("from / at->value").partition("\t")
    checks.has("list", terminal.do("list"), f"=> {number:>5}  {text}")
    checks.has("up", terminal.do("up"), source.shown("key < at->key ? at->left"))
    checks.has("frame 3", terminal.do("frame 3"), source.shown("return quotient(root"))
    checks.same("p seed", terminal.do("p seed"), "seed = 9")
    checks.same("whatis seed", terminal.do("whatis seed"), "type = int")
    checks.same("whatis root", terminal.do("ptype root"), "type = node *")
    checks.same("whatis nothing", terminal.do("whatis nothing"), "no type of nothing, by llvm-dwarfdump")
    checks.has("info locals", terminal.do("i lo"), "zero = 0")
    checks.same("completion", terminal.do("p se\t"), "seed = 9")
    checks.same("history", terminal.do("\x10"), "seed = 9")
    checks.has("a move", terminal.do("next"), "a dump has one state")
    checks.same("end", terminal.end(), 0)


def play_recording(checks, folder):
    """The story of the notes: who broke `table.scale`, and the moves, by the source."""
    source = Source("notes.c")
    divides, stores, calls = source.shown("n / table.scale"), source.shown("= --left"), source.shown('note("trap"')
    terminal = Terminal(folder, "notes.wasm", "log", "run", "i32:12")
    checks.has("the end", terminal.opening, "trap 2 integer divide by zero")
    checks.has("the trap's line", terminal.opening, divides)
    found = terminal.do("when table.scale")
    for part in (stores, "here table.scale = 3", "table.scale = 0"):
        checks.has("when table.scale", found, part)
    checks.same("the letter behind z", terminal.do("p letter"), f"letter = {ord('{') - ord('a')}")
    checks.has("back", terminal.do("back 2"), stores)
    for command, expected in (("goto 0", source.shown("int run(int n)")), ("break note", "breakpoint 1 at note"),
                              ("continue", source.shown("while (left > 0)"))):
        checks.has(command, terminal.do(command), expected)
    checks.has("the first word", terminal.do("print word"), ' "dump{"')
    for command, expected in (("c", source.shown("while (left > 0)")), ("finish", divides), ("reverse-next", calls),
                              ("next", divides), ("rc", source.shown("while (left > 0)"))):
        checks.has(command, terminal.do(command), expected)
    checks.has("the second word", terminal.do("i lo"), 'word = 0x')
    checks.has("the second word", terminal.do("p word"), ' "trap"')
    checks.has("step", terminal.do("s"), source.shown("*word++"))
    checks.has("step", terminal.do("s"), stores)
    checks.has("reverse-step", terminal.do("rs"), source.shown("*word++"))
    terminal.do("goto 0")
    terminal.do("delete")
    place = f"notes.c:{source.line('note(' + chr(34) + 'trap')}"
    checks.has("until", terminal.do(f"until {place}"), calls)
    checks.has("continue", terminal.do("c"), divides)
    checks.same("until, not reached", terminal.do(f"until {place}"), f"not reached: {TRAPS}{place}")
    checks.has("reverse-continue", terminal.do("rc"), "step 0 of ")
    checks.same("end", terminal.end(), 0)


def play_alone(checks, folder):
    """Breakpoints at lines where llvm-dwarfdump is missing."""
    source = Source("notes.c")
    stores, calls = source.line("= --left"), source.line('note("trap"')
    terminal = Terminal(folder, "notes.wasm", "log", "run", "i32:12", PATH="/none")
    checks.has("info source", terminal.do("info source"), "lines by pm alone")
    checks.has("break", terminal.do(f"break notes.c:{stores}"), f"breakpoint 1 at {source.file}:{stores}")
    checks.has("reverse-continue", terminal.do("rc"), source.shown("= --left"))
    checks.has("until", terminal.do("goto 0") and terminal.do(f"until {calls}"), source.shown('note("trap"'))
    checks.has("no such line", terminal.do("break notes.c:999"), "no line notes.c:999, by pm alone")
    checks.same("end", terminal.end(), 0)


def play_values(checks, folder):
    """Variables beside what the program wrote of them itself."""
    terminal = Terminal(folder, "values.wasm", "values.core")
    told = told_by_itself(os.path.join(folder, "values.core"))
    for path, text in told:
        checks.same(path, terminal.do(f"p/d {path}"), f"{path} = {text}")
    known = [f"{path} = {text}" for path, text in told if re.fullmatch(r"\w+", path)]
    shown = terminal.do("info locals").split("\n")
    for line in known:
        name, _, text = line.partition(" = ")
        checks.same("info locals", [found for found in shown if found.startswith(f"{name} = ")], [line])
        numbers = re.findall(r"-?\d+", text) if re.fullmatch(r"-?\d+", text) else []
        for number in numbers:
            checks.same(f"p/x {name}", terminal.do(f"p/x {name}"), f"{name} = {hex(int(number))}")
    checks.same("end", terminal.end(), 0)


class Steps:
    """All states of a run, each asked for by itself, and where moves have to end by them."""

    def __init__(self, words, end):
        parts = [range(low, min(low + 500, end + 1)) for low in range(0, end + 1, 500)]
        lines = [line for part in parts for line in self._asked(words, part)]
        self.states, self.end = pmdb.states_of(lines), end

    @staticmethod
    def _asked(words, steps):
        moves = ";".join(f"goto {step};bt" for step in steps)
        return pmdb.Program(None).ask("replay", "--do", moves, "--", *words)

    def site(self, step):
        """Where the innermost frame stands."""
        frames = self.states[step].frames
        return frames[0].site if frames else None

    def next(self, step, into):
        """The next line, by each state behind this one."""
        depth, place = self.states[step].key()
        keys = ((at, *self.states[at].key()) for at in range(step + 1, self.end + 1))
        found = (at for at, deep, line in keys if at == self.end or deep < depth
                 or line and (deep, line) != (depth, place) and (into or deep == depth))
        return next(found, step)

    def before(self, step, into):
        """Where this line begins, or the line before it."""
        depth, target = len(self.states[step].frames) or 1, None
        for at in range(step - 1, -1, -1):
            deep, line = self.states[at].key()
            if not line or not (into or deep <= depth):
                continue
            if target is not None and (deep, line) != self.states[target].key():
                break
            target = at
        return target or 0

    def out(self, step):
        """Where the innermost frame has returned."""
        depth = len(self.states[step].frames) - 1
        deeper = (at for at in range(step + 1, self.end + 1) if len(self.states[at].frames) <= depth)
        return next(deeper, self.end) if depth > 0 else self.end


def play_moves(checks, folder):
    """Moves from steps by chance, of which few states are looked at in one call, beside all states of the run."""
    words = [os.path.join(folder, name) for name in ("notes.wasm", "log")] + ["run", "i32:12"]
    chance, opened, near = random.Random(7), None, pmdb.Recording.window
    pmdb.Recording.window = lambda _: 40
    known = None
    for count in range(120):
        if count % 12 == 0:
            opened = pmdb.Recording(pmdb.Program(None), words[0], words[1:], {})
            known = known or Steps(words, opened.total)
        if chance.random() < 0.5:
            opened.goto(chance.randrange(opened.total + 1))
        step, sites = opened.step, [known.site(chance.randrange(known.end)) for _ in range(2)]
        hits = [at for at in range(1, known.end + 1) if known.site(at) in sites]
        moves = {"next": (lambda: opened.next_line(False), known.next(step, False)),
                 "step": (lambda: opened.next_line(True), known.next(step, True)),
                 "reverse-next": (lambda: opened.line_before(False), known.before(step, False)),
                 "reverse-step": (lambda: opened.line_before(True), known.before(step, True)),
                 "finish": (lambda: opened.finish(0), known.out(step)),
                 "continue": (lambda: opened.run_to(sites), min([at for at in hits if at > step], default=known.end)),
                 "reverse-continue": (lambda: opened.back_to(sites), max([at for at in hits if at < step], default=0))}
        name = chance.choice(list(moves))
        move, expected = moves[name]
        if opened.frames or name.startswith("reverse"):
            move()
            checks.same(f"{name} from {step}", opened.step, expected)
    pmdb.Recording.window = near


def play_prompt(folder):
    """All sessions at the prompt."""
    checks = Checks("pmdb")
    play_dump(checks, folder)
    play_recording(checks, folder)
    play_alone(checks, folder)
    play_values(checks, folder)
    play_moves(checks, folder)
    return checks.end()


def spent(process):
    """The seconds of the processor that the children of a process took, as far as it has waited for them."""
    with open(f"/proc/{process}/stat", encoding="ascii") as file:
        fields = file.read().rpartition(")")[2].split()
    return (int(fields[13]) + int(fields[14])) / os.sysconf("SC_CLK_TCK")


# What a command may take, of once through the run; 1.3 where nothing is said. In program.c of clients.sh a short call,
# one of a twentieth and one of a fifth of a run of 10^8 steps stand behind each other, and then one without an end.
MOST = {"next over a fifth": 1.8, "rc, 7% back": 3, "rc, far back": 10, "when sum": 5, "when i": 1.8}


def play_speed(folder, steps):
    """How much of the processor moves take in a run of so many steps, beside going through it once."""
    opened = ["module.wasm", "log", "run", "i32:-1"]
    begin = os.times()
    refused_by_pm(folder, "replay", *opened, "--fuel", steps)
    once = sum(os.times()[2:4]) - sum(begin[2:4])
    terminal = Terminal(folder, "--fuel", steps, *opened)
    print(f"  once through the run: {once:.2f} s of the processor")
    slow, half, source = 0, int(steps) // 2, os.path.join(folder, "program.c")
    with open(source, encoding="ascii") as file:
        line = {key: number for number, text in enumerate(file, 1) for key in re.findall(r"// (.*)", text)}
    rows = [f"goto {half}", "back", "stepi", "step", "next", "reverse-step", "reverse-next", "info locals",
            f"goto {steps}", "reverse-next", "when i", "goto 0", f"until {line['short']}",
            ("next", "next over a short call"), ("next", "next over a twentieth"), ("reverse-next", "back over it"),
            ("next", "next again"), "next", ("next", "next over a fifth"), ("reverse-next", "back over it"),
            ("next", "next again"), "next", "break half", ("c", "c, 7% on"), ("c", "c, 7% on"), ("rc", "rc, 7% back"),
            ("stepi 99", "stepi 99"), ("rc", "rc, near"), f"goto {steps}", "when sum", f"goto {steps}", "delete",
            "break run", ("rc", "rc, far back")]
    rows = [row if isinstance(row, tuple) else (row, row) for row in rows]
    for command, name in rows:
        begin = spent(terminal.process)
        shown = terminal.do(command)
        took = (spent(terminal.process) - begin) / once
        slow += took > MOST.get(name, 1.3)
        print(f"  {name}: {took:.2f} of it" + (f", {shown.splitlines()[0]}" if shown else ""))
    terminal.end()
    return 1 if slow else 0


# ---- the editor

class Editor:
    """An editor that asks pmdap.py."""

    def __init__(self, folder):
        self.folder, self.count, self.events = os.path.abspath(folder), 0, []
        self.process = subprocess.Popen([sys.executable, os.path.join(CLIENTS, "pmdap.py")], stdin=subprocess.PIPE,
                                        stdout=subprocess.PIPE, cwd=folder)
        self.frames = []

    def _read(self):
        size = 0
        while line := self.process.stdout.readline().strip():
            size = int(line.partition(b":")[2])
        return json.loads(self.process.stdout.read(size))

    def ask(self, command, **words):
        """The answer to a request; events up to there are kept."""
        self.count += 1
        data = json.dumps({"seq": self.count, "type": "request", "command": command, "arguments": words}).encode()
        self.process.stdin.write(b"Content-Length: %d\r\n\r\n" % len(data) + data)
        self.process.stdin.flush()
        while (message := self._read())["type"] != "response":
            self.events.append(message)
        return message

    def body(self, command, **words):
        """The body of an answer that has to succeed."""
        answer = self.ask(command, **words)
        return answer["body"] if answer["success"] else {"failed": answer["message"]}

    def wait(self, name):
        """The next event of a name."""
        while True:
            for event in self.events:
                if event["event"] == name:
                    self.events.remove(event)
                    return event["body"]
            self.events.append(self._read())

    def move(self, command, **words):
        """A move: where it stopped, as function and line."""
        self.ask(command, threadId=1, **words)
        self.wait("stopped")
        return self.where()

    def where(self):
        """Function and line of the innermost frame."""
        self.frames = self.body("stackTrace", threadId=1)["stackFrames"]
        return self.frames[0]["name"], self.frames[0]["line"]

    def open(self, **words):
        """Begins a session; the first `stopped`."""
        self.body("initialize", adapterID="pm")
        answer = self.ask("launch", **words)
        if not answer["success"]:
            return answer["message"]
        self.wait("initialized")
        return None

    def begin(self):
        """Ends the editor's questions in front of the first state."""
        self.ask("configurationDone")
        return self.wait("stopped")

    def variables(self, reference):
        """The variables of a scope or a value, by their names."""
        return {found["name"]: found for found in self.body("variables", variablesReference=reference)["variables"]}

    def value(self, expression, context="watch"):
        """What an expression is in the innermost frame."""
        return self.body("evaluate", expression=expression, frameId=0, context=context).get("result")

    def end(self):
        """Ends the session; the status."""
        self.ask("disconnect")
        return self.process.wait()


def play_editor_dump(checks, folder):
    """A dump in an editor."""
    editor, source, key = Editor(folder), Source("tree.c"), key_of_tree(9)
    checks.same("launch", editor.open(module="tree.wasm", dump="tree.core"), None)
    checks.same("stopped", editor.begin()["reason"], "exception")
    editor.where()
    symbols = [frame[0] for frame in symbolized_frames(os.path.join(folder, "symbols"))]
    checks.same("stack", [(frame["name"], frame["source"]["name"], frame["line"]) for frame in editor.frames], symbols)
    checks.same("source", editor.frames[0]["source"]["path"], os.path.join(editor.folder, source.file))
    column = source.lines[source.line("from / at->value") - 1].index("/") + 1
    checks.same("column", editor.frames[0]["column"], column)
    checks.has("the trap", editor.body("exceptionInfo", threadId=1)["description"], "trap 2 integer divide by zero")
    checks.same("the type of at", editor.body("evaluate", expression="at", frameId=0)["type"], "node *")
    scopes = editor.body("scopes", frameId=0)["scopes"]
    variables = editor.variables(scopes[0]["variablesReference"])
    checks.same("key", variables["key"]["value"], str(key))
    opened = editor.variables(variables["at"]["variablesReference"])["*at"]
    members = editor.variables(opened["variablesReference"])
    checks.same("members", {name: found["value"] for name, found in members.items()},
                {"key": str(key), "value": "0", "left": "0x00000000", "right": "0x00000000"})
    checks.same("watch", editor.value(members["key"]["evaluateName"]), str(key))
    checks.same("hover", editor.value("at->value", "hover"), "0")
    memory = editor.body("readMemory", memoryReference=variables["at"]["memoryReference"], count=8)
    checks.same("memory", base64.b64decode(memory["data"]), key.to_bytes(4, "little") + bytes(4))
    outside = editor.body("readMemory", memoryReference="0xfffffff0", count=8)
    checks.same("memory outside", (outside["data"], outside["unreadableBytes"]), ("", 8))
    checks.same("operands", editor.variables(scopes[2]["variablesReference"])["1"]["value"], "i32:0")
    checks.same("seed", editor.body("evaluate", expression="seed", frameId=3)["result"], "9")
    checks.has("a move", editor.ask("next", threadId=1)["message"], "a dump has one state")
    checks.has("a wrong request", editor.ask("nonsense")["message"], "nonsense")
    checks.same("end", editor.end(), 0)


def play_editor_recording(checks, folder):
    """A recording in an editor."""
    editor, source = Editor(folder), Source("notes.c")
    parts = {"run": "int run(int n)", "divide": "n / table.scale", "store": "= --left", "letter": "*word++",
             "while": "while (left > 0)", "call": 'note("trap"'}
    line = {name: source.line(part) for name, part in parts.items()}
    path = os.path.join(editor.folder, source.file)
    checks.same("launch", editor.open(module="notes.wasm", log="log", entry="run", arguments=["i32:12"]), None)
    wanted = [{"line": line["store"]}, {"line": len(source.lines) + 10}]
    answers = editor.body("setBreakpoints", source={"path": path}, breakpoints=wanted)["breakpoints"]
    checks.same("breakpoints", [answer["verified"] for answer in answers], [True, False])
    checks.has("stopped", editor.begin()["text"], "divide by zero")
    checks.same("the end", editor.where(), ("run", line["divide"]))
    checks.has("exception", editor.body("exceptionInfo", threadId=1)["description"], "divide by zero")
    checks.same("reverseContinue", editor.move("reverseContinue"), ("note", line["store"]))
    checks.same("stepBack", editor.move("stepBack"), ("note", line["letter"]))
    checks.same("stepIn", editor.move("stepIn"), ("note", line["store"]))
    checks.same("an instruction", editor.move("stepBack", granularity="instruction"), ("note", line["letter"]))
    editor.body("setBreakpoints", source={"path": path}, breakpoints=[])
    editor.body("setFunctionBreakpoints", breakpoints=[{"name": "note"}])
    checks.same("back to the call", editor.move("reverseContinue"), ("note", line["while"]))
    checks.has("text", editor.value("word"), '"trap"')
    checks.same("stepOut", editor.move("stepOut"), ("run", line["divide"]))
    checks.same("over the call", editor.move("stepBack"), ("run", line["call"]))
    checks.same("next", editor.move("next"), ("run", line["divide"]))
    checks.same("broken", editor.value("table.scale"), "0")
    editor.move("reverseContinue")
    checks.same("back to the first call", editor.move("reverseContinue"), ("note", line["while"]))
    checks.same("still right", editor.value("table.scale"), "3")
    checks.same("to the beginning", editor.move("reverseContinue"), ("run", line["run"]))
    checks.same("on", editor.move("continue"), ("note", line["while"]))
    checks.same("end", editor.end(), 0)


def play_editor(folder):
    """All sessions of an editor."""
    checks = Checks("pmdap")
    play_editor_dump(checks, folder)
    play_editor_recording(checks, folder)
    return checks.end()


# ---- bad input

def client(folder, name, *words, text="", environment=()):
    """Status and output of a client."""
    command = [sys.executable, os.path.join(CLIENTS, name), *words]
    done = subprocess.run(command, input=text.encode(), stdout=subprocess.PIPE, stderr=subprocess.STDOUT, cwd=folder,
                          env={**os.environ, **dict(environment)}, check=False)
    return done.returncode, done.stdout.decode()


def refused_by_pm(folder, *words):
    """Status and text of `pm` itself."""
    done = subprocess.run([os.environ["PM"], *words], stdout=subprocess.PIPE, cwd=folder, check=False)
    return done.returncode, done.stdout.decode().rstrip("\n")


def play_prompt_refusals(checks, folder):
    """What `pm` refuses is shown, with the same status; hints say more."""
    rows = [("debug none.wasm tree.core", ""), ("debug tree.wasm none.core", ""), ("debug tree.core tree.core", ""),
            ("debug cut.wasm tree.core", ""), ("debug tree.wasm tree.wasm", ""),
            ("debug notes.wasm tree.core", "another build"),
            ("debug tree.inst.wasm tree.core", "is a rewritten module"),
            ("replay notes.wasm none run i32:12", ""), ("replay notes.wasm tree.c run i32:12", ""),
            ("replay notes.wasm log walk i32:12", "notes.wasm exports run"),
            ("replay notes.wasm log run", "run takes i32"), ("replay notes.wasm log run i64:12", "run takes i32"),
            ("replay notes.wasm log run 12", "12 is no argument: i32:N"),
            ("replay notes.wasm log run i32:4294967296", "i32:4294967296 is no argument")]
    for row, hint in rows:
        words = row.split(" ")
        status, text = client(folder, "pmdb.py", *words[1:])
        expected, refusal = refused_by_pm(folder, *words)
        checks.same(f"the status of {' '.join(words)}", status, expected)
        checks.same(f"the text of {' '.join(words)}", text.split("\n")[0], refusal)
        checks.has(f"the hint on {' '.join(words)}", text, hint)
    status, text = client(folder, "pmdb.py", "tree.wasm", "tree.core", environment={"PM": "/none/pm"})
    checks.same("a missing program", (status, "/none/pm" in text), (1, True))
    text = client(folder, "pmdb.py", "--fuel", "1000000000001", "notes.wasm", "log", "run", "i32:12")[1]
    checks.has("too much fuel", text, "--fuel 1000000000001: it takes")


def play_hints(checks, folder):
    """Hints at the prompt, which goes on."""
    for words, part in (("calls.wasm log run", "the call of env.read"), ("calls.wasm one run", "the call of env.write"),
                        ("bare.wasm tree.core", "has no debugging information"),
                        ("--fuel 100 notes.wasm log run i32:12", "the run goes on behind these 100 steps")):
        checks.has(words, client(folder, "pmdb.py", *words.split(" "))[1], part)
    lines = "print 1+1\nx\nnonsense\nbreak nowhere\nframe 99\nframe x\ninfo\nprint key\n"
    text = client(folder, "pmdb.py", "tree.wasm", "tree.core", text=lines)[1]
    for part in ("1+1 is no path", "x[/COUNT | /s] ADDRESS", "no command nonsense", "a dump has one state",
                 "no frame 99", "frame [N]", "info locals |", f"key = {key_of_tree(9)}"):
        checks.has("a wrong word", text, part)


def play_other_refusals(checks, folder):
    """What pm2lcov.py refuses."""
    for name, words, part in (("not-started", ("calls.wasm", "run"), "import 0 is env.read"),
                              ("no-reply", ("calls.wasm", "run", "--replies", "one"), "env.write")):
        with open(os.path.join(folder, name), "w", encoding="utf-8") as file:
            file.write(refused_by_pm(folder, "cover", *words)[1] + "\n")
        status, text = client(folder, "pm2lcov.py", "calls.wasm", name)
        checks.same(f"the status on {name}", status, 1)
        checks.has(f"the hint on {name}", text, part)
    for words, part in (("bare.wasm not-started", "compile and link with -g"), ("none.wasm log", "none.wasm"),
                        ("tree.inst.wasm not-started", "rewritten"), ("calls.wasm none", "none: No such file"),
                        ("calls.wasm tree.core", "is no text of `pm cover`")):
        status, text = client(folder, "pm2lcov.py", *words.split(" "))
        checks.same(f"the status on {words}", status, 1)
        checks.has(f"the text on {words}", text, part)
    text = client(folder, "pm2lcov.py", "calls.wasm", "not-started", environment={"PATH": "/none"})[1]
    checks.has("no llvm-dwarfdump", text, "llvm-dwarfdump is missing")


def play_editor_refusals(checks, folder):
    """What pmdap.py can't open."""
    run = {"log": "log", "entry": "run", "arguments": ["12"]}
    for words, part in (({"module": "none.wasm", "dump": "tree.core"}, 'no file: "none.wasm"'),
                        ({"module": "tree.wasm"}, "`dump`, or `log`"),
                        ({"module": "notes.wasm", "log": "log"}, "with `entry`"),
                        ({"module": "tree.inst.wasm", "dump": "tree.core"}, "is a rewritten module"),
                        ({"module": "tree.wasm", "dump": "tree.core", "pm": "/none/pm"}, "/none/pm"),
                        ({"module": "notes.wasm", **run}, "12 is no argument")):
        editor = Editor(folder)
        checks.has(f"launch {words}", editor.open(**words) or "", part)
        checks.same("end", editor.end(), 0)


def play_refusals(folder):
    """Bad input; no file is written but by this."""
    checks, before = Checks("bad input"), set(os.listdir(folder)) | {"not-started", "no-reply"}
    play_prompt_refusals(checks, folder)
    play_hints(checks, folder)
    play_other_refusals(checks, folder)
    play_editor_refusals(checks, folder)
    checks.same("files", set(os.listdir(folder)) - before, set())
    return checks.end()


# ---- coverage

def page_of(folder, name):
    """What a page of genhtml shows: its numbers, and the count of each line."""
    found = [at for at, _, files in os.walk(folder) if f"{name}.gcov.html" in files]
    with open(os.path.join(found[0], f"{name}.gcov.html"), encoding="utf-8") as file:
        text = file.read()
    numbers = [int(number) for number in re.findall(r'"headerCovTableEntry">(\d+)<', text)]
    counts = re.findall(r'"lineNum"> *(\d+) </span><span class="line(?:Cov|NoCov)"> *(\d+) :', text)
    return numbers, {int(line): int(count) for line, count in counts}


def runs_of(file):
    """How often gcov says that each line was run."""
    counts = {}
    with open(file, encoding="utf-8") as lines:
        for count, line, *_ in (text.split(":") for text in lines):
            if count.strip() != "-" and int(line):
                counts[int(line)] = 0 if count.strip() in ("#####", "=====") else int(count.strip().rstrip("*"))
    return counts


def functions_of(file):
    """How many functions gcov says were called, and how many there are."""
    with open(file, encoding="utf-8") as lines:
        shares = re.findall(r"^Function '.*'\nLines executed:([\d.]+)%", lines.read(), re.M)
    return sum(float(share) > 0 for share in shares), len(shares)


def lines_with_end(module):
    """The lines to which the end of a block belongs; it is a step also where the line's other code is passed over."""
    names = by_line(list(instructions(f"{module}.disassembly")), rows(f"{module}.rows"))
    return {line for line, found in names.items() if any(name.startswith("end") for name in found)}


def play_pages(folder, *names):
    """Pages of genhtml beside gcov: numbers of lines and functions, and which lines were reached."""
    checks = Checks("pm2lcov")
    for name in names:
        (hit, total, called, functions), counts = page_of(folder, f"{name}.c")
        runs = runs_of(os.path.join(folder, f"{name}.c.gcov"))
        common = sorted(set(counts) & set(runs))
        checks.same(f"{name}: functions", (called, functions), functions_of(os.path.join(folder, f"{name}.functions")))
        checks.same(f"{name}: the page's own numbers", (hit, total), (sum(map(bool, counts.values())), len(counts)))
        checks.same(f"{name}: lines of gcov that the page lacks", sorted(set(runs) - set(counts)), [])
        ends = lines_with_end(os.path.join(folder, name))
        less = [line for line in common if runs[line] and not counts[line]]
        checks.same(f"{name}: lines that gcov alone reached", less, [])
        more = [line for line in common if counts[line] and not runs[line]]
        checks.same(f"{name}: lines that the page alone reached, without an end", sorted(set(more) - ends), [])
        reached = sum(map(bool, runs.values()))
        print(f"  {name}.c: {hit} of {total} lines, {len(more)} of them by an `end` alone; "
              f"gcov {reached} of {len(runs)}; {called} of {functions} functions")
    return checks.end()


# ---- a page of use

def play_page(folder, page):
    """The commands that a page shows, in its order, and what they print."""
    checks = Checks(os.path.basename(page))
    with open(page, encoding="utf-8") as file:
        blocks = re.findall(r"^```\n(\$ .*?)^```$", file.read(), re.S | re.M)
    for part in [part for block in blocks for part in re.split(r"^\$ ", block, flags=re.M)[1:]]:
        command, _, printed = part.partition("\n")
        done = subprocess.run(["sh", "-c", command], cwd=folder, stdout=subprocess.PIPE, stderr=subprocess.STDOUT,
                              check=False)
        checks.same(command, done.stdout.decode(), printed)
    return checks.end()


if __name__ == "__main__":
    sys.exit({"prompt": play_prompt, "editor": play_editor, "refusals": play_refusals, "pages": play_pages,
              "page": play_page, "speed": play_speed}[sys.argv[1]](*sys.argv[2:]))
