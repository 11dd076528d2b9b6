#!/usr/bin/env python3
"""pmdap: a debug adapter over a core dump or a recorded run: the Debug Adapter Protocol on standard input and output.

    pmdap.py [--pm PM]

What is opened stands in the editor's launch configuration: `module`, and `dump`, or `log`, `entry` and `arguments`;
besides, if wanted, `source` (where names of sources begin), `pm`, `fuel` and `depth`. Nothing is written. README.md
beside this file is the page of use.
"""

import argparse
import base64
import json
import os
import re
import sys

# Nothing is written, not even what Python keeps of an imported file.
sys.dont_write_bytecode = True

try:
    from pmdb import (POINTER, Dump, Program, Recording, Refused, hints_of, inside, parts, value_in, with_texts,
                      without_spaces)
except ImportError:
    sys.exit(f"{os.path.basename(__file__)}: pmdb.py has to stand beside it: what they share is there")

MOST_BYTES = 4096
SCOPES = {"Variables": "vars", "Machine: locals": "locals", "Machine: operands": "operands",
          "Machine: globals": "globals"}
CAPABILITIES = ("supportsConfigurationDoneRequest", "supportsEvaluateForHovers", "supportsReadMemoryRequest",
                "supportsStepBack", "supportsSteppingGranularity", "supportsFunctionBreakpoints",
                "supportsExceptionInfoRequest", "supportsTerminateRequest")
TAKES = "the launch configuration takes `module`, and `dump`, or `log` with `entry` and `arguments`"
A_DUMP = "a dump has one state; record the run by `pm run --record LOG`, and give `log` to move in it"
A_PATH = "NAME with .NAME, ->NAME, [N], * and parentheses"
COMMAND = re.compile(r"(bt|frame|locals|operands|globals|vars|x|print)\b")


class Channel:
    """Messages of the protocol on two streams."""

    def __init__(self, source, target):
        self.source, self.target, self.count = source, target, 0

    def read(self):
        """The next message, or None at the end of the stream."""
        size = None
        while line := self.source.readline().strip():
            name, _, value = line.partition(b":")
            if name.lower() == b"content-length":
                size = int(value)
        data = self.source.read(size) if size is not None else b""
        return json.loads(data) if data else None

    def write(self, **message):
        """Sends a message."""
        self.count += 1
        data = json.dumps({"seq": self.count, **message}).encode()
        self.target.write(b"Content-Length: %d\r\n\r\n" % len(data) + data)
        self.target.flush()

    def event(self, name, **body):
        """Sends an event."""
        self.write(type="event", event=name, body=body)


class Adapter:
    """A session. Each method `on_REQUEST` gives the body of an answer; `after` is done once the answer is sent."""

    def __init__(self, channel, pm):
        self.channel, self.pm = channel, pm
        self.subject, self.tables, self.folders = None, None, ["."]
        self.kept, self.breakpoints, self.after, self.is_over = [], {}, None, False

    def serve(self):
        """Answers requests up to the end."""
        while not self.is_over and (request := self.channel.read()):
            answer = {"type": "response", "request_seq": request["seq"], "command": request["command"]}
            self.after = None
            try:
                body = self.answer(request["command"], request.get("arguments") or {})
                self.channel.write(**answer, success=True, body=body or {})
            except Refused as refused:
                self.channel.write(**answer, success=False, message=str(refused))
            except KeyError as fault:
                self.channel.write(**answer, success=False, message=f"{request['command']}: {fault} is missing")
            except IndexError:
                text = f"{request['command']}: there is no such frame or value"
                self.channel.write(**answer, success=False, message=text)
            except (TypeError, ValueError) as fault:
                self.channel.write(**answer, success=False, message=f"{request['command']}: {fault}")
            if self.after:
                self.after()

    def answer(self, command, words):
        """The body of the answer to a request."""
        method = getattr(self, f"on_{command}", None)
        if method is None:
            raise Refused(f"no request {command} here")
        if self.subject is None and command not in ("initialize", "launch", "attach", "disconnect", "terminate"):
            raise Refused(f"{command}: nothing is opened yet")
        return method(words)

    # The session.

    def on_initialize(self, _words):
        """What the adapter can do."""
        return dict.fromkeys(CAPABILITIES, True)

    def on_launch(self, words):
        """Opens what the launch configuration names."""
        if "module" not in words or ("dump" in words) == ("log" in words) or ("log" in words) > ("entry" in words):
            raise Refused(TAKES)
        program = Program(words.get("pm") or self.pm)
        if "dump" in words:
            self.subject = Dump(program, words["module"], words["dump"])
        else:
            run = [words["log"], words["entry"], *map(str, words.get("arguments", []))]
            limits = {name: words[name] for name in ("fuel", "depth") if name in words}
            self.subject = Recording(program, words["module"], run, limits)
        self.tables = self.subject.tables
        self.folders = [words["source"]] if "source" in words else [".", *self.tables.folders()]
        self.after = self.opened

    on_attach = on_launch

    def opened(self):
        """Asks for breakpoints; of a dump it says that nothing moves."""
        self.channel.event("capabilities", capabilities={"supportsStepBack": self.subject.recorded})
        self.channel.event("initialized")

    def on_configurationDone(self, _words):
        """Everything is asked; the state is shown."""
        def begin():
            """Says hints, and where the run stands."""
            for line in hints_of(self.subject):
                self.channel.event("output", category="console", output=line + "\n")
            self.stop("exception" if self.trap() or not self.subject.recorded else "entry")
        self.after = begin

    def on_disconnect(self, _words):
        """Ends."""
        self.is_over = True

    def on_terminate(self, _words):
        """Ends the run, of which nothing goes on; the editor disconnects then."""
        self.after = lambda: self.channel.event("terminated")

    # Where it stands.

    def trap(self):
        """How the run ended, where the state is its end by a trap."""
        subject = self.subject
        is_end = subject.recorded and subject.step == subject.total and (subject.ending or "").startswith("trap")
        return subject.ending if is_end else None

    def stop(self, reason):
        """Tells that the state has changed."""
        self.kept = []
        subject = self.subject
        text = self.trap() or (f"step {subject.step} of {subject.total}" if subject.recorded else
                               subject.trap() or "the dump of a trap")
        self.channel.event("stopped", reason=reason, description=text, text=text, threadId=1, allThreadsStopped=True)

    def on_pause(self, _words):
        """It stands already."""
        self.after = lambda: self.stop("pause")

    def on_setExceptionBreakpoints(self, _words):
        """The only exception is the trap at the end."""

    def on_threads(self, _words):
        """A module has one thread."""
        return {"threads": [{"id": 1, "name": "main"}]}

    def source_of(self, file):
        """A source as the protocol names it: in the first folder that has it."""
        paths = [os.path.abspath(os.path.join(folder, file)) for folder in self.folders]
        return {"name": os.path.basename(file), "path": next(filter(os.path.exists, paths), paths[0])}

    def rows(self):
        """Every line of the stack, with the frame that it is of."""
        return [(row, frame) for frame in self.subject.frames for row in frame.rows]

    def on_stackTrace(self, words):
        """The frames; those of inlined functions among them."""
        found = []
        for index, (row, frame) in enumerate(self.rows()):
            name = row["name"] + (" (inlined)" if row["inlined"] else "")
            line = int(row["line"] or 0)
            # The frame's place is that of the innermost function which is inlined there.
            column = self.tables.column(*frame.site, line) if row is frame.rows[0] else 0
            entry = {"id": index, "name": name, "line": line, "column": column}
            entry["instructionPointerReference"] = "{}:{}".format(*frame.site)
            found.append({**entry, "source": self.source_of(row["file"])} if row["file"] else entry)
        first = words.get("startFrame") or 0
        return {"stackFrames": found[first:first + (words.get("levels") or len(found))], "totalFrames": len(found)}

    def on_exceptionInfo(self, _words):
        """The trap; that of a dump is told by the instruction at which it stands."""
        told = None if self.subject.recorded else self.subject.trap()
        description = self.trap() or told or "the kind of the trap is not in a dump"
        return {"exceptionId": "trap", "description": description, "breakMode": "always"}

    # What it holds.

    def keep(self, frame, path, text, told):
        """A variable's value; what can be opened is kept under a number."""
        is_pointer = path is not None and POINTER.match(text)
        opens = bool(is_pointer or parts(text))
        if opens:
            self.kept.append((frame, path, text))
        value = {"value": told, "variablesReference": len(self.kept) if opens else 0}
        if path is not None:
            value["evaluateName"] = path
        return {**value, "memoryReference": text} if is_pointer else value

    def on_scopes(self, words):
        """The variables of a frame, and what the machine has there."""
        frame = self.rows()[words["frameId"]][1].number
        scopes = []
        for name, command in SCOPES.items():
            self.kept.append((frame, None, command))
            scopes.append({"name": name, "variablesReference": len(self.kept), "expensive": command != "vars"})
        return {"scopes": scopes}

    def on_variables(self, words):
        """What stands in a scope or in a value."""
        frame, path, text = self.kept[words["variablesReference"] - 1]
        if path is None and text == "vars":
            lines = self.subject.look(frame, "vars")[0]
            values = [line.partition(" = ")[::2] for line in lines if " = " in line]
            values = [(name, name, part) for name, part in values]
        elif path is None and text in SCOPES.values():
            found = [line.split(" ", 2) for line in self.subject.look(frame, text)[0] if not line.startswith("no ")]
            return {"variables": [{"name": name, "value": value, "variablesReference": 0} for _, name, value in found]}
        elif POINTER.match(text):
            target = "*" + (path if not path.startswith("*") else f"({path})")
            values = [(target, target, value_in(self.subject.look(frame, f"print {target}")[0]))]
        else:
            values = [(name, None if part == "..." else inside(path, name), part) for name, part in parts(text)]
        told = with_texts(self.subject, frame, [(at or name, part) for name, at, part in values])
        types = self.types(frame, [name for name, _, _ in values]) if path is None else {}
        return {"variables": [{"name": name, **self.keep(frame, at, part, shown), **types.get(name, {})}
                              for (name, at, part), shown in zip(values, told)]}

    def types(self, frame, names):
        """What the protocol has of the types of variables of a frame."""
        told = self.tables.types(*self.subject.frames[frame].site, names)
        return {name: {"type": text} for name, text in told.items()}

    def on_evaluate(self, words):
        """The value of a path; in the console also what a command of `pm debug` prints."""
        frame = self.rows()[words["frameId"]][1].number if "frameId" in words else 0
        expression = words["expression"].strip()
        if words.get("context") == "repl" and COMMAND.match(expression):
            return {"result": "\n".join(self.subject.look(frame, expression)[0]), "variablesReference": 0}
        path = without_spaces(expression)
        answer = self.subject.look(frame, f"print {path}")[0]
        text = value_in(answer)
        if not text:
            raise Refused(f"{path} is no path: {A_PATH}" if answer == ["bad command"] else "\n".join(answer))
        value = self.keep(frame, path, text, with_texts(self.subject, frame, [(path, text)])[0])
        return {"result": value.pop("value"), **value, **self.types(frame, [path]).get(path, {})}

    def on_readMemory(self, words):
        """Bytes of the memory, up to the first that is outside."""
        address, count = int(words["memoryReference"], 0) + words.get("offset", 0), max(0, words["count"])
        pieces = [(at, min(MOST_BYTES, address + count - at)) for at in range(address, address + count, MOST_BYTES)]
        data = b""
        for lines in self.subject.look(0, *[f"x {at} {size}" for at, size in pieces if 0 <= at]):
            if not all(":" in line for line in lines):
                break
            data += bytes.fromhex("".join(line.partition(":")[2] for line in lines))
        answer = {"address": hex(max(0, address)), "data": base64.b64encode(data).decode()}
        return answer if len(data) == count else {**answer, "unreadableBytes": count - len(data)}

    # Moves.

    def recording(self):
        """The recording, for requests that move."""
        if not self.subject.recorded:
            raise Refused(A_DUMP)
        return self.subject

    def move(self, make, reason="step"):
        """Moves once the answer is sent, and tells where it stopped."""
        recording = self.recording()

        def moved():
            """Moves, and tells where it stopped."""
            try:
                hit = make(recording)
            except Refused as refused:
                self.channel.event("output", category="stderr", output=f"{refused}\n")
                hit = False
            self.stop("exception" if self.trap() else reason if reason == "step" or hit else "pause")
        self.after = moved
        return {"allThreadsContinued": True}

    def places(self):
        """The places of all breakpoints."""
        return [place for found in self.breakpoints.values() for place in found]

    def steps(self, words, by_line, steps):
        """A move by a line, or by so many steps of the machine where the editor goes by instructions."""
        if words.get("granularity") == "instruction":
            return self.move(lambda recording: recording.goto(recording.step + steps))
        return self.move(by_line)

    def on_continue(self, _words):
        """On to the next breakpoint, or to the end."""
        return self.move(lambda recording: recording.run_to(self.places()), "breakpoint")

    def on_reverseContinue(self, _words):
        """Back to the breakpoint before, or to the beginning."""
        return self.move(lambda recording: recording.back_to(self.places()), "breakpoint")

    def on_next(self, words):
        """On to the next line, over calls."""
        return self.steps(words, lambda recording: recording.next_line(False), 1)

    def on_stepIn(self, words):
        """On to the next line, into calls."""
        return self.steps(words, lambda recording: recording.next_line(True), 1)

    def on_stepOut(self, _words):
        """On to where the innermost frame has returned."""
        return self.move(lambda recording: recording.finish(0))

    def on_stepBack(self, words):
        """Back to where the line begins, and from there to the line before, over calls."""
        return self.steps(words, lambda recording: recording.line_before(False), -1)

    def on_setBreakpoints(self, words):
        """Breakpoints at lines of a source, in place of those that stood there."""
        path = words["source"].get("path", "")
        self.breakpoints = {key: found for key, found in self.breakpoints.items() if key[0] != path}
        answers = []
        for wanted in words.get("breakpoints", []):
            found = self.line_at(path, wanted["line"]) if self.subject.recorded else None
            if found:
                self.breakpoints[path, wanted["line"]] = found[2]
                answers.append({"verified": True, "line": found[1]})
            else:
                answers.append(self.missing(f"no code on line {wanted['line']} or behind it"))
        return {"breakpoints": answers}

    def missing(self, text):
        """What is answered for a breakpoint that can't be set."""
        message = f"{text}, by {self.tables.source()}" if self.subject.recorded else A_DUMP
        return {"verified": False, "message": message}

    def line_at(self, path, line):
        """The first line with code from this one on, of the source that has this whole name."""
        files = {row[0] for row in self.tables.rows_known(self.subject)}
        file = next((file for file in sorted(files) if self.source_of(file)["path"] == os.path.abspath(path)), None)
        return self.tables.of_line(file, line, self.subject) if file else None

    def on_setFunctionBreakpoints(self, words):
        """Breakpoints at functions, in place of those that there were."""
        self.breakpoints = {key: found for key, found in self.breakpoints.items() if key[0] is not None}
        answers = []
        for wanted in words.get("breakpoints", []):
            found = self.tables.of_function(wanted["name"]) if self.subject.recorded else []
            self.breakpoints[None, wanted["name"]] = found
            answers.append({"verified": True} if found else self.missing(f"no function {wanted['name']}"))
        return {"breakpoints": answers}


def main():
    """Serves one session."""
    words = argparse.ArgumentParser(description=__doc__, formatter_class=argparse.RawDescriptionHelpFormatter)
    words.add_argument("--pm", help="the program; else what PM names, or `pm` beside this folder")
    try:
        Adapter(Channel(sys.stdin.buffer, sys.stdout.buffer), words.parse_args().pm).serve()
    except ValueError as fault:
        sys.exit(f"pmdap.py: no message of the protocol: {fault}")


if __name__ == "__main__":
    main()
