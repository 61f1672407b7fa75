#!/usr/bin/env python3
"""A slow and plain reader of Boolean programs and of their traces, to compare the program with: docs/FORMATS.md, by summaries.

    tools/plain_programs.py <PROGRAM                  writes what `./wpds check --brief` writes on a program that is accepted
    tools/plain_programs.py --traces REPORT <PROGRAM  says what is wrong with the traces of a report on it, if anything is

A summary of a procedure is what it leads to from its beginning with some bits of globals and parameters: the points within it, and
the globals and values that it returns (Sharir, Pnueli 1981; Ball, Rajamani 2000). A bit that nothing has read yet is left open, so
that the bits that a program begins with are not gone through one by one. It refuses nothing. tools/compare-programs runs both.
"""
import itertools
import re
import sys

from plain_check import WORD, Expression

OPEN = None
MARKED = re.compile(r"    (?:(line|fail) (\d+)|(ended)):((?: [A-Za-z_][\w$@]*=[01])*)")


# ---- programs


def parts_of(words):
    """What stands between the commas that stand in no brackets; nothing where there are no words."""
    parts, depth = [[]], 0
    for word in words:
        depth += {"(": 1, ")": -1}.get(word, 0)
        if word == "," and depth == 0:
            parts.append([])
        else:
            parts[-1].append(word)
    return parts if words else []


class Value:
    """An expression, or a star: it gives bits by the bits of names."""

    def __init__(self, words):
        self.words, self.star = words, words == ["*"]
        self.names = [] if self.star else [x for x in words if (x[0].isalpha() or x[0] == "_") and x not in ("tab2", "tab3")]
        self.of = None if self.star else Expression(words).level()

    def bit(self, state):
        return OPEN if self.star else bool(self.of(state))

    def may_be(self, bit, state):
        return self.star or self.bit(state) == bit


class Line:
    """A body line. `next` and `other` are the lines to which it may go on."""

    def __init__(self, number, owner, label, word):
        self.number, self.owner, self.label, self.word = number, owner, label, word
        self.targets, self.values, self.labels, self.callee, self.condition = [], [], [], None, None
        self.next, self.other = None, None

    def read_names(self):
        return [name for value in self.values + [self.condition] if value for name in value.names]


class Procedure:
    def __init__(self, words):
        end = words.index(")")
        self.name, self.params = words[1], [word for word in words[3:end] if word != ","]
        self.returns = int(words[end + 2]) if len(words) > end + 1 else 0
        self.locals, self.body = [], []

    def names(self):
        return self.params + self.locals


class Program:
    def __init__(self, text):
        self.globals, self.procedures, self.asked = [], {}, []
        self.owner, self.open = None, []
        for number, line in enumerate(text.split("\n"), 1):
            words = [] if line.lstrip().startswith("#") else WORD.findall(line)
            if words and words != ["bool", "1"]:
                self.add(number, words)
        self.lines = {line.number: line for owner in self.procedures.values() for line in owner.body}
        self.labels = {line.label: line for line in self.lines.values() if line.label}
        self.queries = [(self.labels[label].number, word == "fails") for word, label in self.asked]
        for owner in self.procedures.values():
            self.join(owner.body)

    def add(self, number, words):
        if words[0] == "global" and not self.owner:
            self.globals += words[1:]
        elif words[0] == "query" and not self.owner:
            self.asked.append((words[1], words[2]))
        elif words[0] == "proc":
            self.owner = Procedure(words)
            self.procedures[self.owner.name] = self.owner
        elif words[0] == "local":
            self.owner.locals += words[1:]
        else:
            self.add_body(number, words)

    def add_body(self, number, words):
        label = None
        if words[1:2] == [":"]:
            label, words = words[0], words[2:]
        assigns = ":=" in words
        middle = words.index(":=") if assigns else -1
        behind = words[middle + 1 :]
        word = "call" if behind[0] == "call" else "assign" if assigns else words[0]
        line = Line(number, self.owner, label, word)
        line.targets = [name for name in words[: max(middle, 0)] if name != ","]
        if word == "call":
            line.callee, line.values = behind[1], [Value(part) for part in parts_of(behind[3:-1])]
        elif word == "assign":
            line.values = [Value(part) for part in parts_of(behind)]
        elif word == "return":
            line.values = [Value(part) for part in parts_of(words[1:])]
        elif word == "goto":
            line.labels = words[1:]
        elif word in ("if", "while", "assume", "assert"):
            line.condition = Value(words[1:])
        self.owner.body.append(line)
        self.place(line)

    def place(self, line):
        """What opens a block, and what belongs to it."""
        if line.word in ("if", "while"):
            self.open.append([line])
        elif line.word == "else":
            self.open[-1].append(line)
        elif line.word == "end" and self.open:
            line.block = self.open.pop()
            line.word = "end of " + line.block[0].word
        elif line.word == "end":
            line.word, self.owner = "end of proc", None

    def join(self, body):
        for line, following in zip(body, body[1:]):
            line.next = following
        for line in body:
            if line.word == "end of while":
                line.block[0].other, line.other = line.next, line.block[0]
            elif line.word == "end of if":
                first, last = line.block[0], line.block[-1]
                first.other = last.next if last.word == "else" else line.next
                if last.word == "else":
                    last.other = line.next

    def jumps(self, line, state):
        """The points to which a line leads that only jumps: lines, and whether as a failure."""
        if line.word in ("skip", "end of if"):
            return [(line.next, False)]
        if line.word in ("else", "end of while"):
            return [(line.other, False)]
        if line.word == "goto":
            return [(self.labels[label], False) for label in line.labels]
        taken = [True, False] if line.condition.star else [line.condition.bit(state)]
        if line.word == "assume":
            return [(line.next, False) for bit in taken if bit]
        if line.word == "assert":
            return [(line.next, False) if bit else (line, True) for bit in taken]
        return [(line.next if bit else line.other, False) for bit in taken]


# ---- summaries: bits are tuples, of the globals and then of a procedure's names


class Summary:
    def __init__(self):
        self.seen, self.exits, self.callers = set(), set(), set()


class Reached:
    """All points that are reached from the beginning of `main`."""

    def __init__(self, program):
        self.program, self.summaries, self.points, self.waiting = program, {}, set(), []
        main = program.procedures["main"]
        self.enter(main, (OPEN,) * len(program.globals), (OPEN,) * len(main.names()))
        while self.waiting:
            self.go(*self.waiting.pop())

    def enter(self, owner, of_globals, of_names):
        key = (owner.name, of_globals, of_names)
        if key not in self.summaries:
            self.summaries[key] = Summary()
            self.see(self.summaries[key], owner.body[0], False, of_globals + of_names)
        return self.summaries[key]

    def see(self, summary, line, failed, bits):
        if (line.number, failed, bits) not in summary.seen:
            summary.seen.add((line.number, failed, bits))
            self.waiting.append((summary, line, failed, bits))

    def go(self, summary, line, failed, bits):
        self.points.add((line.number, failed))
        if failed:
            return
        names = self.program.globals + line.owner.names()
        for state in self.closed(dict(zip(names, bits)), line.read_names()):
            self.act(summary, line, names, state)

    def closed(self, state, read):
        """The states in which what is read is no longer open."""
        left = sorted({name for name in read if state[name] is OPEN})
        for bits in itertools.product((False, True), repeat=len(left)):
            yield {**state, **dict(zip(left, bits))}

    def act(self, summary, line, names, state):
        values = tuple(value.bit(state) for value in line.values)
        of_globals = tuple(state[name] for name in self.program.globals)
        if line.word == "assign":
            self.put(summary, line, names, {**state, **dict(zip(line.targets, values))})
        elif line.word == "call":
            callee = self.program.procedures[line.callee]
            entered = self.enter(callee, of_globals, values + (OPEN,) * len(callee.locals))
            caller = (summary, line, tuple(state[name] for name in names))
            entered.callers.add(caller)
            for left in list(entered.exits):
                self.resume(caller, left)
        elif line.word in ("return", "end of proc"):
            left = (of_globals, values if line.word == "return" else (OPEN,) * line.owner.returns)
            if left not in summary.exits:
                summary.exits.add(left)
                for caller in list(summary.callers):
                    self.resume(caller, left)
        else:
            for to, failed in self.program.jumps(line, state):
                self.see(summary, to, failed, tuple(state[name] for name in names))

    def put(self, summary, line, names, state):
        self.see(summary, line.next, False, tuple(state[name] for name in names))

    def resume(self, caller, left):
        summary, line, bits = caller
        names = self.program.globals + line.owner.names()
        state = dict(zip(names, bits))
        state.update(zip(self.program.globals, left[0]))
        state.update(zip(line.targets, left[1]))
        self.put(summary, line, names, state)


def report(text):
    program = Program(text)
    points = Reached(program).points
    values = ["reachable" if point in points else "unreachable" for point in program.queries]
    return "".join(f"query {number}: {value}\n" for number, value in enumerate(values, 1))


# ---- traces: states that are printed, of which each has to be a move of the one before


class Frame:
    def __init__(self, line, failed, state):
        self.line, self.failed, self.state = line, failed, state


class Walk:
    """The states of a trace so far: the globals, and frames with the names of their procedures, the top last."""

    def __init__(self, program):
        self.program, self.globals, self.frames = program, {}, []

    def state(self):
        return {**self.globals, **self.frames[-1].state}

    def fault(self, text):
        """What is wrong with the line of the next state; nothing where it is one."""
        read = MARKED.fullmatch(text)
        if not read:
            return "no line of a state"
        word, number, ended, bits = read.groups()
        line = None if ended else self.program.lines.get(int(number))
        if not ended and (line is None or (word == "fail" and line.word != "assert")):
            return "no point of the program"
        names = self.program.globals + ([] if ended else line.owner.names())
        printed = [bit.split("=") for bit in bits.split()]
        if [name for name, _ in printed] != names:
            return f"not the bits of {' '.join(names)}"
        bits = {name: bit == "1" for name, bit in printed}
        if not self.globals and not self.frames:
            return self.begin(line, word == "fail", bits)
        return self.move(line, word == "fail", bits)

    def begin(self, line, failed, bits):
        main = self.program.procedures["main"]
        if line is not main.body[0] or failed:
            return "not where main begins"
        self.take(line, failed, bits, [])
        return None

    def take(self, line, failed, bits, below):
        self.globals = {name: bits[name] for name in self.program.globals}
        own = [] if line is None else [Frame(line, failed, {name: bits[name] for name in line.owner.names()})]
        self.frames = below + own

    def move(self, line, failed, bits):
        if not self.frames:
            return "the program has ended"
        top = self.frames[-1]
        if top.failed:
            return "an assert has failed"
        if top.line.word == "call":
            return self.call(top.line, line, failed, bits)
        if top.line.word in ("return", "end of proc"):
            return self.give_back(top.line, line, failed, bits)
        if top.line.word == "assign":
            old = self.state()
            return self.goes_on(top.line, line, failed, bits, old, list(zip(top.line.targets, top.line.values)), self.frames[:-1])
        if (line, failed) not in self.program.jumps(top.line, self.state()):
            return f"line {top.line.number} does not lead there"
        if bits != self.state():
            return "a bit has changed"
        self.take(line, failed, bits, self.frames[:-1])
        return None

    def call(self, at, line, failed, bits):
        callee = self.program.procedures[at.callee]
        if line is not callee.body[0] or failed:
            return f"not where {at.callee} begins"
        old = self.state()
        if any(bits[name] != old[name] for name in self.program.globals):
            return "a global has changed in a call"
        if not all(value.may_be(bits[name], old) for name, value in zip(callee.params, at.values)):
            return "a parameter is not its argument"
        self.take(line, failed, bits, self.frames)
        return None

    def give_back(self, at, line, failed, bits):
        old, below = self.state(), self.frames[:-1]
        if not below:
            if line is not None or bits != self.globals:
                return "the program ends here"
            self.take(None, False, bits, [])
            return None
        caller = below[-1]
        values = at.values if at.word == "return" else [Value(["*"])] * at.owner.returns
        kept = {**self.globals, **caller.state}
        given = [(name, value.may_be, old) for name, value in zip(caller.line.targets, values)]
        return self.lands(caller.line, line, failed, bits, kept, given, below[:-1])

    def goes_on(self, at, line, failed, bits, old, assigned, below):
        return self.lands(at, line, failed, bits, old, [(name, value.may_be, old) for name, value in assigned], below)

    def lands(self, at, line, failed, bits, kept, given, below):
        """On the line below, with the bits that were kept but for those that are given."""
        if line is not at.next or failed:
            return f"not the line below line {at.number}"
        named = {name for name, _, _ in given}
        if any(bits[name] != kept[name] for name in bits if name not in named):
            return "a bit has changed that is no target"
        if not all(may_be(bits[name], old) for name, may_be, old in given):
            return "a target has another value"
        self.take(line, failed, bits, below)
        return None


def trace_fault(program, point, lines):
    """What is wrong with a trace to a point; nothing where it is a run of the machine that ends there."""
    walk = Walk(program)
    for text in lines:
        fault = walk.fault(text)
        if fault:
            return f"{text.strip()!r}: {fault}"
    if not walk.frames or (walk.frames[-1].line.number, walk.frames[-1].failed) != point:
        return "it ends elsewhere"
    return None


def cut(report):
    """The line of each query, and the lines below it."""
    blocks = []
    for line in report.splitlines():
        if line.startswith("query "):
            blocks.append((line, []))
        elif blocks:
            blocks[-1][1].append(line)
    return blocks


def report_fault(program, text):
    """What is wrong with the traces of a report of `check --brief --traces`; nothing where all are right."""
    blocks = cut(text)
    if len(blocks) != len(program.queries):
        return "another number of queries"
    for (line, below), point in zip(blocks, program.queries):
        if line.endswith(": unreachable"):
            fault = "lines below what is not reached" if below else None
        elif below == ["  traces: too long"]:
            fault = None
        elif below[:1] != ["  trace:"]:
            fault = "no trace"
        else:
            fault = trace_fault(program, point, below[1:])
        if fault:
            return f"{line}: {fault}"
    return None


def main():
    text = sys.stdin.read()
    if sys.argv[1:2] == ["--traces"]:
        with open(sys.argv[2], encoding="ascii") as file:
            fault = report_fault(Program(text), file.read())
        print(fault or "each trace is a run of the program")
        return 1 if fault else 0
    sys.stdout.write(report(text))
    return 0


if __name__ == "__main__":
    sys.exit(main())
