#!/usr/bin/env python3
"""The system with relations to which a Boolean program is lowered, as a document.

    tools/plain_lowering.py <PROGRAM                   writes the document
    tools/plain_lowering.py check [WORD ..] <PROGRAM   writes what `./wpds check` writes on the program by one worker, listings too;
                                                       the words are --brief, --traces and --by pre|post

Its variables are the globals, as many return slots as the greatest `returns`, and as many local slots as the widest procedure
needs; its symbols the body lines and the failures of asserts. Rules are numbered by body lines. It refuses nothing. Of the states
of a trace it writes `?` for a bit that the run leaves open: there the program writes one of both.
"""
import itertools
import sys

import plain_check
from plain_programs import Program


class Lowering:
    def __init__(self, text):
        self.program = Program(text)
        procedures = self.program.procedures.values()
        self.returned = [f"r{k}" for k in range(max(owner.returns for owner in procedures))]
        self.slots = [f"l{k}" for k in range(max(len(owner.names()) for owner in procedures))]
        self.globals = {name: f"g{k}" for k, name in enumerate(self.program.globals)}

    def count(self):
        return len(self.globals) + len(self.returned) + len(self.slots)

    def variable(self, owner, name):
        return self.globals[name] if name in self.globals else self.slots[owner.names().index(name)]

    def text(self, owner, value):
        word = lambda x: self.variable(owner, x) if x in value.names else x
        return " ".join(word(x) for x in value.words)

    def assigned(self, targets, values):
        return f" : {', '.join(targets)} := {', '.join(values)}" if targets else ""

    def rules(self, line):
        """What stands behind the `->` of a line's rules."""
        owner = line.owner
        values = [self.text(owner, value) for value in line.values]
        if line.word == "assign":
            return [f"p {symbol(line.next)}" + self.assigned([self.variable(owner, x) for x in line.targets], values)]
        if line.word == "call":
            return [self.call(line, values)]
        if line.word in ("return", "end of proc"):
            values = values if line.word == "return" else ["*"] * owner.returns
            return ["p" + self.assigned(self.returned[: len(values)], values)]
        if line.word == "goto":
            return [f"p {symbol(self.program.labels[label])}" for label in line.labels]
        if line.condition is None:
            return [f"p {symbol(line.next if line.word in ('skip', 'end of if') else line.other)}"]
        return self.conditions(line)

    def conditions(self, line):
        true = false = ""
        if not line.condition.star:
            condition = self.text(line.owner, line.condition)
            true, false = f" : assume {condition}", f" : assume !({condition})"
        holds = f"p {symbol(line.next)}{true}"
        if line.word == "assume":
            return [holds]
        return [holds, f"p {failure(line) if line.word == 'assert' else symbol(line.other)}{false}"]

    def call(self, line, values):
        callee = self.program.procedures[line.callee]
        entered = self.assigned(self.slots[: len(callee.names())], values + ["*"] * len(callee.locals))
        targets = [self.variable(line.owner, x) for x in line.targets]
        kept = [x for x in self.returned + self.slots if x not in targets]
        returned = (["restore", *kept] if kept else []) + (["move"] if targets else [])
        returned += [f"{x}={y}" for x, y in zip(targets, self.returned)]
        return f"p {symbol(callee.body[0])} {symbol(line.next)}{entered} return {' '.join(returned or ['plain'])}"

    def document(self):
        program = self.program
        names = [*self.globals.values(), *self.returned, *self.slots]
        lines = list(program.lines.values())
        symbols = [symbol(line) for line in lines] + [failure(line) for line in lines if line.word == "assert"]
        text = ["wpds 1", "weights relation", "controls p", "symbols " + " ".join(symbols)]
        text += ["variables " + " ".join(names)] if names else []
        text += [f"rule p {symbol(line)} -> {rule}" for line in lines for rule in self.rules(line)]
        for number, failed in program.queries:
            point = (failure if failed else symbol)(program.lines[number])
            text.append(f"query p: {symbol(program.procedures['main'].body[0])} => p: {point} .*")
        return "".join(line + "\n" for line in text)


def symbol(line):
    return f"s{line.number}"


def failure(line):
    return f"f{line.number}"


# ---- the states of a run: the globals, and frames of a line, whether it failed, and the bits of names, the top last


def bits_of(names):
    return itertools.product((False, True), repeat=len(names))


class Runs:
    def __init__(self, lowering):
        self.lowering, self.program = lowering, lowering.program
        lines = self.program.lines.values()
        self.ways = [(line.number, way) for line in lines for way in range(len(lowering.rules(line)))]

    def begins(self):
        main = self.program.procedures["main"]
        for of_globals in bits_of(self.program.globals):
            for of_names in bits_of(main.names()):
                yield of_globals, ((main.body[0].number, False, of_names),)

    def moves(self, state, rule):
        """The states to which a rule of the lowering, by its number from 1, leads from a state."""
        of_globals, frames = state
        number, way = self.ways[rule - 1]
        if not frames or frames[-1][:2] != (number, False):
            return
        line, below = self.program.lines[number], frames[:-1]
        old = dict(zip(self.program.globals + line.owner.names(), of_globals + frames[-1][2]))
        if line.word == "assign":
            for values in self.values(line.values, old):
                yield self.landed(line.next, {**old, **dict(zip(line.targets, values))}, below)
        elif line.word == "call":
            callee = self.program.procedures[line.callee]
            for values in self.values(line.values, old):
                for free in bits_of(callee.locals):
                    yield of_globals, frames + ((callee.body[0].number, False, values + free),)
        elif line.word in ("return", "end of proc"):
            yield from self.returned(line, old, below)
        else:
            point = self.point(line, way)
            if point in self.program.jumps(line, old):
                yield of_globals, below + ((point[0].number, point[1], frames[-1][2]),)

    def point(self, line, way):
        if line.word == "goto":
            return self.program.labels[line.labels[way]], False
        if line.word in ("else", "end of while"):
            return line.other, False
        if line.word == "assert":
            return [(line.next, False), (line, True)][way]
        return [line.next, line.other][way], False

    def values(self, values, old):
        return itertools.product(*[(False, True) if value.star else (value.bit(old),) for value in values])

    def returned(self, line, old, below):
        values = self.values(line.values, old) if line.word == "return" else bits_of(range(line.owner.returns))
        of_globals = {name: old[name] for name in self.program.globals}
        for given in values:
            if not below:
                yield tuple(of_globals.values()), ()
                continue
            caller = self.program.lines[below[-1][0]]
            kept = {**of_globals, **dict(zip(caller.owner.names(), below[-1][2]))}
            yield self.landed(caller.next, {**kept, **dict(zip(caller.targets, given))}, below[:-1])

    def landed(self, line, bits, below):
        names = line.owner.names()
        return tuple(bits[x] for x in self.program.globals), below + ((line.number, False, tuple(bits[x] for x in names)),)

    def states(self, run):
        """For each point of a run, the states that it may have there; nothing where the run is infeasible."""
        met = [set(self.begins())]
        for rule in run:
            met.append({to for state in met[-1] for to in self.moves(state, rule)})
        if not met[-1]:
            return None
        for at in range(len(run) - 1, -1, -1):
            met[at] = {state for state in met[at] if any(to in met[at + 1] for to in self.moves(state, run[at]))}
        return met

    def line(self, states):
        """The line of a state, with `?` for a bit that is not the same in all of these."""
        number, failed = next(iter(states))[1][-1][:2]
        names = self.program.globals + self.program.lines[number].owner.names()
        columns = zip(*[of_globals + frames[-1][2] for of_globals, frames in states])
        bits = ["?" if len(set(column)) > 1 else str(int(column[0])) for column in columns]
        return f"    {'fail' if failed else 'line'} {number}:" + "".join(f" {name}={bit}" for name, bit in zip(names, bits))

    def trace_lines(self, runs):
        size = 0
        for run in runs:
            size += len(run) + 1
            met = self.states(run)
            if met and size <= plain_check.LONGEST:
                return ["  trace:"] + [self.line(states) for states in met]
            if met:
                break
        return ["  traces: too long"]


def report(text, brief=False, backwards=True, traces=False):
    lowering = Lowering(text)
    lines = []
    for number, (value, nodes) in enumerate(plain_check.answers(plain_check.Document(lowering.document()), backwards), 1):
        lines.append(f"query {number}: " + ("unreachable" if value is None else "reachable"))
        if nodes and not brief:
            lines += plain_check.listing_lines(nodes, backwards)
        if nodes and traces:
            lines += Runs(lowering).trace_lines(plain_check.runs_of(nodes, backwards))
    return "".join(line + "\n" for line in lines)


def main():
    words, text = sys.argv[1:], sys.stdin.read()
    if "check" in words:
        sys.stdout.write(report(text, "--brief" in words, "post" not in words, "--traces" in words))
    else:
        sys.stdout.write(Lowering(text).document())


if __name__ == "__main__":
    main()
