"""Reads the listings that the program writes, and says what is wrong with them.

A listing is right where its sets combine to the value that is told, and where runs that are drawn from its answer set lead from a
configuration of the query's first pattern to one of its second. What a set is worth is worked out from the lines alone: a call has
returned, so that its return map is due, where the runs of its set have taken the callee's symbol from the stack (backwards), or have
taken what a call put on it (forwards), which the lengths of the rules' right sides tell.
"""
import plain_check as plain

DRAWN = 5
LONGEST = 20_000


def read(text):
    """For each query its line and its sets: pairs of the set before, if any, and the parts."""
    answers = []
    for line in text.splitlines():
        words = line.split()
        if words[0] == "query":
            answers.append((line, []))
        elif words[0] == "set":
            body, before = words[3:], None
            if len(body) > 2 and body[2] == "or":
                body, before = body[3:], int(body[1])
            parts = [] if body == ["empty"] else [(word, int(k)) for word, k in zip(body[::3], body[1::3])]
            answers[-1][1].append((before, parts))
        elif words != ["answer", "set", str(len(answers[-1][1]) - 1)]:
            raise ValueError(line)
    return answers


class Weights:
    """Numbers for the weights of a document, 0 for zero; what was worked out once is looked up."""

    def __init__(self, document):
        self.document, self.weights, self.known = document, document.weights, {}
        self.numbers, self.values, self.texts = {None: 0}, [None], {}
        self.one = self.number(document.weights.one)
        self.of_rule = [self.number(rule.weight) for rule in document.rules]

    def number(self, value):
        if value not in self.numbers:
            self.numbers[value] = len(self.values)
            self.values.append(value)
        return self.numbers[value]

    def extend(self, a, b):
        key = a, b, "then"
        if key not in self.known:
            self.known[key] = self.number(self.weights.extend(self.values[a], self.values[b]))
        return self.known[key]

    def combine(self, a, b):
        key = a, b, "or"
        if key not in self.known:
            self.known[key] = self.number(self.weights.combine(self.values[a], self.values[b]))
        return self.known[key]

    def after(self, rule, a):
        returned = None if rule is None else self.document.rules[rule].returned
        if returned is None:
            return a
        key = rule, a, "return"
        if key not in self.known:
            self.known[key] = self.number(self.weights.after(returned, self.values[a]))
        return self.known[key]

    def text(self, a):
        if a not in self.texts:
            self.texts[a] = self.weights.text(self.values[a])
        return self.texts[a]


class Reader:
    """Looks at listings of a document by one direction. `tells` is what the program writes of a value where not the value itself."""

    def __init__(self, document, backwards, chance, tells=None):
        self.document, self.backwards, self.chance = document, backwards, chance
        self.weights, self.tells = Weights(document), tells
        self.rises = [len(rule.right) - 1 for rule in document.rules]
        self.queries = [tuple((control, sets_of(items)) for control, items in query) for query in document.queries]

    def worth(self, sets):
        """The number of what the last set is worth, 0 where there is none."""
        # for each set its worth, and of its first run by how much the stack has risen at the end, and the first rule
        worths, rises, firsts = [], [], []
        for before, parts in sets:
            worth, rise, first = self.of_parts(parts, worths, rises, firsts)
            worths.append(worth if before is None else self.weights.combine(worths[before], worth))
            rises.append(rise if before is None else rises[before])
            firsts.append(first if before is None else firsts[before])
        return worths[-1] if worths else 0

    def of_parts(self, parts, worths, rises, firsts):
        weights, worth, rise, first = self.weights, self.weights.one, 0, None
        for at, (kind, k) in enumerate(parts):
            if kind == "rule":
                worth = weights.extend(worth, weights.of_rule[k - 1])
                if not self.backwards and self.rises[k - 1] == -1 and rise == 1:
                    worth = weights.after(first, worth)
                rise, first = rise + self.rises[k - 1], k - 1 if at == 0 else first
            else:
                worth = weights.extend(worth, worths[k])
                if self.backwards and at == 1 and parts[0][0] == "rule" and self.rises[first] == 1 and rises[k] == -1:
                    worth = weights.after(first, worth)
                rise, first = rise + rises[k], firsts[k] if at == 0 else first
        return worth, rise, first

    def drawn(self, sets, root):
        """A run of the set, as rule numbers from 0; nothing where it is too long."""
        run, waiting = [], [("set", root)]
        while waiting and len(run) <= LONGEST:
            kind, k = waiting.pop()
            if kind == "rule":
                run.append(k - 1)
                continue
            before, parts = sets[k]
            waiting += [("set", before)] if before is not None and self.chance.random() < 0.5 else reversed(parts)
        return None if waiting else run

    def leads(self, query, run):
        """Whether the run leads from a configuration of the query's first pattern to one of its second."""
        (control, items), (end, end_items) = query
        # what the run takes from the stack that it found, and what it has put there
        taken, stack = [], []
        for k in run:
            rule = self.document.rules[k]
            if not stack:
                taken.append(rule.symbol)
                stack.append(rule.symbol)
            if rule.control != control or stack.pop() != rule.symbol:
                return False
            control = rule.to
            stack += rule.right[::-1]
        return control == end and have_rest(items, taken, end_items, stack[::-1])

    def fault(self, text):
        """What is wrong with the listings of a report; nothing where all is right."""
        try:
            answers = read(text)
        except (ValueError, IndexError) as error:
            return f"a line that is none of a listing's: {error}"
        for query, (line, sets) in zip(self.queries, answers):
            try:
                worth = self.worth(sets)
            except IndexError:
                return f"a set that names none before it, below {line}"
            told = "unreachable" if worth == 0 else self.tells or self.weights.text(worth)
            if line.split(": ", 1)[1] != told:
                return f"a listing worth {told} below {line}"
            for _ in range(DRAWN if sets else 0):
                run = self.drawn(sets, len(sets) - 1)
                if run is not None and not self.leads(query, run):
                    return f"a run that is none of the query's below {line}"
        return None


def sets_of(items):
    return [(frozenset(symbols), star) for symbols, star in items]


def ways(items, i):
    """The symbols that a pattern reads in its i-th state, with the state behind: state 0 is the control's, state i that of the i-th item."""
    if i > 0 and items[i - 1][1]:
        yield items[i - 1][0], i
    for j in range(i + 1, len(items) + 1):
        yield items[j - 1][0], j
        if not items[j - 1][1]:
            return


def states_behind(items, read):
    at = {0}
    for symbol in read:
        at = {j for i in at for symbols, j in ways(items, i) if symbol in symbols}
    return at


def have_rest(items, taken, end_items, left):
    """Whether some stack follows `taken` in the first pattern and `left` in the second."""
    met = {(i, j) for i in states_behind(items, taken) for j in states_behind(end_items, left)}
    waiting = list(met)
    while waiting:
        i, j = waiting.pop()
        if plain.is_final(items, i) and plain.is_final(end_items, j):
            return True
        for symbols, further in ways(items, i):
            for end_symbols, end_further in ways(end_items, j):
                if (further, end_further) not in met and not symbols.isdisjoint(end_symbols):
                    met.add((further, end_further))
                    waiting.append((further, end_further))
    return False
