#!/usr/bin/env python3
"""A slow and plain `wpds check`, to compare the program with: what specs/ define, with lists that are searched.

    tools/plain_check.py [--brief] [--traces] [--by pre|post] <DOCUMENT

It writes what `./wpds check` writes by one worker, byte for byte, listings too, on a document that is accepted. It
refuses nothing, and takes time that grows with the cube of the document. tools/compare-plain runs both.
"""
import itertools
import re
import sys

# ---- weights: None is zero, which no run has


class Reach:
    one = True

    def combine(self, a, b):
        return a or b

    def extend(self, a, b):
        return a and b

    def weight(self, words):
        return True

    def text(self, w):
        return "reachable"


class Cost:
    one = 0

    def __init__(self, cap):
        self.cap = cap

    def combine(self, a, b):
        if a is None or b is None:
            return b if a is None else a
        return min(a, b)

    def extend(self, a, b):
        return None if a is None or b is None else min(a + b, self.cap)

    def weight(self, words):
        return min(int(words[0]), self.cap)

    def text(self, w):
        return f"{w} or more" if w == self.cap else str(w)


class Facts:
    """A weight is the facts that are killed, and those that are generated; none is in both."""

    one = (frozenset(), frozenset())

    def __init__(self):
        self.names = []

    def combine(self, a, b):
        if a is None or b is None:
            return b if a is None else a
        return ((a[0] & b[0]), a[1] | b[1])

    def extend(self, a, b):
        if a is None or b is None:
            return None
        gens = (a[1] - b[0]) | b[1]
        return ((a[0] | b[0]) - b[1], gens)

    def weight(self, words):
        signed = list(zip(words[::2], words[1::2]))
        return (frozenset(f for s, f in signed if s == "-"), frozenset(f for s, f in signed if s == "+"))

    def after(self, restored, w):
        return None if w is None else (w[0] - restored, w[1] - restored)

    def text(self, w):
        kills, gens = w
        gens = [f for f in self.names if f in gens] or ["-"]
        kills = [f for f in self.names if f in kills] or ["-"]
        return " ".join(["gen", *gens, "kill", *kills])


ANY = "?"


def meet(f, g):
    """A form is `?`, or the numbers and the old values that it may be; two numbers are any value."""
    if f == ANY or g == ANY:
        return ANY
    both = f | g
    return ANY if sum(isinstance(part, int) for part in both) > 1 else both


class Copies:
    """A weight is a form for each variable."""

    def __init__(self):
        self.names = []

    @property
    def one(self):
        return tuple(frozenset([x]) for x in self.names)

    def combine(self, a, b):
        if a is None or b is None:
            return b if a is None else a
        return tuple(meet(f, g) for f, g in zip(a, b))

    def extend(self, a, b):
        if a is None or b is None:
            return None
        before = dict(zip(self.names, a))
        return tuple(self.put(before, f) for f in b)

    def put(self, before, form):
        if form == ANY:
            return ANY
        result = frozenset(part for part in form if isinstance(part, int))
        for part in form:
            if not isinstance(part, int):
                result = meet(result, before[part])
        return result

    def weight(self, words):
        # X = PART , PART ..   X = PART ..
        forms = dict(zip(self.names, self.one))
        starts = [i - 1 for i, word in enumerate(words) if word == "="] + [len(words)]
        for start, end in zip(starts, starts[1:]):
            forms[words[start]] = self.form(words[start + 2 : end])
        return tuple(forms[x] for x in self.names)

    def form(self, words):
        if words == ["?"]:
            return ANY
        form = frozenset()
        if words == ["undef"]:
            return form
        for part in "".join(words).split(","):
            form = meet(form, frozenset([int(part) if part.lstrip("-").isdigit() else part]))
        return form

    def after(self, restored, w):
        return None if w is None else tuple(frozenset([x]) if x in restored else f for x, f in zip(self.names, w))

    def form_text(self, form):
        if form == ANY:
            return "?"
        numbers = [str(part) for part in form if isinstance(part, int)]
        return ",".join(numbers + [x for x in self.names if x in form]) or "undef"

    def text(self, w):
        return " ".join(f"{x}={self.form_text(f)}" for x, f in zip(self.names, w)) or "-"


# what stands between operands, from the weakest to the strongest, and whether it groups to the right
OPERATORS = [
    ({"=>": lambda a, b: b or not a}, True),
    ({"=": lambda a, b: a == b, "!=": lambda a, b: a != b}, False),
    ({"|": lambda a, b: a or b}, False),
    ({"^": lambda a, b: a != b}, False),
    ({"&": lambda a, b: a and b}, False),
]


class Expression:
    """An expression as a function of the values of variables by name."""

    def __init__(self, words):
        self.words, self.at = words, 0

    def next(self):
        self.at += 1
        return self.words[self.at - 1]

    def peek(self):
        return self.words[self.at] if self.at < len(self.words) else None

    def level(self, k=0):
        if k == len(OPERATORS):
            return self.operand()
        operators, to_the_right = OPERATORS[k]
        value = self.level(k + 1)
        while self.peek() in operators:
            value = self.joined(operators[self.next()], value, self.level(k if to_the_right else k + 1))
        return value

    def joined(self, operator, a, b):
        return lambda state: operator(a(state), b(state))

    def operand(self):
        word = self.next()
        if word == "!":
            inner = self.operand()
            return lambda state: not inner(state)
        if word == "(":
            inner = self.level()
            self.next()
            return inner
        if word in ("tab2", "tab3"):
            return self.table(int(self.next()))
        return (lambda state: word == "1") if word.isdigit() else (lambda state: state[word])

    def table(self, number):
        operands = []
        while self.next() != ")":
            operands.append(self.level())

        def value(state):
            row = 0
            for operand in operands:
                row = 2 * row + operand(state)
            return bool(number >> row & 1)

        return value


def cut(words, mark):
    parts = [[]]
    for word in words:
        if word == mark:
            parts.append([])
        else:
            parts[-1].append(word)
    return parts


class Relations:
    """A weight is a set of pairs of states; a state is the values of all variables."""

    def __init__(self):
        self.names = []

    def states(self):
        return itertools.product((False, True), repeat=len(self.names))

    def pairs(self, leads):
        return frozenset((x, y) for x in self.states() for y in self.states() if leads(x, y)) or None

    @property
    def one(self):
        return self.pairs(lambda x, y: x == y)

    def combine(self, a, b):
        return a if b is None else b if a is None else a | b

    def extend(self, a, b):
        if a is None or b is None:
            return None
        behind = {}
        for w, z in b:
            behind.setdefault(w, []).append(z)
        return frozenset((x, z) for x, y in a for z in behind.get(y, ())) or None

    def weight(self, words):
        weight = self.one
        for action in cut(words, ";"):
            weight = self.extend(weight, self.action(action))
        return weight

    def action(self, words):
        if words[0] == "assume" and ":=" not in words:
            holds = Expression(words[1:]).level()
            return self.pairs(lambda x, y: x == y and holds(dict(zip(self.names, x))))
        if words[0] == "choose" and ":=" not in words:
            return self.assigned({name: None for name in words[1:]})
        middle = words.index(":=")
        targets = [name for name in words[:middle] if name != ","]
        values = self.values(words[middle + 1 :], len(targets))
        return self.assigned({x: None if v == ["*"] else Expression(v).level() for x, v in zip(targets, values)})

    def values(self, words, count):
        # commas also stand in tables
        parts, depth = [[]], 0
        for word in words:
            depth += {"(": 1, ")": -1}.get(word, 0)
            if word == "," and depth == 0:
                parts.append([])
            else:
                parts[-1].append(word)
        return parts

    def assigned(self, values):
        def leads(x, y):
            old = dict(zip(self.names, x))
            for name, new in zip(self.names, y):
                if name not in values:
                    if new != old[name]:
                        return False
                elif values[name] is not None and new != values[name](old):
                    return False
            return True

        return self.pairs(leads)

    def after(self, returned, w):
        """`returned` says of each variable whose value it has: the caller's own, or that of a variable of the callee."""
        if w is None:
            return None
        place = {name: k for k, name in enumerate(self.names)}
        merged = lambda x, z: tuple(x[k] if name in returned[0] else z[place[returned[1].get(name, name)]] for k, name in enumerate(self.names))
        return frozenset((x, merged(x, z)) for x, z in w)

    def text(self, w):
        """The nodes of the reduced ordered diagram, each behind those below it: a name with `'` is a new value."""
        nodes, number = [], {}

        def node(k, bits):
            if k == 2 * len(self.names):
                return int(any(bits == tuple(b for xy in zip(x, y) for b in xy) for x, y in w))
            low, high = node(k + 1, bits + (False,)), node(k + 1, bits + (True,))
            if low == high:
                return low
            key = (k, low, high)
            if key not in number:
                number[key] = len(nodes) + 2
                nodes.append(f"{self.names[k // 2]}{chr(39) * (k % 2)} {low} {high}")
            return number[key]

        node(0, ())
        return "relation " + ("; ".join(nodes) or "true")


# ---- documents

WORD = re.compile(r"->|=>|:=|!=|[:;,.*+=?!&|^(){}-]|[A-Za-z_][\w$@]*|[0-9]+")


class Rule:
    def __init__(self, number, control, symbol, to, right, weight, returned):
        self.number, self.control, self.symbol = number, control, symbol
        self.to, self.right, self.weight, self.returned = to, right, weight, returned


class Document:
    """Controls are numbered from 0, in the order of their declaration; symbols are their names."""

    def __init__(self, text):
        lines = [WORD.findall(line) for line in text.splitlines() if not line.lstrip().startswith("#")]
        lines = [line for line in lines if line]
        name = lines[1][1]
        self.weights = Cost(int(lines[1][2])) if name == "cost" else {"reach": Reach, "genkill": Facts, "copy": Copies, "relation": Relations}[name]()
        self.controls, self.symbols, self.rules, self.queries = [], [], [], []
        for words in lines[2:]:
            if words[0] == "controls":
                self.controls += words[1:]
            elif words[0] == "symbols":
                self.symbols += words[1:]
            elif words[0] in ("facts", "variables"):
                self.weights.names += words[1:]
        for words in lines[2:]:
            if words[0] == "rule":
                self.add_rule(words[1:])
            elif words[0] == "query":
                middle = words.index("=>")
                self.queries.append((self.pattern(words[1:middle]), self.pattern(words[middle + 1 :])))

    def add_rule(self, words):
        returned = None
        if "return" in words:
            returned = self.returned(words[words.index("return") + 1 :])
            words = words[: words.index("return")]
        weight = self.weights.one
        if ":" in words:
            of_rule = words[words.index(":") + 1 :]
            words = words[: words.index(":")]
            if of_rule != ["one"]:
                weight = None if of_rule == ["none"] else self.weights.weight(of_rule)
        control, to = self.controls.index(words[0]), self.controls.index(words[3])
        self.rules.append(Rule(len(self.rules), control, words[1], to, words[4:], weight, returned))

    def returned(self, words):
        """What a return map restores, and with relations also what it moves; nothing where all comes from the callee."""
        if words == ["plain"]:
            return None
        end = words.index("move") if "move" in words else len(words)
        restored = frozenset(words[1:end])
        if not isinstance(self.weights, Relations):
            return restored
        return restored, dict(zip(words[end + 1 :: 3], words[end + 3 :: 3]))

    def pattern(self, words):
        """A control, and items: a list of symbols, and whether there is a star."""
        items, i = [], 2
        while i < len(words):
            if words[i] == "*":
                items[-1] = (items[-1][0], True)
            elif words[i] == "{":
                end = words.index("}", i)
                items.append((words[i + 1 : end], False))
                i = end
            else:
                items.append((self.symbols if words[i] == "." else [words[i]], False))
            i += 1
        return self.controls.index(words[0]), items


def edges_of(items):
    """The edges of a pattern's automaton: state 0 is the control's, and state i that of the i-th item."""
    edges = []
    for i in range(len(items) + 1):
        if i > 0 and items[i - 1][1]:
            edges += [(i, g, i) for g in items[i - 1][0]]
        for j in range(i + 1, len(items) + 1):
            edges += [(i, g, j) for g in items[j - 1][0]]
            if not items[j - 1][1]:
                break
    return edges


def is_final(items, i):
    return all(star for _, star in items[i:])


# ---- a state: transitions [place, weight, node], nodes (before, rule, first, second), and the places that wait

START = None


class State:
    def __init__(self, weights, nodes):
        self.weights, self.transitions, self.nodes, self.queue = weights, [], nodes, []

    def entry(self, place):
        for t in self.transitions:
            if t[0] == place:
                return t
        return None

    def lower(self, place, weight, node):
        t = self.entry(place)
        if t is None:
            self.transitions.append([place, weight, node])
        else:
            t[1], t[2] = weight, node
        if place not in self.queue:
            self.queue.append(place)

    def apply(self, goal, weight, rule, first, second):
        t = self.entry(goal)
        old = None if t is None else t[1]
        new = self.weights.combine(old, weight)
        if new == old:
            return
        self.nodes.append((None if t is None else t[2], rule, first, second))
        self.lower(goal, new, len(self.nodes) - 1)


class Direction:
    def __init__(self, document, opened):
        self.rules, self.weights = document.rules, document.weights
        control, items = opened
        count = len(document.controls)
        self.controls, self.base = count, count + len(items)
        number = [control] + [count + i for i in range(len(items))]
        self.edges = [(number[i], g, number[j]) for i, g, j in edges_of(items)]
        self.finals = [number[i] for i in range(len(items) + 1) if is_final(items, i)]
        self.pushes = [r for r in self.rules if len(r.right) == 2]

    def extend(self, a, b):
        return self.weights.extend(a, b)

    def after(self, rule, w):
        """What the call's return map leaves of what it does."""
        return w if rule.returned is None else self.weights.after(rule.returned, w)

    def opened(self):
        state = State(self.weights, [START])
        for place in self.edges:
            state.lower(place, self.weights.one, 0)
        return state

    def saturated(self):
        state = self.opened()
        while state.queue:
            t = state.entry(state.queue.pop(0))
            # the jobs as they are now: goal, weight, and the node's parts
            for job in list(self.jobs(state, t)):
                state.apply(*job)
        return state


class Backward(Direction):
    def opened(self):
        state = super().opened()
        for r in self.rules:
            if not r.right:
                state.apply((r.control, r.symbol, r.to), r.weight, r.number, None, None)
        return state

    def jobs(self, state, t):
        (source, label, target), weight, node = t
        for r in self.rules:
            if len(r.right) == 1 and (r.to, r.right[0]) == (source, label):
                yield (r.control, r.symbol, target), self.extend(r.weight, weight), r.number, node, None
        for to_control in (True, False):
            for r in self.pushes:
                for u in state.transitions:
                    yield from self.pair(r, to_control, t, u)
                    if u is not t:
                        yield from self.pair(r, to_control, u, t)

    def pair(self, r, to_control, t, u):
        """The push rule over two transitions: the callee's, and what follows it."""
        (source, label, middle), (start, below, target) = t[0], u[0]
        if (source, label, middle, below) != (r.to, r.right[0], start, r.right[1]) or (middle < self.controls) != to_control:
            return
        call = self.extend(r.weight, t[1])
        if to_control:
            call = self.after(r, call)
        yield (r.control, r.symbol, target), self.extend(call, u[1]), r.number, t[2], u[2]


class Forward(Direction):
    def jobs(self, state, t):
        (source, label, target), weight, node = t
        heads = [r for r in self.rules if (r.control, r.symbol) == (source, label)]
        middle = {r.number: self.base + k for k, r in enumerate(self.pushes)}
        frame = {self.base + k: r for k, r in enumerate(self.pushes)}
        for r in heads:
            if len(r.right) == 1:
                yield (r.to, r.right[0], target), self.extend(weight, r.weight), r.number, node, None
        for returns in (True, False):
            for r in heads:
                if not r.right and (target in frame) == returns:
                    done = self.extend(weight, r.weight)
                    yield (r.to, None, target), self.after(frame[target], done) if returns else done, r.number, node, None
        for r in heads:
            if len(r.right) == 2:
                yield (r.to, r.right[0], middle[r.number]), r.weight, r.number, None, None
        for r in heads:
            if len(r.right) == 2:
                yield (middle[r.number], r.right[1], target), weight, None, node, None
        for u in state.transitions:
            for deep, skip in ((t, u), (u, t)):
                (start, reads, end), (first, empty, meets) = deep[0], skip[0]
                if reads is not None and empty is None and meets == start:
                    yield (first, reads, end), self.extend(deep[1], skip[1]), None, deep[2], skip[2]


# ---- the answer to a query: a sum over the pairs of a pattern's states and the automaton's

ANSWER = "answer"


def sum_over(direction, state, pattern, backwards):
    control, items = pattern
    edges, graph = edges_of(items), list(state.nodes)
    pairs = State(direction.weights, graph + [START])
    pairs.lower((0, control), direction.weights.one, len(graph))
    while pairs.queue:
        place = pairs.queue.pop(0)
        if place == ANSWER:
            continue
        i, q = place
        for (source, label, target), weight, node in state.transitions:
            if source != q:
                continue
            for j in [i] if label is None else [k for h, g, k in edges if (h, g) == (i, label)]:
                _, own, own_node = pairs.entry(place)
                value = direction.extend(own, weight) if backwards else direction.extend(weight, own)
                first, second = (own_node, node) if backwards else (node, own_node)
                pairs.apply((j, target), value, None, first, second)
        if is_final(items, i) and q in direction.finals:
            _, own, own_node = pairs.entry(place)
            pairs.apply(ANSWER, own, None, own_node, None)
    answer = pairs.entry(ANSWER)
    return (None, []) if answer is None else (answer[1], listing(graph, pairs.nodes[len(graph) :], answer[2]))


def listing(graph, added, root):
    """The nodes below the root, those that the sum added without its empty run and without such as are one part alone."""
    nodes, stands, count = list(graph), {}, len(graph)
    for k, node in enumerate(added):
        only = None
        if node is not START:
            before, rule, first, second = (x if i == 1 or x is None else stands.get(x, x) for i, x in enumerate(node))
            kept = [None if x == count else x for x in (first, second)]
            if rule is not None or kept != [None, None]:
                first, second = kept
            node = (before, rule, first, second)
            parts = [x for x in (first, second) if x is not None]
            only = parts[0] if before is None and rule is None and len(parts) == 1 else None
        stands[count + k] = len(nodes) if only is None else only
        nodes.append(node)
    return in_order(nodes, stands.get(root, root))


def in_order(nodes, root):
    """The nodes that a node is made of, each behind those that it names, numbered anew."""
    number, listed, waiting = {}, [], [(root, False)]
    while waiting:
        k, named = waiting.pop()
        if k in number:
            continue
        if named or nodes[k] is START:
            number[k] = len(listed)
            listed.append(nodes[k])
            continue
        before, _, first, second = nodes[k]
        waiting.append((k, True))
        waiting += [(x, False) for x in (second, first, before) if x is not None]
    rename = lambda x: None if x is None else number[x]
    return [n if n is START else (rename(n[0]), n[1], rename(n[2]), rename(n[3])) for n in listed]


def set_text(node, backwards):
    if node is START:
        return "empty"
    before, rule, first, second = node
    of_rule = [] if rule is None else [f"rule {rule + 1}"]
    sets = [f"set {x}" for x in (first, second) if x is not None]
    parts = of_rule + sets if backwards else sets + of_rule
    return ("" if before is None else f"set {before} or ") + " then ".join(parts)


def listing_lines(nodes, backwards):
    return [f"  set {k} = {set_text(n, backwards)}" for k, n in enumerate(nodes)] + [f"  answer set {len(nodes) - 1}"]


# ---- the runs of a listing, one by one

LONGEST = 100_000


def parts_of(node, backwards):
    """The parts of a node in order: a rule as a list of its number, a set by its number."""
    _, rule, first, second = node
    sets = [x for x in (first, second) if x is not None]
    of_rule = [] if rule is None else [[rule + 1]]
    return of_rule + sets if backwards else sets + of_rule


def sizes(nodes, backwards):
    """For each node, how many runs it has, and how many rules these have together."""
    found = []
    for node in nodes:
        runs, rules = 1, 0
        for part in [] if node is START else parts_of(node, backwards):
            of_part = (1, 1) if isinstance(part, list) else found[part]
            runs, rules = runs * of_part[0], rules * of_part[0] + runs * of_part[1]
        before = (0, 0) if node is START or node[0] is None else found[node[0]]
        found.append((before[0] + runs, before[1] + rules))
    return found


def runs_of(nodes, backwards):
    """The runs of the last node, in order."""
    found = []
    for node in nodes:
        parts = [] if node is START else parts_of(node, backwards)
        before = [] if node is START or node[0] is None else found[node[0]]
        choices = [[part] if isinstance(part, list) else found[part] for part in parts]
        found.append(before + [sum(picked, []) for picked in itertools.product(*choices)])
    return found[-1]


def trace_lines(nodes, backwards):
    if sum(sizes(nodes, backwards)[-1]) > LONGEST:
        return ["  traces: too long"]
    return ["  run: " + (", ".join(f"rule {rule}" for rule in run) or "empty") for run in runs_of(nodes, backwards)]


def answers(document, backwards):
    """For each query its value and its listing."""
    for start, end in document.queries:
        opened, summed = (end, start) if backwards else (start, end)
        direction = (Backward if backwards else Forward)(document, opened)
        yield sum_over(direction, direction.saturated(), summed, backwards)


def report(text, brief=False, backwards=True, traces=False):
    document = Document(text)
    lines = []
    for number, (value, nodes) in enumerate(answers(document, backwards), 1):
        lines.append(f"query {number}: " + ("unreachable" if value is None else document.weights.text(value)))
        if nodes and not brief:
            lines += listing_lines(nodes, backwards)
        if nodes and traces:
            lines += trace_lines(nodes, backwards)
    return "".join(line + "\n" for line in lines)


if __name__ == "__main__":
    words = sys.argv[1:]
    sys.stdout.write(report(sys.stdin.read(), "--brief" in words, "post" not in words, "--traces" in words))
