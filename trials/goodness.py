"""Whether something stands against a plan, found by trying: paths through its body, with inner loops gone
through 0, 1 and 2 times, and small values of what subscripts hold. What it finds is a mistake of the plan;
that it finds nothing proves nothing."""

import itertools
import random

SMALL = range(-3, 4)
LAST = 5
MOST_PATHS = 400
MOST_EVENTS = 64
NO_EVENT = -1
ANY = frozenset(SMALL)


def read_line(line):
    """The list in parentheses that a line holds."""
    stack = [[]]
    for word in line.replace("(", " ( ").replace(")", " ) ").split():
        if word == "(":
            stack.append([])
        elif word == ")":
            done = stack.pop()
            stack[-1].append(done)
        else:
            stack[-1].append(int(word) if word.lstrip("-").isdigit() else word)
    return stack[0][0]


# ---- references and paths

class Place:
    """A reference with its subscripts."""

    def __init__(self, element, defines):
        self.number, self.name, self.subscripts = element[1], element[2], element[3:]
        self.defines = defines


def uses_of(expression):
    """The references of an expression, in order of evaluation."""
    if expression == "none" or expression[0] == "constant":
        return []
    if expression[0] == "element":
        return [place for part in expression[3:] for place in uses_of(part)] + [Place(expression, False)]
    return [place for part in expression[2:] for place in uses_of(part)]


def target_of(element):
    return [place for part in element[3:] for place in uses_of(part)] + [Place(element, True)]


def head_places(head):
    variable = Place(["element", head[1], head[2]], True)
    return [place for part in head[3:] for place in uses_of(part)] + [variable]


def plain_places(node):
    if node[2] == "assign":
        return uses_of(node[4]) + target_of(node[3])
    if node[2] == "print":
        return [place for part in node[3:] for place in uses_of(part)]
    if node[2] == "read":
        return [place for part in node[3:] for place in target_of(part)]
    return []


def block_places(nodes):
    """All references of nodes, in order."""
    return [place for node in nodes for place in node_places(node)]


def node_places(node):
    if node[0] == "plain":
        return plain_places(node)
    if node[0] == "loop":
        return head_places(node[2]) + block_places(node[3:])
    if node[0] == "choose":
        return [place for arm in node[1:] if arm[0] == "arm" for place in uses_of(arm[2]) + block_places(arm[3:])]
    return []


def fewer(paths):
    """Each once, and not too many."""
    paths = list(dict.fromkeys(paths))
    if len(paths) > MOST_PATHS:
        paths = random.Random(len(paths)).sample(paths, MOST_PATHS)
    return paths


def then(first, second):
    """Paths, each a pair of whether it stops and its tokens, and what may come behind."""
    stopped = [path for path in first if path[0]]
    on = [path for path in first if not path[0]]
    pairs = [(a, b) for a in on for b in second] if len(on) * len(second) <= 20 * MOST_PATHS else [
        (random.Random(at).choice(on), random.Random(-at).choice(second)) for at in range(1, 2 * MOST_PATHS)]
    return fewer(stopped + [(b[0], a[1] + b[1]) for a, b in pairs])


def just(tokens):
    return [(False, tuple(tokens))]


def told(places):
    return tuple(("defines" if place.defines else "uses", place.number, place.name) for place in places)


def arms_paths(arms):
    if not arms:
        return just(())
    arm = arms[0]
    if arm[0] == "made":
        return block_paths(arm[1:])
    if arm[2] == "none":
        return block_paths(arm[3:])
    return then(just(told(uses_of(arm[2]))), fewer(block_paths(arm[3:]) + arms_paths(arms[1:])))


def node_paths(node):
    if node[0] in ("await", "advance"):
        return just((tuple(node),))
    if node[0] == "plain":
        return [(True, ())] if node[2] == "stop" else just(told(plain_places(node)))
    if node[0] == "loop":
        once = block_paths(node[3:])
        return then(just(told(head_places(node[2]))), fewer(just(()) + once + then(once, once)))
    return arms_paths(node[1:])


def block_paths(nodes):
    paths = just(())
    for node in nodes:
        paths = then(paths, node_paths(node))
    return paths


# ---- values of subscripts

def quotient(a, b):
    return abs(a) // abs(b) * (1 if (a < 0) == (b < 0) else -1)


def combined(operator, a, b):
    """The value of two operands, None where there is none."""
    if operator == "+":
        return a + b
    if operator == "-":
        return a - b
    if operator == "*":
        return a * b
    if operator == "/" and b != 0:
        return quotient(a, b)
    if operator == "mod" and b != 0:
        return a - b * quotient(a, b)
    if operator in ("max", "min"):
        return (max if operator == "max" else min)(a, b)
    return None


class LoopOf:
    """A loop, as the program shows it."""

    def __init__(self, shown):
        _, self.number, self.head, (_, *self.body), self.plan, self.answer = shown
        self.variable = self.head[2]
        self.places = block_places(self.body)
        self.assigned = {place.name for place in self.places if place.defines and not place.subscripts}
        first, last = self.constant(self.head[3]), self.constant(self.head[4])
        self.step = 1 if self.head[5] == "none" else self.constant(self.head[5])
        self.trips = None
        if None not in (first, last, self.step) and self.step != 0:
            self.trips = max(0, quotient(last - first + self.step, self.step))
        self.known = {}

    def constant(self, expression):
        if uses_of(expression):
            return None
        return next(iter(self.values(expression, 0, {})), None)

    def values(self, expression, i, held):
        """The values that an expression may have; each place where something varies has its own."""
        if expression[0] == "constant":
            return frozenset((expression[1],))
        if expression[0] == "element":
            return self.place_values(expression, i, held)
        if expression[0] == "unary":
            sign = {"+": 1, "-": -1}[expression[1]]
            return frozenset(sign * value for value in self.values(expression[2], i, held))
        parts = [self.values(part, i, held) for part in expression[2:]]
        if expression[1] == "abs":
            return frozenset(abs(value) for value in parts[0])
        result = parts[0]
        for part in parts[1:]:
            result = frozenset(combined(expression[1], a, b) for a in result for b in part) - {None}
        return result

    def place_values(self, element, i, held):
        if len(element) > 3:
            return ANY
        name = element[2]
        if name == self.variable:
            return frozenset((i,))
        return ANY if name in self.assigned else frozenset((held[name],))

    def steady(self, subscripts):
        """The scalars in subscripts that are the same in all iterations."""
        places = [place for part in subscripts for place in uses_of(part)]
        return {place.name for place in places if not place.subscripts} - self.assigned - {self.variable}

    def agree(self, a, b, i, j, held):
        return len(a.subscripts) == len(b.subscripts) and all(
            self.values(e, i, held) & self.values(f, j, held) for e, f in zip(a.subscripts, b.subscripts))

    def meet(self, a, b, distance):
        """How two references meet in iterations so far apart, for some small values; None if they don't."""
        last = LAST if self.trips is None else min(LAST, self.trips - 1)
        if distance > last:
            return None
        names = sorted(self.steady(a.subscripts) | self.steady(b.subscripts))
        steps = [self.step] if self.step else list(SMALL)
        moments = sorted({(first + k * step, step)
                          for first in SMALL for step in steps for k in range(last - distance + 1)})
        for (i, step), values in itertools.product(moments, itertools.product(SMALL, repeat=len(names))):
            held = dict(zip(names, values))
            if self.agree(a, b, i, i + distance * step, held):
                return f"{self.variable} = {i} and {i + distance * step}, {held}"
        return None

    def meetings(self, a, b):
        """The distances at which two references meet, each with how."""
        key = (str(told_subscripts(a.subscripts)), str(told_subscripts(b.subscripts)))
        if key not in self.known:
            found = [(distance, self.meet(a, b, distance)) for distance in range(1, LAST + 1)]
            self.known[key] = [one for one in found if one[1] is not None]
        return self.known[key]


def told_subscripts(expression):
    """An expression without the numbers of its references."""
    if not isinstance(expression, list):
        return expression
    if expression and expression[0] == "element":
        return ["element", expression[2]] + [told_subscripts(part) for part in expression[3:]]
    return [told_subscripts(part) for part in expression]


# ---- plans

def stripped(nodes):
    """Nodes without awaits, advances and made ELSEs."""
    result = []
    for node in nodes:
        if node[0] == "loop":
            result.append(node[:3] + stripped(node[3:]))
        elif node[0] == "choose":
            result.append(["choose"] + [arm[:3] + stripped(arm[3:]) for arm in node[1:] if arm[0] == "arm"])
        elif node[0] == "plain":
            result.append(node)
    return result


def numbered(nodes):
    """All nodes in preorder, each with the list that it stands in and its place there."""
    for place, node in enumerate(nodes):
        yield node, nodes, place
        if node[0] == "loop":
            yield from numbered(node[3:])
        elif node[0] == "choose":
            for arm in node[1:]:
                yield from numbered(arm[3:] if arm[0] == "arm" else arm[1:])


def made_bare(nodes):
    for node, _, _ in numbered(nodes):
        if node[0] == "choose":
            for arm in node[1:]:
                if arm[0] == "made" and any(one[0] not in ("await", "advance") for one in arm[1:]):
                    return False
    return True


class Facts:
    """What paths to places of a body have done."""

    def __init__(self, body, privates):
        self.before = {}
        self.mistakes = []
        named = {node[1] for node, _, _ in numbered(body) if node[0] in ("await", "advance")}
        for stops, tokens in block_paths(body):
            advanced = self.walk(tokens, privates)
            if not stops and named - advanced:
                self.mistakes.append(f"event {min(named - advanced)} isn't advanced on a path to the end")

    def walk(self, tokens, privates):
        """Goes through a path; the events that it advances."""
        defined, advanced, awaited, ordered = set(), set(), {}, set()
        for token in tokens:
            if token[0] == "await":
                awaited[token[1]] = min(token[2], awaited.get(token[1], token[2]))
                if token[2] == 1:
                    ordered.add(token[1])
            elif token[0] == "advance":
                if token[1] in advanced:
                    self.mistakes.append(f"event {token[1]} is advanced twice")
                if token[1] not in ordered:
                    self.mistakes.append(f"event {token[1]} is advanced without an await of the iteration before")
                advanced.add(token[1])
            else:
                self.before.setdefault(token[1], set()).add((frozenset(advanced), tuple(sorted(awaited.items()))))
                if token[0] == "defines":
                    defined.add(token[2])
                elif token[2] in privates and token[2] not in defined:
                    self.mistakes.append(f"private {token[2]} is used at reference {token[1]} before it is defined")
        return advanced

    def keeps(self, a, b, distance, event):
        """Whether no path that was tried stands against an event's keeping a before b."""
        return all(event not in advanced for advanced, _ in self.before.get(a.number, ())) and all(
            dict(awaited).get(event, distance + 1) <= distance for _, awaited in self.before.get(b.number, ()))


def by_itself(loop, body, privates):
    """Mistakes that need no paths."""
    places, nodes = loop.places, [node for node, _, _ in numbered(body)]
    if loop.step in (None, 0):
        yield "the step is no constant other than 0"
    if any(node[0] == "plain" and node[2] == "read" for node, _, _ in numbered(loop.body)):
        yield "there is a READ"
    for node, _, _ in numbered(loop.body):
        if node[0] == "loop" and node[2][2] not in privates:
            yield f"inner variable {node[2][2]} is shared"
    for name in privates:
        if name not in {place.name for place in places if place.defines and not place.subscripts}:
            yield f"private {name} is given no value"
    for node in nodes:
        if node[0] in ("await", "advance") and not 1 <= node[1] <= MOST_EVENTS:
            yield f"there is no event {node[1]}"
        if node[0] == "await" and node[2] < 1:
            yield "an await of distance 0"
    if stripped(body) != loop.body or not made_bare(body):
        yield "another body"


def unkept(loop, facts, body, privates):
    """Pairs that meet and that nothing keeps in order."""
    events = [NO_EVENT] + sorted({node[1] for node, _, _ in numbered(body) if node[0] in ("await", "advance")})
    shared = [place for place in loop.places if place.name not in privates and place.name != loop.variable]
    for a, b in itertools.product(shared, shared):
        if a.name != b.name or not (a.defines or b.defines):
            continue
        for distance, how in loop.meetings(a, b):
            if not any(facts.keeps(a, b, distance, event) for event in events):
                yield (f"{a.name}: references {a.number} and {b.number} meet {distance} apart ({how}), "
                       f"and nothing keeps them in order")
                break


def mistakes(loop, plan):
    """What stands against a plan of a loop, as far as it is found."""
    (_, *body), (_, *privates), _ = plan[1:]
    found = list(by_itself(loop, body, privates))
    facts = Facts(body, privates)
    return found + sorted(set(facts.mistakes)) + list(unkept(loop, facts, body, privates))
