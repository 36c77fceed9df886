"""Random changes of plans, as steps that the program `plans_of` takes: each is a kind and four numbers."""

import random

from goodness import numbered

DROP, AWAIT_BEFORE, AWAIT_BEHIND, ADVANCE_BEFORE, ADVANCE_BEHIND, NO_ELSE, MADE_ELSE, NO_PRIVATE, PRIVATE, NO_CLAIM, \
    CLAIM = range(1, 12)
CLAIMS = {"any": 0, "distance": 1, "distance by the second dimension": 2, "apart by constant": 3, "apart by divisor": 4,
          "apart by distance": 5, "apart by range": 6}


def step(kind, a, b=0, c=0, d=0):
    return [(kind, a, b, c, d)]


class Changer:
    """Chooses a change of a loop's plan. What the plan has nothing for is a LookupError."""

    def __init__(self, loop, seed):
        self.random = random.Random(seed)
        self.loop = loop
        (_, *self.body), (_, *self.privates), (_, *self.relations) = loop.plan[1:]
        self.nodes = list(numbered(self.body))
        self.events = sorted({node[1] for node, _, _ in self.nodes if node[0] == "advance"})

    def one(self, values):
        return self.random.choice(list(values))

    def chance(self, share):
        return self.random.random() < share

    def place(self, *kinds):
        """The number of a node of these kinds."""
        return self.one(at for at, (node, _, _) in enumerate(self.nodes) if node[0] in kinds)

    def any_place(self):
        return self.one(range(len(self.nodes)))

    def event(self):
        """Mostly an event of the plan, at times the next one, or a number of none."""
        other = self.one((65, 0)) if self.chance(0.1) else len(self.events) + 1
        return self.one(self.events * 2 + [other])

    def order(self, at):
        """How many awaits go with an advance: 1 where the one of its event stands before it."""
        return 1 if at > 0 and self.nodes[at - 1][0] == ["await", self.nodes[at][0][1], 1] else 0

    def sibling(self, at, offset):
        """The number of the node so many places on in the block."""
        _, block, place = self.nodes[at]
        return {other: number for number, (_, where, other) in enumerate(self.nodes) if where is block}[place + offset]

    # ---- awaits

    def await_dropped(self):
        return step(DROP, self.place("await"))

    def await_moved_forward(self):
        at = self.place("await")
        _, event, distance = self.nodes[at][0]
        return step(DROP, at) + step(AWAIT_BEFORE, self.sibling(at, -1), event, distance)

    def await_moved_back(self):
        at = self.place("await")
        _, event, distance = self.nodes[at][0]
        return step(DROP, at) + step(AWAIT_BEHIND, self.sibling(at, 1) - 1, event, distance)

    def await_moved_anywhere(self):
        at, to = self.place("await"), self.any_place()
        _, event, distance = self.nodes[at][0]
        return step(AWAIT_BEFORE, to, event, distance) + step(DROP, at + 1 if to <= at else at)

    def replaced(self, at, event, distance):
        return step(AWAIT_BEFORE, at, event, distance) + step(DROP, at + 1)

    def await_of_another_event(self):
        at = self.place("await")
        return self.replaced(at, self.event(), self.nodes[at][0][2])

    def await_at_another_distance(self):
        at = self.place("await")
        return self.replaced(at, self.nodes[at][0][1], max(0, self.nodes[at][0][2] + self.one((-1, 1, 1, 2))))

    def await_more(self):
        return step(self.one((AWAIT_BEFORE, AWAIT_BEHIND)), self.any_place(), self.event(), self.random.randint(1, 3))

    # ---- advances

    def advance_dropped(self):
        return step(DROP, self.place("advance"))

    def advance_dropped_with_await(self):
        at = self.place("advance")
        return step(DROP, at) + step(DROP, at - 1) * self.order(at)

    def advance_doubled(self):
        at = self.place("advance")
        return step(self.one((ADVANCE_BEFORE, ADVANCE_BEHIND)), self.one((at, self.any_place())), self.nodes[at][0][1])

    def taken(self):
        """An advance to be moved, and how many awaits go with it."""
        at = self.place("advance")
        return at, self.nodes[at][0][1], self.order(at) if self.chance(0.8) else 0

    def advance_moved_forward(self):
        at, event, order = self.taken()
        to = self.sibling(at, -1 - order)
        put = step(AWAIT_BEFORE, to, event, 1) * order + step(ADVANCE_BEFORE, to + order, event)
        return step(DROP, at - order) * (1 + order) + put

    def advance_moved_back(self):
        at, event, order = self.taken()
        to = self.sibling(at, 1) - 1 - order
        put = step(ADVANCE_BEHIND, to, event) + step(AWAIT_BEHIND, to, event, 1) * order
        return step(DROP, at - order) * (1 + order) + put

    def advance_moved_anywhere(self):
        at, to = self.place("advance"), self.any_place()
        event, order = self.nodes[at][0][1], self.order(at)
        if to == at:
            raise LookupError
        put = step(AWAIT_BEFORE, to, event, 1) * order + step(ADVANCE_BEFORE, to + order, event)
        return put + step(DROP, at + 1 if to <= at else at - order) * (1 + order)

    # ---- made ELSEs, private names, claims, statements

    def made(self):
        """The number of an IF with a made ELSE."""
        nodes = enumerate(node for node, _, _ in self.nodes)
        return self.one(at for at, node in nodes if node[0] == "choose" and node[-1][0] == "made")

    def made_else_dropped(self):
        return step(NO_ELSE, self.made())

    def made_else_emptied(self):
        return step(MADE_ELSE, self.made())

    def made_else_of_another_event(self):
        return step(MADE_ELSE, self.place("choose"), self.event())

    def private_dropped(self):
        return step(NO_PRIVATE, self.one(range(len(self.privates))))

    def private_more(self):
        shared = [place for place in self.loop.places if place.name not in self.privates]
        mostly = [place for place in shared if place.name in self.loop.assigned]
        return step(PRIVATE, self.one(mostly if mostly and self.chance(0.7) else shared).number)

    def claim_dropped(self):
        return step(NO_CLAIM, self.one(range(len(self.relations))))

    def another_claim(self):
        a, b = self.one(self.relations)[:2]
        claim = self.one(CLAIMS)
        value = self.random.randint(1, 3) if claim.startswith("distance") else self.one((1, 1, 2))
        return step(CLAIM, *((b, a) if self.chance(0.15) else (a, b)), CLAIMS[claim], value)

    def statement_dropped(self):
        return step(DROP, self.place("plain", "loop", "choose"))


KINDS = ("await_dropped", "await_moved_forward", "await_moved_back", "await_moved_anywhere", "await_of_another_event",
         "await_at_another_distance", "await_more", "advance_dropped", "advance_dropped_with_await", "advance_doubled",
         "advance_moved_forward", "advance_moved_back", "advance_moved_anywhere", "made_else_dropped",
         "made_else_emptied", "made_else_of_another_event", "private_dropped", "private_more", "claim_dropped",
         "another_claim", "statement_dropped")


def change(loop, seed, things):
    """A change of so many things of a loop's plan, and the kind of the first; None where there is none of
    this kind."""
    choose = random.Random(seed)
    kinds = [choose.choice(KINDS) for _ in range(things)]
    try:
        steps = [getattr(Changer(loop, choose.random()), kind)() for kind in kinds]
    except LookupError:
        return None
    return kinds[0].replace("_", " "), [one for some in steps for one in some]


def changes(loop, seed, count, things):
    """At most so many changes of a loop's plan, each of another kind."""
    found = {}
    for trial in range(seed * 1000, seed * 1000 + 10 * count):
        made = change(loop, trial, things)
        if made and len(found) < count:
            found.setdefault(*made)
    return list(found.items())
