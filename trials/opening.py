"""Random programs most of whose loops open, as trees of the same kind as those of `programs`."""

from programs import LARGEST, Maker, shown

ARRAYS = {"A": [(-4, 16)], "B": [(0, 14)], "C": [(0, 5), (0, 5)], "LIST": [(1, 12)]}


class OpenMaker(Maker):
    """Makes one random program. Its loops assign elements of iterations before and behind their own,
    scalars of each iteration or of all, and print, stop and fault in between. With `endless` a few have
    iterations that would turn for ages, but for one before them that faults or stops."""

    def __init__(self, seed, endless=False):
        super().__init__(seed)
        self.endless = endless
        self.index = None
        self.inner = None

    def declarations(self):
        self.constants = {"LIMIT": self.random.randint(2, 6), "MSHIFT": self.random.randint(-3, 3)}
        result = [{"kind": "parameter", "values": dict(self.constants)}]
        for name, bounds in ARRAYS.items():
            self.arrays[name] = bounds
            result.append({"kind": "array", "name": name, "bounds": bounds, "typed": name != "LIST"})
        return result

    def program(self):
        declarations = self.declarations()
        body = []
        if self.chance(0.3):
            body.append({"kind": "read", "items": self.random.sample(["M", "NEXT", "B(3)", "K"], 2)})
        for _ in range(self.random.choice((1, 1, 2, 2, 3))):
            if self.chance(0.5):
                body.append(self.simple())
            if self.chance(0.2):
                body.append(self.filled())
            if self.chance(0.15):
                body.append(self.statement(1))
            body += self.opening()
        if self.endless and self.chance(0.06):
            body.append(self.turning())
        return {"declarations": declarations, "body": body, "shown": shown(declarations),
                "input": self.input(), "style": self.random.randrange(1 << 30)}

    # ---- loops that open

    def filled(self):
        """A loop that fills the index array."""
        value = ["+", ["call", "MOD", ["*", "I", self.random.choice((1, "I", 3))], self.random.randint(2, 6)], 1]
        fill = {"kind": "assign", "target": ["element", "LIST", "I"], "value": value}
        return {"kind": "loop", "name": "I", "first": 1, "last": 12, "step": None, "body": [fill], "ends": "statement"}

    def opening(self):
        """A loop, behind what it wants."""
        self.index = self.random.choice(("I", "I", "I", "N", "KOUNT"))
        self.active.append(self.index)
        step = self.random.choice((None, None, None, None, None, 1, 2, 3, -1, -2, "MSHIFT"))
        trips = self.random.choice((0, 1, 2, 3, 4, 5, 6, 7, 8, 10, 12))
        first, last = self.limits(step, trips)
        before = []
        if self.chance(0.25):
            before.append({"kind": "assign", "target": "L", "value": last})
            last = "L"
            self.active.append("L")
        body = [self.inside(0) for _ in range(self.random.randint(1, 5))]
        loop = {"kind": "loop", "name": self.index, "first": first, "last": last, "step": step, "body": body,
                "ends": self.random.choice(("continue", "statement", "shared"))}
        self.active.clear()
        self.index = None
        return before + [loop]

    def turning(self):
        """A loop in which the iterations behind one that faults or stops turn for ages."""
        self.index = "I"
        self.active += ["I", "J", "NEXT"]
        far = self.random.randint(1, 4)
        ages = {"kind": "logical", "condition": [".GT.", "I", far],
                "inner": {"kind": "assign", "target": "NEXT", "value": LARGEST - 1}}
        turned = self.random.choice(({"kind": "assign", "target": "K", "value": ["call", "MOD", ["+", "K", "J"], 1000]},
                                     {"kind": "assign", "target": self.near(), "value": self.mixed()},
                                     {"kind": "print", "word": "PRINT *", "items": [self.safe()]}))
        turns = {"kind": "loop", "name": "J", "first": 1, "last": "NEXT", "step": None, "body": [turned],
                 "ends": "continue"}
        breaks = self.random.choice((
            {"kind": "logical", "condition": [".EQ.", "I", far], "inner": {"kind": "stop", "text": "STOP"}},
            {"kind": "assign", "target": "M", "value": ["/", 5, ["-", "I", far]]},
            {"kind": "logical", "condition": [".EQ.", "I", far],
             "inner": {"kind": "assign", "target": ["element", "B", 15], "value": 1}}))
        body = [self.inside(1), {"kind": "assign", "target": "NEXT", "value": 1}, ages, turns, breaks]
        self.active.clear()
        return {"kind": "loop", "name": "I", "first": 1, "last": far + self.random.randint(1, 6), "step": None,
                "body": body, "ends": "continue"}

    def limits(self, step, trips):
        width = {None: 1, "MSHIFT": self.constants["MSHIFT"]}.get(step, step) or 1
        first = self.random.choice((1, 1, 1, 0, 2, -1)) if width > 0 else self.random.choice((10, 8, 6, 3))
        last = first + width * (trips - 1)
        return first, max(-4, min(last, 16))

    def near(self):
        """An element near the iteration's own."""
        name = self.random.choice("AAAABBC")
        if name == "C":
            row = ["call", "ABS", ["call", "MOD", self.index, 6]]
            if self.chance(0.3):
                row = self.random.randint(0, 5)
            return ["element", "C", row, self.inner if self.inner and self.chance(0.7) else self.random.randint(0, 5)]
        choice = self.random.random()
        if choice < 0.72:
            return ["element", name, self.shifted(self.random.choice((0, 0, 0, -1, -1, -2, -3, 1, 2, 4)), name)]
        if choice < 0.8:
            return ["element", name, self.random.choice((1, 2, 7))]
        if choice < 0.9:
            place = ["+", ["call", "MOD", ["call", "ABS", self.index], 12], 1]
            return ["element", name, ["call", "MOD", ["call", "ABS", ["element", "LIST", place]], 12]]
        if self.inner:
            return ["element", name, self.inner]
        return ["element", name, ["call", "ABS", ["call", "MOD", self.index, 5]]]

    def shifted(self, shift, name):
        """A subscript so far from the loop's variable. Some are out of bounds, but rarely."""
        if name == "B" and self.chance(0.5):
            return ["call", "ABS", ["call", "MOD", self.with_shift(shift), 15]]
        return self.with_shift(shift)

    def with_shift(self, shift):
        if shift == 0:
            return self.index
        return ["+" if shift > 0 else "-", self.index, abs(shift)]

    def operand(self):
        choice = self.random.random()
        if choice < 0.5:
            return self.near()
        if choice < 0.7:
            return self.index
        if choice < 0.9:
            return self.random.choice(("K", "M", "NEXT", "LIMIT", "J" if self.inner == "J" else "M"))
        return self.random.randint(0, 9)

    def safe(self):
        """An operand without a fault."""
        if self.chance(0.5):
            return ["element", "B", ["call", "ABS", ["call", "MOD", self.index, 15]]]
        return self.random.choice((self.index, "K", "M", "NEXT", "LIMIT", 7))

    def mixed(self):
        value = [self.random.choice("+-"), self.operand(), self.operand()]
        if self.chance(0.3):
            value = ["+", value, ["*", self.operand(), self.random.randint(2, 5)]]
        return ["call", "MOD", value, self.random.choice((1000, 997, 31))]

    def asked(self):
        """A condition whose operands have no fault."""
        choice = self.random.random()
        if choice < 0.5:
            divisor = self.random.choice((2, 3))
            return [".EQ.", ["call", "MOD", self.index, divisor], self.random.randint(0, divisor - 1)]
        if choice < 0.8:
            return [self.random.choice((".LT.", ".GE.", ".NE.")), self.index, self.random.randint(1, 8)]
        return [self.random.choice((".LT.", ".GT.")), self.random.choice(("K", "M", "NEXT")), self.random.randint(0, 50)]

    def own_scalar(self):
        return self.random.choice([name for name in ("K", "M", "NEXT", "J") if name not in self.active])

    def plain(self):
        """A statement that may follow a logical IF."""
        choice = self.random.random()
        if choice < 0.55:
            return {"kind": "assign", "target": self.near(), "value": self.mixed()}
        if choice < 0.75:
            return {"kind": "assign", "target": self.own_scalar(), "value": self.mixed()}
        if choice < 0.93:
            items = [self.safe() for _ in range(self.random.randint(1, 3))]
            return {"kind": "print", "word": self.random.choice(("PRINT *", "WRITE(*,*)")), "items": items}
        return self.breaking()

    def breaking(self):
        """A statement that faults, or that may stop, in some iteration at most."""
        choice = self.random.random()
        far = self.random.randint(2, 11)
        if choice < 0.35:
            return {"kind": "logical", "condition": [".EQ.", self.index, far],
                    "inner": {"kind": "stop", "text": self.random.choice(("STOP", "STOP 7", "STOP 'DONE'"))}}
        if choice < 0.6:
            value = ["/", self.random.choice((10, "LIMIT", self.index)), ["-", self.index, far]]
            return {"kind": "assign", "target": self.own_scalar(), "value": value}
        if choice < 0.75:
            value = ["call", "MOD", ["+", LARGEST - far, self.index], 1000]
            return {"kind": "assign", "target": self.own_scalar(), "value": value}
        if choice < 0.9:
            return {"kind": "assign", "target": ["element", "B", ["*", self.index, self.random.choice((2, 3))]], "value": 1}
        value = ["element", "A", ["*", self.index, self.random.choice((2, 3))]]
        return {"kind": "assign", "target": self.own_scalar(), "value": value}

    def inside(self, depth):
        """A statement of a loop that opens."""
        choice = self.random.random()
        if depth < 2 and choice < 0.16:
            return self.arms(depth)
        if depth < 2 and choice < 0.3 and self.inner is None:
            return self.nested(depth)
        if choice < 0.38:
            inner = self.plain()
            return inner if inner["kind"] == "logical" else {"kind": "logical", "condition": self.asked(), "inner": inner}
        if choice < 0.4 and depth == 0:
            return {"kind": "read", "items": [self.own_scalar()]}
        return self.plain()

    def arms(self, depth):
        arms = [(self.asked(), [self.inside(depth + 1) for _ in range(self.random.randint(1, 2))])]
        if self.chance(0.25):
            arms.append((self.asked(), [self.inside(depth + 1)]))
        if self.chance(0.45):
            arms.append((None, [self.inside(depth + 1) for _ in range(self.random.randint(0, 2))]))
        return {"kind": "if", "arms": arms}

    def nested(self, depth):
        self.inner = "J"
        self.active.append("J")
        body = [self.inside(depth + 1) for _ in range(self.random.randint(1, 2))]
        self.active.remove("J")
        self.inner = None
        first, last = self.random.choice(((0, 5), (1, 4), (1, 2), (3, 1), (0, "LIMIT")))
        step = self.random.choice((None, None, None, 2))
        if last == "LIMIT":
            last = ["call", "MIN", "LIMIT", 5]
        return {"kind": "loop", "name": "J", "first": first, "last": last, "step": step, "body": body,
                "ends": "continue"}
