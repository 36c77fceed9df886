"""Small random loops, as sources."""

import random

HEADS = ("I=1,8", "I=1,8", "I=1,3", "I=1,N", "I=1,N", "I=M,N", "I=8,1,-1", "I=N,1,-1", "I=1,9,2", "I=1,N,2", "I=1,2",
         "I=5,5", "I=N,M,-2")
PLAIN = ("I", "I", "I", "I-1", "I-1", "I+1", "I+2", "I-2", "2*I", "2*I+1", "2*I-2", "I+M", "I-M", "I+N-1", "M", "3",
         "1-I", "-I", "K", "I+K", "J", "J+1", "IX(I)", "I+IX(M)", "MAX(I,2)", "I/2", "I*M", "3*I", "MOD(I,3)")
FIRSTS = ("I", "I", "I-1", "I+1", "M", "J", "2*I", "I-2", "K")
SECONDS = ("J", "J", "J", "J-1", "I", "2", "M", "K", "I+1")


class LoopMaker:
    """Makes one random source with a loop or two."""

    def __init__(self, seed):
        self.random = random.Random(seed)
        self.label = 10
        self.lines = []
        self.depth = 0
        self.size = 0
        self.active = []

    def chance(self, share):
        return self.random.random() < share

    def put(self, text, label=None):
        self.lines.append(f"{label or '':>5} {text}")

    def scalar(self, names):
        """One of these that is no variable of a DO around."""
        return self.random.choice([name for name in names if name not in self.active])

    def element(self):
        name = self.random.choice(("A", "A", "A", "B", "C", "C", "IX"))
        if name == "C":
            return f"C({self.random.choice(FIRSTS)},{self.random.choice(SECONDS)})"
        return f"{name}({self.random.choice(PLAIN)})"

    def operand(self):
        if self.chance(0.45):
            return self.element()
        return self.random.choice(("I", "K", "K", "L", "J", "M", "1", "2"))

    def value(self):
        if self.chance(0.5):
            return self.operand()
        return f"{self.operand()}{self.random.choice('+-')}{self.operand()}"

    def condition(self):
        relation = self.random.choice((".LT.", ".EQ.", ".GE."))
        return f"{self.operand()}{relation}{self.random.choice(('2', 'M', 'K', 'I'))}"

    def simple(self):
        """A statement that may follow a logical IF."""
        choice = self.random.random()
        if choice < 0.6:
            return f"{self.element()}={self.value()}"
        if choice < 0.85:
            return f"{self.scalar('KKL')}={self.value()}"
        return f"PRINT *,{self.operand()}"

    def block(self, most):
        for _ in range(self.random.randint(1, most)):
            self.statement()

    def choice(self):
        self.put(f"IF ({self.condition()}) THEN")
        self.block(2)
        if self.chance(0.15):
            self.put("STOP")
        if self.chance(0.2):
            self.put(f"ELSE IF ({self.condition()}) THEN")
            self.block(1)
        if self.chance(0.5):
            self.put("ELSE")
            self.block(2)
            if self.chance(0.1):
                self.put("STOP")
        self.put("END IF")

    def inner(self):
        self.label += 10
        label = self.label
        limits = self.random.choice(("1,4", "1,N", "2,M", "I,N"))
        variable = self.scalar("JJJL")
        self.put(f"DO {label} {variable}={limits}")
        self.active.append(variable)
        self.block(2)
        self.active.pop()
        self.put("CONTINUE", label)

    def statement(self):
        self.size += 1
        choice = self.random.random()
        if self.depth < 2 and self.size < 7 and choice < 0.35:
            self.depth += 1
            if choice < 0.22:
                self.choice()
            else:
                self.inner()
            self.depth -= 1
        elif choice < 0.42:
            self.put(f"IF ({self.condition()}) {'STOP' if self.chance(0.15) else self.simple()}")
        else:
            self.put(self.simple())

    def source(self):
        self.put("INTEGER A(99),B(99),C(9,9),IX(99)")
        for _ in range(self.random.choice((1, 1, 2))):
            self.label += 10
            label = self.label
            self.size = 0
            head = "I=1,N,M" if self.chance(0.03) else self.random.choice(HEADS)
            self.put(f"DO {label} {head}")
            self.block(4)
            self.put("CONTINUE", label)
        self.put("END")
        return "".join(line + "\n" for line in self.lines)
