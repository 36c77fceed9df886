"""Random programs with loops whose iterations are of middling length, which threads make in chunks."""

import random

SUMS = ("S=S+A(I+K)*A(K)", "S=S+A(X(I))+K", "S=MAX(S,A(I+K))-K", "S=S+MOD(S+A(K),7)", "S=S+C(X(K))")
TRIPS = ("3", "6", "10", "20", "40", "MOD(I,20)+2", "X(I)/50+2")
FIRST = 70


class MiddlingMaker:
    """Makes one random source: an opened loop of 100 to 900 iterations, once or some times, each of which
    sums up some elements, and stores to arrays, with or without a wait."""

    def __init__(self, seed):
        self.random = random.Random(seed)
        self.last = FIRST + self.random.choice((100, 200, 300, 500, 900))
        self.distance = self.random.choice((0, 0, 0, 1, 2, 7, 64, 65))

    def chance(self, share):
        return self.random.random() < share

    def some_iteration(self):
        return self.random.randint(FIRST, self.last)

    def before(self):
        choose = self.random
        return [
            "      INTEGER A(2000),B(2000),C(2000),X(2000),S,T,K,I,J",
            "      DO 10 I=1,2000",
            f"      A(I)=MOD(I*{choose.randint(3, 7919)},{choose.randint(5, 2001)})",
            f"      X(I)=MOD(I*{choose.randint(3, 7919)},{choose.choice((7, 50, 1000, 1999))})+1",
            "      C(I)=0",
            "   10 B(I)=I",
        ]

    def sums(self):
        lines = [f"      S=B(I-{self.distance})" if self.distance and self.chance(0.5) else "      S=0"]
        lines.append(f"      DO 30 K=1,{self.random.choice(TRIPS)}")
        if self.chance(0.3):
            lines.append(f"      IF (A(I+K).GT.{self.random.randint(0, 900)}) S=S+1")
        return lines + [f"   30 {self.random.choice(SUMS)}"]

    def ends(self):
        """What may end the program, or print, in some iterations."""
        lines = []
        if self.chance(0.15):
            fault = self.some_iteration()
            lines.append(f"      IF (I.EQ.{fault}) S=S/(I-{fault})")
        if self.chance(0.1):
            lines.append(f"      IF (I.EQ.{self.some_iteration()}) STOP")
        if self.chance(0.07):
            lines.append(f"      IF (MOD(I,{self.random.choice((50, 97, 1))}).EQ.0) PRINT *,I,S")
        return lines

    def stores(self):
        choice = self.random.random()
        if choice < 0.5:
            return ["      B(I)=S"]
        if choice < 0.65:
            return ["      C(X(I))=S"]
        if choice < 0.8:
            return [f"      B(I)=S+B(I-{max(self.distance, 1)})"]
        return ["      C(I)=S", "      B(I+1)=C(I)-B(I)"]

    def loop(self):
        head = f"      DO 40 I={FIRST},{self.last}"
        return [head] + self.sums() + self.ends() + self.stores() + ["   40 CONTINUE"]

    def source(self):
        rounds = self.random.choice((1, 1, 2, 3))
        loop = self.loop()
        if rounds > 1:
            loop = [f"      DO 50 J=1,{rounds}"] + loop + ["   50 CONTINUE"]
        after = [
            "      T=0",
            "      DO 60 I=1,2000",
            "   60 T=MOD(T*31+ABS(MOD(B(I),9973))+ABS(MOD(C(I),9973)),1000003)",
            "      PRINT *,T,(0+S)",
            "      END",
        ]
        return "\n".join(self.before() + loop + after) + "\n"
