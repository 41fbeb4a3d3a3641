"""Sequents about as large as is allowed, with scripts that pass the limit or stay just below it."""
from random_cases import Maker, Scope, placed

MOST_PARTS = 1_000_000
DEEPEST = 4_000


class SizedMaker(Maker):
    """Makes such cases of one file of declarations."""

    def balanced(self, parts):
        """A term of exactly this odd number of parts."""
        mk = self.ref.term.mk
        if parts == 1:
            return self.ref.term.Var("s")
        left = (parts - 1) // 2
        left -= 1 - left % 2
        return mk("add", self.balanced(left), self.balanced(parts - 1 - left))

    def doubling(self, times, left):
        """A sequent, and the front of a script that doubles a hypothesis so often. `left` is the room that is left then."""
        term = self.ref.term
        u, v = term.Var("b"), term.Var("z")
        grow = self.rng.choice([lambda t: term.mk("add", t, t), lambda t: term.mk("mul", t, t)])
        hyps = {"there": term.Eq(u, grow(v)), "back": term.Eq(v, grow(u))}
        copies = (MOST_PARTS - left) // (2 ** (times + 1) + 1)
        made = u
        for _ in range(copies - 1):
            made = term.mk("add", made, u) if self.rng.random() < 0.5 else term.mk("add", u, made)
        hyps["large"] = term.Le(made, term.Num(0))
        variables = {"s": self.d.node_sort(), "b": (0, 1), "z": (-(1 << 63), (1 << 63) - 1)}
        s = self.ref.kernel.Sequent(self.d, variables, {}, hyps, term.TRUE, self.own)
        ways = ["there" if i % 2 == 0 else "back" for i in range(times)]
        return s, [("rewrite", None, way, "large") for way in ways]

    def after(self, s, rules):
        """The sequent that these rules leave."""
        for rule in rules:
            s = self.ref.kernel.step(s, (*rule, None))[0][0]
        return s

    def filled(self, s, rules, left):
        """The sequent with a hypothesis that leaves exactly this room once the rules are through."""
        term = self.ref.term
        room = MOST_PARTS - left - sum(f.size for f in self.after(s, rules).formulas())
        if room < 5:
            return s
        s.hyps["filler"] = term.Le(self.balanced(room - 2 - (1 - room % 2)), term.Num(0))
        if room % 2 == 0:
            s.hyps["filler"] = term.Not(s.hyps["filler"])
        return s

    def large(self):
        """A sequent that grows to about 1,000,000 parts, and a script that ends some rules later."""
        left = self.rng.choice([-1, 0, 0, 1, 2, 7, 30, 300])
        s, rules = self.doubling(self.rng.choice([8, 10, 12]), max(left, 0) + 100)
        s.hyps["bad"] = self.ref.term.FALSE
        s.hyps["more"] = self.formula(Scope(s.vars, {}), 2)
        return self.through(self.filled(s, rules, left), rules, 1)

    def nested(self, times, step):
        """A term over the variable b that is so deep, by so many rewrites of it, as a sequent and the front of a script."""
        term = self.ref.term
        u, v = term.Var("b"), term.Var("z")

        def over(t):
            for _ in range(step):
                t = term.mk("add", t, term.ZERO) if self.rng.random() < 0.5 else term.mk("sub", term.ZERO, t)
            return t
        hyps = {"there": term.Eq(u, over(v)), "back": term.Eq(v, over(u)), "bad": term.FALSE}
        hyps["large"] = term.Le(u, term.ZERO)
        variables = {"s": self.d.node_sort(), "b": (0, 1), "z": (-(1 << 63), (1 << 63) - 1)}
        s = self.ref.kernel.Sequent(self.d, variables, {}, hyps, term.TRUE, self.own)
        ways = ["there" if i % 2 == 0 else "back" for i in range(times)]
        return s, [("rewrite", None, way, "large") for way in ways]

    def deep(self):
        """A sequent with a formula that grows to about 4,000 levels, and a script that ends some rules later."""
        term = self.ref.term
        step = self.rng.choice([150, 190])
        s, rules = self.nested(DEEPEST // step - 1, step)
        first = term.Var("b")
        for _ in range(DEEPEST - self.after(s, rules).hyps["large"].depth + self.rng.choice([-1, 0, 0, 1])):
            first = term.mk("add", first, term.ZERO)
        s.hyps["large"] = term.Le(first, term.ZERO)
        return self.through(s, rules, 3)

    def through(self, s, rules, depth):
        """The sequent, and the script of these rules and some more, so deep."""
        last, path = s, []
        for rule in rules:
            path.append(rule)
            last = self.ref.kernel.step(last, (*rule, None))[0][0]
            if last.too_big():
                break
        self.brief = depth == 1
        script = ("close", None) if last.too_big() else self.grown(last, depth)
        for rule in reversed(path):
            script = (*rule, script)
        return s, placed(script, self.rng)
