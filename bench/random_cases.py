"""Random sequents, scripts and certificates, most of them nearly right, beside a reference of the notation.

A script is grown along its sequent: each rule is one that passes there, but for a small share. At the ends the
formulas that earlier rules left are asked for once more, part by part, so that a rule that leaves another formula is
seen.
"""
import itertools

from answered import HEADS
from case_text import SHAPES

EDGES = [1 << 63, (1 << 63) - 1, 1 << 62, 3037000500, 4294967296, 2147483647]
NAMES = ["x", "y", "m", "q"]


class Scope:
    """The names that a formula may use: variables, and messages with their label and tag."""

    def __init__(self, variables, messages):
        self.variables, self.messages = list(variables), dict(messages)

    def with_variable(self, x):
        return Scope(self.variables + [x], {m: v for m, v in self.messages.items() if m != x})

    def with_message(self, m, label, tag):
        return Scope([x for x in self.variables if x != m], {**self.messages, m: (label, tag)})


class Maker:
    """Makes the cases of one file of declarations."""

    def __init__(self, reference, rng, d):
        self.ref, self.rng, self.d = reference, rng, d
        self.own = rng.choice(d.protocols) if rng.random() < 0.2 else None
        self.labels = ["self"] if self.own else list(range(len(d.labels)))
        self.fresh = 0
        # Whether scripts end without asking for formulas once more, which copies the whole sequent each time.
        self.brief = False

    # -- names, terms and formulas

    def protocol(self, label):
        return self.own if label == "self" else self.d.proto(label)

    def new_name(self):
        self.fresh += 1
        return "z%d" % self.fresh

    def maybe_taken(self, s):
        """A new name, or now and then one that stands somewhere."""
        r = self.rng.random()
        if r < 0.88:
            return self.new_name()
        if r < 0.92:
            return self.rng.choice(NAMES)
        bound = sorted(set().union(*[f.bv for f in s.formulas()]))
        return self.rng.choice(self.rng.choice([list(s.vars), list(s.hyps), bound or NAMES, list(s.msgs) or NAMES]))

    def bound_name(self, scope):
        if self.rng.random() < 0.8:
            return self.new_name()
        return self.rng.choice(NAMES)

    def number(self):
        term, rng = self.ref.term, self.rng
        r = rng.random()
        if r < 0.03:
            edge = rng.choice(EDGES)
            value = rng.choice([edge, -edge, edge - 1, 1 - edge])
            return term.Num(max(-(1 << 63), min((1 << 63) - 1, value)))
        if r < 0.15:
            k = rng.randrange(len(self.d.nodes))
            return term.Word(self.d.nodes[k], k)
        return term.Num(rng.choice([0, 0, 1, 1, 2, -1, 3]))

    def part(self, scope):
        m = self.rng.choice(list(scope.messages))
        part = self.rng.choice(["id", "from", "to", "live", "arg"])
        return self.ref.term.Msg(m, part, self.rng.choice([0, 0, 1, 7]) if part == "arg" else 0)

    def term(self, scope, depth):
        mk, rng = self.ref.term.mk, self.rng
        r = rng.random()
        if depth <= 0 or r < 0.25:
            if scope.variables and rng.random() < 0.6:
                return self.ref.term.Var(rng.choice(scope.variables))
            return self.number()
        if r < 0.45 and scope.messages:
            return self.part(scope)
        if r < 0.65 and self.labels:
            return self.read(scope, depth)
        if r < 0.7 and self.labels:
            return mk("len", rng.choice(self.labels))
        kind = rng.choice(["add", "sub", "mul", "if", "if"])
        return mk(kind, *[self.term(scope, depth - 1) for _ in range(4 if kind == "if" else 2)])

    def read(self, scope, depth):
        label = self.rng.choice(self.labels)
        fields = self.protocol(label).fields
        if not fields:
            return self.number()
        k = self.rng.randrange(len(fields))
        if fields[k].row:
            return self.ref.term.mk("row", label, k, self.term(scope, depth - 2), self.term(scope, depth - 2))
        return self.ref.term.mk("field", label, k, self.term(scope, depth - 2))

    def comparison(self, scope, depth):
        kind = self.rng.choice(["eq", "eq", "lt", "le", "le"])
        left = self.term(scope, depth)
        right = left if self.rng.random() < 0.05 else self.term(scope, depth - 1)
        return self.ref.term.mk(kind, left, right)

    def formula(self, scope, depth):
        mk, rng = self.ref.term.mk, self.rng
        r = rng.random()
        if depth <= 0 or r < 0.3:
            return mk(rng.choice(["true", "false"])) if r < 0.03 else self.comparison(scope, depth)
        if r < 0.4:
            return mk("not", self.formula(scope, depth - 1))
        if r < 0.7:
            kind = rng.choice(["and", "and", "or", "or", "implies"])
            return mk(kind, self.formula(scope, depth - 1), self.formula(scope, depth - 1))
        x = self.bound_name(scope)
        labels = [label for label in self.labels if self.protocol(label).tags]
        if r < 0.85 or not labels:
            return mk(rng.choice(["all", "all", "some"]), x, self.formula(scope.with_variable(x), depth - 1))
        label = rng.choice(labels)
        tag = rng.randrange(len(self.protocol(label).tags))
        body = self.formula(scope.with_message(x, label, tag), depth - 1)
        return mk(rng.choice(["each", "each", "any"]), x, label, tag, body)

    def changed(self, f):
        """The formula with one part of it changed."""
        mk, N = self.ref.term.mk, self.ref.term.N
        places = []

        def walk(n, path):
            places.append((n, path))
            for i, part in enumerate(n.a):
                if isinstance(part, N):
                    walk(part, path + (i,))
        walk(f, ())
        n, path = self.rng.choice(places)
        new = self.near(n)

        def put(old, path):
            if not path:
                return new
            parts = list(old.a)
            parts[path[0]] = put(parts[path[0]], path[1:])
            return mk(old.k, *parts)
        return put(f, path)

    def near(self, n):
        """A part that differs from this one a little."""
        mk = self.ref.term.mk
        if n.k == "num":
            return mk("num", n.a[0] - 1 if n.a[0] > 0 else n.a[0] + 1)
        if n.k == "word":
            return mk("num", n.a[1])
        swap = {"eq": "le", "le": "lt", "lt": "le", "and": "or", "or": "and", "all": "some", "some": "all",
                "each": "any", "any": "each", "add": "sub", "sub": "add", "true": "false", "false": "true"}
        if n.k in swap:
            return mk(swap[n.k], *n.a)
        if n.k in ("implies", "mul"):
            return mk(n.k, n.a[1], n.a[0])
        if n.k == "if":
            return mk("if", n.a[0], n.a[1], n.a[3], n.a[2])
        if n.k == "not":
            return n.a[0]
        if n.k == "msg" and n.a[1] == "arg":
            return mk("msg", n.a[0], "arg", n.a[2] + 1)
        if n.k == "msg":
            return mk("msg", n.a[0], "to" if n.a[1] != "to" else "from", 0)
        return self.number()

    # -- sequents

    def sequent(self):
        """A clean sequent."""
        while True:
            s = self.maybe_unclean()
            if s.clean():
                return s

    def maybe_unclean(self):
        term, rng = self.ref.term, self.rng
        variables = {"s": self.d.node_sort(), "b": (0, 1), "z": (-(1 << 63), (1 << 63) - 1)}
        messages = {}
        for m in ("k", "j"):
            label = rng.choice(self.labels)
            tags = self.protocol(label).tags
            if tags and rng.random() < 0.7:
                messages[m] = (label, rng.randrange(len(tags)))
        if len(messages) == 2 and rng.random() < 0.5:
            messages["j"] = messages["k"]
        scope = Scope(variables, messages)
        hyps = {"h%d" % i: self.hypothesis(scope, messages) for i in range(rng.choice([1, 2, 3, 4]))}
        goal = self.formula(scope, 3)
        r = rng.random()
        if r < 0.15:
            goal = term.FALSE
        elif r < 0.3:
            goal = rng.choice(list(hyps.values()))
        elif r < 0.4:
            goal = self.comparison(scope, 2)
        elif r < 0.45:
            goal = term.Not(self.comparison(scope, 2))
        if rng.random() < 0.6:
            hyps["bad"] = term.FALSE
        return self.ref.kernel.Sequent(self.d, variables, messages, hyps, goal, self.own)

    def spoiled(self):
        """A sequent that is mostly not clean, by one change."""
        rng, mk = self.rng, self.ref.term.mk
        s = self.maybe_unclean()
        bound = sorted(set().union(*[f.bv for f in s.formulas()]))
        change = rng.randrange(6)
        if change == 0:
            s.vars[rng.choice(bound or NAMES)] = (0, 1)
        elif change == 1:
            s.msgs[rng.choice(list(s.vars) + bound)] = (self.labels[0], 0)
        elif change == 2:
            del s.vars[rng.choice(list(s.vars))]
        elif change == 3 and s.msgs:
            del s.msgs[rng.choice(list(s.msgs))]
        elif change == 4:
            h = rng.choice(list(s.hyps))
            s.hyps[h] = mk(rng.choice(["all", "some"]), rng.choice(bound or NAMES), s.hyps[h])
        return s

    def hypothesis(self, scope, messages):
        term, rng = self.ref.term, self.rng
        r = rng.random()
        if r < 0.08 and len(messages) == 2:
            return term.Eq(term.Msg("j", "id"), term.Msg("k", "id"))
        if r < 0.14:
            return term.Eq(self.term(scope, 1), self.term(scope, 1))
        if r < 0.2:
            tested, other = self.term(scope, 1), self.term(scope, 1)
            pair = (tested, other) if rng.random() < 0.5 else (other, tested)
            made = term.mk("if", *pair, self.term(scope, 2), self.term(scope, 1))
            same = term.Eq(tested, other)
            return term.And(same if rng.random() < 0.5 else term.Not(same), term.Le(made, term.Num(1)))
        if r < 0.35:
            return self.comparison(scope, 2)
        return self.formula(scope, rng.choice([1, 2, 3]))

    # -- rules

    def given(self, s, f):
        """What is given to the formula, which is mostly one that quantifies."""
        rng = self.rng
        names = list(s.vars) + list(s.msgs)
        fitting = [m for m, of in s.msgs.items() if f.k in ("each", "any") and of == (f.a[1], f.a[2])]
        if fitting and rng.random() < 0.7:
            return ("name", rng.choice(fitting))
        if names and rng.random() < 0.75:
            return ("name", rng.choice(names))
        return ("term", rng.choice([self.number(), self.term(self.scope_of(s), 1)]))

    def scope_of(self, s):
        return Scope(s.vars, s.msgs)

    def hyp_of(self, s, *kinds):
        """The name of a hypothesis of such a kind, where there is one and mostly."""
        fitting = [h for h, f in s.hyps.items() if f.k in kinds]
        if fitting and self.rng.random() < 0.9:
            return self.rng.choice(fitting)
        r = self.rng.random()
        if r < 0.9 and s.hyps:
            return self.rng.choice(list(s.hyps))
        return "goal" if r < 0.95 else self.new_name()

    def equation(self, s):
        fitting = [h for h, f in s.hyps.items() if self.is_equation(f)]
        return self.rng.choice(fitting) if fitting and self.rng.random() < 0.9 else self.hyp_of(s, "eq")

    def equation_and_target(self, s, fits):
        """An equation and what it may change, mostly something where it `fits`."""
        rng = self.rng
        pairs = [(h, at) for h in s.hyps for at in ["goal", *s.hyps] if h != at and self.is_equation(s.hyps[h])]
        fitting = [(h, at) for h, at in pairs if fits(s.hyps[h], s.goal if at == "goal" else s.hyps[at])]
        if fitting and rng.random() < 0.9:
            return rng.choice(fitting)
        h = self.equation(s)
        return h, rng.choice(["goal", "goal", self.hyp_of(s), self.hyp_of(s), h])

    @staticmethod
    def is_equation(f):
        return f.k == "eq" or f.k == "not" and f.a[0].k == "eq"

    def parts_of(self, f):
        """The terms and formulas that stand in it."""
        found, left = set(), [f]
        while left:
            n = left.pop()
            if n not in found:
                found.add(n)
                left += [part for part in n.a if isinstance(part, self.ref.term.N)]
        return found

    def may_rewrite(self, equation, target):
        if equation.k != "eq":
            return False
        left, right = equation.a
        if left.k == "msg" and right.k == "msg" and left.a[1] == right.a[1] == "id":
            return ("m", left.a[0]) in target.fv
        return left in self.parts_of(target)

    def may_reduce(self, equation, target):
        tested = set((equation.a[0] if equation.k == "not" else equation).a)
        return any(n.k == "if" and {n.a[0], n.a[1]} == tested for n in self.parts_of(target))

    def own_formula(self, s):
        """A formula of a rule's own. Now and then it has a name that the sequent doesn't have, or binds one that it has."""
        rng, scope = self.rng, self.scope_of(s)
        r = rng.random()
        tests = self.ref.find.ifs(s)
        if r < 0.35 and tests:
            tested, other = rng.choice(tests)
            return self.ref.term.Eq(tested, other)
        if r < 0.45 and s.hyps:
            return rng.choice(s.formulas())
        if r < 0.48:
            scope = scope.with_variable("stranger")
        elif r < 0.51 and s.vars:
            x = rng.choice(list(s.vars))
            return self.ref.term.mk("all", x, self.formula(scope, 1))
        elif r < 0.54:
            x = self.new_name()
            inner = self.ref.term.mk("some", x, self.formula(scope.with_variable(x), 1))
            return self.ref.term.mk("all", x, inner)
        return self.formula(scope, rng.choice([1, 2, 2]))

    def own_term(self, s):
        rng = self.rng
        r = rng.random()
        if r < 0.2 and self.labels:
            return self.ref.term.mk("len", rng.choice(self.labels))
        if r < 0.35 and s.msgs:
            return self.ref.term.Msg(rng.choice(list(s.msgs)), "id")
        if r < 0.4:
            return self.ref.term.Var("stranger")
        return self.term(self.scope_of(s), rng.choice([0, 1, 2]))

    def certificate(self, s, depth):
        rng = self.rng
        r = rng.random()
        if depth == 0 or r < 0.4:
            return ("goal",) if rng.random() < 0.4 else ("use", self.hyp_of(s, "le", "lt", "eq"))
        if r < 0.85:
            factors = [1, 1, 1, -1, 2, 0, 3, rng.choice(EDGES[1:])]
            return ("add", [(rng.choice(factors), self.certificate(s, depth - 1)) for _ in range(rng.choice([1, 2, 2, 3]))])
        return ("div", rng.choice([1, 2, 2, 3, 0, -1]), self.certificate(s, depth - 1))

    def certificates(self, s):
        """Certificates for the goal: such as close it where they are found, and mostly changed ones else."""
        count = 2 if s.goal.k == "eq" else 1
        out = []
        for which in range(count):
            found = self.ref.find.small_certificates(s, which) if self.rng.random() < 0.8 else None
            out.append(found or self.certificate(s, 2))
        r = self.rng.random()
        if r < 0.05:
            out = [("div", 1, out[0])] + out[1:]
        elif r < 0.1:
            out = [("add", [(1, out[0]), (self.rng.choice([0, 1]), self.certificate(s, 1))])] + out[1:]
        elif r < 0.13:
            out = out + [out[0]] if count == 1 else out[:1]
        return out

    def rule(self, s, head):
        """A rule of this head, without its sub-scripts."""
        rng, new = self.rng, lambda: self.maybe_taken(s)
        if head == "by":
            same = [h for h, f in s.hyps.items() if f is s.goal]
            return ("by", None, rng.choice(same) if same and rng.random() < 0.95 else self.hyp_of(s, s.goal.k))
        if head == "pick":
            return ("pick", None, rng.choice([1, 2]))
        if head in ("intro", "open"):
            return (head, None, new())
        if head == "give":
            return ("give", None, self.given(s, s.goal))
        if head == "parts":
            return ("parts", None, self.hyp_of(s, "and"), new(), new())
        if head == "cases":
            return ("cases", None, self.hyp_of(s, "or"), new())
        if head == "apply":
            return ("apply", None, self.hyp_of(s, "implies", "not"), new())
        if head == "inst":
            h = self.hyp_of(s, "all", "each")
            return ("inst", None, h, self.given(s, s.hyps.get(h, s.goal)), new())
        if head == "unpack":
            return ("unpack", None, self.hyp_of(s, "some", "any"), new(), new())
        if head in ("have", "decide"):
            return (head, None, self.own_formula(s), new())
        if head in ("rewrite", "reduce"):
            fits = self.may_rewrite if head == "rewrite" else self.may_reduce
            return (head, None, *self.equation_and_target(s, fits))
        if head == "range":
            return ("range", None, self.own_term(s), new())
        if head == "linear":
            return ("linear", None, self.certificates(s))
        return (head, None)

    def spoiled_rule(self, s, head):
        """A rule of this head, with a part that mostly doesn't fit."""
        rng = self.rng
        rule = list(self.rule(s, head))
        if len(rule) == 2 or head == "linear":
            return tuple(rule)
        at = rng.randrange(2, len(rule))
        shape = SHAPES[head][at - 2]
        if shape == "n":
            own = [part for part in rule[2:] if isinstance(part, str)]
            names = [list(s.hyps), list(s.vars), list(s.msgs), ["goal", self.new_name()], own]
            rule[at] = rng.choice(rng.choice([some for some in names if some]))
        elif shape == "p":
            rule[at] = 3 - rule[at]
        elif shape == "g":
            names = list(s.hyps) + list(s.vars) + list(s.msgs) + [self.new_name()]
            rule[at] = ("name", rng.choice(names)) if rng.random() < 0.6 else ("term", self.strange_term(s))
        elif shape == "f":
            rule[at] = self.strange_formula(s)
        else:
            rule[at] = self.strange_term(s)
        return tuple(rule)

    def strange_term(self, s):
        """A term that is no node term, has no bounds, or has a name that the sequent lacks."""
        term, rng = self.ref.term, self.rng
        others = [term.Var("stranger"), term.Msg("stranger", "from"), term.Msg("stranger", "id")]
        others += [term.Var(m) for m in s.msgs] + [term.Msg(x, "to") for x in s.vars] + [term.Num(len(self.d.nodes))]
        no_bounds = term.mk("add", term.Var("s"), term.Num(rng.choice([0, 1])))
        return rng.choice([rng.choice(others), no_bounds, term.Num(-1)])

    def strange_formula(self, s):
        """A formula with a name that the sequent lacks, or one that binds a name twice or one that the sequent has."""
        rng, mk = self.rng, self.ref.term.mk
        known = list(s.vars) + list(s.msgs)
        inner = self.formula(self.scope_of(s).with_variable("stranger"), 1)
        name = rng.choice(known + ["stranger", "stranger", self.new_name()])
        outer = mk(rng.choice(["all", "some"]), name, inner)
        return rng.choice([inner, outer, mk("all", rng.choice(known + ["stranger"]), outer)])

    def fitting_heads(self, s):
        """The heads of rules that the shapes of goal and hypotheses ask for, and those that always fit."""
        kinds = {f.k for f in s.hyps.values()}
        heads = ["have", "decide", "range", "linear", "by"]
        heads += {"and": ["split"] * 3, "or": ["pick"] * 3, "implies": ["intro"] * 3, "not": ["intro"] * 3,
                  "all": ["open"] * 3, "each": ["open"] * 3, "some": ["give"] * 4, "any": ["give"] * 4}.get(s.goal.k, [])
        for kind, head in (("and", "parts"), ("or", "cases"), ("implies", "apply"), ("not", "apply"), ("all", "inst"),
                           ("each", "inst"), ("some", "unpack"), ("any", "unpack")):
            if kind in kinds:
                heads += [head] * 2
        if any(self.is_equation(f) for f in s.hyps.values()):
            heads += ["rewrite", "rewrite", "reduce", "reduce"]
        return heads

    # -- scripts

    def script(self, s, depth):
        """A script for the sequent, with places that tell its rules apart."""
        return placed(self.grown(s, depth), self.rng)

    def grown(self, s, depth):
        rng, kernel = self.rng, self.ref.kernel
        if depth == 0 or rng.random() < 0.08:
            return self.end(s)
        heads = self.fitting_heads(s)
        if rng.random() < 0.03:
            heads = ["split", "pick", "intro", "open", "give", "parts", "cases", "apply", "inst", "unpack"]
        if rng.random() < 0.06:
            return self.cut(self.spoiled_rule(s, rng.choice(heads)))
        for _ in range(6):
            rule = self.rule(s, rng.choice(heads))
            try:
                subs, _ = kernel.step(s, (*rule, None, None))
            except kernel.Fails:
                if rng.random() < (0.5 if rule[0] in ("open", "unpack", "split", "pick", "intro", "give") else 0.12):
                    return self.cut(rule)
                continue
            if any(q.too_big() for q in subs):
                return self.cut(rule)
            return (*rule, *[self.grown(q, depth - 1) for q in subs])
        return self.end(s)

    def cut(self, rule):
        """The rule with ends for its sub-scripts."""
        count = {"split": 2, "cases": 2, "apply": 2, "have": 2, "decide": 2, "by": 0, "close": 0, "linear": 0}
        return (*rule, *[("close", None)] * count.get(rule[0], 1))

    def end(self, s):
        """What asks for hypotheses and the goal once more, and then closes."""
        rng = self.rng
        script = self.closing(s)
        if self.brief:
            return script
        for h in rng.sample(list(s.hyps), min(len(s.hyps), rng.choice([0, 1, 2, 3]))):
            f = s.hyps[h]
            if rng.random() < 0.04:
                f = self.changed(f)
            script = ("have", None, f, self.new_name(), ("by", None, h), script)
        if "bad" in s.hyps and rng.random() < 0.6:
            name = self.new_name()
            goal = s.goal if rng.random() < 0.96 else self.changed(s.goal)
            script = ("have", None, goal, name, ("close", None), ("by", None, name))
        return script

    def closing(self, s):
        kernel, rng = self.ref.kernel, self.rng
        heads = ["by", "close", "linear"]
        rng.shuffle(heads)
        for head in heads:
            rule = self.rule(s, head)
            try:
                kernel.step(s, rule)
                return rule
            except kernel.Fails:
                pass
        return rule

    # -- plain goals, and certificates over rows

    def plain_goal(self, facts, scope, depth):
        """A goal that is plain, mostly."""
        term, rng = self.ref.term, self.rng
        r = rng.random()
        if depth == 0 or r < 0.3:
            return self.plain_end(facts, scope)
        if r < 0.45:
            return term.And(self.plain_goal(facts, scope, depth - 1), self.plain_goal(facts, scope, depth - 1))
        if r < 0.6:
            pair = [self.plain_goal(facts, scope, depth - 1), self.formula(scope, 1)]
            rng.shuffle(pair)
            return term.Or(*pair)
        if r < 0.85:
            left = self.formula(scope, 2)
            return term.Implies(left, self.plain_goal(facts + [left], scope, depth - 1))
        x = self.new_name()
        if r < 0.95 or not any(self.protocol(label).tags for label in self.labels):
            return term.mk("all", x, self.plain_goal(facts, scope.with_variable(x), depth - 1))
        label = rng.choice([label for label in self.labels if self.protocol(label).tags])
        return term.mk("each", x, label, 0, self.plain_goal(facts, scope.with_message(x, label, 0), depth - 1))

    def plain_end(self, facts, scope):
        term, rng = self.ref.term, self.rng
        r = rng.random()
        if r < 0.5 and facts:
            f = rng.choice(facts)
            while f.k == "and" and rng.random() < 0.8:
                f = rng.choice(f.a)
            return f
        if r < 0.65:
            t = self.term(scope, 2)
            return term.Eq(t, t)
        left, right = self.number(), self.number()
        f = term.mk(rng.choice(["eq", "lt", "le"]), left, right)
        f = term.Not(f) if rng.random() < 0.3 else f
        return term.Implies(f, self.formula(scope, 1)) if rng.random() < 0.3 else f

    def plain_sequent(self):
        s = self.sequent()
        if self.rng.random() < 0.9:
            goal = self.plain_goal(list(s.hyps.values()), self.scope_of(s), 4)
            s.goal = self.changed(goal) if self.rng.random() < 0.3 else goal
        return s

    def rows(self):
        """Formulas, and a certificate that names them by number."""
        r = self.rng.random()
        if r < 0.2:
            return self.cut_rows()
        if r < 0.45:
            return self.wide_rows()
        s, rng = self.sequent(), self.rng
        scope = self.scope_of(s)
        formulas = [self.comparison(scope, 2) if rng.random() < 0.8 else self.formula(scope, 1)
                    for _ in range(rng.choice([1, 2, 3, 4]))]
        numbered = self.ref.kernel.Sequent(self.d, s.vars, s.msgs, dict(enumerate(formulas)), self.ref.term.FALSE, self.own)
        found = self.ref.find.small_certificates(numbered, 0) if rng.random() < 0.7 else None
        return formulas, found or self.row_certificate(len(formulas), 3)

    def cut_rows(self):
        """Two rows with a factor in common, whose divided bounds may or may not leave whole numbers between them."""
        term, rng = self.ref.term, self.rng
        atom = self.term(Scope(["s", "b", "z"], {}), 1)
        by, low, high = rng.choice([2, 2, 3, 5]), rng.randrange(-9, 10), rng.randrange(0, 4)

        def times(k):
            pair = [term.Num(k), atom]
            rng.shuffle(pair)
            return term.mk("mul", *pair)
        formulas = [term.Le(times(by), term.Num(low + high)), term.Le(term.Num(low), times(by))]
        if rng.random() < 0.5:
            formulas[1] = term.Not(term.Lt(times(by), term.Num(low)))
        parts = [(1, ("div", by, ("use", 0))), (1, ("div", by, ("use", 1)))]
        return formulas, ("add", parts)

    def wide_rows(self):
        """Rows at the edges of 64 bits, or such that a sum of them is past them."""
        term, rng = self.ref.term, self.rng
        edge = rng.choice([1 << 63, 1 << 63, 1 << 62, 1 << 61, (1 << 63) // 3])

        def number():
            value = rng.choice([edge, -edge]) + rng.randrange(-2, 3)
            return term.Num(max(-(1 << 63), min((1 << 63) - 1, value)))

        def side(depth):
            r = rng.random()
            if r < 0.3:
                return number()
            if r < 0.5:
                return term.Num(rng.randrange(-2, 3)) if r < 0.4 else term.Var("s")
            if r < 0.75 or depth == 0:
                pair = [number(), term.Var(rng.choice(["s", "s", "b"]))]
                rng.shuffle(pair)
                return term.mk("mul", *pair)
            return term.mk(rng.choice(["add", "sub"]), side(depth - 1), side(depth - 1))
        formulas = [term.mk(rng.choice(["le", "lt", "eq"]), side(1), side(1)) for _ in range(rng.choice([1, 2, 2]))]
        formulas = [term.Not(f) if f.k != "eq" and rng.random() < 0.3 else f for f in formulas]
        factors = [1, 1, 2, 3, -1, edge - 1, 1 - edge]
        parts = [(rng.choice(factors), ("use", rng.randrange(len(formulas)))) for _ in range(rng.choice([1, 2, 3]))]
        return formulas, ("add", parts)

    def row_sequent(self):
        """Such rows as hypotheses, or the last one denied by the goal, and a script of their certificate."""
        term, rng = self.ref.term, self.rng
        formulas, certificate = self.cut_rows() if rng.random() < 0.5 else self.wide_rows()
        s = self.sequent()
        named = {}
        for row, formula in enumerate(formulas):
            s.hyps["c%d" % row] = formula
            named[row] = ("use", "c%d" % row)
        s.goal = term.FALSE
        if rng.random() < 0.5:
            s.goal = term.Not(formula) if formula.k != "not" else formula.a[0]
            named[row] = ("goal",)

        def with_names(c):
            if c[0] == "use":
                return named[c[1]]
            if c[0] == "div":
                return ("div", c[1], with_names(c[2]))
            return ("add", [(factor, with_names(part)) for factor, part in c[1]])
        return s, ("linear", (1, 1), [with_names(certificate)])

    def row_certificate(self, count, depth):
        rng = self.rng
        r = rng.random()
        if depth == 0 or r < 0.35:
            return ("use", rng.randrange(count) if rng.random() < 0.97 else count + rng.randrange(2))
        if r < 0.8:
            factors = [1, 1, 2, -1, -2, 0, 3, rng.choice(EDGES[1:]), -rng.choice(EDGES[1:])]
            return ("add", [(rng.choice(factors), self.row_certificate(count, depth - 1))
                            for _ in range(rng.choice([1, 2, 3]))])
        return ("div", rng.choice([1, 2, 2, 3, 4, 0, -1]), self.row_certificate(count, depth - 1))


def placed(script, rng):
    """The script with places that tell its rules apart: the lines count them in preorder, and the columns are random."""
    lines = itertools.count(1)

    def walk(rule):
        place = (next(lines), rng.randrange(1, 100))
        return (rule[0], place, *[walk(part) if is_script(part) else part for part in rule[2:]])
    return walk(script)


def is_script(part):
    """Whether a part of a rule is a sub-script."""
    return isinstance(part, tuple) and part[0] in HEADS
