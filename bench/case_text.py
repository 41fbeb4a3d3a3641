"""Cases for the program of bench/replayer as text: each thing is its word and then its parts, in prefix order.

Terms, formulas, sequents and scripts are those of a reference of the notation in Python (its modules
`term` and `kernel`): a term or formula has a kind `k` and parts `a`, a script is a tuple of its rule,
its place and its parts. Names become numbers. The word `goal` has the number that the kernel gives it.
"""

GOAL = 8
FIRST_NAME = 100
OWN_LABEL = 255

# The parts of each rule: n a name, p a part's number, g a node or message that is given, f a formula,
# t a term, s a script. `linear` is written by itself.
SHAPES = {
    "by": "n", "close": "", "split": "ss", "pick": "ps", "intro": "ns", "open": "ns", "give": "gs",
    "parts": "nnns", "cases": "nnss", "apply": "nnss", "inst": "ngns", "unpack": "nnns", "have": "fnss",
    "decide": "fnss", "rewrite": "nns", "reduce": "nns", "range": "tns",
}


class Writer:
    """Writes cases, and numbers each name when it is met for the first time."""

    def __init__(self):
        self.words = []
        self.numbers = {"goal": GOAL}

    def name(self, name):
        return self.numbers.setdefault(name, FIRST_NAME + len(self.numbers))

    def put(self, *words):
        self.words.extend(str(word) for word in words)

    def end(self):
        """Ends a line."""
        self.words.append("\n")

    def text(self):
        return " ".join(self.words)

    def label(self, label):
        self.put(-1 if label == "self" else label)

    def term(self, t):
        k, a = t.k, t.a
        if k == "num":
            self.put(k, a[0])
        elif k == "word":
            self.put(k, self.name(a[0]), a[1])
        elif k == "var":
            self.put(k, self.name(a[0]))
        elif k in ("field", "row"):
            self.put(k)
            self.label(a[0])
            self.put(a[1])
            for part in a[2:]:
                self.term(part)
        elif k == "len":
            self.put(k)
            self.label(a[0])
        elif k == "msg":
            if a[1] == "arg":
                self.put("arg", a[2], self.name(a[0]))
            else:
                self.put(a[1], self.name(a[0]))
        else:
            assert k in ("add", "sub", "mul", "if"), k
            self.put(k)
            for part in a:
                self.term(part)

    def formula(self, f):
        k, a = f.k, f.a
        self.put(k)
        if k in ("eq", "lt", "le"):
            self.term(a[0])
            self.term(a[1])
        elif k in ("all", "some"):
            self.put(self.name(a[0]))
            self.formula(a[1])
        elif k in ("each", "any"):
            self.put(self.name(a[0]))
            self.label(a[1])
            self.put(a[2])
            self.formula(a[3])
        else:
            assert k in ("true", "false", "not", "and", "or", "implies"), k
            for part in a:
                self.formula(part)

    def instances(self, d):
        self.put("instances", len(d.nodes), len(d.protocols))
        for protocol in d.protocols:
            self.put(len(protocol.fields))
            for field in protocol.fields:
                self.put(1 if field.row else 0, *field.sort)
            self.put(len(protocol.tags))
            for tag in protocol.tags:
                self.put(len(tag.args))
                for _, sort in tag.args:
                    self.put(*sort)
        self.put(len(d.of), *d.of)
        self.end()

    def sequent(self, s):
        self.put(-1 if s.own is None else s.d.protocols.index(s.own))
        self.put(len(s.vars))
        for x, sort in s.vars.items():
            self.put(self.name(x), *sort)
        self.put(len(s.msgs))
        for m, (label, tag) in s.msgs.items():
            self.put(self.name(m), OWN_LABEL if label == "self" else label, tag)
        self.put(len(s.hyps))
        for h, f in s.hyps.items():
            self.put(self.name(h))
            self.formula(f)
        self.formula(s.goal)

    def given(self, given):
        if given[0] == "name":
            self.put("message", self.name(given[1]))
        else:
            self.put("node")
            self.term(given[1])

    def certificate(self, c, row_of):
        """`row_of` gives the number of what a `use` or a `goal` names."""
        if c[0] == "goal":
            self.put("use", row_of("goal"))
        elif c[0] == "use":
            self.put("use", row_of(c[1]))
        elif c[0] == "div":
            self.put("div", c[1])
            self.certificate(c[2], row_of)
        else:
            self.put("sum", len(c[1]))
            for factor, part in c[1]:
                self.put(factor)
                self.certificate(part, row_of)

    def script(self, script):
        rule, place, parts = script[0], script[1], script[2:]
        self.put(place[0], place[1], rule)
        if rule == "linear":
            self.put(len(parts[0]))
            for c in parts[0]:
                self.certificate(c, self.name)
            return
        for shape, part in zip(SHAPES[rule], parts):
            if shape == "n":
                self.put(self.name(part))
            elif shape == "p":
                self.put(part)
            elif shape == "g":
                self.given(part)
            elif shape == "f":
                self.formula(part)
            elif shape == "t":
                self.term(part)
            else:
                self.script(part)

    def replay(self, s, script):
        self.put("replay")
        self.sequent(s)
        self.script(script)
        self.end()

    def plain(self, s):
        self.put("plain")
        self.sequent(s)
        self.end()

    def clean(self, s):
        self.put("clean")
        self.sequent(s)
        self.end()

    def verify(self, formulas, certificate):
        self.put("verify", len(formulas))
        for f in formulas:
            self.formula(f)
        self.certificate(certificate, lambda row: row)
        self.end()
