"""Random files with programs that are mostly accepted: their annotations say nothing, or what one script proves.

So everything that a program does can stand there, in any order: loops that end and loops that don't, calls, polls,
messages to oneself, numbers that leave the range, and receives that a guard or a sort forbids.
"""

LARGE = ["9223372036854775807", "-9223372036854775808", "9223372036854775806", "4611686018427387904"]
SORTS = {"int": (-(1 << 63), (1 << 63) - 1), "bool": (0, 1), "few": (-1, 2), "tint": (0, 1)}


class Maker:
    """One file as it is made."""

    def __init__(self, rng):
        self.rng, self.names = rng, 0
        self.nodes = ["a", "b", "c", "d"][:rng.choice([1, 2, 2, 2, 3, 3, 4])]
        self.sorts = dict(SORTS, node=(0, len(self.nodes) - 1))
        self.protocols, self.labels, self.procs, self.proofs = [], [], [], []

    def fresh(self, letter):
        self.names += 1
        return "%s%d" % (letter, self.names)

    def within(self, sort):
        """A constant of the sort."""
        if sort == "node":
            return self.rng.choice(self.nodes)
        if sort == "tint":
            return self.rng.choice(["red", "green"])
        low, high = self.sorts[sort]
        if sort == "int" and self.rng.random() < 0.15:
            return self.rng.choice(LARGE)
        return str(self.rng.randint(max(low, -9), min(high, 9)))

    def sort(self):
        return self.rng.choice(["int", "int", "bool", "few", "tint", "node"])

    # Protocols.

    def local(self, proto, names, depth):
        """A term of guards and updates of receives."""
        kind = self.rng.random()
        if depth and kind < 0.4:
            return "(%s %s %s)" % (self.rng.choice("+-+"), self.local(proto, names, 0), self.local(proto, names, 0))
        if depth and kind < 0.5:
            return "(if %s)" % " ".join(self.local(proto, names, 0) for _ in range(4))
        field, _, is_row = self.rng.choice(proto["fields"])
        if kind < 0.75:
            return "(get self %s me%s)" % (field, " " + self.rng.choice(names + self.nodes) if is_row else "")
        return self.rng.choice(names) if kind < 0.9 else self.within("few")

    def guard(self, proto, names):
        if self.rng.random() < 0.65:
            return "true"
        test = "(%s %s %s)" % (self.rng.choice(["=", "<=", "<"]), self.local(proto, names, 1), self.local(proto, names, 0))
        return test if self.rng.random() < 0.7 else "(not %s)" % test

    def updates(self, proto, args, node, is_receive):
        """Updates: any of a receive; of a send those whose values are in their sorts at once."""
        out, names = [], [name for name, _ in args] + ["me", node]
        for field, sort, is_row in proto["fields"]:
            if self.rng.random() < 0.45:
                continue
            alike = [name for name, of in args if of == sort] + (["me", node] if sort in ("node", "int") else [])
            value = self.rng.choice(alike) if alike and self.rng.random() < 0.6 else self.within(sort)
            if is_receive and self.rng.random() < 0.4:
                value = self.local(proto, names, 1)
            index = self.rng.choice(["me", node] + self.nodes)
            if is_row and is_receive and self.rng.random() < 0.2:
                index = self.local(proto, names, 1)
            out.append("(set %s %s%s)" % (field, index + " " if is_row else "", value))
        return "".join(" " + one for one in out)

    def protocol(self):
        proto = {"fields": [(self.fresh("f"), self.sort(), self.rng.random() < 0.3) for _ in range(self.rng.randint(1, 3))],
                 "name": self.fresh("p"), "tags": []}
        out = ["(protocol %s" % proto["name"]]
        for field, sort, is_row in proto["fields"]:
            first = "me" if sort == "node" and self.rng.random() < 0.3 else self.within(sort)
            out.append("    (%s %s %s %s)" % ("row" if is_row else "field", field, sort, first))
        for _ in range(self.rng.choice([1, 1, 2, 2, 3])):
            args = [(self.fresh("v"), self.sort()) for _ in range(self.rng.choice([0, 1, 1, 2, 3]))]
            if self.rng.random() < 0.03:
                args += [(self.fresh("v"), "int") for _ in range(8 - len(args))]
            tag = {"name": self.fresh("t"), "args": args, "is_received": self.rng.random() < 0.92}
            line = "    (tag %s (%s)" % (tag["name"], " ".join("(%s %s)" % arg for arg in args))
            line += " (send true%s)" % self.updates(proto, args, "to", False)
            if tag["is_received"]:
                names = [name for name, _ in args] + ["me", "from"]
                line += " (receive %s%s)" % (self.guard(proto, names), self.updates(proto, args, "from", True))
            out.append(line + ")")
            proto["tags"].append(tag)
        self.protocols.append(proto)
        return "\n".join(out) + ")"

    # Programs.

    def leaf(self, scope):
        if self.rng.random() < 0.65:
            return self.rng.choice(scope["locals"] + [name for name, _ in scope["params"]] + ["me"])
        return self.within(self.sort())

    def term(self, scope, depth=1):
        kind = self.rng.random()
        if not depth or kind < 0.3:
            return self.leaf(scope)
        if kind < 0.36 and depth == 1:
            return "(* %s %s)" % (self.leaf(scope), self.leaf(scope))
        if kind < 0.5:
            return "(if %s)" % " ".join(self.leaf(scope) for _ in range(4))
        return "(%s %s %s)" % (self.rng.choice("++-"), self.term(scope, 0), self.leaf(scope))

    def test(self, scope):
        made = "(%s %s %s)" % (self.rng.choice(["=", "<", "<="]), self.term(scope), self.leaf(scope))
        kind = self.rng.random()
        if kind < 0.15:
            return "(not %s)" % made
        if kind < 0.25:
            return "(%s %s %s)" % (self.rng.choice(["and", "or", "implies"]), made,
                                   "(= %s %s)" % (self.leaf(scope), self.leaf(scope)))
        return made

    def allowed(self, scope, sort):
        """An argument that is in its sort at once."""
        alike = [name for name, of in scope["params"] if of == sort]
        alike += ["me"] if sort == "node" else scope["locals"] + ["me"] if sort == "int" else []
        return self.rng.choice(alike) if alike and self.rng.random() < 0.6 else self.within(sort)

    def to(self, scope):
        nodes = [name for name, sort in scope["params"] if sort == "node"]
        return self.rng.choice(self.nodes * 2 + nodes * 3 + ["me"])

    def point(self, scope):
        """The number of the next command with an annotation."""
        scope["points"] += 1
        return scope["points"]

    def favoured(self, found):
        """One of these pairs of a label and a tag, mostly the same ones of the file."""
        return found[0] if self.rng.random() < 0.5 else self.rng.choice(found)

    def send(self, scope, to=None, note="true"):
        label, tag = self.favoured([(label, tag) for label in scope["labels"] for tag in label[1]["tags"]])
        self.point(scope)
        args = [self.allowed(scope, sort) for _, sort in tag["args"]]
        return "(send %s)" % " ".join([note, label[0], tag["name"], to or self.to(scope)] + args)

    def receive(self, scope, is_poll=None):
        """An await or a poll, and at times the answer to its sender; None without such a tag or enough locals."""
        if is_poll is None:
            is_poll = self.rng.random() < 0.4
        found = [(label, tag) for label in scope["labels"] for tag in label[1]["tags"]
                 if tag["is_received"] and len(tag["args"]) + 2 <= len(scope["locals"])]
        if not found:
            return None
        label, tag = self.favoured(found)
        point = self.point(scope)
        got, sender, *targets = self.rng.sample(scope["locals"], len(tag["args"]) + 2)
        words = "%s %s %s (%s)" % (label[0], tag["name"], sender, " ".join(targets))
        if is_poll:
            return "(poll true %s %s)" % (got, words)
        if self.rng.random() < 0.6:
            return "(await true %s)" % words
        note = "(and (<= 0 %s) (<= %s %d))" % (sender, sender, len(self.nodes) - 1)
        self.proofs.append("(proof (got %s %d) (names j) (range (from j) g (by g)))" % (scope["name"], point))
        return "(await true %s) %s" % (words, self.send(scope, to=sender, note=note))

    def read(self, scope):
        label = self.rng.choice(scope["labels"])
        field, _, is_row = self.rng.choice(label[1]["fields"])
        self.point(scope)
        index = " " + self.term(scope) if is_row else ""
        return "(read true %s %s %s%s)" % (self.rng.choice(scope["locals"]), label[0], field, index)

    def loop(self, scope, depth):
        self.point(scope)
        if self.rng.random() < 0.75 and scope["counters"]:
            counter, end = scope["counters"].pop(), self.rng.choice([1, 2, 3, 5, 10, 40, 300])
            return "(set %s 0) (while (< %s %d) true %s (set %s (+ %s 1)))" % (
                counter, counter, end, self.block(scope, depth - 1), counter, counter)
        return "(while %s true %s)" % (self.rng.choice(["true", self.test(scope)]), self.block(scope, depth - 1))

    def call(self, scope):
        within = {name for name, _ in scope["labels"]}
        found = [proc for proc in self.procs if {name for name, _ in proc["labels"]} <= within]
        if not found:
            return None
        proc = self.rng.choice(found)
        self.point(scope)
        args = [self.allowed(scope, sort) for _, sort in proc["params"]]
        return "(call %s)" % " ".join(["true", "true", self.rng.choice(scope["locals"]), proc["name"]] + args)

    def command(self, scope, depth):
        kind = self.rng.random()
        made = None
        if kind < 0.3:
            made = self.send(scope)
        elif kind < 0.52:
            made = self.receive(scope)
        elif kind < 0.6:
            made = self.read(scope)
        elif kind < 0.68 and depth:
            made = "(if %s (then %s) (else %s))" % (
                self.test(scope), self.block(scope, depth - 1), self.block(scope, depth - 1, 0))
        elif kind < 0.8 and depth:
            made = self.loop(scope, depth)
        elif kind < 0.88:
            made = self.call(scope)
        return made or self.put(scope)

    def put(self, scope):
        """An assignment, at times of what is hardly in the range."""
        name = self.rng.choice(scope["locals"])
        value = self.term(scope)
        if self.rng.random() < 0.15:
            value = "(%s %s %s)" % (self.rng.choice("+-*"), self.rng.choice(scope["locals"] + ["me"]), self.rng.choice(LARGE))
        return "(set %s %s)" % (name, value)

    def block(self, scope, depth, least=1):
        return " ".join(self.command(scope, depth) for _ in range(self.rng.randint(least, 3)))

    def proc(self, worlds):
        world, labels = self.rng.choice(worlds)
        scope = {"name": self.fresh("q"), "labels": labels, "points": 0,
                 "params": [(self.fresh("x"), self.sort()) for _ in range(self.rng.choice([0, 0, 1, 2]))],
                 "locals": [self.fresh("y") for _ in range(self.rng.choice([3, 4, 6]))],
                 "counters": [self.fresh("n") for _ in range(4)]}
        names = " ".join(scope["locals"] + scope["counters"])
        body = self.block(scope, 2)
        if self.rng.random() < 0.5:
            body += " " + self.block(scope, 1)
        result = self.term(scope)
        self.procs.append(scope)
        return "(proc %s %s (%s) (locals %s)\n    (pre true) (post true)\n    (body %s)\n    (return %s))" % (
            scope["name"], world, " ".join("(%s %s)" % one for one in scope["params"]), names, body, result)

    def programs(self):
        out = []
        for node in self.rng.sample(self.nodes, len(self.nodes)):
            if self.rng.random() < 0.9:
                proc = self.rng.choice(self.procs)
                args = [self.within(sort) for _, sort in proc["params"]]
                out.append(" (%s)" % " ".join([node, proc["name"]] + args))
        return "".join(out)

    def file(self):
        rng = self.rng
        out = ["(nodes %s)" % " ".join(self.nodes), "(sort few (range -1 2))", "(sort tint (enum red green))"]
        out += [self.protocol() for _ in range(rng.choice([1, 1, 2]))]
        self.labels = [(self.fresh("l"), rng.choice(self.protocols)) for _ in range(rng.choice([1, 1, 2, 3]))]
        out += ["(label %s %s)" % (name, proto["name"]) for name, proto in self.labels]
        worlds = [("w", self.labels), ("w", self.labels)]
        if len(self.labels) > 1:
            worlds.append(("u", rng.sample(self.labels, rng.randint(1, len(self.labels) - 1))))
        for world, labels in sorted({name: labels for name, labels in worlds}.items()):
            out.append("(world %s (labels %s) (hooks))" % (world, " ".join(name for name, _ in labels)))
        out += [self.proc(worlds) for _ in range(rng.choice([1, 2, 2, 3, 4]))]
        out.append("(deploy w%s)" % self.programs())
        return "(disel 1\n  %s\n)\n" % "\n  ".join(out + self.proofs)


def file(rng):
    """A random file."""
    return Maker(rng).file()
