"""Cases about sequents, scripts and certificates as text, with what a reference of the notation answers to each.

The reference is a package with modules such as `kernel` and `linear`, in plain Python. A `Tally` counts how often each
rule of proof passed, and which of the reference's own conditions refused it.
"""
import collections
import importlib
import inspect
import traceback

from case_text import Writer

# All rules of scripts.
HEADS = ["by", "close", "split", "pick", "intro", "open", "give", "parts", "cases", "apply", "inst", "unpack", "have",
         "decide", "rewrite", "reduce", "range", "linear"]


class Reference:
    """The modules of the reference that are used here."""

    def __init__(self, package):
        for name in ("term", "kernel", "linear", "find", "randfile", "soundness", "tree", "wp"):
            setattr(self, name, importlib.import_module(package + "." + name))


class Tally:
    """How often each rule passed at what kind of formula or term, which condition refused it, and how often it left a
    sequent that is too large."""

    def __init__(self):
        self.answers, self.passed, self.refused, self.limit = (collections.Counter() for _ in range(4))

    def add(self, other):
        for name, counter in vars(other).items():
            getattr(self, name).update(counter)

    def lines(self):
        """The table: what the cases of each kind answered, and then each rule."""
        out = ["answers:"]
        out += ["  %-8s %-18s %8d" % (*pair, count) for pair, count in sorted(self.answers.items())]
        out.append("rules looked at:")
        for head in HEADS:
            passed = sorted((kind, count) for (rule, kind), count in self.passed.items() if rule == head)
            out.append("  %-8s passed: %s; left too large a sequent: %d" % (
                head, ", ".join("%s %d" % pair for pair in passed) or "never", self.limit[head]))
            refused = sorted((why, count) for (rule, why), count in self.refused.items() if rule == head)
            out += ["    %7d refused by: %s" % (count, why) for why, count in refused]
        return out


class Cases:
    """The text of cases, a line for each, and the line that the reference answers to each."""

    def __init__(self, reference):
        self.ref, self.writer, self.wanted, self.tally = reference, Writer(), [], Tally()
        self.declared = None

    def text(self):
        return self.writer.text()

    def replay(self, s, script):
        """Whether the script proves the sequent, which is clean."""
        self.declare(s.d)
        self.writer.replay(s, script)
        self.answer("replay", self.replayed(s, script))

    def plain(self, s):
        self.declare(s.d)
        self.writer.plain(s)
        self.answer("plain", yes_or_no(self.ref.kernel.plain_sequent(s)))

    def clean(self, s):
        self.declare(s.d)
        self.writer.clean(s)
        self.answer("clean", yes_or_no(s.clean()))

    def verify(self, formulas, certificate):
        self.writer.verify(formulas, certificate)
        self.answer("verify", self.verified(formulas, certificate))

    def declare(self, d):
        """Lets the cases that follow be about these declarations."""
        if self.declared is not d:
            self.writer.instances(d)
            self.declared = d

    def answer(self, kind, line):
        self.wanted.append(line)
        self.tally.answers[kind, line.split()[0]] += 1

    def replayed(self, s, script):
        head, place = script[0], "%d:%d" % script[1]
        try:
            subs, scripts = self.ref.kernel.step(s, script)
        except self.ref.kernel.Fails as fault:
            self.tally.refused[head, condition_of(self.ref, fault)] += 1
            return "fails " + place
        if any(q.too_big() for q in subs):
            self.tally.limit[head] += 1
            return "limit " + place
        self.tally.passed[head, met_kind(s, script)] += 1
        for q, sub in zip(subs, scripts):
            line = self.replayed(q, sub)
            if line != "ok":
                return line
        return "ok"

    def verified(self, formulas, certificate):
        linear = self.ref.linear
        try:
            lines = [linear.line_of(f) for f in formulas]
        except linear.LineFault:
            return "line-too-wide"
        try:
            linear.contradiction(certificate, lambda row: lines[row] if row < len(lines) else None)
        except linear.CertFault as fault:
            return str(fault)
        return "ok"


def yes_or_no(test):
    return "yes" if test else "no"


def met_kind(s, script):
    """The kind of the goal, the hypothesis or the term that a rule is about."""
    head, about = script[0], script[2] if len(script) > 2 else None
    if head in ("by", "close"):
        return "goal"
    if head == "rewrite":
        return "messages" if are_one_tag(s, *s.hyps[about].a) else "terms"
    if head in ("parts", "cases", "apply", "inst", "unpack", "reduce"):
        return s.hyps[about].k
    if head == "range":
        return about.a[1] if about.k == "msg" else about.k
    return about.k if head in ("have", "decide") else s.goal.k


def are_one_tag(s, left, right):
    """Whether the terms are the ids of two messages of one label and tag."""
    are_ids = all(term.k == "msg" and term.a[1] == "id" for term in (left, right))
    return are_ids and s.msgs[left.a[0]] == s.msgs[right.a[0]]


def condition_of(reference, fault):
    """The condition that refused a rule: a fault of a certificate, or the line of the reference's text that asks for it."""
    within = fault.__context__
    if isinstance(within, reference.linear.CertFault):
        of_line = isinstance(within.__context__, reference.linear.LineFault)
        return "%s%s" % (within, " of a line" if of_line else "")
    asked = [frame for frame in traceback.extract_tb(fault.__traceback__) if frame.name != "need"]
    return "%s: %s" % (asked[-1].name, asked[-1].line)


def unmet(reference, tally):
    """The conditions in the reference's text that refused no rule of these cases."""
    lines = [line.strip() for line in inspect.getsource(reference.kernel.step).split("\n")]
    met = {why.split(": ", 1)[-1] for _, why in tally.refused}
    return sorted({line for line in lines if line.startswith("need(")} - met)
