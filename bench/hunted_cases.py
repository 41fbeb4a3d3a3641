"""The cases of the reference's own hunter for unsound rules: the sequents that it makes, and each rule that it tries there.

The hunter looks for a rule that passes at a sequent which is false in some state, while what the rule leaves is true. It
runs as it does by itself. Beside that, what it tries becomes a case: the rule, with scripts below it that ask for every
formula of the sequents that it leaves.
"""
import contextlib
import functools
import io

from random_cases import is_script, placed

# The share of the rules that is kept: those that pass, those that are refused, and those of the search for scripts.
KEPT_PASSED, KEPT_REFUSED, KEPT_SEARCHED = 1.0, 0.25, 0.02


class Clock:
    """A clock for the hunter that counts cases."""

    def __init__(self, cases):
        self.cases = cases

    def time(self):
        return len(self.cases.wanted)


class Hunt:
    """Makes cases of what the hunter tries."""

    def __init__(self, reference, rng, cases):
        self.ref, self.rng, self.cases = reference, rng, cases
        self.step, self.replay = reference.kernel.step, reference.kernel.replay
        self.said = io.StringIO()

    def part(self, name, count):
        """Runs a part of the hunter, `kernel`, `linear` or `found`, for so many cases. How many violations it found."""
        hunter, kernel, find = self.ref.soundness, self.ref.kernel, self.ref.find
        put = [(hunter, "time", Clock(self.cases)), (hunter, "G", functools.partial(self.ref.randfile.G, version=1)),
               (hunter, "kstep", self.tried), (hunter, "plain_sequent", self.plain), (kernel, "replay", self.replayed),
               (find, "step", self.searched)]
        kept = [(module, name, getattr(module, name)) for module, name, _ in put]
        before = len(hunter.BAD)
        try:
            for place in put:
                setattr(*place)
            with contextlib.redirect_stdout(self.said):
                getattr(hunter, "part_" + name)(self.rng, len(self.cases.wanted) + count)
        finally:
            for place in kept:
                setattr(*place)
        return len(hunter.BAD) - before

    def tried(self, s, rule):
        """A rule of the hunter at a sequent. It has None for its sub-scripts."""
        self.keep(s, rule, KEPT_PASSED if self.passes(s, rule) else KEPT_REFUSED)
        return self.step(s, rule)

    def passes(self, s, rule):
        try:
            self.step(s, rule)
        except self.ref.kernel.Fails:
            return False
        return True

    def searched(self, s, rule):
        """A rule of the search for scripts."""
        self.keep(s, rule, KEPT_SEARCHED)
        return self.step(s, rule)

    def plain(self, s):
        self.cases.plain(s)
        return self.ref.kernel.plain_sequent(s)

    def replayed(self, s, script):
        """A whole script that the search found. The rules below come here too, and are cases of their own."""
        self.cases.replay(s, placed(script, self.rng))
        return self.replay(s, script)

    def keep(self, s, rule, share):
        if rule[0] in ("meet", "grow") or self.rng.random() >= share:
            return
        if not hasattr(s.d, "protocols"):
            s.d.protocols, s.d.of = [], []
        if self.rng.random() < 0.5:
            s = s.copy()
            s.hyps["bad"] = self.ref.term.FALSE
        self.cases.replay(s, placed(self.with_scripts(s, rule), self.rng))

    def with_scripts(self, s, rule):
        """The rule, with a script in each place for one."""
        left = [self.telling(q) for q in self.step(s, rule)[0]] if self.passes(s, rule) else []
        left.reverse()
        whole = [(left.pop() if left else ("close", None)) if part is None or is_script(part) else part
                 for part in rule[2:]]
        return (rule[0], None, *whole)

    def telling(self, q):
        """A script that comes to its last rule just where the hypotheses and the goal are these, and passes there where a
        hypothesis is `false`."""
        script = ("decide", None, q.goal, "told", ("by", None, "told"), ("close", None))
        for h, f in q.hyps.items():
            script = ("have", None, f, "told_" + h, ("by", None, h), script)
        return script
