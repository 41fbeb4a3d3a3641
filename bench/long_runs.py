"""Files with long runs, and the reports that their serial runs have by the definitions of the notation.

The reports are written down here from the schedule and the orders of delivery, with no program and no reference asked.
"""

GENERATOR = (6364136223846793005, 1442695040888963407)
IN_A_TURN = 100
IN_A_LONG_TURN = 1000
LIMIT_NODES = ["n%d" % at for at in range(16)]

GAME = """(disel 1
  (nodes a b)
  (protocol game (field seen bool 0)
    (tag ping () (send true) (receive true (set seen 1)))
    (tag pong () (send (= (get self seen me) 1)) (receive true)))
  (label g game)
  (world w (labels g) (hooks))
  (invariant fair w (each m g pong (= (get g seen (from m)) 1)))
  (proc one w () (locals f i) (pre true) (post true)
    (body (while (< i %(turns)d) true %(one)s (set i (+ i 1)))) (return 0))
  (proc two w () (locals f i) (pre true) (post true)
    (body (while (< i %(turns)d) true %(two)s (set i (+ i 1)))) (return 0))
  (deploy w (a one) (b two))
  (proof (step fair g ping receive) (names r k)
    (open j (inst fair j h (decide (= (from j) r) e
      (reduce e goal (linear (goal) (goal)))
      (reduce e goal (by h))))))
)
"""
FLOOD = """(disel 1
  (nodes a b)
  (protocol mail (tag req () (send true) (receive true)))
  (label g mail)
  (world w (labels g) (hooks))
  (proc p w ((to1 node)) (locals f i j) (pre true) (post true)
    (body (while (< i %(turns)d) true %(sends)s (set i (+ i 1)))
      (while (< j %(turns)d) true %(awaits)s (set j (+ j 1)))) (return 0))
  (deploy w (a p b) (b p a))
)
"""
LIMITS = """(disel 1
  (nodes %(nodes)s)
  (protocol mail (tag req (%(args)s) (send true) (receive true)))
  (label g mail)
  (world w (labels g) (hooks))
  (proc p w () (locals) (pre true) (post true) (body (while true true %(sends)s)) (return 0))
  (deploy w %(programs)s)
)
"""


def pingpong(exchanges, a_turn=IN_A_TURN):
    """Two nodes that exchange so many messages each way, a multiple of those in a turn of their loops."""
    one = "(send true g ping b) (await true g pong f ())\n    "
    two = "(await true g ping f ()) (send (= (get g seen me) 1) g pong a)\n    "
    return GAME % {"turns": exchanges // a_turn, "one": one * a_turn, "two": two * a_turn}


def first_line(budget, order):
    return "run budget %d order %s\n" % (budget, order)


def units(exchanges, a_turn):
    """The ticks and calls of each of the two nodes."""
    return 2 * exchanges + 2 * (exchanges // a_turn) + 2


def pingpong_report(exchanges, budget, a_turn=IN_A_TURN):
    """Its report where the budget is enough, line by line."""
    yield first_line(budget, "oldest")
    for at in range(exchanges):
        ticks = 0 if at % a_turn else 2 if at else 1
        yield "%d a %d send g.ping b -> %d\n" % (4 * at + 1, ticks, 2 * at)
        yield "%d b %d await g.ping -> %d from a\n" % (4 * at + 2, ticks, 2 * at)
        yield "%d b 0 send g.pong a -> %d\n" % (4 * at + 3, 2 * at + 1)
        yield "%d a 0 await g.pong -> %d from b\n" % (4 * at + 4, 2 * at + 1)
    for node in "ab":
        yield "end %s ended 0 units %d\n" % (node, units(exchanges, a_turn))


def flood(messages):
    """Two nodes that send so many messages to each other, a multiple of 100, and then receive them."""
    return FLOOD % {"turns": messages // IN_A_TURN, "sends": "(send true g req to1) " * IN_A_TURN,
                    "awaits": "(await true g req f ()) " * IN_A_TURN}


class Choice:
    """Which message an order takes."""

    def __init__(self, order):
        self.order, self.state = order, int(order[5:]) if order.startswith("seed:") else 0

    def take(self, ids):
        """Takes one out of the ids, which rise."""
        if not self.order.startswith("seed:"):
            return ids.pop(0 if self.order == "oldest" else -1)
        self.state = (self.state * GENERATOR[0] + GENERATOR[1]) % (1 << 64)
        return ids.pop((self.state >> 33) % len(ids))


def flood_report(messages, budget, order):
    """Its report where the budget is enough, line by line."""
    yield first_line(budget, order)
    choice, number = Choice(order), 0
    mail = {"a": list(range(1, 2 * messages, 2)), "b": list(range(0, 2 * messages, 2))}
    for at in range(messages):
        ticks = 0 if at % IN_A_TURN else 2 if at else 1
        for node, other in ("ab", "ba"):
            number += 1
            yield "%d %s %d send g.req %s -> %d\n" % (number, node, ticks, other, number - 1)
    for at in range(messages):
        ticks = 0 if at % IN_A_TURN else 2 if at else 3
        for node, other in ("ab", "ba"):
            number += 1
            yield "%d %s %d await g.req -> %d from %s\n" % (number, node, ticks, choice.take(mail[node]), other)
    for node in "ab":
        yield "end %s ended 0 units %d\n" % (node, 2 * messages + 4 * (messages // IN_A_TURN) + 3)


def limits():
    """16 nodes that send messages with 8 arguments as long as the budget lasts."""
    return LIMITS % {"nodes": " ".join(LIMIT_NODES), "args": " ".join("(v%d int)" % at for at in range(8)),
                     "sends": "(send true g req n0 1 2 3 4 5 6 7 8)\n    " * IN_A_LONG_TURN,
                     "programs": " ".join("(%s p)" % node for node in LIMIT_NODES)}


def limits_report(budget):
    """Its report, line by line."""
    yield first_line(budget, "oldest")
    turns, rest = divmod(budget, IN_A_LONG_TURN + 1)
    number = 0
    for at in range(turns * IN_A_LONG_TURN + max(0, rest - 1)):
        for node in LIMIT_NODES:
            number += 1
            yield "%d %s %d send g.req n0 1 2 3 4 5 6 7 8 -> %d\n" % (
                number, node, 0 if at % IN_A_LONG_TURN else 1, number - 1)
    for node in LIMIT_NODES:
        yield "end %s spent units %d\n" % (node, budget)


def promela(exchanges, a_turn=1):
    """The game of ping and pong as a model for spin, with so many exchanges in a turn of its loops."""
    return """chan ping = [1] of { byte };
chan pong = [1] of { byte };
bit seen = 0;
active proctype a() { int i = 0; do :: i < %(turns)d -> %(one)si++ :: else -> break od }
active proctype b() { int i = 0; do :: i < %(turns)d -> %(two)si++ :: else -> break od }
""" % {"turns": exchanges // a_turn, "one": "ping!1; pong?_; " * a_turn, "two": "ping?_; seen = 1; pong!1; " * a_turn}
