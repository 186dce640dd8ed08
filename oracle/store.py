"""The calls on one store, as they go into a job.

The ids that a call answers are followed here as long as nothing is refused, so that later calls can
name them. Where a tight limit refuses calls, the later ones name other things or nothing; such jobs
are jobs too.
"""

MIN, MAX = -2**31, 2**31 - 1
LARGEST = 2**64 - 1

LIMITS = ["work", "predicates", "positions", "links", "width", "entries", "rounds", "bytes", "symbol"]
AMPLE = dict(work=2_000_000, predicates=64, positions=256, links=100_000, width=4, entries=100_000,
             rounds=10_000, bytes=100_000, symbol=64)

NEGATE, NOT = 0, 1
ADD, SUB, MUL, DIV, MOD, POW, AND, OR, XOR = range(9)
LT, LE, GT, GE, EQ, NEQ = range(6)
COUNT, SUM, SUM_PLUS, LEAST, GREATEST = range(5)
HEAD_FORM, HEAD_TERM, UNBOUND_VARIABLE, SYMBOL_SIZE, VALUE_WIDTH, DEPENDENCY = range(1, 7)


def positive(slot, argument):
    return [0, slot, argument]


def assign(slot, expression):
    return [1, slot, expression]


def between(slot, low, high):
    """A range binding."""
    return [2, slot, low, high]


def aggregate(slot, function):
    return [3, slot, function]


def compare(left, relation, right):
    return [0, left, relation, right]


def member(slot, low, high):
    return [1, slot, low, high]


class Store:
    def __init__(self, rng, counting=0.0, **limits):
        self.rng = rng
        self.counting = counting
        self.limits = {**AMPLE, **limits}
        self.calls = []
        self.predicates = []
        self.arguments = []
        self.keys = []
        self.expressions = []
        self.rules = []

    def text(self, calls=None, **limits):
        """The store's part of a job, with other calls or other limits if so wished."""
        limits = {**self.limits, **limits}
        fresh = [1] + [limits[name] for name in LIMITS]
        return lines([fresh] + (self.calls if calls is None else calls))

    def call(self, *words):
        self.calls.append(list(words))
        if self.counting and words[0] != 50 and self.rng.random() < self.counting:
            self.calls.append([50])

    def context(self, number):
        self.call(2, number)

    def work(self, amount):
        self.call(3, amount)

    def predicate(self, arity):
        """The ids of the new arguments."""
        self.call(4, arity)
        start = len(self.arguments)
        self.predicates.append((start, arity))
        self.arguments.extend(range(start, start + arity))
        return self.arguments[start:]

    def argument(self, predicate, position):
        self.call(5, predicate, position)

    def number(self, value):
        self.call(6, value)
        return self._key(value, True)

    def name(self, letters):
        self.call(7, len(letters), *letters)
        return self._key(bytes(letters), len(letters) <= self.limits["symbol"])

    def _key(self, key, retained):
        """An equal retained key has one id, an unretained one always a new one."""
        if retained and key in self.keys:
            return self.keys.index(key)
        self.keys.append(key if retained else None)
        return len(self.keys) - 1

    def constant(self, value):
        """The expression of a number."""
        return self.of(self.number(value))

    def of(self, constant):
        return self._expression(10, constant)

    def slot(self, slot):
        return self._expression(11, slot)

    def unary(self, operator, child):
        return self._expression(12, operator, child)

    def absolute(self, child):
        return self._expression(13, child)

    def binary(self, operator, left, right):
        return self._expression(14, operator, left, right)

    def unknown(self, integer, reason):
        self.call(15, integer, reason)
        self.expressions.append(None)
        return len(self.expressions) - 1

    def _expression(self, *node):
        self.call(*node)
        if node in self.expressions:
            return self.expressions.index(node)
        self.expressions.append(node)
        return len(self.expressions) - 1

    def seed_value(self, argument, constant):
        self.call(20, argument, constant)

    def seed_number(self, argument, value):
        self.seed_value(argument, self.number(value))

    def seed_interval(self, argument, low, high):
        self.call(21, argument, low, high)

    def rule(self, slots, bindings=(), guards=(), heads=(), queries=(), refused=False):
        parts = [slots]
        for items in (bindings, guards, heads, [[query] for query in queries]):
            parts.append(len(items))
            for item in items:
                parts.extend(item)
        self.call(22, *parts)
        if not refused:
            self.rules.append(slots)

    def run(self):
        """The counts stand on both sides, so that a limit can be put between them."""
        self.calls.append([50])
        self.call(30)
        self.calls.append([50])
        self.calls.append([51])


def lines(calls):
    return "".join(" ".join(map(str, call)) + "\n" for call in calls)


def readings(store):
    """Everything that can be read, and one beyond each end; samples of long tables."""
    calls = []
    for argument in some(store, len(store.arguments)):
        calls += [[40, argument], [41, argument]]
    for rule in some(store, len(store.rules)):
        slots = store.rules[rule] if rule < len(store.rules) else 0
        calls += [[42, rule, slot] for slot in some(store, slots)]
    for constant in some(store, len(store.keys)):
        calls.append([43, constant])
    return lines(calls)


def some(store, count, most=12):
    if count <= most:
        return range(count + 1)
    return sorted(store.rng.sample(range(count), most)) + [count]
