"""Families of stores: each function makes the calls up to the run (most of them end with the run).

A family takes a random generator and gives back a Store. The hand-shaped ones each aim at places of
the Rust that a port gets wrong easily; `program` is random throughout.
"""

from store import *

ENDS = [MIN, MIN + 1, MIN + 2, MAX - 2, MAX - 1, MAX]
LARGE = [2**30, -2**30, 2**30 - 1, 2**16, -2**16, 46340, 46341, -46341]
RELATIONS = [LT, LE, GT, GE, EQ, NEQ]
OPERATORS = [ADD] * 6 + [SUB] * 6 + [MUL] * 5 + [POW, AND, OR, XOR]
LETTERS = [0, 97, 98, 255]


def some_number(rng, ends=0.15):
    kind = rng.random()
    if kind < ends:
        return rng.choice(ENDS)
    if kind < ends + 0.1:
        return rng.choice(LARGE)
    if kind < ends + 0.13:
        return rng.randint(MIN, MAX)
    return rng.randint(-6, 12)


def some_name(rng):
    """Few letters and mostly short, so that equal names and prefixes come up."""
    length = rng.choice([0, 1, 1, 2, 2, 3, 3, 5, rng.randint(0, 64), 63, 64])
    return [rng.choice(LETTERS) for _ in range(length)]


def some_key(store, rng, names=0.3):
    if rng.random() < names:
        return store.name(some_name(rng))
    return store.number(some_number(rng))


def some_interval(rng):
    low, high = sorted([some_number(rng), some_number(rng)])
    return rng.choice([(low, high), (low, high), (low, low), (MIN, MAX), (low, MAX), (MIN, high)])


def some_unknown(store, rng):
    return store.unknown(rng.randint(0, 1), rng.randint(1, 6))


def new_store(rng, **limits):
    """Ample limits; width and symbol size vary, and counts stand after no, some or all calls."""
    width = rng.choice([0, 1, 1, 2, 2, 3, 4, 5, 8, 15, 16])
    symbol = rng.choice([0, 1, 2, 3, 63, 64, 64, 64, LARGEST])
    limits = {"width": width, "symbol": symbol, **limits}
    for name in ("predicates", "positions", "links", "entries", "rounds", "bytes"):
        if name not in limits and rng.random() < 0.1:
            limits[name] = LARGEST
    return Store(rng, counting=rng.choice([0, 0, 0.2, 1]), **limits)


# Expressions, guards and rules over what a store has.

def leaf(store, rng, slots):
    kind = rng.random()
    if slots and kind < 0.55:
        return store.slot(rng.randrange(slots))
    if kind < 0.92 or not slots:
        return store.of(rng.randrange(len(store.keys)))
    return some_unknown(store, rng)


def expression(store, rng, slots, depth=3):
    kind = rng.random()
    if depth == 0 or kind < 0.3:
        return leaf(store, rng, slots)
    if kind < 0.5 and slots:
        return affine(store, rng, rng.randrange(slots), some_number(rng, ends=0.1))
    if kind < 0.6:
        return store.unary(rng.choice([NEGATE, NEGATE, NOT]), expression(store, rng, slots, depth - 1))
    if kind < 0.65:
        return store.absolute(expression(store, rng, slots, depth - 1))
    left = expression(store, rng, slots, depth - 1)
    right = left if rng.random() < 0.12 else expression(store, rng, slots, depth - 1)
    return store.binary(rng.choice(OPERATORS), left, right)


def affine(store, rng, slot, number):
    """slot, slot + c, slot - c, c - slot; and c + slot, which narrows no slot."""
    x = store.slot(slot)
    form = rng.randrange(6)
    if form == 0:
        return x
    c = store.constant(number)
    return [store.binary(ADD, x, c), store.binary(SUB, x, c), store.binary(SUB, c, x),
            store.binary(ADD, x, c), store.binary(ADD, c, x)][form - 1]


def guard(store, rng, slots):
    if slots and rng.random() < 0.2:
        ends = [expression(store, rng, slots, 1), expression(store, rng, slots, 1)]
        return member(rng.randrange(slots), *ends)
    left = expression(store, rng, slots, 2)
    right = expression(store, rng, slots, rng.choice([0, 0, 1]))
    if rng.random() < 0.3:
        left, right = right, left
    return compare(left, rng.choice(RELATIONS), right)


def bindings(store, rng, slots):
    """Mostly one positive occurrence for a slot; some have none, some have several or other kinds."""
    result = []
    for slot in range(slots):
        for chance in (0.8, 0.2):
            if rng.random() < chance:
                result.append(positive(slot, rng.choice(store.arguments)))
        if rng.random() < 0.12:
            result.append(assign(slot, expression(store, rng, slots, 2)))
        if rng.random() < 0.1:
            ends = [expression(store, rng, slots, 1), expression(store, rng, slots, 1)]
            result.append(between(slot, *ends))
        if rng.random() < 0.08:
            result.append(aggregate(slot, rng.randrange(5)))
    if rng.random() < 0.3:
        rng.shuffle(result)
    return result


def some_rule(store, rng):
    slots = rng.choice([0, 1, 1, 1, 2, 2, 3, 4])
    body = bindings(store, rng, slots)
    guards = [guard(store, rng, slots) for _ in range(rng.choice([0, 0, 1, 1, 2, 3]))]
    # A head that repeats a guard's operand takes over its narrowing.
    operands = [item[1] for item in guards if item[0] == 0]
    heads = []
    for _ in range(rng.choice([0, 1, 1, 1, 1, 2, 3])):
        repeat = operands and rng.random() < 0.3
        value = rng.choice(operands) if repeat else expression(store, rng, slots, 2)
        heads.append([rng.choice(store.arguments), value])
    if rng.random() < 0.12:
        broken_rule(store, rng, slots, body, guards, heads)
    store.rule(slots, body, guards, heads)


def broken_rule(store, rng, slots, body, guards, heads):
    """The same rule with one reference to nothing: refused by 5 or 14, with what it charged before."""
    copies = [[list(item) for item in items] for items in (body, guards, heads)]
    faults = []
    for item in copies[0]:
        faults.append((item, 1, slots))
        if item[0] < 3:
            faults.append((item, rng.randrange(2, len(item)), 5000))
    for item in copies[1]:
        if item[0] == 1:
            faults.append((item, 1, slots))
        faults.append((item, rng.choice([1, 3]) if item[0] == 0 else rng.choice([2, 3]), 5000))
    for item in copies[2]:
        faults.append((item, rng.randrange(2), 5000))
    if not faults:
        return
    for item, place, number in rng.sample(faults, min(len(faults), rng.choice([1, 1, 2]))):
        item[place] = number
    store.rule(slots, *copies, refused=True)


def refused_call(store, rng):
    """One call that an open store refuses by 1 or 5, or that it answers without any change."""
    arguments, keys, nodes = len(store.arguments), len(store.keys), len(store.expressions)
    beyond = rng.choice([0, 1, 7, 10**6, LARGEST - 10**4])
    sixteen = [[0, 0]] * 17
    rng.choice([
        lambda: store.argument(len(store.predicates) + beyond, 0),
        lambda: store.argument(0, 10 + beyond),
        lambda: store.call(10, keys + beyond),
        lambda: store.call(12, rng.randrange(2), nodes + beyond),
        lambda: store.call(13, nodes + beyond),
        lambda: store.call(14, rng.choice([ADD, SUB, MUL, POW]), nodes + beyond, 0),
        lambda: store.call(14, rng.choice([ADD, SUB, MUL, POW]), 0, nodes + beyond),
        lambda: store.call(14, rng.choice([DIV, MOD]), rng.choice([0, nodes + beyond]), 0),
        lambda: store.seed_value(0, keys + beyond),
        lambda: store.seed_value(arguments + beyond, 0),
        lambda: store.seed_value(arguments + beyond, keys + beyond),
        lambda: store.seed_interval(arguments + beyond, 0, 1),
        lambda: store.seed_interval(0, 4, 3),
        lambda: store.seed_interval(0, MAX, MIN),
        lambda: store.call(7, 65, *[97] * 65),
        lambda: store.call(7, 128, *[98] * 128),
        lambda: store.rule(17, refused=True),
        lambda: store.rule(LARGEST, refused=True),
        lambda: store.rule(0, heads=sixteen, refused=True),
        lambda: store.rule(1, bindings=[aggregate(0, 0)] * 33, refused=True),
        lambda: store.rule(1, guards=[compare(0, EQ, 0)] * 33, refused=True),
        lambda: store.rule(1, queries=[0], refused=True),
        lambda: store.rule(rng.randint(0, 40), queries=[nodes] * 64, refused=True),
        lambda: store.call(rng.choice([40, 41, 43]), beyond),
        lambda: store.call(42, 0, beyond),
        lambda: store.call(4, rng.choice([257, 10**9, LARGEST])),
        lambda: store.work(LARGEST),
        lambda: store.call(51),
        lambda: store.work(rng.choice([0, 1, 5])),
    ])()


def seeds(store, rng):
    for argument in store.arguments:
        for _ in range(rng.choice([0, 0, 1, 1, 2, 4])):
            if rng.random() < 0.75:
                store.seed_value(argument, rng.randrange(len(store.keys)))
            else:
                store.seed_interval(argument, *some_interval(rng))


def maybe_context(store, rng, chance=0.3):
    if rng.random() < chance:
        store.context(rng.choice([0, 1, 2, 7, 2**32 - 1]))


# The families.

def program(rng, **limits):
    """A random program over a few arguments, so that rules meet in cycles."""
    store = new_store(rng, **limits)
    maybe_context(store, rng)
    for _ in range(rng.randint(1, 3)):
        store.predicate(rng.randint(0, 2))
    store.predicate(1)
    for predicate, (_, arity) in enumerate(store.predicates):
        for position in range(arity):
            if rng.random() < 0.3:
                store.argument(predicate, position)
    for _ in range(rng.randint(1, 7)):
        some_key(store, rng)
    seeds(store, rng)
    for _ in range(rng.choice([0, 1, 1, 2, 2, 3, 4, 6])):
        maybe_context(store, rng, 0.2)
        some_rule(store, rng)
        if rng.random() < 0.15:
            refused_call(store, rng)
    maybe_context(store, rng, 0.1)
    store.run()
    return store


def counter(rng):
    """Arguments that feed each other by steps up and down: growth, thresholds, both sides."""
    store = new_store(rng)
    maybe_context(store, rng, 0.2)
    arguments = store.predicate(rng.randint(1, 3))
    near = rng.choice([0, 0, 0, MAX - 20, MIN + 20])
    at = lambda low, high: max(MIN, min(MAX, near + rng.randint(low, high)))
    for _ in range(rng.choice([0, 1, 2, 3, 4, 25])):
        store.number(at(-40, 60))
    for argument in rng.sample(arguments, rng.randint(1, len(arguments))):
        if rng.random() < 0.6:
            store.seed_number(argument, at(-3, 3))
        else:
            low = at(-5, 5)
            store.seed_interval(argument, low, max(low, at(0, 9)))
    x = store.slot(0)
    for _ in range(rng.randint(1, 4)):
        source, target = rng.choice(arguments), rng.choice(arguments)
        step = store.constant(rng.choice([1, 1, 2, 3, 5, -1, -2, 1000, 2**20, 2**29, MAX]))
        value = store.binary(rng.choice([ADD, ADD, SUB, SUB, MUL]), x, step)
        if rng.random() < 0.1:
            value = rng.choice([store.binary(ADD, x, x), store.unary(NEGATE, x)])
        guards = []
        if rng.random() < 0.7:
            guards.append(compare(rng.choice([x, x, value]), rng.choice(RELATIONS), store.constant(at(-30, 50))))
        if rng.random() < 0.2:
            guards.append(member(0, store.constant(at(-30, 0)), store.constant(at(0, 40))))
        maybe_context(store, rng, 0.15)
        store.rule(1, [positive(0, source)], guards, [[target, value]])
    store.run()
    return store


def descent(rng):
    """A counter that goes down, or both ways, past many thresholds: their search starts at the top."""
    store = new_store(rng)
    (argument,) = store.predicate(1)
    store.seed_number(argument, rng.randint(-3, 3))
    for _ in range(rng.randint(3, 12)):
        store.number(rng.randint(-60, 60))
    x, step = store.slot(0), store.constant(rng.choice([1, 2, 7]))
    bottom, top = store.constant(rng.randint(-50, -5)), store.constant(rng.randint(5, 50))
    down, up = store.binary(SUB, x, step), store.binary(ADD, x, step)
    store.rule(1, [positive(0, argument)], [compare(x, GT, bottom)], [[argument, down]])
    if rng.random() < 0.5:
        store.rule(1, [positive(0, argument)], [compare(x, LT, top)], [[argument, up]])
    store.run()
    return store


def bodies(rng):
    """One rule with every kind of binding and guard, over expressions of some size."""
    store = new_store(rng)
    arguments = store.predicate(2)
    seeds_of = [some_key(store, rng) for _ in range(3)]
    for key in seeds_of:
        store.seed_value(rng.choice(arguments), key)
    some = lambda: expression(store, rng, 3, 3)
    body = [positive(0, arguments[0]), assign(1, some()), between(2, some(), some()), aggregate(2, rng.randrange(5)),
            positive(1, arguments[1]), assign(0, some()), between(1, some(), some())]
    guards = [member(0, some(), some()), compare(some(), rng.choice(RELATIONS), some()), member(2, some(), some())]
    heads = [[rng.choice(arguments), some()] for _ in range(2)]
    broken_rule(store, rng, 3, body, guards, heads)
    store.rule(3, rng.sample(body, rng.randint(1, len(body))), guards, heads)
    store.run()
    return store


def late_growth(rng):
    """Sides that have been counted before the interval becomes Unbounded or takes all 32 bits."""
    store = new_store(rng)
    first, second = store.predicate(2)
    store.seed_number(first, rng.choice([0, 1, -1]))
    x, one = store.slot(0), store.constant(1)
    top = store.constant(rng.randint(3, 9))
    store.rule(1, [positive(0, first)], [compare(x, LT, top)], [[first, store.binary(ADD, x, one)]])
    big = store.constant(rng.choice([2**30, 2**29, 2**28, -2**30, MAX, MIN]))
    big_product = store.binary(MUL, x, big)
    store.rule(1, [positive(0, first)], [], [[rng.choice([first, second]), big_product]])
    if rng.random() < 0.5:
        zero = store.binary(MUL, x, store.constant(0))
        store.rule(1, [positive(0, second)], [], [[rng.choice([first, second]), zero]])
    if rng.random() < 0.3:
        store.seed_interval(second, MIN, MAX)
    store.run()
    return store


def guards_alone(rng):
    """One slot from a list or an interval, a few affine guards, heads over slot and operands."""
    store = new_store(rng)
    source, target, third = store.predicate(3)
    base = rng.choice([0, 0, MAX - 6, MIN + 6, 2**30])
    near = lambda: max(MIN, min(MAX, base + rng.randint(-8, 8)))
    if rng.random() < 0.5:
        for _ in range(rng.randint(1, 5)):
            store.seed_number(source, near())
        if rng.random() < 0.3:
            store.seed_value(source, store.name(some_name(rng)))
    else:
        low, high = sorted([near(), near()])
        store.seed_interval(source, low, high)
    x = store.slot(0)
    operands, guards = [], []
    for _ in range(rng.randint(1, 4)):
        kind = rng.random()
        operand = affine(store, rng, 0, rng.choice([near(), rng.randint(-5, 5), some_number(rng)]))
        other = store.constant(rng.choice([near(), rng.randint(-9, 9), some_number(rng)]))
        if kind < 0.1:
            operand = some_unknown(store, rng)
        elif kind < 0.2:
            other = rng.choice([some_unknown(store, rng), store.of(some_key(store, rng)), operand])
        if kind > 0.85:
            guards.append(member(0, operand, other))
            continue
        pair = [operand, other] if rng.random() < 0.7 else [other, operand]
        guards.append(compare(pair[0], rng.choice(RELATIONS), pair[1]))
        operands.extend(pair)
    heads = [[target, x]]
    if operands:
        heads.append([third, rng.choice(operands)])
        heads.append([rng.choice([target, third]), store.binary(ADD, rng.choice(operands), x)])
    store.rule(1, [positive(0, source)], guards, heads)
    store.run()
    return store


def lists(rng):
    """Slots that meet lists of several arguments; heads that overflow the width."""
    store = new_store(rng, width=rng.choice([0, 1, 2, 3, 4, 8, 16]), symbol=rng.choice([0, 1, 2, 64]))
    arguments = store.predicate(rng.randint(2, 4))
    for _ in range(rng.randint(2, 20)):
        some_key(store, rng, names=0.5)
    for argument in arguments:
        for _ in range(rng.randint(0, 9)):
            store.seed_value(argument, rng.randrange(len(store.keys)))
        if rng.random() < 0.15:
            store.seed_interval(argument, *some_interval(rng))
    for _ in range(rng.randint(1, 3)):
        x, y = store.slot(0), store.slot(1)
        body = [positive(rng.randrange(2), rng.choice(arguments)) for _ in range(rng.randint(1, 4))]
        if rng.random() < 0.3:
            body.append(assign(rng.randrange(2), rng.choice([x, y, store.of(0)])))
        guards = []
        if rng.random() < 0.5:
            guards.append(compare(rng.choice([x, y]), rng.choice(RELATIONS), rng.choice([x, y, store.of(0)])))
        store.rule(2, body, guards, [[rng.choice(arguments), rng.choice([x, y])] for _ in range(2)])
    store.run()
    return store


def identities(rng):
    """e - e: with and without Unknown, over names, empty, after power, beside equal but other ids."""
    store = new_store(rng)
    source, target = store.predicate(2)
    for _ in range(rng.randint(0, 2)):
        store.seed_value(source, some_key(store, rng))
    x = store.slot(0)
    c = store.of(some_key(store, rng))
    u = some_unknown(store, rng)
    e = rng.choice([
        x, c, u, store.binary(rng.choice(OPERATORS), x, c), store.binary(rng.choice(OPERATORS), u, x),
        store.binary(ADD, x, u), store.absolute(store.binary(ADD, c, u)), store.unary(NOT, x),
        store.binary(POW, x, x), store.unary(NEGATE, store.absolute(x)),
    ])
    difference = store.binary(SUB, e, e)
    other = store.binary(SUB, e, some_unknown(store, rng))
    bound = [positive(0, source)] if rng.random() < 0.8 else []
    guards = []
    if rng.random() < 0.4:
        guards.append(compare(rng.choice([e, x, difference]), rng.choice(RELATIONS), c))
    heads = [[target, difference], [rng.choice([source, target]), store.binary(MUL, difference, c)]]
    if rng.random() < 0.3:
        heads.append([source, other])
    store.rule(1, bound, guards, heads)
    store.run()
    return store


def products(rng):
    """Products with a literal, with a slot that holds one number, and at the ends of 32 bits."""
    store = new_store(rng)
    first, second, target = store.predicate(3)
    numbers = [0, 1, -1, 2, -3, 46341, -46341, 2**30, MIN, MAX, 65536]
    store.seed_number(second, rng.choice(numbers))
    if rng.random() < 0.7:
        store.seed_interval(first, *rng.choice([(MIN, MAX), (-3, 5), (0, 46341), (-46341, 46340), (MIN, -1), (7, 7)]))
    x, y, c = store.slot(0), store.slot(1), store.constant(rng.choice(numbers))
    name = store.of(store.name(some_name(rng)))
    u = store.unknown(1, rng.randint(1, 6))
    pairs = [(x, c), (c, x), (x, y), (y, c), (c, c), (u, c), (name, c), (x, name), (store.binary(ADD, c, c), x)]
    heads = [[target, store.binary(MUL, *rng.choice(pairs))] for _ in range(rng.randint(1, 2))]
    if rng.random() < 0.4:
        heads.append([rng.choice([first, second]), store.unary(NEGATE, x)])
    store.rule(2, [positive(0, first), positive(1, second)], [], heads)
    store.run()
    return store


def reasons(rng):
    """Where a reason comes from, is kept, replaced or cleared, also beside a kept list."""
    store = new_store(rng)
    a, b, c = store.predicate(3)
    if rng.random() < 0.6:
        store.seed_interval(a, 0, 9)
    if rng.random() < 0.6:
        store.seed_value(b, store.name([97] * rng.choice([0, 1, 64])))
    if rng.random() < 0.3:
        store.seed_value(b, store.number(rng.randint(0, 9)))
    x = store.slot(0)
    five = store.constant(5)
    body = [positive(0, rng.choice([a, b]))] if rng.random() < 0.7 else []
    for _ in range(rng.randint(0, 2)):
        body.append(rng.choice([
            aggregate(0, rng.randrange(5)), positive(0, rng.choice([a, b, c])), assign(0, some_unknown(store, rng)),
            assign(0, five), between(0, five, store.constant(rng.randint(3, 8))),
            assign(0, store.binary(ADD, some_unknown(store, rng), five)),
        ]))
    rng.shuffle(body)
    guards = []
    for _ in range(rng.randint(0, 2)):
        limit = store.constant(rng.choice([-1, 0, 4, 10, 20]))
        guards.append(rng.choice([compare(x, rng.choice(RELATIONS), limit), member(0, limit, limit),
                                  compare(store.of(0), LT, x)]))
    heads = [[rng.choice([a, b, c]), rng.choice([x, x, some_unknown(store, rng), five])] for _ in range(2)]
    store.rule(1, body, guards, heads)
    if rng.random() < 0.4:
        store.rule(0, [], [], [[rng.choice([a, b, c]), some_unknown(store, rng)]])
    store.run()
    return store


def kept_reasons(rng):
    """Disjoint narrowings one after another leave an empty list that keeps its reason, as long as the
    slot itself is no operand of a comparison; a head joins it to a list."""
    store = new_store(rng)
    source, target = store.predicate(2)
    store.seed_interval(source, 0, 9)
    for _ in range(rng.randint(0, 2)):
        store.seed_value(target, some_key(store, rng))
    x, five, seven = store.slot(0), store.constant(5), store.constant(7)
    plus = store.binary(ADD, x, five)
    body = rng.choice([[positive(0, source)], [assign(0, some_unknown(store, rng))],
                       [aggregate(0, LEAST), assign(0, store.unknown(1, rng.randint(1, 6)))]])
    guards = rng.choice([[member(0, five, five), member(0, seven, seven)],
                         [compare(plus, LT, five), compare(plus, GT, seven)],
                         [compare(x, LT, five), compare(x, GT, seven)]])
    store.rule(1, body, guards, [[target, x]])
    if rng.random() < 0.3:
        store.rule(1, [positive(0, target)], [], [[rng.choice([source, target]), rng.choice([x, plus])]])
    store.run()
    return store


def sharing(rng):
    """Shared children are walked once for each occurrence: work doubles with each node."""
    depth = rng.choice([3, 6, 10, 12, 40, 63])
    store = new_store(rng, work=rng.choice([5_000, 60_000, 400_000]))
    (argument,) = store.predicate(1)
    store.seed_number(argument, rng.choice([0, 1]))
    e = store.slot(0) if rng.random() < 0.8 else some_unknown(store, rng)
    for _ in range(depth):
        e = store.binary(rng.choice([ADD, SUB, ADD, MUL]), e, e)
    # A `rule` over it walks it whole, and so it may be refused by 3.
    guards = [compare(e, LT, store.constant(9))] if rng.random() < 0.4 else []
    store.rule(1, [positive(0, argument)], guards, [[argument, e]])
    store.run()
    return store


def contexts(rng):
    """Records head by head, with contexts that change and rules that are refused on the way."""
    store = new_store(rng)
    arguments = store.predicate(rng.randint(1, 3))
    x, one, ten = store.slot(0), store.constant(1), store.constant(10)
    for _ in range(rng.randint(3, 9)):
        kind = rng.random()
        some = rng.choice(arguments)
        heads = [[rng.choice(arguments), rng.choice([x, one, store.binary(ADD, x, one)])] for _ in range(3)]
        if kind < 0.3:
            store.context(rng.randint(0, 5))
        elif kind < 0.45:
            store.seed_value(some, rng.randrange(len(store.keys) + 1))
        elif kind < 0.55:
            store.seed_interval(some, rng.randint(-3, 3), rng.randint(0, 5))
        elif kind < 0.85:
            store.rule(1, [positive(0, some)], [compare(x, LT, ten)], heads)
        else:
            heads.insert(rng.randrange(4), rng.choice([[99, x], [some, 99], [some, store.slot(1)]]))
            store.rule(1, [positive(0, some)], [], heads, refused=True)
    store.run()
    return store


def starved(rng):
    """A program under one to three very small limits."""
    small = lambda: rng.choice([0, 0, 1, 2, 3, 5, 8, 13, 21, 34])
    names = ["work", "predicates", "positions", "links", "entries", "rounds", "bytes"]
    limits = {name: small() for name in rng.sample(names, rng.randint(1, 3))}
    if "work" in limits:
        limits["work"] = limits["work"] ** 2
    return rng.choice([program, program, lists_with])(rng, **limits)


def lists_with(rng, **limits):
    store = lists(rng)
    store.limits.update(limits)
    return store


def refusals(rng):
    """Refused calls one after another on a small store, with the counts after each."""
    store = Store(rng, counting=1)
    maybe_context(store, rng, 0.5)
    store.predicate(2)
    store.number(3)
    store.constant(7)
    store.slot(0)
    for _ in range(rng.randint(4, 14)):
        refused_call(store, rng)
    store.rule(1, [positive(0, 0)], [], [[1, 0]])
    store.run()
    return store


def invalid_seeds(rng):
    """Small limits on links and entries around seeds: records and thresholds that stay behind."""
    store = new_store(rng, width=rng.choice([0, 1, 2, 16]), entries=rng.randint(0, 6), links=rng.randint(4, 40))
    store.counting = 1
    store.predicate(2)
    maybe_context(store, rng, 0.7)
    for _ in range(rng.randint(3, 14)):
        kind = rng.random()
        if kind < 0.4:
            some_key(store, rng)
        elif kind < 0.8:
            store.seed_value(rng.randrange(3), rng.randrange(len(store.keys) + 1))
        else:
            store.seed_interval(rng.randrange(3), rng.randint(-9, 3), rng.randint(0, 99))
    store.run()
    return store


def nesting(rng):
    """Chains up to the nesting of 64, and one more."""
    store = new_store(rng)
    (argument,) = store.predicate(1)
    store.seed_number(argument, rng.choice([0, 5]))
    x, one = store.slot(0), store.constant(1)
    e = x
    for _ in range(rng.choice([62, 63])):
        kind = rng.random()
        if kind < 0.3:
            e = store.unary(NEGATE, e)
        elif kind < 0.4:
            e = store.absolute(e)
        else:
            pair = [e, one] if rng.random() < 0.5 else [one, e]
            e = store.binary(rng.choice([ADD, SUB]), *pair)
    for _ in range(3):
        deep = rng.choice([[12, 0, e], [13, e], [14, 0, e, one], [14, 0, one, e], [14, 1, 4000, e], [14, 3, e, e]])
        store.call(*deep)
    store.rule(1, [positive(0, argument)], [], [[argument, e]])
    store.run()
    return store


def facts_only(rng):
    """No rules: the seeds are the result."""
    store = new_store(rng)
    maybe_context(store, rng)
    for _ in range(rng.randint(0, 3)):
        store.predicate(rng.randint(0, 3))
    for _ in range(rng.randint(1, 8)):
        some_key(store, rng, names=0.5)
    seeds(store, rng)
    store.run()
    return store


def keys(rng):
    """Many keys, equal ones and prefixes among them, some of them too long to be retained."""
    store = new_store(rng, symbol=rng.choice([0, 1, 3, 64]), bytes=rng.choice([0, 3, 40, 100_000]))
    (argument,) = store.predicate(1)
    for _ in range(rng.randint(5, 40)):
        key = some_key(store, rng, names=0.7)
        if rng.random() < 0.2:
            store.seed_value(argument, key)
    store.run()
    return store


def full_predicates(rng):
    """64 predicates or 256 positions, and what comes after them."""
    store = new_store(rng, predicates=rng.choice([64, LARGEST]), positions=rng.choice([256, 300, LARGEST]))
    if rng.random() < 0.5:
        for _ in range(64):
            store.predicate(rng.choice([0, 1, 2]))
    else:
        for _ in range(3):
            store.predicate(85)
        store.call(4, 2)
        store.predicate(1)
    for arity in rng.sample([0, 1, 2, LARGEST, LARGEST - 200], 3):
        store.call(4, arity)
    for argument in rng.sample(store.arguments, 3):
        store.seed_number(argument, some_number(rng))
    store.rule(1, [positive(0, 0)], [], [[1, store.slot(0)]])
    store.run()
    return store


# Full tables: long jobs, and so rare ones.

def full_constants(rng):
    store = new_store(rng, symbol=rng.choice([1, 64]))
    (argument,) = store.predicate(1)
    for at in range(1023):
        if rng.random() < 0.8:
            store.number(at)
        else:
            store.name([at // 256, at % 256])
    while len(store.keys) < 1024:
        store.number(5000 + len(store.keys))
    for _ in range(3):
        rng.choice([lambda: store.call(6, 4), lambda: store.call(6, 90_000), lambda: store.call(7, 1, 97),
                    lambda: store.call(7, 65, *[1] * 65)])()
    for _ in range(6):
        store.seed_value(argument, rng.randrange(1026))
    store.run()
    return store


def full_expressions(rng):
    store = new_store(rng)
    (argument,) = store.predicate(1)
    store.seed_number(argument, 1)
    x = store.slot(0)
    while len(store.expressions) < 1024:
        if rng.random() < 0.7:
            some_unknown(store, rng)
        else:
            store.slot(len(store.expressions))
    store.call(11, 0)
    store.call(15, 1, 3)
    store.call(14, DIV, 0, 0)
    store.rule(1, [positive(0, argument)], [], [[argument, rng.choice([x, 1023])]], refused=True)
    store.run()
    return store


def full_rules(rng):
    store = new_store(rng)
    arguments = store.predicate(3)
    store.seed_number(arguments[0], 0)
    x, one, top = store.slot(0), store.constant(1), store.constant(rng.randint(2, 30))
    up = store.binary(ADD, x, one)
    for _ in range(256):
        heads = [[rng.choice(arguments), rng.choice([x, up])] for _ in range(rng.randint(0, 2))]
        store.rule(1, [positive(0, rng.choice(arguments))], [compare(x, LT, top)], heads)
    store.rule(1, refused=True)
    store.rule(17, refused=True)
    store.run()
    return store


def full_thresholds(rng):
    """680 far intervals enter six each; a few more come to just below, at or above 4,088."""
    store = new_store(rng)
    store.predicate(2)
    for at in range(680):
        store.seed_interval(0, 16 * at, 16 * at + 8)
    top = 16 * 680
    for _ in range(rng.randint(1, 4)):
        low = top
        top += 16
        store.seed_interval(rng.randrange(2), low, low + rng.choice([0, 1, 2, 8]))
    for _ in range(4):
        rng.choice([lambda: store.call(6, top), lambda: store.call(6, 3), lambda: store.call(7, 1, 97),
                    lambda: store.call(7, 65, *[97] * 65), lambda: store.seed_interval(0, top, top + 8),
                    lambda: store.seed_interval(9, 3, 1)])()
        top += 16
    for at in range(len(store.keys), 3):
        store.seed_value(1, at)
    x = store.slot(0)
    store.rule(1, [positive(0, 1)], [], [[1, store.binary(ADD, x, x)]])
    store.run()
    return store


def full_provenance(rng):
    """Records up to just below, at or above 1,008."""
    store = new_store(rng)
    store.predicate(2)
    store.context(rng.randint(0, 9))
    x = store.slot(0)
    for _ in range(62):
        store.rule(1, [positive(0, 0)], [], [[rng.randrange(2), x] for _ in range(16)])
    store.number(1)
    for _ in range(rng.randint(10, 20)):
        store.seed_value(rng.randrange(2), 0)
    for _ in range(5):
        rng.choice([lambda: store.seed_value(0, 0), lambda: store.seed_interval(1, 0, 4),
                    lambda: store.seed_interval(1, 4, 0), lambda: store.rule(1, refused=True),
                    lambda: store.call(22, 1, 0, 0, 2, 0, x, 1, x, 0),
                    lambda: store.context(77), lambda: store.seed_value(9, 9)])()
    store.run()
    return store


# (a family, its share, whether a tight limit may be put on it)
FAMILIES = [
    (program, 30, True), (counter, 14, True), (descent, 6, True), (bodies, 8, True), (late_growth, 5, True),
    (guards_alone, 14, True), (lists, 14, True), (identities, 5, True), (products, 4, True), (reasons, 8, True),
    (kept_reasons, 4, True), (sharing, 3, False), (contexts, 10, True), (starved, 8, False), (refusals, 5, False),
    (invalid_seeds, 5, False), (nesting, 2, True), (facts_only, 4, True), (keys, 4, True),
    (full_predicates, 1, False), (full_constants, 0.2, False), (full_expressions, 0.2, False),
    (full_rules, 0.2, False), (full_thresholds, 0.3, False), (full_provenance, 0.3, False),
]


def choose(rng, tight=False):
    shares = [share if may or not tight else 0 for _, share, may in FAMILIES]
    return rng.choices([family for family, _, _ in FAMILIES], shares)[0]
