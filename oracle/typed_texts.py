"""The kinds of typed texts (document 02, CR 2) for oracle/texts. KINDS, at the end, has them with their shares.

Which texts are right, and what they stand for, is not known here: that is typed.py's.
"""

import random

LONGEST = 8192
LEAST, GREATEST = -2**31, 2**31 - 1
FIRST, FURTHER = "abcdefghijklmnopqrstuvwxyz", "abcxyzABCXYZ019"
RELATIONS = ["<", "<=", ">", ">=", "=", "!="]
OPERATORS = ["+", "-", "*"]


class Writer:
    """Writes pieces of one text. Between two tokens it may leave blanks: none, few or many, as the text's manner is."""

    def __init__(self, rng, blank=None):
        self.rng = rng
        self.blank = rng.choice([0, 0, 0.1, 0.5]) if blank is None else blank

    def join(self, *tokens):
        return "".join(token + self.blanks() for token in tokens)

    def blanks(self):
        if self.rng.random() >= self.blank:
            return ""
        return self.rng.choice([" ", " ", "\n", "  ", " \n", "\n\n", "   \n "])

    def atom(self, name, arguments):
        inside = self.commas(arguments)
        return self.join(name, "(", *inside, ")")

    def commas(self, items):
        return [part for item in items for part in (",", item)][1:]

    def rule(self, head, items):
        return self.join(head, ":-", *self.commas(items), ".")

    def fact(self, name, arguments):
        return self.join(self.atom(name, arguments), ".")

    def comparison(self, left, right, relation=None):
        return self.join(left, relation or self.rng.choice(RELATIONS), right)

    def minus(self, of):
        return self.join("-", of)

    def range(self, low, high):
        return self.join(low, "..", high)

    def integer(self, value):
        zeros = "0" * self.rng.choice([0] * 12 + [1, 2, 30])
        digits = zeros + str(abs(value))
        return self.minus(digits) if value < 0 or value == 0 and self.rng.random() < 0.05 else digits


def some(rng, most, item):
    return [item() for _ in range(rng.randint(1, most))]


def far_value(rng):
    """Around both ends of 32 bits."""
    size = 2**31 + rng.randint(-2, 2) if rng.random() < 0.8 else 10 ** rng.randint(9, 400)
    return rng.choice([1, -1]) * size


def value(rng):
    kind = rng.random()
    if kind < 0.75:
        return rng.randint(-12, 30)
    return rng.choice([0, 255, 1000, 65535, GREATEST, LEAST, GREATEST - 1, LEAST + 1]) if kind < 0.99 else far_value(rng)


# Valid texts of every form.

class Design:
    """Predicates with their arities, and sentences over them; the names are few, so that they meet."""

    def __init__(self, rng):
        self.rng, self.write = rng, Writer(rng)
        some_name = lambda: rng.choice(["p", "q", "count", "p", "stateOf", "r2"])
        self.predicates = some(rng, 4, lambda: (some_name(), rng.choice([1, 1, 1, 2, 2, 3])))
        self.names = rng.sample(["idle", "busy", "a", "b", "aB", "p", "x1"], 3)
        self.variables = rng.sample(["X", "Y", "Z", "X1", "Xy", "N", "Count"], 4)

    def fact(self):
        name, arity = self.rng.choice(self.predicates)
        return self.write.fact(name, [self.seed() for _ in range(arity)])

    def seed(self):
        kind = self.rng.random()
        if kind < 0.25:
            return self.rng.choice(self.names)
        if kind < 0.5:
            low, high = value(self.rng), value(self.rng)
            low, high = (low, high) if self.rng.random() < 0.1 else (min(low, high), max(low, high))
            return self.write.range(self.write.integer(low), self.write.integer(high))
        return self.write.integer(value(self.rng))

    def rule(self):
        name, arity = self.rng.choice(self.predicates)
        head = self.write.atom(name, [self.sum(self.rng.randint(0, 3)) for _ in range(arity)])
        return self.write.rule(head, some(self.rng, 5, self.item))

    def item(self):
        if self.rng.random() < 0.5:
            name, arity = self.rng.choice(self.predicates)
            return self.write.atom(name, [self.rng.choice(self.variables) for _ in range(arity)])
        return self.write.comparison(self.sum(self.rng.randint(0, 3)), self.sum(self.rng.randint(0, 2)))

    def sum(self, depth):
        kind = self.rng.random() if depth > 0 else 1
        if kind < 0.15:
            return self.write.minus(self.sum(depth - 1))
        if kind < 0.3:
            return self.write.join("(", self.sum(depth - 1), ")")
        if kind < 0.8:
            return self.write.join(self.sum(depth - 1), self.rng.choice(OPERATORS), self.sum(depth - 1))
        return self.leaf()

    def leaf(self):
        kind = self.rng.random()
        if kind < 0.6:
            return self.rng.choice(self.variables)
        return self.rng.choice(self.names) if kind < 0.7 else self.write.integer(abs(value(self.rng)))

    def text(self, most):
        sentences = [self.rng.choice([self.fact, self.rule])() for _ in range(self.rng.randint(0, most))]
        return self.write.blanks() + "".join(sentences)


def valid(rng):
    return Design(rng).text(8)


def counters(rng):
    """Designs whose bounds grow over many rounds: what a person would type."""
    write, text = Writer(rng, 0.3), ""
    for name in rng.sample(["count", "div", "address", "p"], rng.randint(1, 3)):
        top, by = rng.choice([3, 10, 99, 400]), rng.choice(["1", "2", "4", "X", "7"])
        text += write.fact(name, [write.integer(rng.choice([0, 0, 1, -5]))])
        text += write.rule(write.atom(name, [write.join("X", rng.choice("+++-*"), by)]),
                           [write.atom(name, ["X"]), write.comparison("X", str(top), rng.choice(["<", "<=", "!="]))])
        if rng.random() < 0.5:
            text += write.rule(write.atom(name, ["0"]), [write.atom(name, ["X"]), write.comparison("X", str(top), "=")])
        if rng.random() < 0.4:
            other = rng.choice(["count", "div", name])
            text += write.rule(write.atom("sum", ["X+8*Y"]), [write.atom(name, ["X"]), write.atom(other, ["Y"])])
    return text


# Damaged texts.

STRANGE = "\t\r_%#'\"/\\|&~^:;?!{}[]@$\0\x7f\x80\xe9\xff"
USUAL = "pX0-+*(),.:<>=! \n"


def damaged(rng):
    text = valid(rng) if rng.random() < 0.7 else counters(rng)
    for _ in range(rng.choice([1, 1, 1, 2])):
        text = damage(rng, text)
    return text


def damage(rng, text):
    if not text:
        return rng.choice(STRANGE)
    at = rng.randrange(len(text))
    byte = rng.choice(rng.choice([USUAL, STRANGE]))
    return rng.choice([text[:at] + byte + text[at + 1:], text[:at] + text[at + 1:], text[:at] + text[at] + text[at:], text[:at],
                       text[:at] + byte + text[at:], text[:at] + text[at + 1:at + 2] + text[at] + text[at + 2:]])


def soup(rng):
    """Tokens in any order, behind a beginning that is right."""
    pieces = ["p", "q(", "X", "Y", "0", "17", "-", "+", "*", "(", ")", ",", ".", "..", ":-", "<", "<=", "=", "!=", ">=", " ", "\n",
              "a", "p(X)", ").", ":", "!", "!=-"]
    start = rng.choice(["", "p(", "p(0).", "p(X):-", "p(X):-p(X),", "p(0..9,", "p(-5,", "p(X+1):-X<"])
    return start + "".join(rng.choice(pieces) for _ in range(rng.randint(1, 12)))


def any_bytes(rng):
    return "".join(chr(rng.randrange(256)) for _ in range(rng.randint(1, 30)))


# What may still be a fact, and what decides it.

def undecided(rng):
    write = Writer(rng)
    arguments = some(rng, 6, lambda: undecided_argument(rng, write))
    ends = [").", "):-p(X).", "):-X<0.", ")", ",", "", ") :", "):", ").p(0).", "..5).", "+1):-X<-1."]
    return write.join("p", "(", *write.commas(arguments)) + rng.choice(ends)


def undecided_argument(rng, write):
    low, high = edge(rng, write), edge(rng, write)
    kinds = [low] * 8 + ["a", "bC", write.range(low, high), write.range("0", "9"), write.minus("a"), write.minus(low), "X",
                         write.join(low, rng.choice(OPERATORS), high), write.join("(", low, ")")]
    return rng.choice(kinds)


def edge(rng, write):
    """An integer near an end of 32 bits as often as not."""
    return write.integer(rng.randint(-9, 9) if rng.random() < 0.5 else far_value(rng))


def literals(rng):
    """Rules and facts with a literal around 32 bits at one place."""
    write, far = Writer(rng), edge(rng, Writer(rng))
    return rng.choice([
        write.fact("p", [far]), write.fact("p", ["a", far, "7"]), write.fact("p", [write.range(far, "5")]),
        write.fact("p", [write.range("-5", far)]), write.rule(write.atom("p", [far]), ["p(X)"]),
        write.rule("p(X)", ["p(X)", write.comparison("X", far)]), write.rule("p(X)", [write.comparison(far, "X"), "p(X)"]),
        write.rule(write.atom("p", [write.join("X", "*", far)]), ["p(X)"]),
        write.rule(write.atom("p", [write.join("X", "-", far)]), ["p(X)"]),
        write.fact("p", [far]) + "?", write.fact("p", [far])[:-1], "p(" + far, "p(X):-X<" + far])


def ranges(rng):
    """Ranges and what is nearly one."""
    write = Writer(rng)
    end = lambda: rng.choice([edge(rng, write), edge(rng, write), "5", "-5", "0", "--5", "-", "a", "X", "", "(5)", "1+2"])
    dots = rng.choice([".."] * 6 + [". .", "...", "....", ".", " .. ", "\n..\n"])
    arguments = some(rng, 3, lambda: rng.choice(["7", "a", "-3", end() + dots + end(), end() + dots + end()]))
    return write.join("p", "(", *write.commas(arguments)) + rng.choice([").", ").", ")", "):-X<0.", ",X).", "", ".."])


# Sizes.

def around_longest(rng):
    """Brought to a size around 8,192 by blanks, zeros, a name's letters or sentences; a byte may be wrong on either side."""
    size = LONGEST + rng.randint(-2, 3)
    start, filler, end = rng.choice([
        ("", " ", valid(rng)), (valid(rng), "\n", ""), ("p(", "0", "7)."), ("p(", "0", "2147483648)."), ("p(X):-X<", "0", "9."),
        ("", "p(1). ", valid(rng)), ("p(X):-p(X)", ",X<9", "."), ("", " ", "p(214748364812)."),
        ("", " ", "p(-2147483648,X):-X<0."), ("p(X):-X<", "-", "1."), ("p(X):-X<", "(", "1.")])
    room = max(size - len(start) - len(end), 0)
    text = start + filler * (room // len(filler)) + " " * (room % len(filler)) + end
    text += rng.choice(["", "", "", "?", " ", "p(0)."])
    if rng.random() < 0.3:
        at = min(rng.choice([LONGEST - 1, LONGEST, LONGEST + 1, rng.randrange(len(text))]), len(text) - 1)
        text = text[:at] + rng.choice("?\t0X.") + text[at + 1:]
    return text


def names(rng):
    """Names and variables of 62 to 67 letters at every place where one may stand."""
    name = rng.choice(FIRST) + "".join(rng.choice(FURTHER) for _ in range(rng.randint(61, 66)))
    variable = name[0].upper() + name[1:]
    write = Writer(rng)
    return rng.choice([write.fact(name, ["0"]), write.fact("p", [name]), write.fact("p", ["-5", name, name[:-1]]),
                       write.rule(write.atom(name, ["X"]), ["p(X)"]), write.rule("p(X)", [write.atom(name, ["X"])]),
                       write.rule(write.atom("p", [variable]), [write.atom("p", [variable])]),
                       write.rule("p(X)", [write.comparison(variable, name)]), write.rule(write.atom("p", [name]), ["p(X)"]),
                       write.fact("p", [name]) * 3, name, variable])


def deep(rng):
    """Brackets and minuses, to thousands: each bracket closed, or one too many or too few."""
    depth = rng.choice([1, 2, 10, 61, 62, 63, 64, 65, 300, 1000, 2000, 4070, 4085, 4090])
    opened, closed = "(" * depth, ")" * (depth + rng.choice([0, 0, 0, 0, -1, 1]))
    minuses = "-" * rng.choice([1, 2, 60, 61, 62, 63, 64, 65, 200, 5000])
    nested = "(X+" * rng.choice([5, 61, 62, 63, 64, 65, 200]) + "X"
    nested += ")" * nested.count("(")
    chain = "X" + rng.choice(["+X", "-1", "*X"]) * rng.choice([10, 62, 63, 64, 300])
    both = "-(" * min(depth, 2000) + "X" + ")" * min(depth, 2000)
    inside = rng.choice([f"{opened}X{closed}", f"{opened}1{closed}", f"{minuses}1", f"{minuses}X", f"{minuses}({minuses}X)",
                         nested, chain, both])
    return rng.choice([f"p({inside}):-p(X).", f"p(X):-p(X),{inside}<9.", f"p(X):-0<{inside}.", f"p({inside}", f"p({inside})."])


# Over what a rule or a table holds.

def long_rules(rng):
    most = rng.choice([15, 16, 17, 18, 31, 32, 33, 34, 63, 64, 65, 66, 130, 300, 700])
    many = [f"V{at}" for at in range(most)]
    write = Writer(rng, rng.choice([0, 0.1]))
    text = "p(0).p(0,1).q(1)."
    text += rng.choice([
        write.rule(write.atom("p", ["X"] * most), ["p(X)"]), write.rule("p(X)", ["p(X)"] * most),
        write.rule("p(X)", ["p(X)"] + ["X<9"] * most), write.rule("p(X)", [f"p({name})" for name in many] + ["q(X)"]),
        write.rule("p(X)", [write.atom("p", many)]), write.rule("p(" + "+".join(many) + ")", ["q(V0)"]),
        write.rule("p(X)", ["p(X)", "X<9"] * most), write.rule(write.atom("p", many), ["p(X)"] * 2)])
    return text + rng.choice(["", "q(7).", "p(X):-q(X)."])


def many(rng):
    """More predicates, positions, constants, expressions or rules than the tables have, or nearly."""
    count = rng.choice([60, 63, 64, 65, 70])
    at = range(rng.choice([100, 255, 256, 257, 400, 1030]))
    return rng.choice([
        "".join(f"p{i}(0)." for i in range(count)), "p(" + ",".join("0" for _ in at) + ").",
        "".join(f"p({i})." for i in at), "".join(f"p({3 * i}..{3 * i + 1})." for i in at[:700]),
        "p(X):-" + ",".join(f"X<{i}" for i in at[:32]) + ".",
        "p(0)." + "p(X):-p(X)." * len(at[:700]), "p(X):-X<" + "+".join(f"{i}" for i in at) + ".",
        "p(X):-p(X),X<" + "*".join("XYZ"[i % 3] for i in at[:60]) + ".",
        "".join(f"p{i}({i % 7},a,b,c)." for i in range(count)),
        "".join(f"p(a{i})." for i in at), "p(" + ",".join(f"{i}" for i in at[:20]) + "):-p(X)."])


KINDS = [(valid, 30), (counters, 12), (damaged, 25), (soup, 8), (any_bytes, 1), (undecided, 14), (literals, 8), (ranges, 5),
         (around_longest, 4), (names, 5), (deep, 4), (long_rules, 4), (many, 3)]


# What a limit may be set to, where a text is given one: tight, so that calls are refused and runs stop.
LIMITS = dict(work=1500, predicates=4, positions=6, links=60, width=18, entries=12, rounds=12, bytes=12, symbol=4)


def some_limits(seed, turn):
    """One limit for a part of the texts, none for the others."""
    rng = random.Random(f"limits {seed}/{turn}")
    if rng.random() < 0.8:
        return {}
    name = rng.choice(list(LIMITS))
    return {name: rng.randrange(LIMITS[name])}


def some_text(seed, turn):
    """The text of a seed and a number: its kind and its bytes."""
    rng = random.Random(f"{seed}/{turn}")
    kind = rng.choices([kind for kind, _ in KINDS], [share for _, share in KINDS])[0]
    return kind.__name__, kind(rng).encode("latin-1")
