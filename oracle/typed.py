#!/usr/bin/env python3
"""oracle/typed.py < TEXT: what a typed text (document 02, CR 2) stands for: `refused 11 PLACE`, `refused 12 PLACE`, or a job.

This reader is there to be compared with the proved one, and is made otherwise. The grammar is a table, below. All derivations of
it are followed at once: a reading is what one of them still expects, as a stack. Each byte is given to all readings, and those
that it does not fit fall away. Whatever a reading expects can be written, so bytes begin a text exactly if a reading of them is
left: 11 stands at the first byte that leaves none. Nothing here looks ahead or decides between a fact and a rule.
"""

import re
import string
import sys

LONGEST = 8192
LEAST, GREATEST = -2**31, 2**31 - 1
LONGEST_NAME = 64
MOST_SLOTS, MOST_BINDINGS, MOST_GUARDS, MOST_HEADS = 16, 32, 32, 16

# The program's limits, in the order of call 1.
LIMITS = dict(work=10**9, predicates=64, positions=256, links=10**9, width=4, entries=10**9, rounds=10**9, bytes=10**9, symbol=64)

# Alternatives are parted by `|`. A token stands in quotes, and blanks may follow it. `@word` reads nothing: it notes that this
# point was reached, and where, for the calls (`Calls`, one method each). The notes of an expression come children first, left
# before right, as the calls do: each operator is noted behind what it is applied to. `terms` and `factors` note it before
# they go on, which is "from the left".
GRAMMAR = """
text       = blanks sentences
sentences  = | sentence sentences
sentence   = fact | rule

fact       = @atom name '(' value values ')' '.'
values     = | ',' value values
value      = @argument integer @seed_number | @argument @seed_name name | @argument integer '..' integer @seed_range
integer    = @plain number | '-' @minus number

rule       = @atom name '(' result results ')' ':-' item items '.' @rule
results    = | ',' result results
result     = @argument sum @head
items      = | ',' item items
item       = @atom name '(' place places ')' | sum relation sum @guard
places     = | ',' place places
place      = @argument @binding variable
relation   = @less '<' | @at_most '<=' | @greater '>' | @at_least '>=' | @equal '=' | @different '!='

sum        = product terms
terms      = | '+' product @add terms | '-' product @subtract terms
product    = unary factors
factors    = | '*' unary @multiply factors
unary      = leaf | '-' unary @negate
leaf       = @literal number | @symbol name | @slot variable | '(' sum ')'

number     = digit digits blanks
digits     = | digit digits
name       = lower rest blanks
variable   = upper rest blanks
blanks     = | blank blanks
"""

LETTERS = dict(lower=string.ascii_lowercase, upper=string.ascii_uppercase, digit=string.digits,
               further=string.ascii_letters + string.digits, blank=" \n")


# The grammar as a table: for each word its alternatives, each a list of symbols. A symbol is a set of bytes, a note or a word.

def table(grammar):
    rules = {}
    for line in filter(None, grammar.splitlines()):
        word, alternatives = line.split(" = ", 1)
        rules[word.strip()] = [symbols(part) for part in alternatives.split("|")]
    # "To 64 in all": at each further letter one fewer may follow.
    for more in range(LONGEST_NAME):
        go_on = [letters("further"), f"rest {more - 1}"]
        rules[f"rest {more}"] = [[], go_on] if more > 0 else [[]]
    rules["rest"] = [[f"rest {LONGEST_NAME - 1}"]]
    return rules


def symbols(part):
    found = []
    for word in part.split():
        if word.startswith("'"):
            found += [frozenset([byte]) for byte in word[1:-1].encode()] + ["blanks"]
        else:
            found.append(letters(word) if word in LETTERS else word)
    return found


def letters(kind):
    return frozenset(LETTERS[kind].encode())


RULES = table(GRAMMAR)


# Readings. One is a pair: the stack of what it expects, and the notes that it has made, newest first. Both are linked pairs,
# so that readings share what they have in common and a deep bracket costs no more than another.

START = [(("text", None), None)]
END = None


def step(readings, at, byte):
    """The readings that are left behind the byte at `at`; at the END those that expect nothing more."""
    todo, left = list(readings), []
    while todo:
        expected, notes = todo.pop()
        if expected is None:
            left += [(None, notes)] if byte is END else []
            continue
        symbol, rest = expected
        if isinstance(symbol, frozenset):
            left += [(rest, notes)] if byte in symbol else []
        elif symbol.startswith("@"):
            todo.append((rest, ((symbol[1:], at), notes)))
        else:
            todo += [(pushed(alternative, rest), notes) for alternative in RULES[symbol]]
    return left


def pushed(alternative, rest):
    for symbol in reversed(alternative):
        rest = (symbol, rest)
    return rest


def in_order(notes):
    found = []
    while notes is not None:
        note, notes = notes
        found.append(note)
    return found[::-1]


def read(text):
    """(11, place), (12, place), or (0, notes) of a text."""
    seen = text[:LONGEST]
    readings = START
    for at, byte in enumerate(seen):
        left = step(readings, at, byte)
        if not left:
            return refused(seen[:at], readings)
        readings = left
    whole = step(readings, len(seen), END)
    if not whole or len(text) > LONGEST:
        return refused(seen, readings)
    assert len(whole) == 1, "an accepted text has one reading"
    outside = first_outside(seen, whole)
    return (0, in_order(whole[0][1])) if outside is None else (12, outside)


def refused(before, readings):
    """No text begins with more than the bytes before. A literal among them is earlier."""
    outside = first_outside(before, readings)
    return (11, len(before)) if outside is None else (12, outside)


def first_outside(text, readings):
    """A literal is outside by these bytes if it is in each of their readings. Its minus counts in those as a fact alone, and so it
    counts unless the bytes make the sentence a rule."""
    found = [{at for kind, at in in_order(notes) if kind in SIGNS and not fits(SIGNS[kind] * number_at(text, at))}
             for _, notes in readings]
    return min(set.intersection(*found), default=None)


# The notes of literals, and their signs. In a rule the minus is an operator, and no part of a literal.
SIGNS = dict(plain=1, minus=-1, literal=1)


def fits(value):
    return LEAST <= value <= GREATEST


def number_at(text, at):
    """The number whose digits begin here; without the first zeros, since Python takes no longer ones than 4,300 digits."""
    digits = re.compile(rb"0*([0-9]*)").match(text, at)[1]
    return int(digits or b"0") if len(digits) < 100 else 10**100


def name_at(text, at):
    return re.compile(rb"[A-Za-z0-9]+").match(text, at)[0]


# The calls.

class Calls:
    """The calls that the notes of a text stand for, and the answer to each as long as none is refused.

    The ids are worked out here and not asked for call by call, since they are simple where nothing was refused, and a refusal
    ends the reading: an equal predicate, retained key or expression has its old id, everything else the next one.
    typed_answer.py looks that the oracle answers with these ids.
    """

    def __init__(self, text, symbol):
        self.text, self.most_bytes = text, symbol
        self.made = []
        self.predicates, self.positions = {}, 0
        self.keys, self.expressions = {}, {}
        self.arities = []
        self.begin()

    def begin(self):
        """What is kept within a sentence. The stack has what is worked out and not yet used."""
        self.stack = []
        self.slots, self.bindings, self.guards, self.heads = {}, [], [], []

    def of(self, notes):
        self.arities = arities(notes)
        for kind, at in notes:
            if kind in BINARY:
                self.binary(BINARY[kind])
            elif kind in RELATIONS:
                self.stack.append(RELATIONS.index(kind))
            else:
                getattr(self, kind)(at)
        return self.made

    def call(self, answer, *words):
        self.made.append((words, answer))
        return answer

    # Of an atom.

    def atom(self, at):
        key = (name_at(self.text, at), self.arities.pop(0))
        if key not in self.predicates:
            self.predicates[key] = (len(self.predicates), self.positions)
            self.positions += key[1]
            self.call(self.predicates[key][0], 4, key[1])
        self.predicate, self.position = self.predicates[key], 0

    def argument(self, at):
        identity, first = self.predicate
        self.current = self.call(first + self.position, 5, identity, self.position)
        self.position += 1

    # Of a fact.

    def plain(self, at):
        self.stack.append(number_at(self.text, at))

    def minus(self, at):
        self.stack.append(-number_at(self.text, at))

    def seed_number(self, at):
        self.call(None, 20, self.current, self.constant(self.stack.pop()))

    def seed_name(self, at):
        self.call(None, 20, self.current, self.constant(name_at(self.text, at)))

    def seed_range(self, at):
        high, low = self.stack.pop(), self.stack.pop()
        self.call(None, 21, self.current, low, high)

    def constant(self, key):
        name = isinstance(key, bytes)
        # An unretained name never equals an earlier one.
        kept = (key, len(self.keys)) if name and len(key) > self.most_bytes else key
        words = (7, len(key), *key) if name else (6, key)
        return self.call(self.keys.setdefault(kept, len(self.keys)), *words)

    # Of a rule.

    def literal(self, at):
        self.expression(10, self.constant(number_at(self.text, at)))

    def symbol(self, at):
        self.expression(10, self.constant(name_at(self.text, at)))

    def slot(self, at):
        self.expression(11, self.numbered(at))

    def negate(self, at):
        self.expression(12, 0, self.stack.pop())

    def binary(self, operator):
        right, left = self.stack.pop(), self.stack.pop()
        self.expression(14, operator, left, right)

    def expression(self, *node):
        self.stack.append(self.call(self.expressions.setdefault(node, len(self.expressions)), *node))

    def numbered(self, at):
        return self.slots.setdefault(name_at(self.text, at), len(self.slots))

    def head(self, at):
        self.heads.append((self.current, self.stack.pop()))

    def binding(self, at):
        self.bindings.append((0, self.numbered(at), self.current))

    def guard(self, at):
        self.guards.append((0, *self.stack))
        self.stack = []

    def rule(self, at):
        """A job's lists have at most 64 items, so one over the most is written of a longer one: it meets 1 as that does."""
        parts = [len(self.slots)]
        for items, most in ((self.bindings, MOST_BINDINGS), (self.guards, MOST_GUARDS), (self.heads, MOST_HEADS)):
            written = items[:most + 1]
            parts += [len(written)] + [part for item in written for part in item]
        self.call(RULE, 22, *parts, 0)
        self.begin()


BINARY = dict(add=0, subtract=1, multiply=2)
RELATIONS = ["less", "at_most", "greater", "at_least", "equal", "different"]
# Rules are numbered by their calls alone; no later call names one.
RULE = "rule"


def arities(notes):
    """Of each atom in turn: how many arguments are noted before the next one."""
    found = []
    for kind, _ in notes:
        if kind == "atom":
            found.append(0)
        elif kind == "argument":
            found[-1] += 1
    return found


def stands_for(text, **limits):
    """What a text stands for: (11, place), (12, place), or (0, its calls, each with its answer), from a fresh store to the run."""
    limits = {**LIMITS, **limits}
    cause, found = read(text)
    if cause:
        return cause, found
    calls = Calls(text, limits["symbol"]).of(found)
    fresh = (1, *(limits[name] for name in LIMITS))
    return 0, [(fresh, None)] + calls + [((30,), None)]


def job(calls):
    return "".join(" ".join(map(str, words)) + "\n" for words, _ in calls)


def main():
    cause, found = stands_for(sys.stdin.buffer.read())
    sys.stdout.write(f"refused {cause} {found}\n" if cause else job(found))


if __name__ == "__main__":
    main()
