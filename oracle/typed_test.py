#!/usr/bin/env python3
"""oracle/typed_test.py: tries the reader of typed.py, and tries that these tests catch wrong readers.

- Cases, each with its sentence of ../shared/design/TEXT.md, or of document 02 where (02) stands behind.
- Answers that the same papers tell of, by the oracle.
- All short texts over small alphabets, by what typed_second.py says is a text; what begins one is found by search, and so is the
  place of 11.
- Literals outside their range, by search over continuations, with a range so small that one digit leaves it.
- The calls of accepted texts of oracle/texts, by typed_second.py.
- Wrong readers, each one edit away: which of the above catch it.

Prints what was tried; exit status 1 on any failure, a wrong reader that nothing catches being one.
"""

import functools
import itertools
import os
import random
import re
import subprocess
import sys

sys.dont_write_bytecode = True

import typed
from typed_answer import answer
from typed_second import followed, is_fact, is_text, meant, sentences, tokens
from typed_texts import some_text

# Cases: the sentence, the text, and what it stands for: (11, place), (12, place), the calls between the fresh store and the run,
# or TEXT, accepted with calls that the case is not about.

TEXT = "a text"
RULE = b"p(X):-p(X),"
RULE_CALLS = ["4 1", "5 0 0", "11 0", "5 0 0"]
NAME = b"abcdeFGHIJ" * 6 + b"abc"
VARIABLES = [b"V%d" % at for at in range(300)]

OFFSETS = [
    ("So `p(-2147483648, X).` and `p(-2147483648,-a).` are 12 at 3", b"p(-2147483648, X).", (12, 3)),
    ("So `p(-2147483648, X).` and `p(-2147483648,-a).` are 12 at 3", b"p(-2147483648,-a).", (12, 3)),
    ("`p(0..9,-2147483648,X)` is 11 at the `X`", b"p(0..9,-2147483648,X)", (11, 19)),
    ("a variable, an operator, a bracket, a second minus, a name behind a minus or a `:` does", b"p(-2147483648+", (12, 3)),
    ("a variable, an operator, a bracket, a second minus, a name behind a minus or a `:` does", b"p(-2147483648,(", (12, 3)),
    ("a variable, an operator, a bracket, a second minus, a name behind a minus or a `:` does", b"p(--2147483648", (12, 4)),
    ("a variable, an operator, a bracket, a second minus, a name behind a minus or a `:` does", b"p(-2147483648) :", (12, 3)),
    ("its minus counts unless they make its sentence a rule (02)", b"p(-2147483648", (11, 13)),
    ("its minus counts unless they make its sentence a rule (02)", b"p(-2147483648)", (11, 14)),
    ("its minus counts unless they make its sentence a rule (02)", b"p(-2147483649", (12, 3)),
    ("its minus counts unless they make its sentence a rule (02)", b"p(2147483648", (12, 2)),
    ("all else that is no token is 11", b"p(\t0).", (11, 2)),
    ("all else that is no token is 11", b"p(0).\r\n", (11, 5)),
    ("all else that is no token is 11", b"p(0).\x80", (11, 5)),
    ("all else that is no token is 11", b"p_(0).", (11, 1)),
    ("all else that is no token is 11", b"p(_X", (11, 2)),
    ("all else that is no token is 11", b"% p(0).", (11, 0)),
    ("`0. .9` is 11 at the space", b"p(0. .9).", (11, 4)),
    ("`< =` at the `=`", b"p(X):-X< =0.", (11, 9)),
    ("`: -` at the space", b"p(X): -X<0.", (11, 5)),
    ("a comparison (`<`, `<=`, `>`, `>=`, `=`, `!=`) (02)", b"p(X):-X=<0.", (11, 8)),
    ("a comparison (`<`, `<=`, `>`, `>=`, `=`, `!=`) (02)", b"p(X):-X>=0,X>0,X<=0,X<0,X=0,X!=0.", TEXT),
    ("`:-`, `..`, `<=`, `>=`, `!=`, names, variables and digit strings are one token each", b"p(X):-X! =0.", (11, 8)),
    ("`:-`, `..`, `<=`, `>=`, `!=`, names, variables and digit strings are one token each", b"p(a b).", (11, 4)),
    ("`:-`, `..`, `<=`, `>=`, `!=`, names, variables and digit strings are one token each", b"p(1 2).", (11, 4)),
    ("The 65th letter is the 11", b"p(" + NAME + b"d).", TEXT),
    ("The 65th letter is the 11", b"p(" + NAME + b"de).", (11, 66)),
    ("The 65th letter is the 11", NAME + b"dE(0).", (11, 64)),
    ("The 65th letter is the 11", RULE + b"X" + NAME + b"d<0.", (11, 75)),
    ("viable as a head until the full stop, so 11 at the `.`", b"p(X).", (11, 4)),
    ("viable as a head until the full stop, so 11 at the `.`", b"p(1+2).", (11, 6)),
    ("viable as a head until the full stop, so 11 at the `.`", b"p((1)).", (11, 6)),
    ("viable as a head until the full stop, so 11 at the `.`", b"p(--5).", (11, 6)),
    ("viable as a head until the full stop, so 11 at the `.`", b"p(-a).", (11, 5)),
    ("11 at the `X` of `p(0..9,X`", b"p(0..9,X", (11, 7)),
    ("at the `a` of `p(0..9,-a`", b"p(0..9,-a", (11, 8)),
    ("at the `+` of `p(0..9,1+`", b"p(0..9,1+", (11, 8)),
    ("at the `:` of `p(0..9) :`", b"p(0..9) :", (11, 8)),
    ("at the first dot where a rule is certain (`p(X,0.`)", b"p(X,0..", (11, 5)),
    ("not before names", b"p(0..9,-5,-a).", (11, 11)),
    ("In rules a literal is at most 2147483647, behind a minus too", RULE + b"X<-2147483648.", (12, 14)),
    ("In rules a literal is at most 2147483647, behind a minus too", b"p(-2147483648):-X<0.", (12, 3)),
    ("In rules a literal is at most 2147483647, behind a minus too", RULE + b"X<-2147483647.", TEXT),
    ("\"its first digit\" may be a zero", b"p(002147483648).", (12, 2)),
    ("\"its first digit\" may be a zero", b"p(-  0002147483649).", (12, 5)),
    ("Body atoms hold variables only", b"p(X):-p(0", (11, 8)),
    ("Body atoms hold variables only", b"p(X):-p(a", (11, 8)),
    ("Body atoms hold variables only", b"p(X):-p(X+", (11, 9)),
    ("an item that begins with a name and `(` is an atom", b"p(X):-p(X)<", (11, 10)),
    ("exactly one relation, not inside brackets", b"p(X):-X<Y<", (11, 9)),
    ("exactly one relation, not inside brackets", b"p(X):-(X<", (11, 8)),
    ("exactly one relation, not inside brackets", b"p(X):-X.", (11, 7)),
    ("12 lies before the 11 by its definition, so where there is one it wins; of several the first",
     b"p(2147483648,3000000000).?", (12, 2)),
    ("A longer file: its first wrong byte if below 8,192, else 8,192, even if the text were whole",
     b"p(0)." + b" " * 8188, (11, 8192)),
    ("A longer file: its first wrong byte if below 8,192, else 8,192, even if the text were whole",
     b" " * 8191 + b"?" * 9, (11, 8191)),
    ("A longer file: its first wrong byte if below 8,192, else 8,192, even if the text were whole",
     b" " * 8192 + b"?" * 9, (11, 8192)),
    ("A literal cut by byte 8,192 is judged by its digits before it", b" " * 8180 + b"p(2147483648).", (12, 8182)),
    ("A literal cut by byte 8,192 is judged by its digits before it", b" " * 8181 + b"p(2147483648).", (11, 8192)),
    ("the length if it breaks off (02)", b"p(" + b"(" * 4090 + b"X" + b")" * 4090, (11, 8183)),
    ("the length if it breaks off (02)", b"p", (11, 1)),
    ("Atoms have a lower-case name and, in brackets, one or more arguments (02)", b"p().", (11, 2)),
    ("Atoms have a lower-case name and, in brackets, one or more arguments (02)", b"p.", (11, 1)),
    ("a body one or more items (02)", b"p(X):-.", (11, 6)),
    ("`s(X,idle)` in a body is no text", b"p(X):-s(X,idle)", (11, 10)),
    ("Files with CR LF are 11 at the first line end", b"p(0). \r\n", (11, 6)),
]

CALLS = [
    ("No sentence is a text", b"", []),
    ("No sentence is a text", b" \n \n", []),
    ("`p(- 5).` is a fact", b"p(- 5).", ["4 1", "5 0 0", "6 -5", "20 0 0"]),
    ("`-0` is 0", b"p(-0,0).", ["4 2", "5 0 0", "6 0", "20 0 0", "5 0 1", "6 0", "20 1 0"]),
    ("A fact's minus stands once, before each integer of a range too (`-5..-3`)", b"p(-5..-3).", ["4 1", "5 0 0", "21 0 -5 -3"]),
    ("spaces and line feeds may stand anywhere but inside tokens (02)", b" p\n( - 5 ..\n- 3 ) .\n", ["4 1", "5 0 0", "21 0 -5 -3"]),
    ("`p(5..3).` is a text", b"p(5..3).", ["4 1", "5 0 0", "21 0 5 3"]),
    ("its minus counts unless they make its sentence a rule (02)", b"p(-2147483648).", ["4 1", "5 0 0", "6 -2147483648", "20 0 0"]),
    ("Leading zeros, any number", b"p(" + b"0" * 5000 + b"7).", ["4 1", "5 0 0", "6 7", "20 0 0"]),
    ("Only `predicate` is called once", b"p(a).p(a).p(a,a).",
     ["4 1", "5 0 0", "7 1 97", "20 0 0", "5 0 0", "7 1 97", "20 0 0",
      "4 2", "5 1 0", "7 1 97", "20 1 0", "5 1 1", "7 1 97", "20 2 0"]),
    ("then for each argument `argument` and, in a fact, its constant and seed (02)", b"aB1(ab,1..2).",
     ["4 2", "5 0 0", "7 2 97 98", "20 0 0", "5 0 1", "21 1 1 2"]),
    ("Engineers want to type `p(X+1) :- p(X), X < 10.` (02)", b"p(X+1) :- p(X), X < 10.",
     ["4 1", "5 0 0", "11 0", "6 1", "10 0", "14 0 0 1", "5 0 0", "11 0", "6 10", "10 1", "22 1 1 0 0 0 1 0 0 0 3 1 0 2 0"]),
    ("A rule: head predicate, then argument and expression one by one; body items in text order, comparisons among atoms",
     b"h(Y,a):-X<=Y,q(X,Z),Z!=X,q(Y,X).",
     ["4 2", "5 0 0", "11 0", "5 0 1", "7 1 97", "10 0", "11 1", "11 0", "4 2", "5 1 0", "5 1 1", "11 2", "11 1", "5 1 0", "5 1 1",
      "22 3 4 0 1 2 0 2 3 0 0 2 0 1 3 2 0 2 1 0 0 3 5 2 2 0 0 1 1 0"]),
    ("Unary minus binds tightest, then `*`, then `+` and `-`, from the left (02)", RULE + b"X-X*-X-X<X.",
     RULE_CALLS + ["11 0", "11 0", "11 0", "12 0 0", "14 2 0 1", "14 1 0 2", "11 0", "14 1 3 0", "11 0",
                   "22 1 1 0 0 0 1 0 4 0 0 1 0 0 0"]),
    ("Unary minus binds tightest, then `*`, then `+` and `-`, from the left (02)", RULE + b"X*X*a+X<X.",
     RULE_CALLS + ["11 0", "11 0", "14 2 0 0", "7 1 97", "10 0", "14 2 1 2", "11 0", "14 0 3 0", "11 0",
                   "22 1 1 0 0 0 1 0 4 0 0 1 0 0 0"]),
    ("Brackets make no node: 4,090 of them are accepted", b"p(" + b"(" * 4090 + b"X" + b")" * 4090 + b"):-X<X.",
     ["4 1", "5 0 0", "11 0", "11 0", "11 0", "22 1 0 1 0 0 0 0 1 0 0 0"]),
    ("minuses may repeat, brackets override (02)", RULE + b"--X*(X+(X))>=X.",
     RULE_CALLS + ["11 0", "12 0 0", "12 0 1", "11 0", "11 0", "14 0 0 0", "14 2 2 3", "11 0", "22 1 1 0 0 0 1 0 4 3 0 1 0 0 0"]),
    ("a sentence's slots are numbered at first mention (02)", b"p(X):-p(Y),X=Y.p(Y):-p(X),X>Y.",
     ["4 1", "5 0 0", "11 0", "5 0 0", "11 0", "11 1", "22 2 1 0 1 0 1 0 0 4 1 1 0 0 0",
      "5 0 0", "11 0", "5 0 0", "11 1", "11 0", "22 2 1 0 1 0 1 0 1 2 0 1 0 0 0"]),
]


# What answers a text: all of its lines, or how they begin.
ANSWERS = [
    ("an empty file, or white space, reports `done 0 0` and `s 0 0 2 0 0 0 0`", b"\n", {}, "done 0 0\ns 0 0 2 0 0 0 0\n"),
    ("its call meets 13 (CR 3)", b"p(5..3). p(X):-p(X).", {}, "refused 13\n"),
    ("64 minuses before a leaf meet 1 (63 do not)", b"p(" + b"-" * 64 + b"X):-p(X).", {}, "refused 1\n"),
    ("64 minuses before a leaf meet 1 (63 do not)", b"p(" + b"-" * 63 + b"X):-p(X).", {}, "done 1 1\na 0 I e e [] 0\n"),
    ("17 slots or 33 bindings meet 1 at `rule` only", RULE + b"+".join(VARIABLES[:16]) + b"=0.", {}, "refused 1\n"),
    ("17 slots or 33 bindings meet 1 at `rule` only", RULE + b"+".join(VARIABLES[:15]) + b"=0.", {}, "done 1 1\n"),
    ("17 slots or 33 bindings meet 1 at `rule` only", b"p(X):-p(X" + b"),p(X" * 32 + b").", {}, "refused 1\n"),
    ("17 slots or 33 bindings meet 1 at `rule` only", b"p(X):-p(X" + b"),p(X" * 31 + b").", {}, "done 1 1\n"),
    ("`X*-2` and `-2*X` are Unbounded", b"p(1..2). q(X*-2) :- p(X).", {}, "done 2 1\na 0 I 1 2 - 0\na 1 I * * - 0\n"),
    ("`X*-2` and `-2*X` are Unbounded", b"p(1..2). q(-2*X) :- p(X).", {}, "done 2 1\na 0 I 1 2 - 0\na 1 I * * - 0\n"),
    ("`-(2*X)` is bounded", b"p(1..2). q(-(2*X)) :- p(X).", {}, "done 2 1\na 0 I 1 2 - 0\na 1 I -4 -2 - 0\n"),
    ("no run and no report, only its line", b"p(1). p(2). q(1).", {"predicates": 1}, "refused 6 1 2\n"),
    ("inspected bytes count a name again", b"p(abc). p(abc).", {"bytes": 5}, "refused 4 5 6\n"),
]


def failed_answers():
    return [f"the answer to {text}" for _, text, limits, begins in ANSWERS if not answer(text, **limits).startswith(begins)]


def last_call(text):
    return typed.job(typed.stands_for(text)[1]).splitlines()[-2]


def long_rules():
    """"it stands for the `rule` call with the true lengths and its first 32 bindings, 32 guards and 16 heads, which meets 1" """
    bodies = [(b"p(X):-p(X" + b",X" * 32 + b").", "22 1 33 "), (b"p(X):-X<0" + b",X<0" * 32 + b".", "22 1 0 33 "),
              (b"p(X" + b",X" * 16 + b"):-X<0.", "22 1 0 1 0 0 0 1 17 "),
              (b"p(X):-p(" + b",".join(VARIABLES) + b").", "22 301 33 0 1 1 0 2 2 ")]
    return [f"long rule {text[:20]}" for text, begins in bodies if not last_call(text).startswith(begins)]


def failed_cases():
    """The cases that come out otherwise: their texts, cut."""
    failed = []
    for _, text, expected in OFFSETS + CALLS:
        try:
            cause, found = typed.stands_for(text)
        except (AssertionError, AttributeError, KeyError, IndexError, TypeError) as error:
            cause, found = type(error).__name__, ""
        got = (cause, found) if cause else typed.job(found).splitlines()[1:-1]
        if got != expected and not (expected == TEXT and cause == 0):
            failed.append(repr(text.strip())[1:30])
    return failed


# All short texts. A letter of an alphabet may be several bytes, so that more of the language is short.

ALPHABETS = [
    (b"p ( 0 . -", 7, b" \n"), (b"p( X 0 - , ) :- < .", 6, b""), (b"p( a 0 - .. ) . ):-X<0.", 6, b" "),
    (b"p( X + - * ( ) ):-X<X.", 7, b""), (b"p(X):- p( X a ) , < <= = .", 6, b""), (b"p(X):-X < = ! > ( ) X .", 6, b""),
    (b"p(0). p( 0 ) : - X< 0.", 6, b" "),
]
def alphabet(row, most, blanks, less=0):
    return tuple(row.split() + [bytes([blank]) for blank in blanks]), most - less


WHOLE = re.compile(rb"[ \n]*(?:[a-z].*\.)?[ \n]*", re.DOTALL)


@functools.cache
def texts_of(letters, most):
    """All texts of at most so many letters; the pattern only spares time."""
    return {text for size in range(most + 1) for text in map(b"".join, itertools.product(letters, repeat=size))
            if WHOLE.fullmatch(text) and is_text(text)}


def walk(letters, most):
    """What the reader takes: what it accepts of at most so many letters, and each beginning that it keeps alive."""
    accepted, alive = set(), set()
    todo = [(b"", typed.START, 0)]
    while todo:
        text, readings, size = todo.pop()
        alive.add(text)
        if typed.step(readings, len(text), typed.END):
            accepted.add(text)
        for letter in letters if size < most else []:
            longer, left = text, readings
            for byte in letter:
                left = typed.step(left, len(longer), byte)
                longer += bytes([byte])
            if left:
                todo.append((longer, left, size + 1))
    return accepted, alive


def goes_on(text):
    """Whether some text begins so, by search: the rest of a token, an operand, the brackets that are open, and an end."""
    open_brackets = text.count(b"(") - text.count(b")")
    closed = {b"", b")" * open_brackets, b")" * (open_brackets + 1)}
    parts = itertools.product((b"", b"-", b"=", b"."), (b"", b"0", b"X", b"p(X", b"(0"), closed, (b"", b".", b":-X<0.", b"<0."))
    return any(is_text(text + b"".join(tail)) for tail in parts)


def short_texts(letters, most):
    """How many were looked at, and what is wrong."""
    texts = texts_of(letters, most)
    accepted, alive = walk(letters, most)
    begun = {text[:size] for text in texts for size in range(len(text) + 1)}
    wrong = [f"{text} is a text" for text in texts - accepted] + [f"{text} is no text" for text in accepted - texts]
    wrong += [f"{text} begins no text" for text in alive - begun if not goes_on(text)]
    return (len(texts), len(alive)), wrong


# Literals outside their range: a literal is outside by some bytes if it is in every text that begins with them.

SMALL = (b"p(", b"-", b"2", b"1", b",", b"X", b"..", b").", b"):-X<X.")
SMALL_LEAST, SMALL_GREATEST = -2, 1


def literals(text):
    """The place of each literal of a text, and whether it is inside the small range: a minus counts in facts."""
    found, facts = tokens(text), [is_fact(kinds) for kinds in sentences(text)]
    inside, sentence = {}, 0
    for (before, _), (kind, at) in zip([("", 0)] + found, found):
        if kind == "0":
            sign = -1 if before == "-" and facts[sentence] else 1
            value = sign * int(re.compile(rb"[0-9]+").match(text, at)[0])
            inside[at] = SMALL_LEAST <= value <= SMALL_GREATEST
        sentence += kind == "."
    return inside


@functools.cache
def first_outside_by_search(most):
    """For each beginning of a text: its first literal that is outside in every text that goes on from it."""
    seen, inside = {}, {}
    for text in texts_of(SMALL, most):
        for at, is_inside in literals(text).items():
            for size in range(at + 1, len(text) + 1):
                begin = text[:size]
                seen.setdefault(begin, set()).add(at)
                if is_inside:
                    inside.setdefault(begin, set()).add(at)
    return {begin: min(places - inside.get(begin, set()), default=None) for begin, places in seen.items()}


def small_literals(most):
    """Beginnings two letters short of the longest texts: each can end as a fact or as a rule if it may be both."""
    expected = first_outside_by_search(most)
    short = {b"".join(letters) for size in range(most - 1) for letters in itertools.product(SMALL, repeat=size)} & set(expected)
    wrong = []
    for begin in sorted(short):
        cause, place = typed.read(begin)
        told = place if cause == 12 else None
        if told != expected[begin]:
            wrong.append(f"{begin}: {cause} {place}, by search {expected[begin]}")
    return len(short), wrong


def with_small_range(run):
    kept = typed.LEAST, typed.GREATEST
    typed.LEAST, typed.GREATEST = SMALL_LEAST, SMALL_GREATEST
    try:
        return run()
    finally:
        typed.LEAST, typed.GREATEST = kept


# The calls.

def short_enough(told):
    """Whether a job writes all of a rule."""
    return all(call[0] != "rule" or len(call[2]) <= 32 and len(call[3]) <= 32 and len(call[4]) <= 16 for call in told)


def calls_of_texts(count):
    """Of the texts of oracle/texts, those that are accepted, and no brackets deeper than Python takes."""
    tried, wrong = 0, []
    for turn in range(1, count + 1):
        kind, text = some_text("calls", turn)
        cause, calls = typed.stands_for(text) if kind not in ("deep", "around_longest") else (11, None)
        if cause:
            continue
        told = meant(text)
        if short_enough(told):
            tried += 1
            wrong += [f"the calls of {text}"] if told != followed(calls) else []
    return tried, wrong


# The place of 11, by search.

def places(letters, most, count):
    """Random letters: the first byte that leaves no text to go on to."""
    rng, wrong = random.Random("places"), []
    begun = {text[:size] for text in texts_of(letters, most) for size in range(len(text) + 1)}
    for _ in range(count):
        text = letters[0] + b"".join(rng.choice(letters) for _ in range(rng.randint(0, most)))
        sizes = [size for size in range(len(text) + 1) if text[:size] in begun or goes_on(text[:size])]
        expected = (0, None) if is_text(text) else (11, max(sizes))
        cause, place = typed.read(text)
        if (cause, place if cause else None) != expected or sizes != list(range(len(sizes))):
            wrong.append(f"{text}: {cause} {place}, by search {expected}")
    return wrong


# Wrong readers.

def grammar(old, new):
    """One edit of the grammar."""
    def put():
        assert old in typed.GRAMMAR, old
        typed.RULES = typed.table(typed.GRAMMAR.replace(old, new))
    return put


def letter(kind, more):
    def put():
        typed.LETTERS = {**typed.LETTERS, kind: typed.LETTERS[kind] + more}
        typed.RULES = typed.table(typed.GRAMMAR)
    return put


def longest_name(size):
    def put():
        typed.LONGEST_NAME = size
        typed.RULES = typed.table(typed.GRAMMAR)
    return put


def constant(name, value):
    return lambda: setattr(typed, name, value)


def calls(**methods):
    """Other methods of Calls."""
    return lambda: setattr(typed, "Calls", type("Calls", (typed.Calls,), methods))


def one_late(before, readings):
    return KEPT["refused"](before + b"?", readings)


def eleven_first(before, readings):
    return 11, len(before)


def minus_until_neck(text, readings):
    """As if only a whole `:-` made a rule: before it every minus counts."""
    if b":-" in text[text.rfind(b".") + 1:]:
        return KEPT["first_outside"](text, readings)
    places = {at for _, notes in readings for kind, at in typed.in_order(notes) if kind in typed.SIGNS}
    sign = lambda at: -1 if text[:at].rstrip(b" \n").endswith(b"-") else 1
    return min((at for at in places if not typed.fits(sign(at) * typed.number_at(text, at))), default=None)


def guard_exchanged(self, at):
    self.stack.reverse()
    KEPT["Calls"].guard(self, at)


def rule_that_keeps_slots(self, at):
    slots = self.slots
    KEPT["Calls"].rule(self, at)
    self.slots = slots


def atom_by_name(self, at):
    """As if a predicate were its name alone."""
    name = typed.name_at(self.text, at)
    self.arities[0] = next((arity for known, arity in self.predicates if known == name), self.arities[0])
    KEPT["Calls"].atom(self, at)


def constant_once(self, key):
    return self.keys[key] if key in self.keys else KEPT["Calls"].constant(self, key)


def range_with_constants(self, at):
    self.constant(self.stack[-2])
    self.constant(self.stack[-1])
    KEPT["Calls"].seed_range(self, at)


def binding_with_expression(self, at):
    KEPT["Calls"].slot(self, at)
    self.stack.pop()
    KEPT["Calls"].binding(self, at)


def predicate_each_time(self, at):
    known = typed.name_at(self.text, at), self.arities[0]
    if known in self.predicates:
        self.call(None, 4, self.arities[0])
    KEPT["Calls"].atom(self, at)


def seed_before_constant(self, at):
    self.made.append(((20, self.current, len(self.keys)), None))
    self.constant(self.stack.pop())


KEPT = {name: getattr(typed, name) for name in
        ("RULES", "LETTERS", "refused", "first_outside", "LONGEST", "LONGEST_NAME", "LEAST", "SIGNS", "Calls")}
LEVELS = """'-' product @subtract terms
product    = unary factors
factors    = | '*' unary @multiply factors"""
EXCHANGED = """'*' product @multiply terms
product    = unary factors
factors    = | '-' unary @subtract factors"""
WRONG = {
    "precedence of `-` and `*` exchanged": grammar(LEVELS, EXCHANGED),
    "a minus above `*`": grammar("'-' unary @negate", "'-' product @negate"),
    "a difference read from the right": grammar("'-' product @subtract terms", "'-' product terms @subtract"),
    "a product read from the right": grammar("'*' unary @multiply factors", "'*' unary factors @multiply"),
    "no repeated minus": grammar("'-' unary @negate", "'-' leaf @negate"),
    "a minus before a fact's name": grammar("@seed_name name", "@seed_name name | @argument '-' @seed_name name"),
    "two minuses in a fact": grammar("'-' @minus number", "'-' @minus number | '-' '-' @plain number"),
    "no minus before the second integer of a range": grammar("'..' integer", "'..' @plain number"),
    "a range in a rule": grammar("sum @head", "sum @head | @argument sum '..' sum @head"),
    "a range of two tokens": grammar("'..'", "'.' '.'"),
    "`:-` of two tokens": grammar("':-'", "':' '-'"),
    "`<=` of two tokens": grammar("'<='", "'<' '='"),
    "`=<` too": grammar("@at_most '<='", "@at_most '<=' | @at_most '=<'"),
    "no `!=`": grammar(" | @different '!='", ""),
    "an empty body": grammar("':-' item items '.'", "':-' '.' @rule | @atom name '(' result results ')' ':-' item items '.'"),
    "no arguments": grammar("@atom name '(' value values ')' '.'", "@atom name '.' | @atom name '(' value values ')' '.'"),
    "a number in a body's atom": grammar("@binding variable", "@binding variable | @argument number"),
    "a relation inside brackets": grammar("sum relation sum @guard", "sum relation sum @guard | '(' sum relation sum ')' @guard"),
    "two relations": grammar("sum relation sum @guard", "sum relation sum @guard | sum relation sum relation sum @guard"),
    "tabs are blank": letter("blank", "\t"),
    "carriage returns are blank": letter("blank", "\r"),
    "names with underscores": letter("further", "_"),
    "a variable may be an underscore": letter("upper", "_"),
    "names of 65": longest_name(65),
    "names of 63": longest_name(63),
    "no text without a sentence": grammar("blanks sentences", "blanks sentence sentences"),
    "no blank before the first token": grammar("blanks sentences", "sentences"),
    "no zero before other digits": grammar("digits     = | digit digits", "digits     = | digit"),
    "8,193 bytes": constant("LONGEST", 8193),
    "8,191 bytes": constant("LONGEST", 8191),
    "11 told one byte late": constant("refused", one_late),
    "11 before 12": constant("refused", eleven_first),
    "the least number does not fit": constant("LEAST", -2**31 + 1),
    "a fact's minus that does not count": constant("SIGNS", dict(plain=1, minus=1, literal=1)),
    "a rule's minus that counts": grammar("'-' unary @negate", "'-' unary @negate | '-' @minus number"),
    "a rule only with its `:-`": constant("first_outside", minus_until_neck),
    "a guard's sides exchanged": calls(guard=guard_exchanged),
    "slots that go on in the next sentence": calls(rule=rule_that_keeps_slots),
    "predicates by name alone": calls(atom=atom_by_name),
    "a constant called once": calls(constant=constant_once),
    "a range with constants": calls(seed_range=range_with_constants),
    "a body's variable as an expression": calls(binding=binding_with_expression),
    "a predicate called each time": calls(atom=predicate_each_time),
    "a seed before its constant": calls(seed_number=seed_before_constant),
}


def restore():
    for name, value in KEPT.items():
        setattr(typed, name, value)


def finds(test):
    """Whether a test sees anything wrong; a reader that breaks is seen."""
    try:
        return bool(test())
    except (AssertionError, AttributeError, KeyError, IndexError, TypeError, ValueError):
        return True


def caught(put):
    """The cases that fail with a wrong reader, and which of the smaller searches see it."""
    put()
    cases = failed_cases()
    search = finds(lambda: [wrong for row in ALPHABETS for wrong in short_texts(*alphabet(*row, less=2))[1]])
    outside = finds(lambda: with_small_range(lambda: small_literals(6))[1])
    second = finds(lambda: calls_of_texts(100)[1])
    restore()
    return cases, [name for name, found in (("short texts", search), ("literals", outside), ("calls", second)) if found]


def wrong_readers():
    """Each, with what catches it."""
    missed = []
    for name, put in WRONG.items():
        cases, searches = caught(put)
        print(f"  {name}: {'; '.join([f'{len(cases)} cases'] + searches + cases[:3])}")
        if not cases:
            missed.append(f"no case catches: {name}")
    return missed


def main():
    subprocess.run([os.path.join(os.path.dirname(os.path.abspath(__file__)), "check")], check=True)
    failed = [f"case {text}" for text in failed_cases()] + long_rules() + failed_answers()
    print(f"{len(OFFSETS) + len(CALLS)} cases and {len(ANSWERS)} answers, {len(failed)} failed")
    for row in ALPHABETS:
        counts, wrong = short_texts(*alphabet(*row))
        print(f"{row[0].decode()}: {counts[0]} texts and {counts[1]} beginnings of up to {row[1]} letters, {len(wrong)} wrong")
        failed += wrong
    tried, wrong = with_small_range(lambda: small_literals(7))
    print(f"{tried} beginnings with literals, {len(wrong)} wrong")
    failed += wrong
    tried, wrong = calls_of_texts(1500)
    print(f"the calls of {tried} texts, {len(wrong)} wrong")
    failed += wrong
    wrong = [text for row in ALPHABETS for text in places(*alphabet(*row, less=2), 300)]
    print(f"{300 * len(ALPHABETS)} places of 11, {len(wrong)} wrong")
    failed += wrong
    print(f"{len(WRONG)} wrong readers:")
    failed += wrong_readers()
    print("\n".join(failed[:20]) if failed else "all as it should be")
    sys.exit(1 if failed else 0)


if __name__ == "__main__":
    main()
