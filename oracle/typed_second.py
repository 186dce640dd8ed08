"""What typed texts are and what they stand for, said a second time, for typed_test.py to try typed.py by.

Made otherwise: `is_text` takes tokens by one pattern, splits at full stops, `:-` and commas, and rewrites an expression until one
letter is left. `meant` splits likewise and gives expressions to Python's parser. Both are for short texts: they are slow, and
Python's parser takes no deep brackets.
"""

import ast
import re

TOKEN = re.compile(rb"[ \n]*(?:(?P<a>[a-z][A-Za-z0-9]{0,63})|(?P<X>[A-Z][A-Za-z0-9]{0,63})|(?P<n>[0-9]+)|(?P<rule>:-)|(?P<to>\.\.)"
                   rb"|(?P<R><=|>=|!=|[<>=])|(?P<sign>[-+*(),.]))")
KIND = dict(a="a", X="X", n="0", rule=":", to="~", R="R")
INTEGER = r"-?0"
FACT = re.compile(r"a\((V)(,(V))*\)".replace("V", rf"{INTEGER}~{INTEGER}|{INTEGER}|a"))
HEAD = re.compile(r"a\((.*)\)")
ATOM = re.compile(r"a\(X(,X)*\)")
PIECE = re.compile(r"\(E\)|(?<![E)])-E|E[-+*]E")


def tokens(text):
    """(kind, place) of each token, or None where a byte is no token."""
    found, at = [], 0
    text = text.rstrip(b" \n")
    while at < len(text):
        token = TOKEN.match(text, at)
        if token is None:
            return None
        name = token.lastgroup
        found.append((KIND.get(name) or token[name].decode(), token.start(name)))
        at = token.end()
    return found


def sentences(text):
    """The kinds of each sentence, or None where the text is none."""
    found = tokens(text)
    if found is None:
        return None
    parts = "".join(kind for kind, _ in found).split(".")
    return parts[:-1] if parts[-1] == "" and all(is_fact(part) or is_rule(part) for part in parts[:-1]) else None


def is_text(text):
    return sentences(text) is not None


def is_fact(kinds):
    return FACT.fullmatch(kinds) is not None


def is_rule(kinds):
    head, *body = kinds.split(":")
    found = HEAD.fullmatch(head)
    return (found is not None and len(body) == 1
            and all(map(is_sum, at_commas(found[1]))) and all(map(is_item, at_commas(body[0]))))


def is_item(kinds):
    sides = kinds.split("R")
    return ATOM.fullmatch(kinds) is not None or len(sides) == 2 and all(map(is_sum, sides))


def is_sum(kinds):
    kinds = re.sub("[aX0]", "E", kinds)
    while PIECE.search(kinds):
        kinds = PIECE.sub("E", kinds)
    return kinds == "E"


def at_commas(kinds):
    """Parted at the commas outside brackets."""
    parts, depth = [""], 0
    for kind in kinds:
        depth += (kind == "(") - (kind == ")")
        if kind == "," and depth == 0:
            parts.append("")
        else:
            parts[-1] += kind
    return parts


# The calls, with things in place of ids, and predicates numbered. In Python's expressions the minus binds tighter than `*` too, and
# the operators go from the left.

OPERATORS = {ast.Add: 0, ast.Sub: 1, ast.Mult: 2}
RELATIONS = ["<", "<=", ">", ">=", "=", "!="]


def meant(text):
    """The calls of a text, with things in place of ids."""
    told, predicates = [], {}
    parts = sentences(text)
    for kinds, words in alongside(parts, [token_word(text, at) for _, at in tokens(text)]):
        head, *body = alongside(kinds.split(":"), words)
        if not body:
            atom_meant(head, predicates, told, seed_meant)
        else:
            rule_meant(head, *body, predicates, told)
    return told


def token_word(text, at):
    found = TOKEN.match(text, at)
    return found[found.lastgroup].decode()


def alongside(parts, words):
    """Each part with its words; one word stands between two parts."""
    at = 0
    for part in parts:
        yield part, words[at:at + len(part)]
        at += len(part) + 1


def atom_meant(atom, predicates, told, of_argument):
    kinds, words = atom
    arguments = list(alongside(at_commas(kinds[2:-1]), words[2:-1]))
    key = (words[0], len(arguments))
    if key not in predicates:
        predicates[key] = len(predicates)
        told.append(("predicate", len(arguments)))
    for position, item in enumerate(arguments):
        told.append(("argument", predicates[key], position))
        of_argument((predicates[key], position), item, told)


def seed_meant(argument, item, told):
    kinds, words = item
    if "~" in kinds:
        low, high = "".join(words).split("..")
        told.append(("range", argument, int(low), int(high)))
        return
    key = words[0].encode() if kinds == "a" else int("".join(words))
    told.extend([("constant", key), ("seed", argument, key)])


def rule_meant(head, body, predicates, told):
    slots, heads, bindings, guards = {}, [], [], []

    def result(argument, item, told):
        heads.append((argument, sum_meant(item, slots, told)))

    def place(argument, item, _):
        bindings.append((slots.setdefault(item[1][0], len(slots)), argument))

    atom_meant(head, predicates, told, result)
    for item in alongside(at_commas(body[0]), body[1]):
        if ATOM.fullmatch(item[0]):
            atom_meant(item, predicates, told, place)
        else:
            left, right = [sum_meant(side, slots, told) for side in alongside(item[0].split("R"), item[1])]
            guards.append((left, RELATIONS.index(item[1][item[0].index("R")]), right))
    told.append(("rule", len(slots), bindings, guards, heads))


def sum_meant(item, slots, told):
    """Tells the calls of an expression; the tree it is."""
    kinds, words = item
    for kind, word in zip(kinds, words):
        if kind == "X":
            slots.setdefault(word, len(slots))
    leaf = {"a": lambda word: "a" + word, "X": lambda word: f"X{slots[word]}", "0": lambda word: f"n{int(word)}"}
    written = " ".join(leaf[kind](word) if kind in leaf else word for kind, word in zip(kinds, words))
    return tree_meant(ast.parse(written, mode="eval").body, told)


def tree_meant(node, told):
    if isinstance(node, ast.UnaryOp):
        tree = ("negated", tree_meant(node.operand, told))
    elif isinstance(node, ast.BinOp):
        tree = (OPERATORS[type(node.op)], tree_meant(node.left, told), tree_meant(node.right, told))
    elif node.id[0] == "X":
        tree = ("slot", int(node.id[1:]))
    else:
        tree = ("key", node.id[1:].encode() if node.id[0] == "a" else int(node.id[1:]))
        told.append(("constant", tree[1]))
    told.append(("expression", tree))
    return tree


def followed(calls):
    """The calls of the reader in the same form: each id is followed back."""
    told, predicates, arguments, keys, trees = [], {}, {}, {}, {}
    for words, answer in calls:
        number, *rest = words
        if number == 4:
            predicates[answer] = len(predicates)
            told.append(("predicate", *rest))
        elif number == 5:
            arguments[answer] = (predicates[rest[0]], rest[1])
            told.append(("argument", *arguments[answer]))
        elif number in (6, 7):
            keys[answer] = rest[0] if number == 6 else bytes(rest[1:])
            told.append(("constant", keys[answer]))
        elif number in (10, 11, 12, 14):
            trees[answer] = tree_followed(number, rest, keys, trees)
            told.append(("expression", trees[answer]))
        elif number == 20:
            told.append(("seed", arguments[rest[0]], keys[rest[1]]))
        elif number == 21:
            told.append(("range", arguments[rest[0]], *rest[1:]))
        elif number == 22:
            told.append(rule_followed(rest, arguments, trees))
    return told


def tree_followed(number, rest, keys, trees):
    if number == 10:
        return ("key", keys[rest[0]])
    if number == 11:
        return ("slot", rest[0])
    return ("negated" if number == 12 else rest[0], *[trees[child] for child in rest[1:]])


def rule_followed(rest, arguments, trees):
    slots, *parts = rest
    bindings, parts = items(parts, 3)
    guards, parts = items(parts, 4)
    heads, _ = items(parts, 2)
    return ("rule", slots, [(slot, arguments[argument]) for _, slot, argument in bindings],
            [(trees[left], relation, trees[right]) for _, left, relation, right in guards],
            [(arguments[argument], trees[tree]) for argument, tree in heads])


def items(parts, size):
    """A count and so many items of a size; and what is left."""
    end = 1 + parts[0] * size
    return [tuple(parts[at:at + size]) for at in range(1, end, size)], parts[end:]
