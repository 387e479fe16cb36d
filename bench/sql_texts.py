"""Texts near the SQL profile, read by the reader and by a recognizer of this file's own, compared by kind and place of the fault.

    python3 bench/sql_texts.py [SEED] [COUNT]

It needs the program of the crate `sql_check`, which `rt run` builds in crates/sql_check; its path is given by the environment variable
SQL_CHECK (by default crates/sql_check/out/sql_check). It makes COUNT texts (20,000 by default) from the seed, hands all of them to the
program in one run, one line `query TEXT` each, and compares each answer. It prints how many texts had which answer, and every difference.

The recognizer works otherwise than the reader: it keeps the set of all stacks of grammar symbols that the tokens so far may leave, with no
look ahead and no choice, in two grammars side by side, one with the limits of depth and of LIMIT's number and one without. Where the set
of the grammar with limits becomes empty, the token is the fault; the other set says whether it is a limit.
"""

import functools
import os
import random
import re
import subprocess
import sys

KEYWORDS = """SELECT FROM INNER LEFT OUTER JOIN ON WHERE GROUP BY HAVING ORDER LIMIT AS COUNT DISTINCT SUM MIN MAX AVG OR AND NOT IN BETWEEN
IS NULL ASC DESC DATE""".split()
MOST_OPEN = 64
MOST_BYTES = 10_000

# ---- tokens: one regular expression a kind, the longest match

NUMBER = re.compile(rb"[0-9]+(\.[0-9]*)?")
GOOD_NUMBER = re.compile(rb"[0-9]{1,30}(\.[0-9]{1,4})?\Z")
WORD = re.compile(rb"[A-Za-z_][A-Za-z0-9_]*")
GOOD_NAME = re.compile(rb"[A-Za-z_][A-Za-z0-9_]{0,63}\Z")
NAME_IN_QUOTES = re.compile(rb'"([^"]*)"')
TEXT_IN_QUOTES = re.compile(rb"'((?:[^']|'')*)'(?!')")
SYMBOL = re.compile(rb"<>|!=|<=|>=|[,()*;.+\-=<>]")


def is_utf8(data):
    try:
        data.decode("utf-8")
        return True
    except UnicodeDecodeError:
        return False


def token_at(text, at):
    """The kind and the end of the token at a place, or the fault there."""
    found = NUMBER.match(text, at)
    if found:
        number = found.group()
        if not GOOD_NUMBER.match(number):
            return "BadNumber", None
        if number == b"1":
            return "one", found.end()
        if b"." not in number and len(number) <= 9:
            return "whole", found.end()
        return "number", found.end()
    found = WORD.match(text, at)
    if found:
        word = found.group()
        if not GOOD_NAME.match(word):
            return "BadToken", None
        upper = word.decode().upper()
        return (upper if upper in KEYWORDS else "name"), found.end()
    found = NAME_IN_QUOTES.match(text, at)
    if found:
        return ("name", found.end()) if GOOD_NAME.match(found.group(1)) else ("BadToken", None)
    found = TEXT_IN_QUOTES.match(text, at)
    if found:
        said = found.group(1).replace(b"''", b"'")
        return ("text", found.end()) if len(said) <= 255 and is_utf8(said) else ("BadToken", None)
    found = SYMBOL.match(text, at)
    if found:
        symbol = found.group().decode()
        return ("<>" if symbol == "!=" else symbol), found.end()
    return "BadToken", None


def tokens_of(text):
    """The tokens with their places, and the fault behind them."""
    tokens, at = [], 0
    while True:
        while at < len(text) and text[at] in b" \t":
            at += 1
        if at == len(text):
            return tokens, None
        kind, end = token_at(text, at)
        if end is None:
            return tokens, (kind, at)
        tokens.append((kind, at))
        at = end


# ---- the grammar: what a symbol may stand for. A symbol of conditions has its depth with it.


def listed(item, mark):
    return [(item, (listed_more, item, mark))]


def listed_more(item, mark):
    return [(), (mark, item, (listed_more, item, mark))]


def expansions(symbol, limits):
    """The lists of symbols that a symbol stands for, or None where it is a token."""
    if isinstance(symbol, tuple):
        if symbol[0] is listed_more:
            return listed_more(symbol[1], symbol[2])
        name, depth = symbol
        if name == "cond":
            return listed(("conj", depth), "OR")
        if name == "conj":
            return listed(("neg", depth), "AND")
        deeper = [("NOT", ("neg", depth + 1)), ("(", ("cond", depth + 1), ")")]
        return [("term", "test")] + (deeper if depth < MOST_OPEN or not limits else [])
    if symbol == "rows" and not limits:
        return [("one",), ("whole",), ("number",)]
    return GRAMMAR.get(symbol)


GRAMMAR = {
    "query": [("SELECT", "items", "FROM", "name", "joins", "filter", "grouping", "having", "ordering", "limit", "end")],
    "items": listed("item", ","),
    "item": [("term",), ("term", "name"), ("term", "AS", "name")],
    "term": [("col",), ("COUNT", "(", "counted", ")")] + [(w, "(", "col", ")") for w in ("SUM", "MIN", "MAX", "AVG")],
    "counted": [("*",), ("one",), ("DISTINCT", "col"), ("col",)],
    "col": [("name",), ("name", ".", "name")],
    "joins": [(), ("join", "joins")],
    "join": [("how", "JOIN", "name", "ON", "pairs")],
    "how": [(), ("INNER",), ("LEFT",), ("LEFT", "OUTER")],
    "pairs": listed("pair", "AND"),
    "pair": [("col", "=", "col")],
    "filter": [(), ("WHERE", ("cond", 0))],
    "grouping": [(), ("GROUP", "BY", "cols")],
    "cols": listed("col", ","),
    "having": [(), ("HAVING", ("cond", 0))],
    "ordering": [(), ("ORDER", "BY", "keys")],
    "keys": listed("key", ","),
    "key": [("term",), ("term", "ASC"), ("term", "DESC")],
    "limit": [(), ("LIMIT", "rows")],
    "rows": [("one",), ("whole",)],
    "end": [(), (";",)],
    "test": [(c, "lit") for c in ("=", "<>", "<", "<=", ">", ">=")]
    + [("IN", "lits"), ("NOT", "IN", "lits"), ("BETWEEN", "lit", "AND", "lit"), ("NOT", "BETWEEN", "lit", "AND", "lit")]
    + [("IS", "NULL"), ("IS", "NOT", "NULL")],
    "lits": [("(", "lit_list", ")")],
    "lit_list": listed("lit", ","),
    "lit": [("any_number",), ("+", "any_number"), ("-", "any_number"), ("text",), ("DATE", "text")],
    "any_number": [("one",), ("whole",), ("number",)],
}


@functools.lru_cache(maxsize=None)
def after(stack, kind, limits):
    """The stacks that a token of the kind may leave of a stack, whose top is its first symbol."""
    if not stack:
        return frozenset()
    found = expansions(stack[0], limits)
    if found is None:
        return frozenset([stack[1:]]) if stack[0] == kind else frozenset()
    left = set()
    for symbols in found:
        left |= after(symbols + stack[1:], kind, limits)
    return frozenset(left)


@functools.lru_cache(maxsize=None)
def may_end(stack, limits):
    """Whether no token spells the stack."""
    if not stack:
        return True
    found = expansions(stack[0], limits)
    return found is not None and any(may_end(symbols + stack[1:], limits) for symbols in found)


def step(stacks, kind, limits):
    left = set()
    for stack in stacks:
        left |= after(stack, kind, limits)
    return left


def answer_of(text):
    """The first fault of a text, or None where it is a query."""
    if len(text) > MOST_BYTES:
        return ("TooLong", 0)
    tokens, bad = tokens_of(text)
    within, loose = {("query",)}, {("query",)}
    for kind, place in tokens:
        within, loose = step(within, kind, True), step(loose, kind, False)
        if not within:
            if not loose:
                return ("Unexpected", place)
            return ("BadNumber" if kind == "number" else "TooDeep", place)
    if bad:
        return bad
    if not any(may_end(stack, True) for stack in within):
        return ("Unexpected", len(text))
    return None


# ---- texts


def spelled(rng, kind):
    """A token of the kind, as bytes."""
    if kind in KEYWORDS:
        return bytes(c if rng.random() < 0.5 else c ^ 32 for c in kind.encode())
    if kind == "name":
        if rng.random() < 0.1:
            return b'"' + rng.choice(KEYWORDS).encode() + b'"'
        return rng.choice([b"region", b"D1", b"_x", b"sales", b"a", b"Kat_2", b"counts", b"n" * rng.choice([63, 64])])
    if kind == "one":
        return b"1"
    if kind == "whole":
        return rng.choice([b"0", b"01", b"7", b"123456789", b"11"])
    if kind == "number":
        return rng.choice([b"1.5", b"1.0", b"1234567890", b"0.0001", b"9" * 30, b"9" * 30 + b".9999"])
    if kind == "text":
        said = rng.choice([b"EU", b"", b"it's", b"''", "größe".encode(), b"x" * rng.choice([254, 255]), b"not a date", b"'" * 255])
        return b"'" + said.replace(b"'", b"''") + b"'"
    if kind == "<>":
        return rng.choice([b"<>", b"!="])
    return kind.encode()


def derived(rng, symbol, budget, out):
    """Appends the kinds of tokens that a random derivation of the symbol has."""
    found = expansions(symbol, True)
    if found is None:
        out.append(symbol)
        return
    symbols = min(found, key=len) if budget <= 0 and symbol != "how" else rng.choice(found)
    if budget <= 0 and isinstance(symbol, tuple) and symbol[0] == "neg":
        symbols = ("term", "test")
    for part in symbols:
        derived(rng, part, budget - 1, out)


def mutated(rng, kinds):
    """A few tokens dropped, doubled, put in, exchanged or cut off."""
    kinds = list(kinds)
    for _ in range(rng.choice([0, 0, 1, 1, 1, 2, 3])):
        at = rng.randrange(len(kinds) + 1)
        how = rng.randrange(6)
        if how == 0 and at < len(kinds):
            del kinds[at]
        elif how == 1 and at < len(kinds):
            kinds.insert(at, kinds[at])
        elif how == 2:
            kinds.insert(at, rng.choice(ALL_KINDS))
        elif how == 3 and at < len(kinds):
            kinds[at] = rng.choice(ALL_KINDS)
        elif how == 4 and at + 1 < len(kinds):
            kinds[at], kinds[at + 1] = kinds[at + 1], kinds[at]
        elif how == 5 and rng.random() < 0.3:
            kinds = kinds[:at]
    return kinds


ALL_KINDS = KEYWORDS + ["name", "text", "one", "whole", "number"] + [",", "(", ")", "*", ";", ".", "+", "-", "=", "<>", "<", "<=", ">", ">="]
STRANGE = [
    b"?", b"!", b"'", b'"', b'""', b'"a b"', b'"1a"', b'"' + b"q" * 65 + b'"', b"'open", b"1.", b"1.00000", b"9" * 31, b"w" * 65, b"\xff", b"'\xff'",
    b"'" + b"t" * 256 + b"'", b"#", b"\r", b"a-b", b"5and", b"1.2.3", b".5", b"''''", b"'''", b"< >", b"<=>", b"1e5", b"\xc3\xbc", b"LIMIT 1.0", b"LIMIT 1234567890",
]


def joined(rng, pieces):
    """The pieces in a row, parted by blanks where needed, and often where not."""
    text = b""
    for piece in pieces:
        needs = text and piece and (text[-1:].isalnum() or text[-1:] in b"_.'\"") and (piece[:1].isalnum() or piece[:1] in b"_.'\"")
        if needs and rng.random() < 0.98 or rng.random() < 0.5:
            text += rng.choice([b" ", b" ", b"  ", b"\t"])
        text += piece
    return text


def nested(rng):
    """A condition nested about as deep as the limit."""
    depth = rng.choice([3, 62, 63, 64, 65, 66])
    opens = [rng.choice(["(", "NOT"]) for _ in range(depth)]
    kinds = ["SELECT", "name", "FROM", "name", rng.choice(["WHERE", "HAVING"])]
    if rng.random() < 0.3:
        kinds += ["(", "name", "=", "one", ")", "AND"]
    kinds += opens + ["name", "=", "one"] + [")"] * (opens.count("(") + rng.choice([-1, 0, 0, 0, 1]))
    return kinds


def text_of(rng):
    """A text near the grammar."""
    if rng.random() < 0.05:
        kinds = nested(rng)
    else:
        kinds = []
        derived(rng, "query", rng.randrange(3, 14), kinds)
    pieces = [spelled(rng, kind) for kind in mutated(rng, kinds)]
    if rng.random() < 0.2:
        pieces.insert(rng.randrange(len(pieces) + 1), rng.choice(STRANGE))
    text = joined(rng, pieces)
    if rng.random() < 0.01:
        text += b" " * (rng.choice([9_999, 10_000, 10_001]) - len(text))
    if rng.random() < 0.05 and text:
        at = rng.randrange(len(text))
        text = text[:at] + bytes([rng.choice(b" '\"().,;1ax_<=!?")]) + text[at + 1 :]
    return text


def escaped(text):
    """A text with the escapes of the check programs."""
    return b"".join(bytes([byte]) if 32 <= byte < 127 and byte != 92 else b"\\x%02x" % byte for byte in text)


def main():
    seed = int(sys.argv[1]) if len(sys.argv) > 1 else 1
    count = int(sys.argv[2]) if len(sys.argv) > 2 else 20_000
    program = os.environ.get("SQL_CHECK", "crates/sql_check/out/sql_check")
    rng = random.Random(seed)
    texts = [text_of(rng) for _ in range(count)]
    run = subprocess.run([program], input=b"".join(b"query " + escaped(text) + b"\n" for text in texts), stdout=subprocess.PIPE, check=True)
    answers = run.stdout.decode().splitlines()
    if len(answers) != len(texts):
        sys.exit(f"{len(texts)} texts, {len(answers)} answers")
    counts, different = {}, 0
    for text, answer in zip(texts, answers):
        fault = answer_of(text)
        wanted = "query" if fault is None else f"{fault[0]} {fault[1]}"
        counts[wanted.split()[0]] = counts.get(wanted.split()[0], 0) + 1
        if answer != wanted:
            different += 1
            print(f"the reader says {answer}, wanted is {wanted}: {text!r}")
    said = ", ".join(f"{kind} {n}" for kind, n in sorted(counts.items()))
    print(f"seed {seed}: {count} texts ({said}), {different} different")
    sys.exit(1 if different else 0)


main()
