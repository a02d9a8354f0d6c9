"""Facts, dependencies and queries as numbers, four bytes each, in the layout that the programs read.

`0(1 50)` is a fact of relation 0. A dependency has atoms on both sides of its arrow, or two variables that are made
equal on the right: `0(x0 x1) -> 10(x0 x2), 11(x2 x1)`, `10(x0 x1), 10(x0 x2) -> x1 = x2`. A query has its row before a
colon: `x1 : 11(x0 x1), 12(x0 70)`.
"""

import re
import struct


def padded(numbers, room):
    """The numbers, and 0 for room that is not used."""
    return numbers + [0] * (room - len(numbers))


def parts(text):
    """`10(x0 5)` as 10 and its words, `x0` and `5`."""
    relation, words = re.fullmatch(r"\s*(\d+)\(([^)]*)\)\s*", text).groups()
    return int(relation), words.split()


def fact(text):
    """Six numbers: the relation, how many values there are, and room for four."""
    relation, words = parts(text)
    return [relation, len(words)] + padded([int(word) for word in words], 4)


def term(word):
    """0 and a constant, or 1 and a variable."""
    return [1, int(word[1:])] if word.startswith("x") else [0, int(word)]


def atom(text):
    """Ten numbers: the relation, how many terms there are, and room for four of them."""
    relation, words = parts(text)
    return [relation, len(words)] + padded([n for word in words for n in term(word)], 8)


def atoms(text, room):
    """How many atoms there are, and room for them."""
    found = re.findall(r"\d+\([^)]*\)", text)
    return [len(found)] + padded([n for each in found for n in atom(each)], 10 * room)


def rule(text):
    """53 numbers: 0, the body and the head, or 1, the body and the two variables that are made equal."""
    body, head = text.split("->")
    if "=" in head:
        left, right = re.findall(r"x(\d+)", head)
        return padded([1] + atoms(body, 3) + [int(left), int(right)], 53)
    return [0] + atoms(body, 3) + atoms(head, 2)


def query(text):
    """40 numbers: how many terms the row has and room for four, and the atoms."""
    row, body = text.split(":")
    words = row.split()
    return [len(words)] + padded([n for word in words for n in term(word)], 8) + atoms(body, 3)


def facts_file(first_null, texts):
    """The numbers of a first file."""
    return [first_null, len(texts)] + [n for text in texts for n in fact(text)]


def rules_file(texts):
    """The numbers of a second file."""
    return [len(texts)] + [n for text in texts for n in rule(text)]


def packed(numbers):
    """The bytes: four for each number, the low byte first."""
    return struct.pack(f"<{len(numbers)}I", *numbers)
