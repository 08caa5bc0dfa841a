"""Ways to damage a netlist's text, by dice; and texts that are wrong in ways that dice seldom find."""
import json
import random
import re
from typing import Any, Callable, Iterator, List, Tuple

TOKEN = re.compile(rb"[A-Za-z0-9_$.\[\]:]+|\s+|.", re.DOTALL)
MARKS = [*(bytes([mark]) for mark in b'(),=#\n {}[]:"\\\0\r-1'), b"\xff\xfe", b"\xc3", b"\x1b[2J"]
WORDS = (b"AND XOR DFF LATCH MUX INPUT OUTPUT VDD gnd inv xnor NOT .names .latch .end .gate $_DFF_P_ $_XOR_ $_DLATCH_P_ $add $_NOT_ $_MUX_ "
         b"inout output input 0 1 2 3 999 x null true").split()

Damage = Callable[[random.Random, List[bytes]], List[bytes]]


# ---- by tokens ----

def place(dice: random.Random, tokens: List[bytes]) -> int:
    """Where a token is, of which blanks are seldom one."""
    for _ in range(5):
        at = dice.randrange(len(tokens))
        if not tokens[at].isspace():
            break
    return at


def drop(dice: random.Random, tokens: List[bytes]) -> List[bytes]:
    at = place(dice, tokens)
    return tokens[:at] + tokens[at + dice.choice((1, 1, 1, 2, 5)):]


def double(dice: random.Random, tokens: List[bytes]) -> List[bytes]:
    at = place(dice, tokens)
    return tokens[:at] + [tokens[at], dice.choice((b"", b" ", b",")), tokens[at]] + tokens[at + 1:]


def exchange(dice: random.Random, tokens: List[bytes]) -> List[bytes]:
    one, other = place(dice, tokens), place(dice, tokens)
    tokens[one], tokens[other] = tokens[other], tokens[one]
    return tokens


def copy(dice: random.Random, tokens: List[bytes]) -> List[bytes]:
    tokens[place(dice, tokens)] = tokens[place(dice, tokens)]
    return tokens


def replace(dice: random.Random, tokens: List[bytes]) -> List[bytes]:
    tokens[place(dice, tokens)] = dice.choice(WORDS + MARKS)
    return tokens


def insert(dice: random.Random, tokens: List[bytes]) -> List[bytes]:
    tokens.insert(dice.randrange(len(tokens) + 1), dice.choice(MARKS))
    return tokens


def cut(dice: random.Random, tokens: List[bytes]) -> List[bytes]:
    whole = b"".join(tokens)
    return [whole[:dice.randrange(len(whole) + 1)]]


def binary(dice: random.Random, tokens: List[bytes]) -> List[bytes]:
    tokens.insert(dice.randrange(len(tokens) + 1), bytes(dice.getrandbits(8) for _ in range(dice.choice((1, 3, 40)))))
    return tokens


def flip(dice: random.Random, tokens: List[bytes]) -> List[bytes]:
    whole = bytearray(b"".join(tokens))
    if whole:
        whole[dice.randrange(len(whole))] ^= 1 << dice.randrange(8)
    return [bytes(whole)]


def huge(dice: random.Random, tokens: List[bytes]) -> List[bytes]:
    at = place(dice, tokens)
    tokens[at] = (tokens[at] or b"n") * dice.choice((300, 2000, 100000)) if tokens[at].strip() else b"n" * 5000
    return tokens


# ---- by lines ----

def lines(dice: random.Random, tokens: List[bytes]) -> List[bytes]:
    """A line dropped, doubled, exchanged with another or joined with the next."""
    rows = b"".join(tokens).split(b"\n")
    one, other = dice.randrange(len(rows)), dice.randrange(len(rows))
    way = dice.randrange(4)
    if way == 0:
        del rows[one]
    elif way == 1:
        rows.insert(other, rows[one])
    elif way == 2:
        rows[one], rows[other] = rows[other], rows[one]
    else:
        rows[one:one + 2] = [b" ".join(rows[one:one + 2])]
    return [b"\n".join(rows)]


DAMAGES: List[Damage] = [drop, drop, double, exchange, exchange, copy, copy, replace, replace, insert, cut, binary, flip, huge, lines, lines]


def damaged(dice: random.Random, text: str) -> bytes:
    """The text with one to three damages; of JSON often one of its parts exchanged for another value."""
    data = text.encode("utf-8")
    if text.startswith("{") and dice.random() < 0.6:
        whole = json.loads(text)
        for _ in range(dice.choice((1, 1, 2))):
            damage_part(dice, whole)
        return json.dumps(whole, indent=1).encode("utf-8")
    for _ in range(dice.choice((1, 1, 1, 2, 3))):
        tokens = TOKEN.findall(data)
        if tokens:
            data = b"".join(dice.choice(DAMAGES)(dice, tokens))
    return data


# ---- by parts of JSON ----

VALUES: List[Any] = [None, True, False, 1.5, -1, 0, 2, 3, 10 ** 30, "", "0", "1", "x", "z", "input", "output", "inout", "\ud800", "a\nb",
                     [], [2], [2, 3], ["0"], [True], [[2]], {}, {"bits": [2]}, "$_DFF_P_", "$_XOR_", "$_MUX_", "$and", "NAND2"]


def parts(value: Any) -> Iterator[Tuple[Any, Any]]:
    """Each place of a value: the object or list, and the key."""
    keys = list(value) if isinstance(value, dict) else list(range(len(value))) if isinstance(value, list) else []
    for key in keys:
        yield value, key
        yield from parts(value[key])


def damage_part(dice: random.Random, whole: Any) -> None:
    found = list(parts(whole))
    holder, key = dice.choice(found)
    way = dice.randrange(5)
    if way == 0:
        del holder[key]
    elif way == 1:
        holder[key] = dice.choice(VALUES)
    elif way == 2:
        other, place_there = dice.choice(found)
        holder[key] = json.loads(json.dumps(other[place_there])) if place_there in other or isinstance(other, list) else None
    elif way == 3 and isinstance(holder, dict):
        holder[dice.choice(["", "A", "Y", "B", "bits", "top", "n\u00e9t", "\udc80"])] = holder.pop(key)
    elif isinstance(holder, dict):
        holder[f"{key}2"] = holder[key]
    else:
        holder.insert(0, holder[key])
