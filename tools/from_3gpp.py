#!/usr/bin/env python3
"""Writes a CSN.1 rule as a 3GPP text prints it in the notation of this program.

usage: tools/from_3gpp.py [FILE]

FILE, or the standard input where it is left out, has one rule or more, as pasted from a PDF or a Word file. The
standard output is the text as docs/NOTATION.md has it, with the lines and comments that it had. The standard
error tells line by line what was changed, and what could not be; that is left as it stands.

No meaning is guessed: what is changed means the same by its look alone. What needs a choice, as a subtraction or
a width from a table, is told and left.

Status: 0 where all is written, 1 where something could not be, 2 where there is nothing to read.
"""
from __future__ import annotations

import re
import sys
from dataclasses import dataclass, field
from pathlib import Path
from typing import Iterator

SPACES = "\u00a0\u1680\u2000\u2001\u2002\u2003\u2004\u2005\u2006\u2007\u2008\u2009\u200a\u202f\u205f\u3000"
NOTHING = "\ufeff\u200b\u200c\u200d\u2060\u00ad"
DASHES = "\u2010\u2011\u2012\u2013\u2014\u2015\u2212"
APOSTROPHES = "\u2018\u2019\u2032\u00b4`"
STARS = "\u2217\u00d7\u22c5\uff0a"

PIECE = re.compile(r"""
    (?P<space>\s+)
  | (?P<comment>--[^\n]*)
  | (?P<word>[A-Za-z0-9_](?:[A-Za-z0-9_'.,]|[/-](?=[A-Za-z0-9]))*)
  | (?P<sign>::=|\*\*|//|==|[<>:;{}|!&=()*+/\[\]-])
  | (?P<other>.)""", re.VERBOSE | re.DOTALL)
MARK = "[\"'\u201c\u201d\u2018\u2019]"
LITERAL = re.compile(r"[01LH]+")
BUILT_IN = {"spare bit", "spare L", "spare padding", "no string"}
FIELDS = {"bit", "octet"}
PADDING_BITS = "<padding bits> ::= { null | 0 <spare padding> ! <Ignore : 1 bit (*) = <no string>> } ;\n"
COUNT = re.compile(r"\d+|\d+ \* V( \+ \d+)?|\d+ \+ \d+ \* V|\d+ \+ V( \* \d+)?|V( \* \d+)?( \+ \d+)?")


@dataclass
class Token:
    kind: str  # space, comment, word, sign, other; name where a step has written it; left where none could
    text: str
    line: int

    def is_field(self) -> bool:
        return self.kind == "word" and self.text in FIELDS


@dataclass
class Report:
    changed: set[tuple[int, str]] = field(default_factory=set)
    failed: set[tuple[int, str]] = field(default_factory=set)

    def change(self, line: int, what: str) -> None:
        self.changed.add((line, what))

    def fail(self, line: int, what: str) -> None:
        self.failed.add((line, what))

    def lines(self) -> Iterator[str]:
        told = [(line, "", what) for line, what in self.changed]
        told += [(line, "could not: ", what) for line, what in self.failed]
        for line, how, what in sorted(told):
            yield f"{line}: {how}{what}"


# ---- characters ----

@dataclass
class Place:
    """Where in a text a character stands, as far as a dash has to know."""
    line: int = 1
    comment: bool = False
    label: bool = False
    parentheses: int = 0

    def pass_over(self, char: str, before: str) -> None:
        if char == "\n":
            self.line += 1
            self.comment = False
        elif not self.comment:
            self.comment = char == "-" and before == "-"
            self.label = char == "<" or self.label and char not in ":>{|"
            self.parentheses = max(0, self.parentheses + (char == "(") - (char == ")"))


def plain(char: str, place: Place, report: Report) -> str:
    """A character as ASCII has it; in a comment any may stand."""
    if char in NOTHING:
        report.change(place.line, f"a character of no width, U+{ord(char):04X}, is left out")
        return ""
    if char in SPACES and not place.comment:
        report.change(place.line, f"a space U+{ord(char):04X} is a plain space")
        return " "
    if char in DASHES and not place.comment:
        inside = place.label or place.parentheses > 0
        report.change(place.line, "a dash is a hyphen" if inside else "a dash before a comment is --")
        return "-" if inside else "--"
    if char in APOSTROPHES and place.label:
        report.change(place.line, "a quotation mark in a label is '")
        return "'"
    if char in STARS and not place.comment:
        report.change(place.line, "a sign of multiplication is *")
        return "*"
    return char


def characters(text: str, report: Report) -> str:
    place = Place()
    made: list[str] = []
    for char in text.replace("\r\n", "\n").replace("\r", "\n"):
        for written in plain(char, place, report):
            place.pass_over(written, made[-1] if made else "")
            made.append(written)
    return "".join(made)


# ---- tokens ----

def tokens(text: str) -> list[Token]:
    made = []
    line = 1
    for piece in PIECE.finditer(text):
        made.append(Token(piece.lastgroup or "other", piece.group(), line))
        line += piece.group().count("\n")
    return made


def significant(token: Token) -> bool:
    return token.kind not in ("space", "comment")


def following(row: list[Token], at: int) -> int:
    """The place of the next token behind `at` that is no space and no comment, or the length."""
    at += 1
    while at < len(row) and not significant(row[at]):
        at += 1
    return at


def preceding(row: list[Token], at: int) -> int:
    at -= 1
    while at >= 0 and not significant(row[at]):
        at -= 1
    return at


def text_at(row: list[Token], at: int) -> str:
    return row[at].text if 0 <= at < len(row) and significant(row[at]) and row[at].kind != "name" else ""


def closing(row: list[Token], at: int) -> int:
    """The place of the sign that closes the one at `at`, or the length."""
    opens, closes = row[at].text, {"<": ">", "(": ")", "{": "}"}[row[at].text]
    depth = 0
    for place in range(at, len(row)):
        if row[place].kind == "sign":
            depth += (row[place].text == opens) - (row[place].text == closes)
            if depth == 0:
                return place
    return len(row)


# ---- names and labels ----

def leave(words: list[Token]) -> None:
    """Marks what is told of once, so that it is not told of again."""
    for token in words:
        if token.kind in ("word", "other") or token.text in ("-", "/"):
            token.kind = "left"


def name_of(words: list[Token]) -> str | None:
    """A name as it is written here, or nothing where it holds what no name may."""
    kept = [token for token in words if significant(token)]
    if any(token.kind != "word" and token.text not in ("(", ")", "/", "-") for token in kept):
        return None
    text = " ".join(token.text for token in kept)
    if re.search(r"\( (?:\d+|val)\b", text):
        return None
    text = " ".join(re.sub(r"[()]", " ", text).split())
    text = re.sub(r" ?([/-]) ?", r"\1", text)
    return text if re.fullmatch(r"[A-Za-z0-9_](?:[A-Za-z0-9_'., ]|[/-](?=[A-Za-z0-9]))*", text) else None


def label_end(row: list[Token], at: int) -> int:
    """The place of the : or > behind the name that begins behind the < at `at`; the length where none does."""
    for place in range(at + 1, len(row)):
        if row[place].kind == "sign" and row[place].text in ":>":
            return place
        if row[place].kind == "sign" and row[place].text not in ("(", ")", "/", "-", "+", "&", "*"):
            break
    return len(row)


def is_argument(row: list[Token], at: int) -> bool:
    """Whether the < at `at` stands round bits, as < bit (5) & .. >, and not round a name."""
    first = following(row, at)
    behind = text_at(row, following(row, first))
    return first < len(row) and row[first].is_field() and (behind in ("(", "*", "**", "&", ">", "=", "string"))


def label(row: list[Token], at: int, report: Report) -> None:
    """Makes one token of the name behind the < at `at`."""
    end = label_end(row, at)
    words = row[at + 1:end]
    if end == len(row) or not any(map(significant, words)):
        report.fail(row[at].line, "what stands behind < is no name")
        return
    name = name_of(words)
    printed = " ".join("".join(token.text for token in words).split())
    if name is None:
        report.fail(row[at].line, f"a name has signs that no name may have, or no : behind it: {printed}")
        leave(words)
        return
    if name != printed:
        report.change(row[at].line, f"{printed} is {name}")
    space = [Token("space", " ", row[at].line)] if row[end].text == ":" else []
    row[at + 1:end] = [Token("name", name, row[at].line)] + space


def spare(row: list[Token], at: int, report: Report) -> bool:
    """Writes < spare bits > and < spare bit (4) > as <spare bit> with its number behind."""
    words = [following(row, at)]
    words.append(following(row, words[0]))
    if [text_at(row, words[0]), text_at(row, words[1])] not in (["spare", "bit"], ["spare", "bits"]):
        return False
    behind = following(row, words[1])
    if text_at(row, behind) not in (">", "(", "*", "**"):
        return False
    end = closing(row, at)
    number = row[words[1] + 1:end]
    written = [row[at], Token("name", "spare bit", row[at].line), Token("sign", ">", row[at].line)]
    if row[words[1]].text == "bits":
        report.change(row[at].line, "<spare bits> is <spare bit>")
    if any(map(significant, number)):
        report.change(row[at].line, "the number of spare bits stands behind <spare bit>")
        written += [Token("space", " ", row[at].line)] + row[behind:preceding(row, end) + 1]
    row[at:end + 1] = written
    return True


def brackets(row: list[Token], at: int, report: Report) -> None:
    """Writes the < > at `at` that stand round bits as braces, or leaves them out behind a label."""
    end = closing(row, at)
    if end == len(row):
        report.fail(row[at].line, "a < has no >")
        return
    alone = text_at(row, preceding(row, at)) == ":" and text_at(row, following(row, end)) == ">"
    report.change(row[at].line, "angle brackets round bits are left out" if alone
                  else "angle brackets round bits are braces")
    if alone:
        row[at:end + 1] = row[following(row, at):preceding(row, end) + 1]
    else:
        row[at] = Token("sign", "{", row[at].line)
        row[end] = Token("sign", "}", row[end].line)


def names(row: list[Token], report: Report) -> None:
    at = 0
    while at < len(row):
        if row[at].kind == "sign" and row[at].text == "<" and not spare(row, at, report):
            if is_argument(row, at):
                brackets(row, at, report)
            else:
                label(row, at, report)
        at += 1


def types(row: list[Token], report: Report) -> None:
    """Puts < > round a rule's name that stands bare behind a label's colon."""
    at = 0
    while at < len(row):
        first = following(row, at)
        if text_at(row, at) == ":" and first < len(row) and row[first].kind == "word":
            bare_type(row, first, report)
        at += 1


def bare_type(row: list[Token], first: int, report: Report) -> None:
    if row[first].is_field() or row[first].text in ("null", "bits", "bit-string", "bitstring"):
        return
    if LITERAL.fullmatch(row[first].text):
        return
    end = first
    while end < len(row) and (row[end].kind in ("word", "space") or row[end].text in ("/", "-")):
        end += 1
    name = name_of(row[first:end])
    if name is None or text_at(row, end) != ">":
        return
    report.change(row[first].line, f"{name} behind a label is <{name}>")
    line = row[first].line
    row[first:end] = [Token("sign", "<", line), Token("name", name, line), Token("sign", ">", line)]


def values(row: list[Token], report: Report) -> None:
    """Makes one token of the label that val( .. ) names."""
    at = 0
    while at < len(row):
        opens = following(row, at)
        if row[at].kind == "word" and row[at].text == "val" and text_at(row, opens) == "(":
            end = closing(row, opens)
            words = row[opens + 1:end]
            name = name_of(words) if end < len(row) else None
            if name is None:
                printed = " ".join("".join(token.text for token in words).split())
                report.fail(row[at].line, f"val({printed}) names no label; arithmetic stands outside of val( )")
                leave(words)
            else:
                row[at + 1:end + 1] = [Token("sign", "(", row[at].line), Token("name", name, row[at].line),
                                       Token("sign", ")", row[at].line)]
        at += 1


# ---- fields, counts and literals ----

def strings(row: list[Token], report: Report) -> None:
    """Writes bit string, bit-string, bits and the like as bit."""
    for at, token in enumerate(row):
        if token.kind != "word":
            continue
        unit = re.fullmatch(r"(bit|octet)s?(?:-?strings?)?", token.text)
        behind = following(row, at)
        if unit and token.text not in FIELDS:
            report.change(token.line, f"{token.text} is {unit.group(1)}")
            token.text = unit.group(1)
        if unit and behind < len(row) and row[behind].text in ("string", "strings") and row[behind].kind == "word":
            report.change(token.line, f"{token.text} string is {token.text}")
            del row[at + 1:behind + 1]


class NotLinear(Exception):
    """A count that is no number of times a label and a number more."""


@dataclass
class Linear:
    times: int
    label: str
    more: int

    def __add__(self, other: Linear) -> Linear:
        if self.label and other.label:
            raise NotLinear("a count of two labels")
        return Linear(self.times + other.times, self.label or other.label, self.more + other.more)

    def __mul__(self, other: Linear) -> Linear:
        if self.label and other.label:
            raise NotLinear("a count of two labels")
        one, number = (self, other.more) if self.label else (other, self.more)
        return Linear(one.times * number, one.label, one.more * number)

    def written(self) -> str:
        if not self.label:
            return str(self.more)
        front = f"val({self.label})" if self.times == 1 else f"{self.times} * val({self.label})"
        return front + (f" + {self.more}" if self.more else "")


class Count:
    """Reads the count between two parentheses."""

    def __init__(self, row: list[Token]) -> None:
        self.row = [token for token in row if significant(token)]
        self.at = 0

    def next(self) -> str:
        return self.row[self.at].text if self.at < len(self.row) else ""

    def step(self) -> Token:
        if self.at == len(self.row):
            raise NotLinear("a count that ends too early")
        self.at += 1
        return self.row[self.at - 1]

    def whole(self) -> Linear:
        made = self.sum()
        if self.at < len(self.row):
            raise NotLinear(f"a count with {self.next()}")
        return made

    def sum(self) -> Linear:
        made = self.product()
        while self.next() in ("+", "-"):
            sign = 1 if self.step().text == "+" else -1
            made = made + Linear(0, "", sign) * self.product()
        return made

    def product(self) -> Linear:
        made = self.factor()
        while self.next() == "*":
            self.step()
            made = made * self.factor()
        return made

    def factor(self) -> Linear:
        token = self.step()
        if token.text == "(":
            made = self.sum()
            if self.step().text != ")":
                raise NotLinear("a count with no )")
            return made
        if token.text == "val" and self.next() == "(":
            self.step()
            name = self.step()
            if name.kind == "name" and self.step().text == ")":
                return Linear(1, name.text, 0)
        if re.fullmatch(r"\d{1,9}", token.text):
            return Linear(0, "", int(token.text))
        raise NotLinear(f"a width or a number that {token.text} gives, as a table or a function")


def is_taken(row: list[Token]) -> bool:
    """Whether a count stands in one of the forms that are read as they are."""
    shape = " ".join(token.text for token in row if significant(token))
    return COUNT.fullmatch(re.sub(r"val \( .+? \)", "V", shape)) is not None


def count(row: list[Token], opens: int, report: Report) -> None:
    end = closing(row, opens)
    inside = row[opens + 1:end]
    if end == len(row) or [token.text for token in inside if significant(token)] in (["*"], ["**"]):
        return
    if is_taken(inside):
        return
    try:
        linear = Count(inside).whole()
        if linear.times < 0 or linear.more < 0:
            raise NotLinear("a subtraction in a count")
    except NotLinear as fault:
        report.fail(row[opens].line, str(fault))
        leave(inside)
        return
    printed = " ".join("".join(token.text for token in inside).split())
    report.change(row[opens].line, f"({printed}) is ({linear.written()})")
    row[opens + 1:end] = [Token("name", linear.written(), row[opens].line)]


def counts(row: list[Token], report: Report) -> None:
    at = 0
    while at < len(row):
        before = preceding(row, at)
        if text_at(row, at) == "(" and before >= 0 and (
                row[before].is_field() or row[before].text in ("*", "**", ">", "}")):
            if row[before].text == "**":
                report.fail(row[at].line, "a number behind **, which is any number of times")
            else:
                count(row, at, report)
        at += 1


def literals(row: list[Token], report: Report) -> None:
    """Puts braces round a literal that is repeated."""
    for at, token in enumerate(row):
        behind = text_at(row, following(row, at))
        if token.kind != "word" or behind not in ("*", "**", "("):
            continue
        if token.text == "null" or LITERAL.fullmatch(token.text) and text_at(row, preceding(row, at)) not in "*(+":
            if len(token.text) > 1 and token.text != "null":
                report.fail(token.line, f"whether all of {token.text} is repeated, or its last bit")
            else:
                report.change(token.line, f"{token.text} that is repeated stands in braces")
                token.kind, token.text = "name", "{ " + token.text + " }"


# ---- exclude and == ----

def others(width: int, words: set[str]) -> str:
    """Alternatives, no one the beginning of another, of the words of `width` bits that are not in `words`."""
    made: list[str] = []

    def grow(begun: str) -> None:
        rest = width - len(begun)
        if not any(word.startswith(begun) for word in words):
            made.append(" ".join(filter(None, [begun, f"bit ({rest})" if rest > 1 else "bit" if rest else ""])))
        elif rest:
            grow(begun + "0")
            grow(begun + "1")

    grow("")
    return "{ " + " | ".join(made) + " }"


def words_behind(row: list[Token], at: int) -> tuple[set[str], int]:
    """The literals behind `exclude` or `==`, alone or as alternatives in braces, and the place of the last token."""
    first = following(row, at)
    end = closing(row, first) if text_at(row, first) == "{" else first
    inside = [token.text for token in row[first:end + 1] if significant(token) and token.text not in "{|}"]
    return (set(inside) if all(LITERAL.fullmatch(text) for text in inside) else set()), end


def width_of(row: list[Token], first: int, end: int) -> int:
    """The number of bits of a field that is all of row[first:end], or 0."""
    shape = " ".join(token.text for token in row[first:end] if significant(token))
    known = re.fullmatch(r"(bit|octet)(?: \( (\d+) \))?", shape)
    return (8 if known.group(1) == "octet" else 1) * int(known.group(2) or 1) if known else 0


def field_before(row: list[Token], at: int) -> tuple[int, int]:
    """The first token of the bits before the word at `at`, and the place behind their last one."""
    end = preceding(row, at)
    if text_at(row, end) == ">":
        behind, start = end, end
        while start >= 0 and text_at(row, start) not in (":", "<"):
            start -= 1
        return following(row, start), behind
    start = end
    while start >= 0 and text_at(row, start) not in (":", "<", "{", "|", ">", "}"):
        start -= 1
    return following(row, start), end + 1


def compare(row: list[Token], at: int, report: Report) -> None:
    """Writes the bits before `exclude` or `==` as what is left of them."""
    first, end = field_before(row, at)
    width = width_of(row, first, end)
    words, last = words_behind(row, at)
    line = row[at].line
    narrow = {word for word in words if len(word) == width}
    if not width or not words or narrow != words or width > 12:
        report.fail(line, f"{row[at].text} of anything but a field and literals of its width")
        return
    colon = preceding(row, first)
    named = row[preceding(row, colon)].text if text_at(row, colon) == ":" else ""
    if named and f"val({named})" in "".join(token.text for token in row):
        report.fail(line, f"{row[at].text} of a field that a count names")
        return
    if row[at].text == "==" and len(words) == 1:
        made = words.pop()
    elif row[at].text == "exclude" and not any(set(word) & set("LH") for word in words):
        made = others(width, words)
    else:
        report.fail(line, f"{row[at].text} of L and H, or of several words")
        return
    report.change(line, f"{row[at].text} is written out as {made}")
    behind = row[end:preceding(row, at) + 1]
    row[first:last + 1] = [Token("name", made, line)] + behind


def comparisons(row: list[Token], report: Report) -> None:
    at = 0
    while at < len(row):
        if significant(row[at]) and row[at].kind != "name" and row[at].text in ("exclude", "=="):
            compare(row, at, report)
        at += 1


# ---- whole rules ----

def quoted(text: str, report: Report) -> str:
    """Leaves out the quotation marks round a literal."""
    made = []
    for number, line in enumerate(text.split("\n"), 1):
        code, dashes, comment = line.partition("--")
        bare = re.sub(f"(?<![A-Za-z0-9_]){MARK}([01LH]+){MARK}", r"\1", code)
        if bare != code:
            report.change(number, "a literal stands without quotation marks")
        made.append(bare + dashes + comment)
    return "\n".join(made)


def ends(row: list[Token], report: Report) -> None:
    """Puts a ; at the end of each rule that has none."""
    at = 0
    while at <= len(row):
        defines = at < len(row) and row[at].kind == "sign" and row[at].text == "::="
        if defines or at == len(row):
            start = at
            while defines and start >= 0 and text_at(row, start) != "<":
                start -= 1
            last = preceding(row, start)
            if last >= 0 and text_at(row, last) != ";":
                report.change(row[last].line, "a rule ends in ;")
                row[last + 1:last + 1] = [Token("space", " ", row[last].line), Token("sign", ";", row[last].line)]
                at += 2
        at += 1


def defined(row: list[Token]) -> list[str]:
    return [row[at].text for at in range(len(row)) if row[at].kind == "name"
            and text_at(row, following(row, following(row, at))) == "::="]


def same_but_case(name: str, known: list[str]) -> str:
    """The one name of `known` that differs from `name` in case, _ and spaces alone, or nothing."""
    def folded(text: str) -> str:
        return re.sub(r"[ _-]", "", text).lower()
    like = {other for other in known if folded(other) == folded(name)}
    return like.pop() if len(like) == 1 else ""


def references(row: list[Token], report: Report) -> bool:
    """Tells of names and of labels in val( ) that differ in case; whether <padding bits> wants its rule."""
    rules = defined(row)
    labels = [token.text for at, token in enumerate(row) if token.kind == "name"
              and text_at(row, following(row, at)) == ":"]
    wanted = False
    for at, token in enumerate(row):
        if token.kind != "name":
            continue
        used = text_at(row, at - 1) == "<" and text_at(row, following(row, at)) == ">"
        counted = text_at(row, at - 1) == "(" and text_at(row, at - 2) == "val"
        known = rules if used else labels if counted else [token.text]
        if token.text in known or token.text in BUILT_IN:
            continue
        if token.text == "padding bits":
            wanted = True
        elif like := same_but_case(token.text, known):
            report.fail(token.line, f"{token.text} is not {like}, and names are compared byte by byte")
    return wanted


def additions(row: list[Token], report: Report) -> None:
    """Tells of { null | L | .. } that has padding behind it, which look-ahead cannot tell apart."""
    padded = [at for at, token in enumerate(row) if token.kind == "name" and token.text == "spare padding"]
    for at, token in enumerate(row):
        behind = [text_at(row, at)]
        place = at
        for _ in range(3):
            place = following(row, place)
            behind.append(text_at(row, place))
        ending = next((stop for stop in range(at, len(row)) if text_at(row, stop) == ";"), len(row))
        if behind == ["{", "null", "|", "L"] and text_at(row, following(row, place)) == "|" and any(
                closing(row, at) < pad < ending for pad in padded):
            report.fail(token.line, "{ null | L | H .. } before padding: write it as the notation's page has it")


def leftovers(row: list[Token], report: Report) -> None:
    known = {"null", "bit", "octet", "val"}
    depth = 0
    for token in row:
        depth += (token.text == "(") - (token.text == ")")
        if token.text == "+" and token.kind == "sign" and not depth:
            report.fail(token.line, "a + that stands in no parentheses")
        elif token.kind == "other" or token.kind == "sign" and token.text in ("[", "]", "-", "/", "=="):
            report.fail(token.line, f"{token.text} has no meaning here")
        elif token.kind == "word" and token.text not in known and not re.fullmatch(r"[01LH]+|\d+", token.text):
            report.fail(token.line, f"the word {token.text} stands outside of a name and of a comment")


def before_bracket(row: list[Token], at: int) -> bool:
    """Whether a space stands before a >, where none is wanted."""
    return row[at].kind == "space" and "\n" not in row[at].text and text_at(row, at + 1) == ">"


def convert(text: str, report: Report) -> str:
    row = tokens(characters(quoted(text, report), report))
    for step in (names, types, values, strings, counts, literals, comparisons, ends):
        step(row, report)
    leftovers(row, report)
    additions(row, report)
    made = "".join(token.text for at, token in enumerate(row) if not before_bracket(row, at))
    if references(row, report):
        report.change(row[-1].line, "the rule of <padding bits> stands at the end")
        made = made.rstrip("\n") + "\n" + PADDING_BITS
    return made


def read(words: list[str]) -> str:
    data = Path(words[0]).read_bytes() if words else sys.stdin.buffer.read()
    try:
        return data.decode("utf-8")
    except UnicodeDecodeError:
        return data.decode("cp1252", errors="replace")


def main() -> int:
    words = sys.argv[1:]
    if len(words) > 1 or words and words[0].startswith("-"):
        print("usage: from_3gpp.py [FILE]", file=sys.stderr)
        return 2
    try:
        text = read(words)
    except OSError as fault:
        print(f"from_3gpp.py: {fault}", file=sys.stderr)
        return 2
    report = Report()
    made = convert(text, report)
    sys.stdout.buffer.write(made.encode("utf-8"))
    for line in report.lines():
        print(line, file=sys.stderr)
    return 1 if report.failed else 0


if __name__ == "__main__":
    sys.exit(main())
