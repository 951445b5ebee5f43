"""Reads descriptions in the notation of docs/NOTATION.md and makes blocks by them, for `check` and `peers`.

It shares nothing with the program, so what it makes is a second opinion on what a description says. Blocks are those
that a sender may write, with their trees and their fields.
"""
import random
import re
import sys
from collections import namedtuple

Rule = namedtuple("Rule", "name part text message")
Field = namedtuple("Field", "path at width value")

TOKEN = re.compile(r"\s+|--[^\n]*|::=|\*\*|//|[<>{}|!&=*+;():]|[01LH]+(?![A-Za-z0-9_])|\d+|[A-Za-z]+")
NAME = re.compile(r"[^:<>]+")


class Unread(Exception):
    """The text is not in the notation, as far as this reader knows it."""


class TooLong(Exception):
    """What was made does not fit; try again."""


class Reader:
    """Reads a text into parts: tuples that begin with the kind of the part."""

    def __init__(self, text):
        self.text, self.at = text, 0
        self.token = None
        self.step()

    def step(self):
        while self.at < len(self.text):
            found = TOKEN.match(self.text, self.at)
            if not found:
                raise Unread(f"byte {self.at}")
            self.begun, self.at = self.at, found.end()
            if not found.group().isspace() and not found.group().startswith("--"):
                self.token = found.group()
                return
        self.token, self.begun = None, self.at

    def take(self, token):
        if self.token != token:
            raise Unread(f"byte {self.begun}: {token} is missing")
        self.step()

    def name(self):
        """The words behind a `<`, which is the token; the next token is what stands behind them."""
        found = NAME.match(self.text, self.at)
        self.at = found.end()
        self.step()
        return " ".join(found.group().split())

    def rules(self):
        rules = {}
        while self.token == "<":
            begun = self.begun
            name = self.name()
            self.take(">")
            self.take("::=")
            part = self.choice()
            ended = self.begun + 1
            self.take(";")
            marked = self.text[:begun].rstrip().endswith("-- message")
            rules[name] = Rule(name, part, squeezed(self.text[begun:ended]), marked)
        if self.token is not None:
            raise Unread(f"byte {self.begun}")
        return rules

    def choice(self):
        alternatives = [self.sequence()]
        while self.token == "|":
            self.step()
            alternatives.append(self.sequence())
        while self.token == "!":
            self.step()
            self.sequence()
        return ("choice", alternatives) if len(alternatives) > 1 else alternatives[0]

    def sequence(self):
        items = []
        while self.token is not None and self.token not in "|!};>":
            if self.token == "//":
                self.step()
                items = [("truncation", items)]
            else:
                items.append(self.either())
        return ("sequence", items) if len(items) > 1 else items[0]

    def either(self):
        received = self.window()
        if self.token != "=":
            return received
        self.step()
        return ("either", received, self.window())

    def window(self):
        width = self.counted()
        if self.token != "&":
            return width
        self.step()
        return ("window", width, self.counted())

    def counted(self):
        part, braces = self.atom()
        while self.token in ("(", "*", "**"):
            part = repeated(part, self.count())
        if self.token == "//" and braces:
            self.step()
            part = ("truncation", part[1] if part[0] == "sequence" else [part])
        return part

    def count(self):
        if self.token == "**":
            self.step()
            return None
        if self.token == "*":
            self.step()
            if self.token != "(":
                return self.sum()
        self.take("(")
        if self.token in ("*", "**"):
            self.step()
            number = None
        else:
            number = self.sum()
        self.take(")")
        return number

    def sum(self):
        """A count: the factor of val, its label, and what is added."""
        factor, label, more = 1, None, 0
        while True:
            if self.token == "val":
                self.step()
                if self.token != "(":
                    raise Unread(f"byte {self.begun}")
                ended = self.text.index(")", self.at)
                label = " ".join(self.text[self.at:ended].split())
                self.at = ended
                self.step()
                self.take(")")
                if self.token == "*":
                    self.step()
                    factor = int(self.token)
                    self.step()
            else:
                number = int(self.token)
                self.step()
                if self.token == "*":
                    self.step()
                    factor = number
                    continue
                more += number
            if self.token != "+":
                return (factor, label, more)
            self.step()

    def atom(self):
        token = self.token
        if token == "{":
            self.step()
            part = self.choice()
            self.take("}")
            return part, True
        if token == "<":
            name = self.name()
            part = ("rule", name)
            if self.token == ":":
                self.step()
                part = ("label", name, self.choice())
            self.take(">")
            return part, False
        self.step()
        if token in ("bit", "octet"):
            return ("field", 8 if token == "octet" else 1, (1, None, 1)), False
        if token == "null":
            return ("null",), False
        if token and set(token) <= set("01LH"):
            return ("literal", token), False
        raise Unread(f"byte {self.begun}: {token}")


def squeezed(text):
    """A rule's text without comments, and with one space between words."""
    return " ".join(re.sub(r"--[^\n]*", "", text).split())


def repeated(part, count):
    if part[0] == "field" and part[2] == (1, None, 1):
        return ("field", part[1], count)
    return ("many", part, count)


def rules_of(text):
    return Reader(text).rules()


BUILT_IN = {
    "spare bit": ("spare", "0"),
    "spare L": ("spare", "L"),
    "spare padding": ("padding",),
    "no string": ("none",),
}


class Maker:
    """Makes random blocks of a rule, each with its tree, as a sender may write them."""

    def __init__(self, rules, random):
        self.rules, self.random = rules, random
        self.counts = set()
        self.empty = {}
        self.tails = {name: self.tail(rule) for name, rule in rules.items()}
        for part in self.tails.values():
            self.find_counts(part)

    def find_counts(self, part):
        for item in part:
            if isinstance(item, tuple):
                self.find_counts(item)
            elif isinstance(item, list):
                for one in item:
                    self.find_counts(one)
        if part and part[0] in ("field", "many") and part[2] and part[2][1]:
            self.counts.add(part[2][1])

    def tail(self, rule):
        """A rule's part, written as a repetition where the rule ends in a literal and its own name."""
        items = rule.part[1] if rule.part[0] == "sequence" else []
        if len(items) < 2 or items[-1][0] != "choice" or len(items[-1][1]) != 2:
            return rule.part
        before, ends = items[:-1], items[-1][1]
        again = [end[1][0] for end in ends if end[0] == "sequence" and end[1][1:] == [("rule", rule.name)]]
        last = [end for end in ends if end[0] == "literal"]
        if len(again) != 1 or len(last) != 1:
            return rule.part
        return ("sequence", before + [("many", ("sequence", again + before), None)] + last)

    def part_of(self, name):
        return self.tails[name] if name in self.tails else BUILT_IN[name]

    def is_void(self, part):
        """Whether a sender can write nothing for this part."""
        kind = part[0]
        if kind == "rule":
            if part[1] not in self.empty:
                self.empty[part[1]] = False
                self.empty[part[1]] = self.is_void(self.part_of(part[1]))
            return self.empty[part[1]]
        if kind == "none":
            return True
        if kind == "sequence":
            return any(self.is_void(item) for item in part[1])
        if kind == "choice":
            return all(self.is_void(item) for item in part[1])
        if kind in ("label", "either", "window"):
            return self.is_void(part[2])
        return False

    def block(self, name, bits):
        """Bits, tree and fields of a block of at most so many bits."""
        made = Made(self, bits)
        tree = made.make(("rule", name), (), [])
        return "".join(made.bits), made.text(tree), made.fields()


class Made:
    """A block in the making. Trees hold the places of fields, so that a length can be set behind its content."""

    def __init__(self, maker, most):
        self.maker, self.random = maker, maker.random
        self.bits, self.most = [], most
        self.windows = 0               # round the part that is made
        self.deep = maker.random.random() < 0.5    # few optional parts, so that later additions are reached
        self.found = []

    def add(self, bits):
        if len(self.bits) + len(bits) > self.most:
            raise TooLong
        self.bits += bits

    def shape(self, letter):
        pattern = "00101011"[len(self.bits) % 8]
        return {"0": "0", "1": "1", "L": pattern, "H": "10"[int(pattern)]}[letter]

    def make(self, part, path, frames):
        return getattr(self, "make_" + part[0])(part, path, frames)

    def make_literal(self, part, _path, _frames):
        for letter in part[1]:
            self.add([self.shape(letter)])
        return "."

    def make_null(self, _part, _path, _frames):
        return "."

    def make_spare(self, part, path, _frames):
        self.add([self.shape(part[1])])
        return ("bits", len(self.bits) - 1, 1, path)

    def make_padding(self, _part, path, _frames):
        begun = len(self.bits)
        if begun >= self.most:
            raise TooLong
        while len(self.bits) < self.most:
            self.add([self.shape("L")])
        return ("bits", begun, len(self.bits) - begun, path)

    def make_rule(self, part, path, frames):
        return self.make(self.maker.part_of(part[1]), path, frames)

    def make_either(self, part, path, frames):
        return self.make(part[2], path, frames)

    def make_field(self, part, path, frames):
        begun = len(self.bits)
        if part[2] is None:
            room = self.most - begun
            filled = not self.windows and self.random.random() < 0.7
            width = room if filled else self.random.randint(0, min(room, 12))
            width -= width % part[1]
        else:
            width = part[1] * self.number(part[2], frames)
        self.add([self.random.choice("01") for _ in range(width)])
        tree = ("bits", begun, width, path)
        self.found.append(tree)
        return tree

    def number(self, count, frames):
        factor, label, more = count
        if label is None:
            return more
        at, width = self.counted(label, frames)
        return factor * int("".join(self.bits[at:at + width]), 2) + more

    def counted(self, label, frames):
        for frame in reversed(frames):
            if label in frame:
                return frame[label]
        raise Unread(f"no {label} to count by")

    def make_sequence(self, part, path, frames):
        frame = {}
        return ("list", [self.make_item(item, path, frames + [frame], frame) for item in part[1]])

    def make_item(self, item, path, frames, frame):
        begun = len(self.bits)
        tree = self.make(item, path, frames)
        if item[0] == "label" and item[1] in self.maker.counts:
            frame[item[1]] = (begun, len(self.bits) - begun)
            self.lessen(begun, len(self.bits) - begun)
        return tree

    def lessen(self, at, width):
        """Counts are mostly small, so that more blocks fit."""
        if self.random.random() < 0.8:
            most = min(2 ** width - 1, self.random.choice([1, 2, 3, 7]))
            self.bits[at:at + width] = list(f"{self.random.randint(0, most):0{width}b}")

    def make_label(self, part, path, frames):
        return ("label", part[1], self.make(part[2], path + (part[1],), frames))

    def make_choice(self, part, path, frames):
        kept = [item for item in part[1] if not self.maker.is_void(item)]
        if len(kept) == 1:
            return self.make(kept[0], path, frames)
        index = self.random.randrange(len(kept))
        if kept[0] == ("null",) and self.random.random() < 0.9:
            index = self.random.randrange(1, len(kept))
        if self.deep and self.random.random() < 0.8:
            if kept[0] == ("null",):
                index = len(kept) - 1
            elif kept[0] == ("literal", "0"):
                index = 0
        return ("one", index, self.make(kept[index], path, frames))

    def make_many(self, part, path, frames):
        if part[2] is not None:
            times = self.number(part[2], frames)
        else:
            times = self.random.choice([0, 0, 0, 1, 1, 2, 3])
        return ("list", [self.make(part[1], path, frames) for _ in range(times)])

    def make_truncation(self, part, path, frames):
        """The first components, as many as the last of them has a bit."""
        kept = self.random.choice([len(part[1]), self.random.randint(0, len(part[1]))])
        trees, frame, last = [], {}, 0
        for item in part[1][:kept]:
            before = len(self.bits)
            trees.append(self.make_item(item, path, frames + [frame], frame))
            if len(self.bits) > before:
                last = len(trees)
        return ("list", trees[:last])

    def make_window(self, part, path, frames):
        unit, count = part[1][1], part[1][2]
        factor, label, more = count
        at, width = self.counted(label, frames)
        begun, most = len(self.bits), self.most
        longest = unit * (factor * (2 ** width - 1) + more)
        self.most = min(most, begun + longest)
        self.windows += 1
        tree = self.make(part[2], path, frames)
        self.windows -= 1
        self.most = most
        rest = len(self.bits) - begun - unit * more
        if rest < 0 or rest % (unit * factor):
            raise TooLong
        self.bits[at:at + width] = list(f"{rest // (unit * factor):0{width}b}")
        return tree

    def text(self, tree):
        if tree == ".":
            return "."
        if tree[0] == "bits":
            return bits_text("".join(self.bits[tree[1]:tree[1] + tree[2]]))
        if tree[0] == "list":
            return "[" + " ".join(self.text(one) for one in tree[1]) + "]"
        if tree[0] == "label":
            return f"<{tree[1]}>={self.text(tree[2])}"
        return f"#{tree[1]}:{self.text(tree[2])}"

    def fields(self):
        return [Field(path, at, width, "".join(self.bits[at:at + width])) for _, at, width, path in self.found if width]


def bits_text(bits):
    """Bits as a tree tells them."""
    if len(bits) > 64:
        return "x" + line(bits)
    return f"{len(bits)}'{int(bits, 2)}" if bits else "b"


def line(bits):
    """Bits as a block line."""
    if not bits:
        return "."
    whole = bits + "0" * (-len(bits) % 8)
    text = "".join(f"{int(whole[at:at + 8], 2):02X}" for at in range(0, len(whole), 8))
    return text + (f"/{len(bits) % 8}" if len(bits) % 8 else "")


def several(maker, name, most, many):
    """So many blocks of a rule, each of at most so many bits."""
    made = []
    for _ in range(100 * many):
        if len(made) == many:
            break
        try:
            made.append(maker.block(name, most))
        except TooLong:
            pass
    return made


def main(words):
    """usage: csn1.py FILE NAME MANY SEED [OCTETS]: prints blocks that a sender may write, each with its tree."""
    file, name, many, seed, *octets = words
    most = 8 * (int(octets[0]) if octets else 22)
    with open(file, encoding="ascii") as source:
        maker = Maker(rules_of(source.read()), random.Random(seed))
    for bits, tree, _ in several(maker, name, most, int(many)):
        print(f"{line(bits)}\tok {tree}")


if __name__ == "__main__":
    main(sys.argv[1:])
