"""Reads blocks by a description of its own reading, for `check` and `covered`: all trees of a block, or where it ends.

Every way of reading is tried, by `csn1.py`'s rules and with no look-ahead. It shares nothing with the program, so its
answers are a second opinion on what a block is.
"""
import sys

import csn1

sys.setrecursionlimit(20_000)      # a repetition has many turns

PATTERN = "00101011"               # of padding: L is its bit at an octet position, H the other one


class Ambiguous(Exception):
    """A block has several trees."""


class Block:
    """A block that is read by the rules of `maker`. `furthest` is the first bit that no way of reading has gone past."""

    def __init__(self, maker, reading, bits):
        self.maker, self.received, self.bits = maker, reading == "received", bits
        self.furthest = 0

    def trees(self, name):
        """The trees of the whole block, as text."""
        for tree, at in self.read(("rule", name), 0, len(self.bits), ()):
            if at == len(self.bits):
                yield tree

    def read(self, part, at, end, frames):
        """Each way to read a part from a bit on: its tree, and the bit behind it. No bit from `end` on belongs to it."""
        return getattr(self, "read_" + part[0])(part, at, end, frames)

    def reaches(self, to, end):
        """Whether there are bits up to one, all of them within the part."""
        self.furthest = max(self.furthest, min(to, end, len(self.bits)))
        return to <= min(end, len(self.bits))

    def is_shaped(self, letter, at):
        pattern = PATTERN[at % 8]
        return self.bits[at] == {"L": pattern, "H": "10"[int(pattern)]}.get(letter, letter)

    def matched(self, letters, at, end):
        """Whether the bits from one on are these."""
        for letter in letters:
            if not self.reaches(at, end) or at == min(end, len(self.bits)) or not self.is_shaped(letter, at):
                return False
            at += 1
        return self.reaches(at, end)

    def read_literal(self, part, at, end, _frames):
        if self.matched(part[1], at, end):
            yield ".", at + len(part[1])

    def read_null(self, _part, at, _end, _frames):
        yield ".", at

    def read_none(self, _part, _at, _end, _frames):
        return iter(())

    def is_spare(self, letter, at, end):
        """Whether a spare bit is there: a receiver takes any."""
        return self.reaches(at + 1, end) if self.received else self.matched(letter, at, end)

    def read_spare(self, part, at, end, _frames):
        if self.is_spare(part[1], at, end):
            yield self.text(at, at + 1), at + 1

    def read_padding(self, _part, at, end, _frames):
        to = at
        while self.is_spare("L", to, end):
            to += 1
        for last in range(to, at, -1):
            yield self.text(at, last), last

    def read_field(self, part, at, end, frames):
        _, unit, count = part
        if count is None and unit == 8:
            yield from self.read_many(("many", ("field", 8, (1, None, 1)), None), at, end, frames)
        elif count is None:
            self.reaches(end, end)
            for last in range(min(end, len(self.bits)), at - 1, -1):
                yield self.text(at, last), last
        else:
            for last in (at + unit * number for number in self.number(count, frames)):
                if self.reaches(last, end):
                    yield self.text(at, last), last

    def text(self, at, to):
        return csn1.bits_text(self.bits[at:to])

    def number(self, count, frames):
        """What a count comes to, if its field is there."""
        factor, label, more = count
        if label is None:
            yield more
            return
        values = [value for frame in frames for known, value in frame if known == label]
        if values:
            yield factor * int(values[0] or "0", 2) + more

    def read_rule(self, part, at, end, frames):
        return self.read(self.maker.part_of(part[1]), at, end, frames)

    def side(self, part):
        return part[1] if self.received else part[2]

    def read_either(self, part, at, end, frames):
        return self.read(self.side(part), at, end, frames)

    def read_label(self, part, at, end, frames):
        for tree, to in self.read(part[2], at, end, frames):
            yield f"<{part[1]}>={tree}", to

    def read_sequence(self, part, at, end, frames):
        for trees, to in self.items(part[1], at, end, ((),) + frames):
            yield row(trees), to

    def items(self, items, at, end, frames):
        """The ways to read items one behind another; frames of labels and bits, the innermost and the latest first."""
        if not items:
            yield (), at
            return
        for tree, to in self.read(items[0], at, end, frames):
            for trees, last in self.items(items[1:], to, end, self.known(items[0], at, to, frames)):
                yield (tree,) + trees, last

    def known(self, item, at, to, frames):
        while item[0] == "either":
            item = self.side(item)
        if item[0] != "label":
            return frames
        return (((item[1], self.bits[at:to]),) + frames[0],) + frames[1:]

    def read_choice(self, part, at, end, frames):
        kept = [item for item in part[1] if not self.is_void(item)]
        for index, item in enumerate(kept):
            for tree, to in self.read(item, at, end, frames):
                yield (f"#{index}:{tree}" if len(kept) > 1 else tree), to

    def read_many(self, part, at, end, frames):
        _, turn, count = part
        if count is None:
            turns = self.turns(turn, at, end, frames)
        else:
            turns = (way for number in self.number(count, frames) for way in self.times(turn, number, at, end, frames))
        for trees, to in turns:
            yield row(trees), to

    def turns(self, turn, at, end, frames):
        """The ways to read a part any number of times, each time with a bit."""
        for tree, to in self.read(turn, at, end, frames):
            if to > at:
                for trees, last in self.turns(turn, to, end, frames):
                    yield (tree,) + trees, last
        yield (), at

    def times(self, turn, number, at, end, frames):
        if number == 0:
            yield (), at
            return
        for tree, to in self.read(turn, at, end, frames):
            for trees, last in self.times(turn, number - 1, to, end, frames):
                yield (tree,) + trees, last

    def read_truncation(self, part, at, end, frames):
        for kept in range(len(part[1]), -1, -1):
            for trees, to, begun in self.first(part[1][:kept], at, end, ((),) + frames):
                if kept == 0 or to > begun:
                    yield row(trees), to

    def first(self, items, at, end, frames):
        """The ways to read the first components, and where the last of them begins."""
        if not items:
            yield (), at, at
            return
        for tree, to in self.read(items[0], at, end, frames):
            if len(items) == 1:
                yield (tree,), to, at
                continue
            for trees, last, begun in self.first(items[1:], to, end, self.known(items[0], at, to, frames)):
                yield (tree,) + trees, last, begun

    def read_window(self, part, at, end, frames):
        _, (_, unit, count), inner = part
        for number in self.number(count, frames):
            last = at + unit * number
            for tree, to in self.read(inner, at, min(end, last), frames):
                if to == last:
                    yield tree, to

    def is_void(self, part):
        """Whether a part has no strings in this reading."""
        kind = part[0]
        if kind == "rule":
            return self.is_void(self.maker.part_of(part[1]))
        if kind in ("sequence", "choice"):
            return (any if kind == "sequence" else all)(self.is_void(item) for item in part[1])
        if kind in ("label", "window"):
            return self.is_void(part[2])
        return kind == "none" or (kind == "either" and self.is_void(self.side(part)))


def row(trees):
    return "[" + " ".join(trees) + "]"


def bits_of(line):
    """The bits of a block line."""
    if line == ".":
        return ""
    digits, _, last = line.partition("/")
    bits = f"{int(digits, 16):0{4 * len(digits)}b}"
    return bits[:len(bits) - 8 + int(last)] if last else bits


def answer(maker, name, reading, line):
    """What a block comes to, in the words of the program."""
    block = Block(maker, reading, bits_of(line))
    found = list(block.trees(name))
    if len(found) > 1:
        raise Ambiguous(f"<{name}> {reading} {line}: {found[0]}, and {found[1]}")
    if found:
        return f"ok {found[0]}"
    return f"no {block.furthest} {'ended' if block.furthest == len(block.bits) else 'bit'}"


def main(words):
    """usage: trees.py FILE NAME READING: answers the block lines of the standard input."""
    file, name, reading = words
    with open(file, encoding="ascii") as source:
        maker = csn1.Maker(csn1.rules_of(source.read()), None)
    for line in sys.stdin:
        print(answer(maker, name, reading, line.strip()))


if __name__ == "__main__":
    main(sys.argv[1:])
