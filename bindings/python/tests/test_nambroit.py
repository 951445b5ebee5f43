#!/usr/bin/env python3
"""Tries the Python module.

usage: NAMBROIT_LIBRARY=.../libcsn.so bindings/python/tests/test_nambroit.py
"""
import sys
import threading
import unittest
from pathlib import Path

sys.dont_write_bytecode = True
sys.path.insert(0, str(Path(__file__).resolve().parent.parent))

import nambroit  # noqa: E402
from nambroit import Block, Description, Event, Field, Stream  # noqa: E402

TEXT = "<M> ::= <A : bit (3)> 0 <B : bit (4)> ;"
SHOWN = "[<A>=3'5 . <B>=4'5]"


class Calls(unittest.TestCase):
    def setUp(self):
        self.rule = Description(TEXT, "M")

    def test_blocks_are_shown(self):
        self.assertEqual(self.rule.show(b"\xa5"), SHOWN)
        self.assertEqual(self.rule.tree(b"\xa5"), [{"label": "A", "tree": "A0/3"}, None, {"label": "B", "tree": "50/4"}])
        self.rule.judge(b"\xa5")

    def test_blocks_are_refused_at_their_place(self):
        for octets, bits, place, ended in ((b"\xb5", 8, 3, False), (b"\xa5", 7, 7, True), (b"\xa5\x00", 16, 8, False)):
            for call in (self.rule.judge, self.rule.show):
                with self.assertRaises(nambroit.Refused) as caught:
                    call(octets, bits)
                self.assertEqual((caught.exception.place, caught.exception.ended), (place, ended))

    def test_fields_are_told(self):
        self.assertEqual(self.rule.fields(b"\xa5"), [
            Field(2, "field", 0, 3, 5, "A"), Field(3, "literal", 3, 1, 0, None), Field(5, "field", 4, 4, 5, "B")])

    def test_turns_and_alternatives_are_told(self):
        rule = Description("<M> ::= { 1 <A : bit> | 0 } ** ;", "M")
        self.assertEqual([(it.place, it.role, it.number) for it in rule.events(b"\xd0", 5)
                          if it.role in ("turn", "alternative")],
                         [(0, "turn", 0), (0, "alternative", 0), (2, "turn", 1), (2, "alternative", 1),
                          (3, "turn", 2), (3, "alternative", 0)])

    def test_events_before_a_refusal_are_told(self):
        with self.assertRaises(nambroit.Refused) as caught:
            self.rule.events(b"\xb5")
        self.assertEqual(caught.exception.place, 3)
        self.assertEqual(caught.exception.events, [
            Event(0, "begin", "root", 0, 0, 0, 0), Event(1, "begin", "part", 0, 0, 0, 0), Event(2, "field", "part", 0, 0, 3, 5),
            Event(1, "end", "root", 0, 3, 0, 0)])

    def test_long_fields_have_no_value(self):
        rule = Description("<M> ::= <A : bit (65)> <B : bit (64)> <spare padding> ;", "M")
        told = rule.fields(bytes([0xff] * 16 + [0xab]))
        self.assertEqual([(it.label, it.kind, it.bits, it.value) for it in told[:2]],
                         [("A", "field", 65, None), ("B", "field", 64, 2 ** 64 - 1)])

    def test_many_fields_have_room(self):
        rule = Description("<M> ::= { 1 <ITEM : bit (7)> } ** ;", "M")
        told = rule.fields(bytes([0xA5]) * 5000)
        self.assertEqual([(it.place, it.value) for it in told],
                         [pair for n in range(5000) for pair in ((8 * n, 1), (8 * n + 1, 37))])

    def test_trees_are_written(self):
        self.assertEqual(self.rule.write(SHOWN), Block(b"\xa5", 8))
        self.assertEqual(self.rule.write(self.rule.show(b"\xa5", form="json"), "json"), Block(b"\xa5", 8))

    def test_trees_that_do_not_fit_are_told(self):
        with self.assertRaises(nambroit.NoBlock) as caught:
            self.rule.write("[<A>=3'5 . <B>=5'5]")
        self.assertEqual((caught.exception.why, caught.exception.path), ("WrongWidth", (2, 0)))
        with self.assertRaises(nambroit.NoTree) as caught:
            self.rule.write("[<A>=3'5 . <B>=")
        self.assertEqual(caught.exception.place, 15)
        for bytes_, is_json in (("{", False), ("{}", True)):
            with self.assertRaises(nambroit.NoTree) as caught:
                self.rule.write(bytes_, "json")
            self.assertEqual(caught.exception.is_json, is_json)

    def test_blocks_come_in_pieces(self):
        stream = Stream(TEXT, "M")
        for _ in range(2):
            stream.push(b"\xa0", 3)
            stream.push(b"", 0)
            stream.push(b"\x28", 5)
            stream.end()
        stream.push(b"\xa0", 3)
        with self.assertRaises(nambroit.Refused) as caught:
            stream.push(b"\xb0", 4)
        self.assertEqual((caught.exception.place, caught.exception.ended), (3, False))
        with self.assertRaises(nambroit.Refused):
            stream.push(b"\x00")
        with self.assertRaises(nambroit.Refused) as caught:
            stream.end()
        self.assertEqual((caught.exception.place, caught.exception.ended), (3, False))
        stream.push(b"\xa0", 7)
        with self.assertRaises(nambroit.Refused) as caught:
            stream.end()
        self.assertEqual((caught.exception.place, caught.exception.ended), (7, True))

    def test_streams_have_a_limit(self):
        stream = Stream("<M> ::= <A : octet> ** ;", "M")
        for _ in range(8):
            stream.push(bytes(8192))
        with self.assertRaises(nambroit.TooLong):
            stream.push(b"\x00", 1)
        stream.end()

    def test_labels_are_told(self):
        self.assertEqual(self.rule.labels(), {1: "A", 4: "B"})

    def test_rules_are_refused(self):
        with self.assertRaises(nambroit.SyntaxRefused) as caught:
            Description("<M> ::= ", "M")
        self.assertEqual(caught.exception.place, 8)
        with self.assertRaises(nambroit.RuleRefused) as caught:
            Description(TEXT, "N")
        self.assertEqual((caught.exception.number, caught.exception.place), (1, 0))
        with self.assertRaises(nambroit.Conflict) as caught:
            Description("<M> ::= { null | null } ;", "M")
        self.assertEqual((caught.exception.number, caught.exception.node), (1, 0))
        with self.assertRaises(nambroit.TooLong):
            Description(" " * 262145, "M")
        with self.assertRaises(KeyError):
            Description(TEXT, "M", "both")

    def test_more_bits_than_there_are_is_no_block(self):
        with self.assertRaises(ValueError):
            self.rule.judge(b"\xa5", 9)

    def test_long_texts_have_room(self):
        rule = Description("<M> ::= { 1 <ITEM : bit (7)> } ** ;", "M")
        octets = bytes([0xA5]) * 5000
        text = rule.show(octets)
        self.assertEqual(text, "[" + " ".join(["[. <ITEM>=7'37]"] * 5000) + "]")
        self.assertEqual(rule.write(text), Block(octets, 40000))

    def test_threads_share_a_rule(self):
        shown = []

        def work():
            for _ in range(200):
                shown.append(self.rule.show(b"\xa5"))

        threads = [threading.Thread(target=work) for _ in range(8)]
        for thread in threads:
            thread.start()
        for thread in threads:
            thread.join()
        self.assertEqual(shown, [SHOWN] * 1600)


if __name__ == "__main__":
    unittest.main()
