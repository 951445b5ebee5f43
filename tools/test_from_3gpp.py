#!/usr/bin/env python3
"""Tests of from_3gpp.py: forms as 3GPP texts print them, and what they are written as.

usage: tools/test_from_3gpp.py [--bin PROGRAM]

With a built csn_cli each text that is written without a rest is certified too, and so are five longer rules, which
are typed as the specifications print them. What is expected stands here by hand, after docs/NOTATION.md.
"""
from __future__ import annotations

import argparse
import re
import subprocess
import sys
import tempfile
from dataclasses import dataclass, field
from pathlib import Path

sys.path.insert(0, str(Path(__file__).resolve().parent))
from from_3gpp import Report, convert  # noqa: E402


@dataclass
class Form:
    """A rule as it is printed, and as it is written; `told` is a part of what could not be, `certified` whether the
    program takes it."""
    printed: str
    written: str
    told: str = ""
    certified: bool = True


@dataclass
class Printed:
    """A rule of a specification as it is printed, and the changes by hand behind the converter's."""
    title: str
    printed: str
    told: list[str]
    hand: list[tuple[str, str]] = field(default_factory=list)
    readings: tuple[str, ...] = ("received", "sent")


PADDING = "<padding bits> ::= { null | 0 <spare padding> ! <Ignore : 1 bit (*) = <no string>> } ;\n"
SAME = [
    "<M> ::= <A : bit (3)> { 0 | 1 <B : octet (2)> } <spare padding> ;",
    "<M> ::= <N : bit (3)> <F : bit (val(N))> <G : octet (1 + val(N))> <H : bit (val(N) * 8 + 4)> ;",
    "<M> ::= <N : bit (3)> { <A : bit> } * (2 * val(N) + 1) <B : bit> * val(N) <C : bit> (2) ;",
    "<M> ::= { 0 <A : bit> ! 1 <Error> } ; <Error> ::= bit (*) = <no string> ;",
    "<M> ::= <VBS/VGCS options : bit> <T1' : bit (5)> <3G_BA_IND : bit> <A5/7 : bit> <a, b : bit> ;",
    "<M> ::= <A : bit (4)> { 1 <M> | 0 } ;",
    "<M> ::= <A : bit> -- a comment – with “signs” [and more]\n;",
    "<M> ::= { 1 <A : bit (3)> } ** 0 <B : bit> ;",
    "<M> ::= <A : { L | H }> { L | H <B : bit (2)> } { null | <spare padding> } ;",
]
FORMS = [
    # names and labels
    Form("<M> ::= <NLN(PCH) : bit (2)> ;", "<M> ::= <NLN PCH : bit (2)> ;"),
    Form("<M> ::= < NLN (SACCH) : bit (2) > ;", "<M> ::= <NLN SACCH : bit (2)> ;"),
    Form("<M> ::= <TLLI / G-RNTI : bit (32)> ;", "<M> ::= <TLLI/G-RNTI : bit (32)> ;"),
    Form("<M> ::= <A/ B : bit> ;", "<M> ::= <A/B : bit> ;"),
    Form("<M> ::= <FDD - ARFCN : bit (14)> ;", "<M> ::= <FDD-ARFCN : bit (14)> ;"),
    Form("<M> ::= <A\n\tB : bit> ;", "<M> ::= <A B : bit> ;"),
    Form("<M> ::= <B#2 : bit> ;", "<M> ::= <B#2 : bit> ;", "signs that no name may have", False),
    Form("<M> ::= <A + B : bit> ;", "<M> ::= <A + B : bit> ;", "signs that no name may have", False),
    Form("<M> ::= <A bit (5)> ;", "<M> ::= <A bit (5)> ;", "no : behind it", False),
    # types
    Form("<M> ::= <A : X struct> ; <X struct> ::= bit (3) ;", "<M> ::= <A : <X struct>> ; <X struct> ::= bit (3) ;"),
    Form("<M> ::= < A : X struct > ; < X struct > ::= bit (3) ;",
         "<M> ::= <A : <X struct>> ; <X struct> ::= bit (3) ;"),
    Form("<M> ::= <Length : <octet>> <F : octet (val(Length))> ;",
         "<M> ::= <Length : octet> <F : octet (val(Length))> ;"),
    Form("<M> ::= < A : < bit (5) > > ;", "<M> ::= <A : bit (5)> ;"),
    Form("<M> ::= <L : bit (3)> < bit (val(L) + 1) & { <A : bit> <B : bit (**)> } > ;",
         "<M> ::= <L : bit (3)> { bit (val(L) + 1) & { <A : bit> <B : bit (**)> } } ;"),
    Form("<M> ::= <A : bit> < octet > ;", "<M> ::= <A : bit> { octet } ;"),
    # fields
    Form("<M> ::= <F : bit string (6)> ;", "<M> ::= <F : bit (6)> ;"),
    Form("<M> ::= <F : bit-string (6)> <G : octet string (2)> ;", "<M> ::= <F : bit (6)> <G : octet (2)> ;"),
    Form("<M> ::= <F : bits (6)> ;", "<M> ::= <F : bit (6)> ;"),
    # spare bits and padding
    Form("<M> ::= <A : bit> <spare bits> ** ;", "<M> ::= <A : bit> <spare bit> ** ;"),
    Form("<M> ::= <A : bit> < spare bit (4) > ;", "<M> ::= <A : bit> <spare bit> (4) ;"),
    Form("<M> ::= <x : bit (2)> <spare bit (val(x)+1)> ;", "<M> ::= <x : bit (2)> <spare bit> (val(x)+1) ;"),
    Form("<M> ::= <A : bit> <padding bits> ;\n", "<M> ::= <A : bit> <padding bits> ;\n" + PADDING),
    Form("<M> ::= <A : bit (2)> { null | L | H <B : bit> } <spare padding> ;",
         "<M> ::= <A : bit (2)> { null | L | H <B : bit> } <spare padding> ;", "before padding", False),
    # counts
    Form("<M> ::= <N : bit (5)> <F : bit (8*(val(N)+3))> ;", "<M> ::= <N : bit (5)> <F : bit (8 * val(N) + 24)> ;"),
    Form("<M> ::= <N : bit (5)> <F : bit ((val(N)+1)*8)> ;", "<M> ::= <N : bit (5)> <F : bit (8 * val(N) + 8)> ;"),
    Form("<M> ::= <N : bit (5)> <F : bit (val(N) + 2 + 1)> ;", "<M> ::= <N : bit (5)> <F : bit (val(N) + 3)> ;"),
    Form("<M> ::= <N : bit (5)> <F : octet (val(N) - 1)> ;", "<M> ::= <N : bit (5)> <F : octet (val(N) - 1)> ;",
         "a subtraction", False),
    Form("<M> ::= <N : bit (5)> <F : bit (p(N))> ;", "<M> ::= <N : bit (5)> <F : bit (p(N))> ;", "a table", False),
    Form("<M> ::= <N : bit (5)> <F : bit (p(val(N)))> ;", "<M> ::= <N : bit (5)> <F : bit (p(val(N)))> ;",
         "a table", False),
    Form("<M> ::= <A : bit (2)> <B : bit (2)> <F : bit (val(A) + val(B))> ;",
         "<M> ::= <A : bit (2)> <B : bit (2)> <F : bit (val(A) + val(B))> ;", "two labels", False),
    Form("<M> ::= <A : bit (2)> <B : bit (2)> <F : bit (val(A) * val(B))> ;",
         "<M> ::= <A : bit (2)> <B : bit (2)> <F : bit (val(A) * val(B))> ;", "two labels", False),
    Form("<M> ::= <N : bit (3)> <F : bit (val(N + 1))> ;", "<M> ::= <N : bit (3)> <F : bit (val(N + 1))> ;",
         "arithmetic stands outside", False),
    Form("<M> ::= <N : bit (3)> <A : bit> ** (val(N)) ;", "<M> ::= <N : bit (3)> <A : bit> ** (val(N)) ;",
         "behind **", False),
    Form("<M> ::= <A : bit (2)> <F : bit> * val(A) + 1 ;", "<M> ::= <A : bit (2)> <F : bit> * val(A) + 1 ;",
         "in no parentheses", False),
    Form("<M> ::= <A : bit> 0 * 4 ;", "<M> ::= <A : bit> { 0 } * 4 ;"),
    Form("<M> ::= <A : bit> 0 (4) ;", "<M> ::= <A : bit> { 0 } (4) ;"),
    Form("<M> ::= <A : bit> 01 * 4 ;", "<M> ::= <A : bit> 01 * 4 ;", "its last bit", False),
    # exclude and ==
    Form("<M> ::= <T : bit (4)> exclude 1111 <L : bit (7)> ;",
         "<M> ::= <T : { 0 bit (3) | 10 bit (2) | 110 bit | 1110 }> <L : bit (7)> ;"),
    Form("<M> ::= { <T : bit (2) exclude 11> <A : bit> | <T : bit (2) == 11> } ;",
         "<M> ::= { <T : { 0 bit | 10 }> <A : bit> | <T : 11> } ;"),
    Form("<M> ::= <T : bit (3) exclude { 000 | 111 }> ;", "<M> ::= <T : { 001 | 01 bit | 10 bit | 110 }> ;"),
    Form("<M> ::= { <D : bit == L> | <D : bit == H> <A : bit> } ;", "<M> ::= { <D : L> | <D : H> <A : bit> } ;"),
    Form("<M> ::= <N : bit (2) exclude 11> <F : bit (val(N))> ;",
         "<M> ::= <N : bit (2) exclude 11> <F : bit (val(N))> ;",
         "a field that a count names", False),
    Form("<M> ::= { <A> exclude <B> } ;", "<M> ::= { <A> exclude <B> } ;", "of its width", False),
    # characters
    Form("\ufeff<M>\u00a0::= <A\u00a0: bit (3)> ;", "<M> ::= <A : bit (3)> ;"),
    Form("<M> ::= <FDD\u2013ARFCN : bit (14)> ;", "<M> ::= <FDD-ARFCN : bit (14)> ;"),
    Form("<M> ::= <A : bit (3)> \u2013 the first\n;", "<M> ::= <A : bit (3)> -- the first\n;"),
    Form("<M> ::= <N : bit> <F : bit (val(N) \u2212 1)> ;", "<M> ::= <N : bit> <F : bit (val(N) - 1)> ;",
         "a subtraction", False),
    Form("<M> ::= <T1\u2019 : bit (5)> ;", "<M> ::= <T1' : bit (5)> ;"),
    Form("<M> ::= { \u201c0\u201d | '1' <A : bit> } ;", "<M> ::= { 0 | 1 <A : bit> } ;"),
    Form("<M> ::= <A : bit> \u2217 4 ;\r\n", "<M> ::= <A : bit> * 4 ;\n"),
    # whole rules
    Form("<M> ::= <A : <X>>\n<X> ::= bit (3)\n", "<M> ::= <A : <X>> ;\n<X> ::= bit (3) ;\n"),
    Form("<M> ::= <A> ; <a> ::= bit ;", "<M> ::= <A> ; <a> ::= bit ;", "byte by byte", False),
    Form("<M> ::= <MA_LENGTH : bit (3)> <F : bit (val(MA LENGTH))> ;",
         "<M> ::= <MA_LENGTH : bit (3)> <F : bit (val(MA LENGTH))> ;", "byte by byte", False),
    Form("<M> ::= <A : bit> [ <B : bit> ] ;", "<M> ::= <A : bit> [ <B : bit> ] ;", "has no meaning", False),
    Form("<M> ::= <A : bit> this is no rule ;", "<M> ::= <A : bit> this is no rule ;", "the word this", False),
]

CLASSMARK_3 = """\
<Classmark 3 Value part> ::=
\t< spare bit >
\t{\t< Multiband supported : { 000 } >
\t\t< A5 bits >
\t|\t< Multiband supported : { 101 | 110 } >
\t\t< A5 bits >
\t\t< Associated Radio Capability 2 : bit(4) >
\t\t< Associated Radio Capability 1 : bit(4) >
\t|\t< Multiband supported : { 001 | 010 | 100 } >
\t\t< A5 bits >
\t\t< spare bit >(4)
\t\t< Associated Radio Capability 1 : bit(4) > }
\t{ 0 | 1 < R Support > }
\t{ 0 | 1 < HSCSD Multi Slot Capability > }
\t< UCS2 treatment: bit >
\t< Extended Measurement Capability : bit >
\t{ 0 | 1 < MS measurement capability > }
\t{ 0 | 1 < MS Positioning Method Capability > }
\t{ 0 | 1 < ECSD Multi Slot Capability > }
\t{ 0 | 1 < 8-PSK Struct > }
\t{ 0 | 1 < GSM 400 Bands Supported : { 01 | 10 | 11 } >
\t\t< GSM 400 Associated Radio Capability: bit(4) > }
\t{ 0 | 1 <GSM 850 Associated Radio Capability : bit(4) > }
\t{ 0 | 1 <GSM 1900 Associated Radio Capability : bit(4) > }
\t< UMTS FDD Radio Access Technology Capability : bit >
\t< UMTS 3.84 Mcps TDD Radio Access Technology Capability : bit >
\t< CDMA 2000 Radio Access Technology Capability : bit >
\t{ 0 | 1\t< DTM GPRS Multi Slot Class : bit(2) >
\t\t< Single Slot DTM : bit >
\t\t{0 | 1< DTM EGPRS Multi Slot Class : bit(2) > } }
\t{ 0 | 1 < Single Band Support > } \u2013 Release 4 starts here
\t< spare bits > ** ;
< A5 bits > ::= < A5/7 : bit > < A5/6 : bit > < A5/5 : bit > < A5/4 : bit > ;
<R Support>::= < R-GSM band Associated Radio Capability : bit(3) > ;
< HSCSD Multi Slot Capability > ::= < HSCSD Multi Slot Class : bit(5) > ;
< MS Measurement capability > ::= < SMS_VALUE : bit (4) > < SM_VALUE : bit (4) > ;
< MS Positioning Method Capability > ::= < MS Positioning Method : bit(5) > ;
< ECSD Multi Slot Capability > ::= < ECSD Multi Slot Class : bit(5) > ;
< 8-PSK Struct> ::= < Modulation Capability : bit >
\t{ 0 | 1 < 8-PSK RF Power Capability 1: bit(2) > }
\t{ 0 | 1 < 8-PSK RF Power Capability 2: bit(2) > }
< Single Band Support > ::= < GSM Band : bit (4) > ;
"""
CHANNEL_REQUEST = """\
< EGPRS Packet channel request message content > ::=
\t< One Phase Access Request : 0 < MultislotClass : bit (5) >
\t\t< Priority : bit (2) > < RandomBits : bit (3) > > |
\t< Short Access Request : 100 < NumberOfBlocks : bit (3) >
\t\t< Priority : bit (2) > < RandomBits : bit (3) > > |
\t< Two Phase Access Request : 110000 < Priority : bit (2) > < RandomBits : bit (3) > > |
\t< Signalling : 110011 < RandomBits : bit (5) > > |
\t< One phase Access Request in RLC unack mode : 110101 < RandomBits : bit (5) > > |
\t< Dedicated Channel Request : 110110 < RandomBits : bit (5) > > |
\t< Emergency call : 110111 < RandomBits : bit (5) > >
"""
MEASUREMENT_REPORT = """\
<Enhanced Measurement report> ::=
\t<RR short PD : bit>\t-- See 3GPP TS 24.007
\t<Message type : bit (5)>\t-- See 10.4
\t<Short layer 2 header : bit (2)>\t-- See 3GPP TS 44.006
\t<BA_USED : bit>
\t<3G_BA_USED : bit>
\t<BSIC_Seen : bit>
\t<SCALE : bit>
\t{ 0 | 1 <Serving cell data : Serving cell data struct > }
\t{ 1 <Repeated Invalid_BSIC_Information : Repeated Invalid_BSIC_Information struct > } ** 0
\t{ 0 | 1 { 0 | 1 <REPORTING_QUANTITY : bit string (6)> } ** }\t-- bitmap type reporting
\t<spare padding> ;
<Serving cell data struct> ::=
\t<DTX_USED : bit> <RXLEV_VAL : bit (6)> <RX_QUAL_FULL : bit (3)>
\t<MEAN_BEP : bit (5)> <CV_BEP : bit (3)> <NBR_RCVD_BLOCKS : bit (5)> ;
<Repeated Invalid_BSIC_Information struct> ::=
\t<BCCH\u2013FREQ\u2013NCELL : bit (5)> <BSIC : bit (6)> <RXLEV\u2013NCELL : bit (6)> ;
"""
NOTIFICATION = """\
<NT/N Rest Octets> ::=
\t{0 | 1 <NLN(NCH) : bit (2)>}
\t<list of Group Call NCH information>
\t<spare padding>;
<List of Group Call NCH information> ::=
\t0 | 1 <Group Call information> <List of Group Call NCH information>;
<Group Call information> ::=
\t<Group Call Reference : bit string (36)>
\t<Group Channel Description>;
<Group Channel Description> ::=
\t{ 0 | 1 <Channel Description : bit string (24)> };
"""
NEIGHBOURS = """\
< SI2quater Rest Octets part > ::=
\t< Real Time Difference Description : Real Time Difference Description struct >
\t< GPRS_BSIC Description : GPRS_BSIC Description struct >
\t{ null | L | H\t-- Additions in Release 5
\t\t{ 0 | 1 < FDD_Qmin_Offset : bit (3) > < FDD_RSCPmin : bit (4) > } }
\t<spare padding>
< Real Time Difference Description struct > ::=
\t{ 0 | 1 { 0 | 1 < BA_Index_Start_RTD : bit (5) > }
\t\t< RTD : < RTD6 Struct >> { 0 < RTD : < RTD6 Struct >> } ** 1 }
\t{ 0 | 1 { 0 | 1 < BA_Index_Start_RTD : bit (5) > }
\t\t< RTD : < RTD12 Struct >> { 0 < RTD : < RTD12 Struct >> } ** 1 };
< RTD6 Struct > ::= { 0 < RTD : bit (6) > } ** 1;
< RTD12 Struct > ::= { 0 < RTD : bit (12) > } ** 1;
< GPRS_BSIC Description struct > ::=
\t{ 0 | 1 < BA_Index_Start_BSIC : bit (5) > }
\t< BSIC : bit (6) >
\t< Number_Remaining_BSIC: bit (7) >
\t{ < Frequency_Scrolling : bit (1) > < BSIC : bit (6) > } * (val(Number_Remaining_BSIC));
"""
RULES = [
    Printed("TS 24.008, Mobile Station Classmark 3", CLASSMARK_3, ["byte by byte"],
            [("<MS measurement capability>", "<MS Measurement capability>")]),
    Printed("TS 44.060, EGPRS Packet Channel Request", CHANNEL_REQUEST, []),
    Printed("TS 44.018, Enhanced Measurement Report", MEASUREMENT_REPORT, [],
            [("{ 0 | 1 { 0 | 1 <REPORTING_QUANTITY : bit (6)> } ** }\t-- bitmap type reporting\n\t<spare padding>",
              "{ 0 { null | <spare padding> } | 1 <Bitmap type reporting and padding : bit (**)> }")]),
    Printed("TS 44.018, NT/N Rest Octets", NOTIFICATION, ["byte by byte"],
            [("<list of", "<List of"),
             ("0 | 1 <Group Call information> <List of Group Call NCH information>",
              "{ 1 <Group Call information> } ** 0")]),
    Printed("TS 44.018, parts of SI 2quater Rest Octets", NEIGHBOURS, ["before padding"],
            [("{ null | L | H", "{ null | L { null | <spare padding> } | H"),
             ("<FDD_RSCPmin : bit (4)> } }\n\t<spare padding> ;",
              "<FDD_RSCPmin : bit (4)> } { null | <spare padding> } } ;")]),
]


def certifies(program: str, text: str, reading: str) -> str:
    """What the program says of the first rule of a text."""
    name = re.match(r"\s*<([^>]+)>", text)
    with tempfile.TemporaryDirectory() as folder:
        path = Path(folder) / "rule.csn1"
        path.write_text(text, encoding="utf-8")
        words = [program, "check", str(path), name.group(1).strip() if name else "M", reading]
        return subprocess.run(words, capture_output=True, text=True, check=False).stdout.strip()


def form_faults(form: Form, program: str) -> list[str]:
    report = Report()
    made = convert(form.printed, report)
    faults = [] if made == form.written else [f"written {made!r}"]
    told = [what for _, what in report.failed]
    if bool(form.told) != bool(told) or form.told and not any(form.told in what for what in told):
        faults.append(f"told {told}")
    if form.printed == form.written and not form.told and report.changed:
        faults.append(f"changed {report.changed}")
    if program and not faults:
        answer = certifies(program, made, "received")
        if answer.startswith("certified") != form.certified:
            faults.append(f"answered {answer}")
    return faults


def rule_faults(rule: Printed, program: str) -> list[str]:
    report = Report()
    made = convert(rule.printed, report)
    told = [what for _, what in report.failed]
    faults = [f"told {told}"] if len(told) != len(rule.told) or any(
        not any(part in what for what in told) for part in rule.told) else []
    for old, new in rule.hand:
        if made.count(old) != 1:
            faults.append(f"{old!r} stands {made.count(old)} times in {made!r}")
        made = made.replace(old, new)
    for reading in rule.readings if program and not faults else ():
        answer = certifies(program, made, reading)
        if not answer.startswith("certified"):
            faults.append(f"{reading}: {answer}: {made}")
    return faults


def main() -> int:
    words = argparse.ArgumentParser(description="Tests of from_3gpp.py")
    words.add_argument("--bin", default="", help="a built csn_cli, by which what is written is certified")
    program = words.parse_args().bin
    wrong = 0
    for form in FORMS + [Form(text, text) for text in SAME]:
        for fault in form_faults(form, program):
            wrong += 1
            print(f"{form.printed!r}: {fault}")
    for rule in RULES:
        for fault in rule_faults(rule, program):
            wrong += 1
            print(f"{rule.title}: {fault}")
    certified = "certified" if program else "not certified, since no program is given"
    print(f"{len(FORMS) + len(SAME)} forms and {len(RULES)} rules, {certified}: {wrong} wrong")
    return 1 if wrong else 0


if __name__ == "__main__":
    sys.exit(main())
