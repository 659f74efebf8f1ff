"""The wrapper over the shared object: the worked example, facts saved with CR LF, patterns, printed quotes, counts of tuples, sums and
ratios, first chains, joined texts, refusals, empty and equal texts, the largest sizes, the guide's examples."""
import ctypes
import itertools
import os
import re
import sys
import unittest

import relcalc
from relcalc import CHAIN_BYTES, FACTS_BYTES, STORE_WORDS, Ending, Part, Refusal, Refused, RefusedJoin, Relcalc, Text
from relcalc_pattern import Fault, first_fault

FACTS = b"On C10 C5\nOn C5 C2\nOn B7 C10\nHeld B7\n"
FACTS_CR_LF = b"On C10 C5\r\nOn C5 C2\r\nOn B7 C10\r\nHeld B7\r\n"
QUERY = b'Dep(x,y) := TC(On(x,y)); PRINT ["Dep"] Dep(x,y);'
PAGE = b"Dep B7 C10\nDep B7 C2\nDep B7 C5\nDep C10 C2\nDep C10 C5\nDep C5 C2\n"
GUIDE = os.path.join(os.path.dirname(os.path.abspath(__file__)), "..", "..", "docs", "QUERIES.md")
rc = Relcalc()


# where each is wrong, and how
NO_PATTERNS = [
    (b"", 0, "an empty pattern"),
    (b"a|", 2, "an empty branch or group"),
    (b"|a", 0, "an empty branch or group"),
    (b"a||b", 2, "an empty branch or group"),
    (b"a|b|", 4, "an empty branch or group"),
    (b"a()b", 2, "an empty branch or group"),
    (b"(())", 2, "an empty branch or group"),
    (b"(a|)", 3, "an empty branch or group"),
    (b"*a", 0, "a repeat sign with nothing before it"),
    (b"a|+", 2, "a repeat sign with nothing before it"),
    (b"({1,2})", 1, "a repeat sign with nothing before it"),
    (b"^*", 1, "a repeat sign after ^ or $"),
    (b"(a$)?$?", 6, "a repeat sign after ^ or $"),
    (b"^{0,1}", 1, "a repeat sign after ^ or $"),
    (b"a**", 2, "a second repeat sign"),
    (b"a+?", 2, "a second repeat sign"),
    (b"[*]{1,2}*", 8, "a second repeat sign"),
    (b"a*{1,2}", 2, "a second repeat sign"),
    *((b"a{" + rest, 1, "a { that opens no {m,n} with 0 <= m <= n <= 8, one digit each")
      for rest in (b"", b"1", b"3}", b"1,}", b",2}", b"01,2}", b"1, 2}", b"2,1}", b"0,9}", b"1,2", b"1-2}")),
    (b"(a", 0, "a group that is not closed"),
    (b"((a)", 0, "a group that is not closed"),
    (b"(a|(", 3, "a group that is not closed"),
    (b"(a\\)", 0, "a group that is not closed"),
    (b"a)", 1, "a ) without its ("),
    (b"(a))|b", 3, "a ) without its ("),
    (b")(", 0, "a ) without its ("),
    (b"a[", 1, "a set that is not closed"),
    (b"[]", 0, "a set that is not closed"),
    (b"[^]", 0, "a set that is not closed"),
    (b"(a[b)", 2, "a set that is not closed"),
    (b"[a-", 0, "a set that is not closed"),
    (b"[b-a]", 1, "a range that falls"),
    (b"[a-cz-x]", 4, "a range that falls"),
    (b"[a--]", 1, "a range that falls"),
    (b"[^a-\\]", 2, "a range that falls"),
    (b"[[:alpha:]]", 1, "[: or [. or [= in a set"),
    (b"[[.]", 1, "[: or [. or [= in a set"),
    (b"[a[=]", 2, "[: or [. or [= in a set"),
    (b"[A-[.]", 3, "[: or [. or [= in a set"),
    (b"\\", 0, "a backslash at the end"),
    (b"a\\\\\\", 3, "a backslash at the end"),
]
# what is picked out of B7, C10, C2, C5
PATTERNS = [
    (b"^C1", b"C10"),
    (b"C", b"C10 C2 C5"),
    (b"c", b""),
    (b"^C.$", b"C2 C5"),
    (b"[1-5]", b"C10 C2 C5"),
    (b"[^C2-5]$", b"B7 C10"),
    (b"[]7-]", b"B7"),
    (b"^C1*0?2+$|7", b"B7 C2"),
    (b"^(B|C1){1,1}.$", b"B7 C10"),
    (b"^.{3,8}$", b"C10"),
    (b"C{0,0}7", b"B7"),
    (b"\\C\\5", b"C5"),
    (b"^^B", b"B7"),
    (b"(^)*7$$", b"B7"),
    (b"a*^B", b"B7"),
    (b"C^2", b""),
    (b"(^|C1)0", b"C10"),
    (b"[.]|[:]|[^^]{3,3}", b"C10"),
    (b"]|}|-|,|:| |\t|[[]|[a-c-e]", b""),
]


def picking(pattern):
    return b'PRINT @"' + pattern + b'"(x);'


# facts, the ends, and the first chain's numbers
FIRST_CHAINS = [
    (b"R a b\nR a c\nR b d\nR c d\n", "a", "d", [0, 1, 3]),
    (b"R c d\nR b d\nR a c\nR a b\n", "a", "d", [0, 1, 3]),
    (b"R a b\nR b c\nR c e\nR a d\nR d e\n", "a", "e", [0, 3, 4]),
    (b"R a b\nR b c\nR a c\n", "a", "c", [0, 2]),
    (b"R a b\nR b y\nR y z\nR a c\nR c d\nR d z\n", "a", "z", [0, 1, 4, 5]),
    (b"R z y\nR y b\nR b a\nR z x\nR x c\nR c a\n", "z", "a", [5, 3, 2, 0]),
    (b"R B7 C2\nR C2 X\nR B7 C10\nR C10 X\n", "B7", "X", [0, 1, 3]),
    (b"R s a\nR a t\nR s B\nR B t\n", "s", "t", [2, 0, 3]),
    (b"S A\nR a b\nT c a B\n", "a", "b", [2, 3]),
    (b'R x c\nR c z\nR x "a b"\nR "a b" z\n', "x", "z", [2, 0, 3]),
    (b'R a b\nR b z\nR a ""\nR "" z\n', "a", "z", [1, 0, 3]),
    (b"R a a\n", "a", "a", [0, 0]),
    (b'R "" ""\n', "", "", [0, 0]),
    (b"R a b\nR b a\nR b b\n", "b", "b", [1, 1]),
    (b"R a b\nR b c\nR c a\nR a d\nR d a\n", "a", "a", [0, 3, 0]),
    (b"R a b\nR b c\nR c a\nR a d\nR d a\n", "b", "b", [1, 2, 0, 1]),
    (b"R b c\nR c b\nR b a\nR a b\n", "b", "b", [1, 0, 1]),
]


def chains(pairs, first, second):
    """Every chain of pairs of 0, 1, 2 from first to second."""
    for n in range(3):
        for between in itertools.permutations({0, 1, 2} - {first, second}, n):
            chain = [first, *between, second]
            if all(pair in pairs for pair in zip(chain, chain[1:])):
                yield chain


# two texts, and what is written for them
JOINS = [
    (b"R a\nR b\n", b"R b\nR c\n", b"R a\nR b\nR c\n"),
    (FACTS, b"Rated B7 AA\r\nHeld C5\r\n", b"Held B7\nHeld C5\nOn B7 C10\nOn C10 C5\nOn C5 C2\nRated B7 AA\n"),
    (b"b x\nA x\n_a x\nA2 x\n", b"A1 x\nA10 x\nA x\nB x\n", b"A x\nA1 x\nA10 x\nA2 x\nB x\n_a x\nb x\n"),
    (b"R m\n", b"R z\nR a\n", b"R a\nR m\nR z\n"),
    (b"R b a\nR a c\n", b"R a b\nR aa a\nR C2 z\nR C10 z\n", b"R C10 z\nR C2 z\nR a b\nR a c\nR aa a\nR b a\n"),
    (b"T b a a\nT a b c\n", b"T a b a\nT a a z\n", b"T a a z\nT a b a\nT a b c\nT b a a\n"),
    (b"P\n", b"P \nQ", b"P\nQ\n"),
    (b"R a\nR a\n", b"S b\nS b\nS  b\n", b"R a\nS b\n"),
    (b"R  a\t\tb \t\n", b"R\tc d", b"R a b\nR c d\n"),
    (b"# one\n\n \t\nR a\n", b"\n#\nR b\n#", b"R a\nR b\n"),
    (b"R a\n.\n", b"R b\n", b"R a\nR b\n"),
    (b"R a\r\nR b\r", b"R c\nR b\r\n", b"R a\nR b\nR c\n"),
    (b"\r\n \r\nR a\r\n", b"\r", b"R a\n"),
    (b"S a\nT a b\n", b'R "a"\n', b'R "a"\nS "a"\nT "a" b\n'),
    (b"R a\n", b'R "a"\n', b'R "a"\n'),
    (b'R a\nR "a"\n', None, b'R "a"\n'),
    (b'R "a"\n', b"R B\n", b'R B\nR "a"\n'),
    (b"R !\n", b'R ""\n', b'R ""\nR !\n'),
    (b'Held "5Y off the run"\n', b'Held "\t"\nHeld ""\n', b'Held ""\nHeld "\t"\nHeld "5Y off the run"\n'),
    (b'R a\n.\nR "a"\n', b'# "a"\nS a\n. R "a"', b"R a\nS a\n"),
    (None, b"S b\nR a", b"R a\nS b\n"),
    (b"# a\n\n", b".\nR a\n", b""),
    (None, None, b""),
    (FACTS, FACTS, b"Held B7\nOn B7 C10\nOn C10 C5\nOn C5 C2\n"),
    ("Held B7\n", b"Held B9\n", b"Held B7\nHeld B9\n"),
]


def names(start, end):
    return b"".join(b"N%02d\n" % i for i in range(start, end))


def elements(count):
    return b"".join(b"E e%02d\n" % i for i in range(count))


def pairs(name, count):
    """The first pairs over 64 elements of one byte: six bytes a line."""
    return [b"%s %c %c\n" % (name, 48 + i // 64, 48 + i % 64) for i in range(count)]


HASHES = b"#" * (FACTS_BYTES + 1)
# two texts, the refusal and its place, and the text that is refused
NO_JOINS = [
    (b"R a\nR b\rc\n", b'S "\n', Refusal.FACT_BYTE, 7, Text.FIRST),
    (b"R a\n", b"R b\rc\n", Refusal.FACT_BYTE, 3, Text.SECOND),
    (b"TRUE a\n", b"9\n", Refusal.FACT_NAME, 0, Text.FIRST),
    (b"R a\n", b"R a\n R b\n", Refusal.FACT_NAME, 4, Text.SECOND),
    (b'R a\nR "b\n', b"R a\n", Refusal.FACT_ELEMENT, 6, Text.FIRST),
    (b"R a\n", b'R a\nR "b\n', Refusal.FACT_ELEMENT, 6, Text.SECOND),
    (b"S a b c d\n", b"R a\n", Refusal.ARITY, 8, Text.FIRST),
    (b"R a\n", b"S a b c d\n", Refusal.ARITY, 8, Text.SECOND),
    (b"R a b\nR c\n", None, Refusal.ARITY, 8, Text.FIRST),
    (b"R a b\nR c\n", b"R a b c\n", Refusal.ARITY, 8, Text.FIRST),
    (b"S a\n", b'R a\nR b "c"\n', Refusal.ARITY, 8, Text.SECOND),
    (b"S a\n", b"R a\nR\n", Refusal.ARITY, 4, Text.SECOND),
    # 20 where the first text has the relation, at the name
    (b"R a b\n", b"R a b\nR a\n", Refusal.FIRST_ARITY, 6, Text.SECOND),
    (b"R\n", b"R a\n", Refusal.FIRST_ARITY, 0, Text.SECOND),
    (b"R a\n", b"S x\nR\n", Refusal.FIRST_ARITY, 4, Text.SECOND),
    (b"R a\n", b"R a b\n9\n", Refusal.FIRST_ARITY, 0, Text.SECOND),
    (b"R a\n.\nR a b\n", b"R b c\n", Refusal.FIRST_ARITY, 0, Text.SECOND),
    (b"R a\n", b"R a b c d\n", Refusal.ARITY, 8, Text.SECOND),
    (b"R a\n", b'R a b"c\n', Refusal.FACT_ELEMENT, 4, Text.SECOND),
    (b"R a\n", b"R a b\n#\x7f\n", Refusal.FACT_BYTE, 7, Text.SECOND),
    (HASHES, b"9\n", Refusal.FACTS_TOO_LONG, 32768, Text.FIRST),
    (b"R a\n", HASHES, Refusal.FACTS_TOO_LONG, 32768, Text.SECOND),
    (b"9\n", HASHES, Refusal.FACT_NAME, 0, Text.FIRST),
    # 6 and 7 count those of both texts
    (names(0, 16), b"# a\nN00\nM\n", Refusal.TOO_MANY_RELATIONS, 8, Text.SECOND),
    (names(0, 10), names(10, 17), Refusal.TOO_MANY_RELATIONS, 24, Text.SECOND),
    (names(10, 17), names(0, 10), Refusal.TOO_MANY_RELATIONS, 36, Text.SECOND),
    (names(0, 17), b"9\n", Refusal.TOO_MANY_RELATIONS, 64, Text.FIRST),
    (elements(64), b"F e00 new\n", Refusal.TOO_MANY_ELEMENTS, 6, Text.SECOND),
    (elements(64), b'F "new"\nE new one\n', Refusal.TOO_MANY_ELEMENTS, 2, Text.SECOND),
    (elements(64), b"E new one\n", Refusal.FIRST_ARITY, 0, Text.SECOND),
    (elements(64) + names(0, 15), b"M new\n", Refusal.TOO_MANY_RELATIONS, 0, Text.SECOND),
    (elements(65), b"9\n", Refusal.TOO_MANY_ELEMENTS, 386, Text.FIRST),
    (elements(63), b"F x x y\n", Refusal.TOO_MANY_ELEMENTS, 6, Text.SECOND),
]


def sixteen(*counts):
    """Counts of the first relations; there are no others."""
    return [*counts] + [0] * (16 - len(counts))


def guide_rows(width):
    """The cells of the guide's rows that have so many, and the words in code of each."""
    with open(GUIDE, encoding="utf-8") as page:
        for line in page:
            cells = [c.strip().replace("\\|", "|") for c in re.split(r"(?<!\\)\|", line)[1:-1]]
            if len(cells) == width:
                yield cells, [re.findall("`([^`]*)`", c) for c in cells]


class Host(unittest.TestCase):
    def refused(self, refusal, place, call, *arguments, **more):
        with self.assertRaises(Refused) as caught:
            call(*arguments, **more)
        self.assertEqual((caught.exception.refusal, caught.exception.place), (refusal, place))
        return caught.exception

    def told(self, refusal, place, facts, query):
        return rc.explain(self.refused(refusal, place, rc.check, facts, query), facts, query)

    def test_worked_example(self):
        checked = rc.check(FACTS, QUERY)
        self.assertEqual((checked.universe, checked.words), (4, 77))
        relations = [(r.name.of(FACTS, QUERY), r.arity, r.first, r.count) for r in checked.relations]
        self.assertEqual(relations, [(b"On", 2, 0, 3), (b"Held", 1, 4, 1), (b"Dep", 2, 5, 0)])
        ran = rc.run(FACTS, QUERY, words=77, room=100)
        self.assertEqual((ran.ending, ran.steps, ran.output), (Ending.DONE, 2, PAGE))
        self.assertEqual(ran.store, [2, 8, 0, 4, 1, 14, 12, 0, 4] + [0] * 68)
        self.assertEqual(ran.counts, sixteen(3, 1, 6))

    def test_spent_and_full(self):
        ran = rc.run(FACTS, QUERY, budget=1, room=63)
        self.assertEqual((ran.ending, ran.steps, ran.output), (Ending.SPENT, 1, b""))
        ran = rc.run(FACTS, QUERY, budget=2, room=62)
        self.assertEqual((ran.ending, ran.steps, ran.output), (Ending.FULL, 1, b""))
        ran = rc.run(FACTS, QUERY, budget=2, room=63)
        self.assertEqual((ran.ending, ran.steps, ran.output), (Ending.DONE, 2, PAGE))

    def test_elements_and_chains(self):
        texts = [rc.element(FACTS, QUERY, n).of(FACTS, QUERY) for n in range(4)]
        self.assertEqual(texts, [b"B7", b"C10", b"C2", b"C5"])
        self.assertIsNone(rc.element(FACTS, QUERY, 4))
        self.assertIsNone(rc.element(FACTS, QUERY, 2**64 - 1))
        self.assertIsNone(rc.element(FACTS, b"", 0))
        self.assertEqual(rc.element(b'Held ""\n', QUERY, 0), Part(Text.FACTS, 6, 0))
        self.assertEqual(rc.chain(FACTS, "On", "B7", "C2"), [0, 1, 3, 2])
        self.refused(Refusal.NO_CHAIN, 0, rc.chain, FACTS, "On", "C2", "B7")
        self.refused(Refusal.NOT_IN_FACTS, 0, rc.chain, FACTS, "Held", "C2", "B7")
        self.refused(Refusal.BUFFER_SHORT, 0, rc.chain, FACTS, "On", "B7", "C2", room=64)

    def test_facts_with_cr_lf(self):
        checked = rc.check(FACTS_CR_LF, QUERY)
        self.assertEqual((checked.universe, checked.words), (4, 77))
        relations = [(r.name.of(FACTS_CR_LF, QUERY), r.name.offset, r.arity, r.first) for r in checked.relations]
        self.assertEqual(relations, [(b"On", 0, 2, 0), (b"Held", 32, 1, 4), (b"Dep", 0, 2, 5)])
        ran = rc.run(FACTS_CR_LF, QUERY, words=77, room=100)
        self.assertEqual((ran.ending, ran.steps, ran.output), (Ending.DONE, 2, PAGE))
        self.assertEqual(ran.store, [2, 8, 0, 4, 1, 14, 12, 0, 4] + [0] * 68)
        parts = [rc.element(FACTS_CR_LF, QUERY, n) for n in range(4)]
        self.assertEqual(parts, [Part(Text.FACTS, *p) for p in [(24, 2), (3, 3), (17, 2), (7, 2)]])
        self.assertEqual(rc.chain(FACTS_CR_LF, "On", "B7", "C2"), [0, 1, 3, 2])

    def test_line_ends(self):
        for universe, facts in [
            (0, b"\r"),
            (1, b"Held B7\n\r"),
            (3, b'Held B7\nHeld "C2"\r\n\r\n# a\r\nHeld C5 \r'),
            (1, b"Held B7\r\n.\rx\r\r\n"),
            (1, b"Held aaaabbbbccccddddeeeeffffgggghhhh\r\n"),
            (0, b"\r\n" * 16384),
        ]:
            self.assertEqual(rc.check(facts, b"PRINT ENDL;").universe, universe, facts)
        self.refused(Refusal.FACT_ELEMENT, 5, rc.check, b"Held aaaabbbbccccddddeeeeffffgggghhhhi\r\n", b"PRINT ENDL;")
        self.refused(Refusal.FACT_BYTE, 14, rc.check, b"Held B7\r\nHeld \xc8\r\n", b"PRINT ENDL;")
        self.refused(Refusal.FACTS_TOO_LONG, 32768, rc.check, b"\r\n" * 16384 + b"\r", b"PRINT ENDL;")

    def test_returns_elsewhere(self):
        for place, facts in [
            (4, b"On C\r10 C5\r\n"),
            (7, b"Held B7\r\r\n"),
            (7, b"Held B7\r\r"),
            (7, b"Held B7\rHeld C2\r"),
            (7, b"Held B7\r."),
            (3, b"# a\rb\n"),
            (7, b'Held "a\rb"\n'),
            (10, b" Held\nOn a\rb c\n"),
        ]:
            self.refused(Refusal.FACT_BYTE, place, rc.check, facts, b"PRINT ENDL;")
        for place, query in [(14, b"PRINT Held(x);\r\n"), (4, b"// a\r\nPRINT ENDL;"), (8, b'PRINT "a\rb";'), (11, b"PRINT ENDL;\r")]:
            self.refused(Refusal.NO_TOKEN, place, rc.check, FACTS, query)
        self.refused(Refusal.FACT_BYTE, 5, rc.chain, b"On C5\r C2\n", "On", "C5", "C2")

    def test_patterns(self):
        for pattern, picked in PATTERNS:
            ran = rc.run(FACTS, picking(pattern))
            self.assertEqual((ran.ending, ran.steps, ran.output.split()), (Ending.DONE, 1, picked.split()), pattern)
        for query, page in [
            (b'Q(x) := On(x,_) & @"^C1"(x); PRINT Q(x);', b"C10\n"),
            (b'PRINT ["a"] @"^C"("C2"), ["b"] @"^B"("C2"), ["c"] @"."("Z"), ["d"] @"7$"(_), ["e"] @"8$"(_);', b"a\nd\n"),
            (b'FOR v IN On(x,_) { IF @"^C"(v) { PRINT v, ENDL; } }', b"C10\nC5\n"),
            (b'PRINT !@ /* a */ "C" // b\n (x);', b"B7\n"),
            (b'Held("D.1"); Held("DX1"); PRINT @"D[.]1"(x);', b"D.1\n"),
        ]:
            ran = rc.run(FACTS, query)
            self.assertEqual((ran.ending, ran.output), (Ending.DONE, page), query)
        self.assertEqual(rc.check(FACTS, b'PRINT @"Z"(x);').universe, 4)

    def test_printed_quotes(self):
        for query, page in [
            (b'Held("5Y off the run"); PRINT Held(x);', b'"5Y off the run"\nB7\n'),
            (b'Held(""); Held(" "); Held("a\tb"); Held("C2"); PRINT Held(x);', b'""\n" "\nB7\nC2\n"a\tb"\n'),
            (b'R("a b","c",""); PRINT R(x,y,z);', b'"a b" c ""\n'),
            (b'Held("#x"); Held(".y"); Held("a,b"); PRINT Held(x);', b"#x\n.y\nB7\na,b\n"),
            (b'R("a b"); FOR v IN R(x) { PRINT v, ENDL, [v] R(x), "c d", ENDL; }', b'a b\na b "a b"\nc d\n'),
        ]:
            ran = rc.run(FACTS, query)
            self.assertEqual((ran.ending, ran.output), (Ending.DONE, page), query)
            self.assertEqual(rc.run(FACTS, query, room=len(page) - 1).ending, Ending.FULL)
        self.assertEqual(rc.run(b'R a\nS "a"\nR b\n', b'R("b"); PRINT R(x);').output, b'"a"\nb\n')

    def test_pages_read_back(self):
        held = rc.run(FACTS, b'Held("5Y off the run"); Held(""); PRINT ["Held"] Held(x);').output
        self.assertEqual(held, b'Held ""\nHeld "5Y off the run"\nHeld B7\n')
        query = b'PRINT ["Held"] Held(x), ["P"] P(), ["On"] On(x,y);'
        texts = [rc.element(held, query, n).of(held, query) for n in range(rc.check(held, query).universe)]
        self.assertEqual(texts, [b"", b"5Y off the run", b"B7"])
        ran = rc.run(held, query)
        self.assertEqual((ran.store[0], ran.output), (0b111, held))
        self.assertEqual(rc.run(b"", b'P(); PRINT ["P"] P();').output, b"P\n")
        self.assertEqual(rc.run(b"P\n", query).output, b"P\n")

    def test_counts_as_loaded(self):
        dep = b"Dep(x,y) := TC(On(x,y));"
        for facts, query, counts in [
            (b"On C10 C5\nOn C5 C2\nOn C10 C5\nHeld B7\nHeld B7\n", dep, [2, 1, 0]),
            (b'Held "B7"\nHeld B7\nOn B7 "C2"\r\nOn "B7" C2\nHeld "B7"\n', dep, [1, 1, 0]),
            (b'T a b c\nT "a" b c\nT a\tb  c \nT c b a\n', b"PRINT ENDL;", [2]),
            (b"P\nP \nP", b"PRINT ENDL;", [1]),
            (b'Held ""\nHeld " "\nHeld  ""\n# Held a\n.\nHeld b\n', b"PRINT ENDL;", [2]),
            (None, b'IF FALSE() { R("a"); } PRINT P();', [0, 0]),
            (b"P\n" * 16384, b"PRINT ENDL;", [1]),
        ]:
            self.assertEqual([r.count for r in rc.check(facts, query).relations], counts, query)
            self.assertEqual(rc.run(facts, query, budget=0).counts, sixteen(*counts), query)

    def test_counts_at_the_end(self):
        for budget, room, dep in [(0, 63, 0), (1, 63, 6), (2, 62, 6), (2, 63, 6)]:
            self.assertEqual(rc.run(FACTS, QUERY, budget=budget, room=room).counts, sixteen(3, 1, dep), (budget, room))
        for query, counts in [
            (b'Held("C2"); On("B7",x) := FALSE(x);', [2, 2]),
            (b'On("C2","Z"); Held(x) := Held(x);', [4, 1]),
            (b"On(x,y) := FALSE(x,y); T(x,y,z); P();", [0, 1, 64, 1]),
        ]:
            self.assertEqual(rc.run(FACTS, query).counts, sixteen(*counts), query)
        shrinks = b"FOR v IN On(x,_) { On(x,y) := On(x,y) & x != v; Gone(x) := Gone(x) | x = v; PRINT v; }"
        for budget, (on, gone) in enumerate(zip([3, 3, 3, 2, 2, 2, 2, 1, 1, 1, 1, 0, 0, 0], [0, 0, 0, 0, 1, 1, 1, 1, 2, 2, 2, 2, 3, 3])):
            self.assertEqual(rc.run(FACTS, shrinks, budget=budget).counts, sixteen(on, 1, gone), budget)
        # B7, C10 and C5 are printed: 2, 3 and 2 bytes
        for room, counts in [(1, [2, 1, 1]), (4, [1, 1, 2]), (6, [0, 1, 3])]:
            self.assertEqual(rc.run(FACTS, shrinks, room=room).counts, sixteen(*counts), room)
        for budget, held in [(4, 1), (6, 3)]:
            self.assertEqual(rc.run(FACTS, b"WHILE TRUE() { Held(x) := !Held(x); }", budget=budget).counts, sixteen(3, held), budget)

    def test_no_counts_of_refusals(self):
        """Refused answers and unused records are all zero, which the classes do not show."""
        store, output = (ctypes.c_uint64 * 76)(), (ctypes.c_uint8 * 9)()
        for query, refusal, place in [(QUERY, 14, 77), (b"PRINT On(x,y)", 10, 13), (b"Dep(x) := TC(On(x,y));", 12, 0)]:
            texts = (FACTS, len(FACTS), query, len(query))
            self.assertEqual(bytes(rc._run(*texts, 9, store, 76, output, 9)), bytes(relcalc._Ran(refusal=refusal, place=place)))
            if refusal != 14:
                self.assertEqual(bytes(rc._check(*texts)), bytes(relcalc._Checked(refusal=refusal, place=place)))
        unused = rc._check(FACTS, len(FACTS), QUERY, len(QUERY)).records[3:]
        self.assertEqual([bytes(r) for r in unused], [bytes(6 * 8)] * 13)

    def test_sizes_of_the_structs(self):
        sizes = [ctypes.sizeof(s) for s in (relcalc._Record, relcalc._Checked, relcalc._Ran, relcalc._Chained, relcalc._Joined)]
        self.assertEqual(sizes, [6 * 8, (5 + 6 * 16) * 8, (5 + 16) * 8, 3 * 8, 4 * 8])

    def test_quantities(self):
        for query, page in [
            (b"PRINT #(On(x,y)), #(On(x,_)), #(TRUE()), #(FALSE(x));", b"3310"),
            (b"PRINT #(Held(x) & On(x,_)) / #(On(x,_));", b"1/3"),
            (b'FOR c IN On(_,x) { PRINT c, " ", #(On(x,c)) / #(On(x,y)), ENDL; }', b"C10 1/3\nC2 1/3\nC5 1/3\n"),
            (b'PRINT 1+2/3+4, " ", 6/3, " ", 0/5, " ", 007, " ", 999999+999999;', b"3/7 2/1 0/1 7 1999998"),
            (b"PRINT 1/0, 0/0, #(Held(x))/#(FALSE(x));", b"nonenonenone"),
            (b'PRINT ["a"] 2/4 = 3/6, ["b"] 1/3 < 1/2, ["c"] 5/9 < 4/7, ["d"] 2 > 4/2;', b"a\nb\nc\n"),
            (b'PRINT ["a"] 1/0 = 1, ["b"] 1/0 != 1, ["c"] 1 <= 0/0, ["d"] !(1/0 = 1/0);', b"d\n"),
            (b'PRINT ["a"] 65536 = 0/65536;', b""),
            (b"PRINT Held(x) & (#(On(x,y)) = 3);", b"B7\n"),
            (b"WHILE #(Held(x)) < 3 { Held(x) := Held(x) | EX(y, Held(y) & On(y,x)); } PRINT #(Held(x));", b"3"),
            (b'IF #(Held(x))/#(On(x,_)) < 1/2 { PRINT "low"; } ELSE { PRINT "high"; }', b"low"),
            (b"PRINT 6/*2*//3, 6// 2\n;", b"2/16"),
            (b"PRINT " + b"0" * 26 + b"999999;", b"999999"),
        ]:
            ran = rc.run(FACTS, query)
            self.assertEqual((ran.ending, ran.output), (Ending.DONE, page), query)
            if page:
                self.assertEqual(rc.run(FACTS, query, room=len(page) - 1).ending, Ending.FULL, query)
        self.assertEqual(rc.run(None, b"PRINT #(TRUE(x)), #(TRUE());").output, b"01")

    def test_refused_numbers(self):
        for refusal, place, query in [
            (Refusal.NUMBER, 6, b"PRINT 1000000;"),
            (Refusal.NUMBER, 6, b"PRINT 0001000000;"),
            (Refusal.NUMBER, 22, b"PRINT 1+1+1+1+1+1+1+1+1;"),
            (Refusal.NUMBER, 21, b"IF 2/1+1+1+1+1+1+1+1+#(Held(x)) < 1 { P(); }"),
            (Refusal.NUMBER, 19, b'PRINT zz, @"("(x), 1000000;'),
            (Refusal.NO_TOKEN, 6, b"PRINT " + b"0" * 33 + b";"),
            (Refusal.NO_PROGRAM, 9, b"PRINT On(1000000,x);"),
            (Refusal.NO_PROGRAM, 7, b"PRINT !1=1;"),
            (Refusal.NO_PROGRAM, 13, b'PRINT ["a"] 1;'),
            (Refusal.FREE_ATTRIBUTES, 5, b"P(); PRINT #(TRUE(x,y,z,w));"),
            (Refusal.FREE_ATTRIBUTES, 0, b"Q(x) := #(On(x,y)) > 1;"),
        ]:
            self.refused(refusal, place, rc.check, FACTS, query)
            self.refused(refusal, place, rc.run, FACTS, query)
            self.assertIsNone(rc.element(FACTS, query, 0))

    def test_words_on_refused_numbers(self):
        query = "IF #(Held(x)) > 1000000 { P(); }"
        told = rc.explain(Refused(Refusal.NUMBER, 16), FACTS, query)
        self.assertEqual((told.at.text, told.at.found), (Text.QUERY, b"1000000"))
        self.says(told, "query:1:17: refused 19 at `1000000`: ", f"; here a number over 999,999\n  {query}\n  {' ' * 16}^")
        query = "PRINT 1+1+1+1+1+1+1+1+#(Held(x));"
        told = rc.explain(Refused(Refusal.NUMBER, 22), FACTS, query)
        start = "query:1:23: refused 19 at `#`: a sum has at most 8 summands"
        self.says(told, start, f"; here a ninth summand of one sum\n  {query}\n  {' ' * 22}^")
        told = rc.explain(Refused(Refusal.NUMBER, 24), FACTS, "PRINT\n1+1+1+1+1+1+1+1\n+ 999999;")
        self.says(told, "query:3:3: refused 19 at `999999`: ", "; here a ninth summand of one sum\n  + 999999;\n    ^")
        told = rc.explain(Refused(Refusal.NO_TOKEN, 6), FACTS, b"PRINT " + b"1" * 33 + b";")
        self.assertEqual((told.at.found, told.fault), (b"1" * 33, None))
        told = rc.explain(Refused(Refusal.NO_PROGRAM, 9), FACTS, b"PRINT On(12x,y);")
        self.says(told, "query:1:10: refused 10 at `12`: ", "\n  PRINT On(12x,y);\n           ^")

    def test_first_chains(self):
        for facts, first, second, numbers in FIRST_CHAINS:
            self.assertEqual(rc.chain(facts, "R", first, second), numbers, facts)

    def test_first_chains_of_three_elements(self):
        every = list(itertools.product(range(3), repeat=2))
        for pairs in (list(itertools.compress(every, chosen)) for chosen in itertools.product((0, 1), repeat=9)):
            facts = "S a\nS b\nS c\nR a d\n" + "".join(f"R {'abc'[x]} {'abc'[y]}\n" for x, y in pairs)
            for first, second in every:
                question = (facts, "R", "abc"[first], "abc"[second])
                if found := list(chains(pairs, first, second)):
                    self.assertEqual(rc.chain(*question), min(found, key=lambda chain: (len(chain), chain)), facts)
                else:
                    self.refused(Refusal.NO_CHAIN, 0, rc.chain, *question)

    def test_texts_of_chains(self):
        for facts, first, second, texts in [
            (b"R B7 C10\nR C10 C5\nR B7 C20\nR C20 C5\n", "B7", "C5", [b"B7", b"C10", b"C5"]),
            (b'R "B7" C10\r\nR C10 "5Y off the run"\r\n', "B7", "5Y off the run", [b"B7", b"C10", b"5Y off the run"]),
            (b'R a b\nR b z\nR a ""\nR "" z\n', "a", "z", [b"a", b"", b"z"]),
            (b"S A\nR b a\nR a b\r", "b", "b", [b"b", b"a", b"b"]),
            ("R a b\n", b"a", b"b", [b"a", b"b"]),
        ]:
            self.assertEqual(rc.chain_texts(facts, "R", first, second), texts, facts)
        # a relation that a query assigns, by way of its page
        page = rc.run(FACTS, 'Under(x,y) := On(y,x); PRINT ["Under"] Under(x,y);').output
        self.assertEqual(rc.chain_texts(page, "Under", "C2", "B7"), [b"C2", b"C5", b"C10", b"B7"])

    def test_refused_chains(self):
        for refusal, place, facts, first, second in [
            (Refusal.NO_CHAIN, 0, b"R a b\n", "b", "a"),
            (Refusal.NO_CHAIN, 0, b"R a b\n", "a", "a"),
            (Refusal.NO_CHAIN, 0, b"R a b\nR b b\n", "a", "a"),
            (Refusal.NO_CHAIN, 0, b"R a b\nS b c\n", "a", "c"),
            (Refusal.NOT_IN_FACTS, 0, b"R a b\n", "a", '"b"'),
            (Refusal.NOT_IN_FACTS, 0, b"R a b c\n", "a", "b"),
            (Refusal.NOT_IN_FACTS, 0, None, None, None),
            (Refusal.ARITY, 8, b"R a\nR a b\n", "x", "y"),
            (Refusal.FACT_BYTE, 5, b"R a b\r c\n", "a", "b"),
        ]:
            self.refused(refusal, place, rc.chain, facts, "R", first, second)
            self.refused(refusal, place, rc.chain_texts, facts, "R", first, second)
        self.refused(Refusal.BUFFER_SHORT, 0, rc.chain, b"R a b\n", "R", "a", "b", room=64)
        self.refused(Refusal.BUFFER_SHORT, 0, rc.chain, b"R a b\n", "R", "b", "a", room=0)
        self.refused(Refusal.NOT_IN_FACTS, 0, rc.chain, b"R a b\n", "R", "a", "c", room=0)

    def test_buffers_of_chains(self):
        """Bytes past the count, and all of them on refusal, stay, which the classes do not show."""
        for second, room, written in [(b"b", 65, b"\0\1"), (b"b", 64, b""), (b"a", 65, b"")]:
            buffer = (ctypes.c_uint8 * 70)(*[7] * 70)
            rc._chain(b"R a b\n", 6, b"R", 1, b"a", 1, second, 1, buffer, room)
            self.assertEqual(bytes(buffer), written.ljust(70, b"\7"), (second, room))

    def not_joined(self, refusal, place, text, first, second, **more):
        refused = self.refused(refusal, place, rc.join, first, second, **more)
        self.assertEqual((type(refused), refused.text), (RefusedJoin, text))
        return refused

    def test_joined_texts(self):
        for first, second, lines in JOINS:
            for texts in [(first, second), (second, first), (lines, lines)]:
                self.assertEqual(rc.join(*texts), lines, texts)
            self.assertEqual(rc.join(first, second, room=len(lines)), lines)
            if lines:
                self.not_joined(Refusal.RESULT_TOO_LONG, len(lines), None, first, second, room=len(lines) - 1)
                self.not_joined(Refusal.RESULT_TOO_LONG, len(lines), None, first, second, room=0)

    def test_refused_joins(self):
        for first, second, refusal, place, text in NO_JOINS:
            self.not_joined(refusal, place, text, first, second)
            self.not_joined(refusal, place, text, first, second, room=0)

    def test_limits_of_joins(self):
        self.assertEqual(rc.join(names(0, 10), names(10, 16)), names(0, 16))
        self.assertEqual(rc.join(names(0, 16), b"N15\nN00\n"), names(0, 16))
        self.assertEqual(rc.join(elements(64), b"E e63\n"), elements(64))
        self.assertEqual(rc.join(b"F x x\n", elements(63)), elements(63) + b"F x x\n")
        self.assertEqual(rc.join(HASHES[1:], HASHES[1:]), b"")

    def test_longest_joins(self):
        rising = pairs(b"R", 4096) + pairs(b"S", 1365)
        lines, falling = b"".join(rising), b"".join(reversed(rising))
        others = b"".join(pairs(b"P", 4096) + pairs(b"Q", 1365))
        self.assertEqual(rc.join(falling, lines), lines)
        self.assertEqual(rc.join(falling, b"P"), b"P\n" + lines)
        self.not_joined(Refusal.RESULT_TOO_LONG, 32768, None, falling, b"P", room=32767)
        for first, second, needed in [
            (falling, others, 2 * 32766),
            (falling, b"Pq", 32769),
            (falling + b"Pq", None, 32769),
            # the element 0 stands 128 times in R, 86 times in S and once in P
            (falling, b'P "0"\n', 32766 + 2 * (128 + 86) + 6),
        ]:
            # a longer output is of no use
            for room in (FACTS_BYTES, 2 * FACTS_BYTES):
                self.not_joined(Refusal.RESULT_TOO_LONG, needed, None, first, second, room=room)

    def test_outputs_of_joins(self):
        """Bytes past the length, and all of them on refusal, stay, which the classes do not show."""
        for second, room, written, answer in [
            (b"R b\n", 9, b"R a\nR b\n", (0, 0, 0, 8)),
            (b"R b\n", 8, b"R a\nR b\n", (0, 0, 0, 8)),
            (b"R b\n", 7, b"", (21, 8, 0, 0)),
            (b"R b\nR\n", 9, b"", (20, 4, 2, 0)),
            (b"R b\nS\nS a\n", 9, b"", (5, 8, 2, 0)),
        ]:
            output = (ctypes.c_uint8 * 12)(*[7] * 12)
            a = rc._join(b"R a\n", 4, second, len(second), output, room)
            self.assertEqual((a.refusal, a.place, a.text, a.length), answer)
            self.assertEqual(bytes(output), written.ljust(12, b"\7"), (second, room))
        a = rc._join(b'R "\n', 4, b"9", 1, output, 12)
        self.assertEqual((a.refusal, a.place, a.text, a.length), (4, 2, 1, 0))

    def test_joined_texts_read_back(self):
        first, second = b"On C10 C5\nHeld B7\nHeld C5\nP\n", b'Held "B7"\r\nOn C2 "5Y off the run"\r\nRated B7 AA\r\n'
        joined = rc.join(first, second)
        self.assertEqual(joined, b'Held "B7"\nHeld C5\nOn C10 C5\nOn C2 "5Y off the run"\nP\nRated "B7" AA\n')
        self.assertEqual([r.count for r in rc.check(joined, b"PRINT ENDL;").relations], [2, 2, 1, 1])
        query = b'PRINT ["Held"] Held(x), ["On"] On(x,y), ["P"] P(), ["Rated"] Rated(x,y);'
        self.assertEqual(rc.run(joined, query).output, joined)

    def told_join(self, refusal, place, text, first, second):
        return rc.explain_join(self.not_joined(refusal, place, text, first, second), first, second)

    def test_words_on_refused_joins(self):
        told = self.told_join(Refusal.FIRST_ARITY, 13, Text.SECOND, FACTS, b"Rated B7 AA\r\nOn C5\r\n")
        self.assertEqual((told.at.text, told.at.line, told.at.column, told.at.found), (Text.SECOND, 2, 1, b"On"))
        rule = "a relation of both texts has as many elements in the second as in the first; here one with 2 in the first"
        self.assertEqual(str(told), f"second text:2:1: refused 20 at `On`: {rule}\n  On C5\n  ^")
        for first, second, arity in [("R\n", "R a\n", "none"), ("R a\n", "R\n", "1"), ("R a b c\n", "R a\n", "3")]:
            told = self.told_join(Refusal.FIRST_ARITY, 0, Text.SECOND, first, second)
            self.assertEqual(told.fault, Fault(0, f"one with {arity} in the first"))
        told = self.told_join(Refusal.ARITY, 19, Text.FIRST, b'Held B7\nHeld "C 5" C2\n', FACTS)
        start = "first text:2:12: refused 5 at `C2`: a relation has 0 to 3 elements"
        self.says(told, start, '\n  Held "C 5" C2\n             ^')
        told = self.told_join(Refusal.ARITY, 16, Text.SECOND, FACTS, b"Rated a\nRated b c\n")
        self.says(told, "second text:2:9: refused 5 at `c`: ", "\n  Rated b c\n          ^")
        told = self.told_join(Refusal.FACT_BYTE, 10, Text.SECOND, FACTS, b"# a\nOn C10\r C2\r\n")
        self.says(told, "second text:2:7: refused 2 at byte 13: ", "\n  On C10? C2\n        ^")
        told = self.told_join(Refusal.TOO_MANY_RELATIONS, 4, Text.SECOND, names(0, 16), b"N00\nM\n")
        self.says(told, "second text:2:1: refused 6 at `M`: both texts together have at most 16 relations\n", "\n  M\n  ^")
        told = self.told_join(Refusal.TOO_MANY_ELEMENTS, 386, Text.FIRST, elements(65), None)
        self.says(told, "first text:65:3: refused 7 at `e64`: both texts together have at most 64 elements\n", "\n  E e64\n    ^")
        told = rc.explain_join(RefusedJoin(Refusal.RESULT_TOO_LONG, 32769, None), FACTS, FACTS)
        self.assertIsNone(told.at)
        self.says(told, "refused 21 (32769): a joined text has at most 32,768 bytes", "output")
        self.assertIsNone(rc.explain(Refused(Refusal.FIRST_ARITY, 0), FACTS, QUERY).at)

    def test_refused_joins_as_exceptions(self):
        for first, second, words in [
            (b"Held B7\n", b"Held\n", "refused 20 at 0 of the second text: a relation of both texts has as many"),
            (b'Held "5Y\n', b"", "refused 4 at 5 of the first text: an element has at most 32 bytes"),
            (names(0, 16), b"M\n", "refused 6 at 0 of the second text: both texts together have at most 16 relations"),
        ]:
            with self.assertRaises(RefusedJoin) as caught:
                rc.join(first, second)
            self.assertTrue(str(caught.exception).startswith(words), str(caught.exception))
        refused = self.not_joined(Refusal.RESULT_TOO_LONG, 2, None, None, b"P", room=1)
        self.assertTrue(str(refused).startswith("refused 21 (2): a joined text"), str(refused))

    def test_words_on_any_joined_text_and_place(self):
        texts = [b"", b"\r", b"\n\r\n", b"a\r\nb\r", b'"\r\n"', b"\r\r\n"]
        for row, text, place in [(r, t, p) for r in [*range(1, 8), 20, 21] for t in texts for p in range(len(t) + 2)]:
            for which in (Text.FIRST, Text.SECOND):
                at = rc.explain_join(RefusedJoin(Refusal(row), place, which), text, text).at
                self.assertEqual((at.text, at.found == b""), (which, place >= len(text)), (row, text, place))
                self.assertTrue(at.caret <= len(at.shown) and b"\n" not in at.shown, (row, text, place))
                self.assertNotIn(b"\r", at.shown[: at.caret], (row, text, place))

    def test_refused_patterns(self):
        for pattern, _, _ in NO_PATTERNS:
            self.refused(Refusal.PATTERN, 7, rc.check, FACTS, picking(pattern))
        for refusal, place, query in [
            (Refusal.PATTERN, 8, b'PRINT @ "" (x);'),
            (Refusal.PATTERN, 16, b'PRINT @"a"(x), @"("(x), @""(x);'),
            (Refusal.PATTERN, 20, b'IF FALSE() { PRINT @"("(x); }'),
            (Refusal.PATTERN, 7, b'PRINT @""(On);'),
            (Refusal.NO_TOKEN, 7, picking(b"a" * 33)),
            (Refusal.NO_PROGRAM, 13, b'PRINT @"("(x)'),
            (Refusal.NO_PROGRAM, 26, b"FOR v IN Held(x) { PRINT @v(x); }"),
            (Refusal.NO_PROGRAM, 12, b'PRINT @"("(x,y);'),
            (Refusal.KIND, 11, b'PRINT @"a"(On);'),
            (Refusal.FREE_ATTRIBUTES, 0, b'S() := @"^C1"(x);'),
        ]:
            self.refused(refusal, place, rc.check, FACTS, query)
            self.refused(refusal, place, rc.run, FACTS, query)
            self.assertIsNone(rc.element(FACTS, query, 0))

    def test_faults_of_patterns(self):
        for pattern, offset, reason in NO_PATTERNS:
            self.assertEqual(first_fault(pattern), Fault(offset, reason), pattern)
            told = rc.explain(Refused(Refusal.PATTERN, 7), FACTS, picking(pattern))
            self.assertEqual((told.at.text, told.at.column, told.at.found), (Text.QUERY, 8, b'"' + pattern + b'"'))
            self.says(told, "query:1:8: refused 18 at `\"", f"; here {reason}\n  {picking(pattern).decode()}\n  {' ' * (8 + offset)}^")
        for pattern, _ in PATTERNS:
            self.assertIsNone(first_fault(pattern), pattern)
        long = b"PRINT On(x,_) &\n  @\"" + b"(" * 16 + b"a" + b")" * 15 + b'" (x);'
        told = rc.explain(Refused(Refusal.PATTERN, 19), FACTS, long)
        self.says(told, "query:2:4: refused 18 at `\"((((", f"; here a group that is not closed\n  {long[16:].decode()}\n      ^")

    def test_faults_where_the_engine_refuses(self):
        for pattern in (bytes(p) for n in range(5) for p in itertools.product(b"a-[]^:(|)*\\", repeat=n)):
            try:
                rc.check(FACTS, picking(pattern))
                self.assertIsNone(first_fault(pattern), pattern)
            except Refused as refused:
                self.assertEqual((refused.refusal, refused.place), (Refusal.PATTERN, 7), pattern)
                self.assertIsNotNone(first_fault(pattern), pattern)

    def test_refusals(self):
        self.refused(Refusal.STORE_SHORT, 77, rc.run, FACTS, QUERY, words=76)
        self.refused(Refusal.NO_PROGRAM, 13, rc.run, FACTS, "PRINT On(x,y)")
        self.refused(Refusal.FACT_BYTE, 6, rc.check, "Held C\u00e9\n", QUERY)
        self.refused(Refusal.FACT_BYTE, 7, rc.run, b"Held B7\r\r\n", QUERY)
        self.refused(Refusal.NO_TOKEN, 11, rc.run, FACTS, b"PRINT ENDL;\r\n")
        self.refused(Refusal.PATTERN, 7, rc.run, FACTS, b'PRINT @"C{3}"(x);')
        self.refused(Refusal.NUMBER, 6, rc.run, FACTS, b"PRINT 1000000;")

    def test_refusals_in_words(self):
        told = self.told(Refusal.FREE_ATTRIBUTES, 21, FACTS, b"P();\n\tPRINT On(x,y);\nHeld(x) := On(x,y);")
        self.assertEqual((told.at.text, told.at.line, told.at.column, told.at.found), (Text.QUERY, 3, 1, b"Held"))
        self.assertTrue(str(told).endswith("\n  Held(x) := On(x,y);\n  ^"), str(told))
        told = self.told(Refusal.ARITY, 10, b"Held B7\nOn C10 C5 x\n", b"Dep(x) := On(x,_);")
        self.assertEqual((told.at.text, told.at.found), (Text.QUERY, b"On"))
        told = self.told(Refusal.ARITY, 19, b'Held B7\nHeld "C 5" C2\n', b"PRINT Held(x);")
        self.assertEqual((told.at.text, told.at.found), (Text.FACTS, b"C2"))
        self.assertTrue(str(told).startswith("facts:2:12: refused 5 at `C2`: "), str(told))
        self.assertTrue(str(told).endswith('\n  Held "C 5" C2\n             ^'), str(told))
        told = self.told(Refusal.NO_PROGRAM, 13, FACTS, b"PRINT On(x,y)")
        self.assertTrue(str(told).startswith("query:1:14: refused 10 at end of text: "), str(told))
        told = self.told(Refusal.FACTS_TOO_LONG, 32768, b"#" * 32769, QUERY)
        self.assertEqual(told.at.column, 32769)
        told = rc.explain(Refused(Refusal.STORE_SHORT, 77), FACTS, QUERY)
        self.assertTrue(str(told).startswith("refused 14 (77): "), str(told))

    def says(self, told, start, end):
        self.assertTrue(str(told).startswith(start) and str(told).endswith(end), str(told))

    def test_words_on_facts_with_cr_lf(self):
        told = self.told(Refusal.FACT_NAME, 9, b"Held B7\r\nTRUE\r\n", QUERY)
        self.says(told, "facts:2:1: refused 3 at `TRUE`: ", "\n  TRUE\n  ^")
        told = self.told(Refusal.FACT_ELEMENT, 14, b'Held B7\r\nHeld "5Y\r\nHeld C2\r\n', QUERY)
        self.says(told, 'facts:2:6: refused 4 at `"5Y`: ', '\n  Held "5Y\n       ^')
        told = self.told(Refusal.ARITY, 17, b"Held B7\r\nHeld B7 C2\r\n", QUERY)
        self.says(told, "facts:2:9: refused 5 at `C2`: ", "\n  Held B7 C2\n          ^")
        told = self.told(Refusal.FACT_BYTE, 15, b"Held B7\r\nOn C10\r C2\r\n", QUERY)
        rule = " or one CR (13) directly before an LF (10) or as the text's last byte"
        self.says(told, "facts:2:7: refused 2 at byte 13: ", rule + "\n  On C10? C2\n        ^")

    def test_words_on_refused_returns(self):
        told = self.told(Refusal.FACT_BYTE, 7, b"Held B7\r\r\n", QUERY)
        self.says(told, "facts:1:8: refused 2 at byte 13: ", "\n  Held B7?\n         ^")
        told = self.told(Refusal.NO_TOKEN, 14, FACTS, b"PRINT Held(x);\r\nPRINT ENDL;\r\n")
        rule = ": a query's lines end in LF (10), not in CR LF (13, 10)"
        self.says(told, "query:1:15: refused 9 at byte 13: ", rule + "\n  PRINT Held(x);?\n                ^")
        told = self.told(Refusal.NO_TOKEN, 6, FACTS, b'PRINT "5Y\r\n;')
        self.says(told, 'query:1:7: refused 9 at `"5Y`: ', '\n  PRINT "5Y\n        ^')

    def test_words_where_a_limit_meets_a_line_end(self):
        for hashes, found in [(32767, b"\n"), (32768, b"\r")]:
            at = self.told(Refusal.FACTS_TOO_LONG, 32768, b"#" * hashes + b"\r\n", QUERY).at
            self.assertEqual((at.line, at.column, at.found, at.shown, at.caret), (1, hashes + 1, found, b"#" * 50, 50))
        at = self.told(Refusal.FACTS_TOO_LONG, 32768, b"#" * 32766 + b"\r\r\n", QUERY).at
        self.assertEqual((at.line, at.column, at.found, at.shown, at.caret), (1, 32767, b"\n", b"#" * 50, 50))
        at = self.told(Refusal.FACTS_TOO_LONG, 32768, b"#" * 32760 + b"\rOn a b c d", QUERY).at
        self.assertEqual((at.line, at.column, at.found, at.shown, at.caret), (1, 32769, b"c", b"On a b c d", 7))
        for blanks, found in [(16383, b"\n"), (16384, b"\r")]:
            at = self.told(Refusal.QUERY_TOO_LONG, 16384, FACTS, b" " * blanks + b"\r\n").at
            self.assertEqual((at.line, at.column, at.found, at.shown, at.caret), (1, blanks + 1, found, b" " * 50, 50))

    def test_words_on_any_text_and_place(self):
        texts = [b"", b"\r", b"\n\r\n", b"a\r\nb\r", b'"\r\n"', b"\r\r\n"]
        for row, text, place in [(r, t, p) for r in [*range(1, 14), 18, 19] for t in texts for p in range(len(t) + 2)]:
            told = rc.explain(Refused(Refusal(row), place), text, text)
            self.assertIsNone(told.fault, (row, text, place))
            at = told.at
            self.assertEqual(at.found == b"", place >= len(text), (row, text, place))
            self.assertTrue(at.caret <= len(at.shown) and b"\n" not in at.shown, (row, text, place))
            self.assertNotIn(b"\r", at.shown[: at.caret], (row, text, place))
        at = rc.explain(Refused(Refusal.FACT_NAME, 99), b"Held B7\r\nHeld C2\r").at
        self.assertEqual((at.line, at.column, at.found, at.shown, at.caret), (2, 8, b"", b"Held C2", 7))

    def test_no_texts_and_lengths_0(self):
        self.refused(Refusal.NO_PROGRAM, 0, rc.check, None, None)
        self.refused(Refusal.NO_PROGRAM, 0, rc.run, b"", b"", budget=0, words=0, room=0)
        checked = rc.check(None, b"PRINT ENDL;")
        self.assertEqual((checked.universe, checked.words, checked.relations), (0, 0, []))
        ran = rc.run(None, b"PRINT ENDL;", words=0, room=0)
        self.assertEqual((ran.ending, ran.steps, ran.output, ran.store), (Ending.FULL, 0, b"", []))
        ran = rc.run(None, b"PRINT FALSE();", words=0, room=0)
        self.assertEqual((ran.ending, ran.steps, ran.output, ran.store), (Ending.DONE, 1, b"", []))
        self.refused(Refusal.NOT_IN_FACTS, 0, rc.chain, None, None, None, None, room=0)

    def test_one_text_as_facts_and_query(self):
        for refusal, place, text in [
            (Refusal.FACT_NAME, 2, b"#\nPRINT ENDL;"),
            (Refusal.NO_TOKEN, 0, b".\nPRINT ENDL;"),
            (Refusal.NO_PROGRAM, 5, b"\n\n \t\n"),
        ]:
            self.refused(refusal, place, rc.check, text, text)
        self.assertEqual(rc.chain(b"a a a", b"a", b"a", b"a"), [0, 0])

    def test_largest_sizes(self):
        lines = [b"R0 e%02d e%02d e00\n" % (i, (i + 1) % 64) for i in range(64)]
        lines += [b"R%d e00 e00 e00\n" % r for r in range(1, 16)]
        facts = b"".join(lines).ljust(32768, b"\n")
        query = b"R1(x,y,z) := R0(x,y,z); PRINT EX(z, R1(x,y,z));".ljust(16384)
        checked = rc.check(facts, query)
        self.assertEqual((checked.universe, checked.words, len(checked.relations)), (64, STORE_WORDS, 16))
        self.assertEqual([r.count for r in checked.relations], [64] + [1] * 15)
        ran = rc.run(facts, query, budget=2**32 - 1)
        self.assertEqual((ran.ending, ran.steps, len(ran.output), ran.counts), (Ending.DONE, 2, 64 * 8, [64, 64] + [1] * 14))
        self.assertEqual(rc.run(facts, b'PRINT #(TRUE(x,y,z)), " ", #(R0(x,y,z)) / 64+64;').output, b"262144 1/2")
        ran = rc.run(facts, b"R0(x,y,z) := FALSE(x,y,z); R15(x,y,z);")
        self.assertEqual(ran.counts, [0] + [1] * 14 + [262144])
        self.assertEqual(rc.element(facts, query, 63).of(facts, query), b"e63")
        self.refused(Refusal.FACTS_TOO_LONG, 32768, rc.check, facts + b"\n", query)
        self.refused(Refusal.QUERY_TOO_LONG, 16384, rc.check, facts, query + b" ")
        ring = b"".join(b"On e%02d e%02d\n" % (i, (i + 1) % 64) for i in range(64))
        self.assertEqual(len(rc.chain(ring, "On", "e05", "e05", room=CHAIN_BYTES)), 65)
        names = [b"e%02d" % (i % 64) for i in range(5, 70)]
        facts = ring + b"".join(b"R%d\n" % r for r in range(1, 16))
        self.assertEqual(rc.chain_texts(facts, "On", "e05", "e05"), names)

    def chain_of_the_guide(self, cells, example, shown):
        """A row's chain over the page's facts and the lines that the row adds: its texts with arrows, or its refusal."""
        *lines, name, first, second = example
        question = (FACTS.decode() + "".join(f"{line}\n" for line in lines), name, first, second)
        if shown:
            self.assertEqual(" -> ".join(t.decode() for t in rc.chain_texts(*question)), shown[0], cells)
        else:
            self.refused(Refusal(int(cells[0])), int(cells[3]), rc.chain_texts, *question)

    def join_of_the_guide(self, cells, lines):
        """A row's join of two texts, into as many bytes as it says: the lines that are written, or its refusal."""
        texts = ["".join(f"{line}\n" for line in re.findall("`([^`]*)`", text)) for text in cells[2].split(" and ")]
        room = re.search(r" into (\d+) bytes", cells[2])
        if lines:
            self.assertEqual(rc.join(*texts).decode().splitlines(), lines, cells)
        else:
            which = None if room else Text.SECOND
            more = {"room": int(room[1])} if room else {}
            self.not_joined(Refusal(int(cells[0])), int(cells[3]), which, *texts, **more)

    def test_examples_of_the_guide(self):
        checked = 0
        for cells, (_, _, example, prints) in guide_rows(4):
            if "chain `" in cells[2]:
                self.chain_of_the_guide(cells, example, prints)
            elif cells[2].startswith("join `"):
                self.join_of_the_guide(cells, prints)
            elif prints:
                ran = rc.run(FACTS, example[0])
                self.assertEqual((ran.ending, ran.output.decode().splitlines()), (Ending.DONE, prints), cells)
            elif cells[2].startswith("facts `"):
                self.refused(Refusal(int(cells[0])), int(cells[3]), rc.check, "\n".join(example) + "\n", "PRINT ENDL;")
            elif cells[2].startswith("`"):
                self.refused(Refusal(int(cells[0])), int(cells[3]), rc.check, FACTS, example[0])
            else:
                continue
            checked += 1
        self.assertEqual(checked, 83)
        self.refused(Refusal.TOO_MANY_RELATIONS, 0, rc.check, "".join(f"R{i}\n" for i in range(16)), "New();")
        self.refused(Refusal.TOO_MANY_ELEMENTS, 5, rc.check, "".join(f"Held {i}\n" for i in range(64)), 'Held("New");')

    def test_patterns_of_the_guide(self):
        rows = [(cells[1], wrong, right) for cells, (wrong, _, right) in guide_rows(3) if wrong]
        self.assertEqual({why for why, _, _ in rows}, {why for _, _, why in NO_PATTERNS})
        for why, wrong, right in rows:
            for pattern in wrong:
                self.assertEqual(self.told(Refusal.PATTERN, 7, FACTS, f"PRINT @{pattern}(x);").fault.reason, why, pattern)
            for pattern in right:
                rc.check(FACTS, f"PRINT @{pattern}(x);")


if __name__ == "__main__":
    result = unittest.TextTestRunner().run(unittest.defaultTestLoader.loadTestsFromTestCase(Host))
    failed = len(result.failures) + len(result.errors)
    print(f"{result.testsRun - failed} passed, {failed} failed", flush=True)
    sys.exit(failed > 0)
