"""RML queries over RSF facts, over the shared object that hosts/build makes. include/relcalc.h says what each call answers.

    rc = Relcalc()
    ran = rc.run(b"On C10 C5\\n", b"PRINT On(x,y);")
    print(ran.ending.name, ran.steps, ran.output)

A text is bytes, a string (its UTF-8 bytes; only ASCII is accepted), or None for an empty one.
"""
import ctypes
import enum
import os
import re
from dataclasses import dataclass

from relcalc_pattern import Fault, first_fault

STORE_WORDS = 70656  # enough for every accepted pair of texts
CHAIN_BYTES = 65  # the least buffer for a chain, and enough for each
FACTS_BYTES = 32768  # the most that facts may have, and enough for all that a join writes
BEFORE, AFTER = 50, 40  # bytes of a line that are shown before and after a place; a string that begins there is shown whole


class Ending(enum.Enum):
    DONE = 0
    SPENT = 1
    FULL = 2


class Text(enum.Enum):
    """The facts or the query, numbered as in a part, or one of the two texts of a join."""

    FACTS = 0
    QUERY = 1
    FIRST = 2
    SECOND = 3

    def __str__(self):
        return ("facts", "query", "first text", "second text")[self.value]


class Refusal(enum.Enum):
    """Why a call refuses, by the numbers of documents 01 and 02."""

    FACTS_TOO_LONG = 1
    FACT_BYTE = 2
    FACT_NAME = 3
    FACT_ELEMENT = 4
    ARITY = 5
    TOO_MANY_RELATIONS = 6
    TOO_MANY_ELEMENTS = 7
    QUERY_TOO_LONG = 8
    NO_TOKEN = 9
    NO_PROGRAM = 10
    KIND = 11
    FREE_ATTRIBUTES = 12
    TOO_MUCH = 13
    STORE_SHORT = 14
    NOT_IN_FACTS = 15
    BUFFER_SHORT = 16
    NO_CHAIN = 17
    PATTERN = 18
    NUMBER = 19
    FIRST_ARITY = 20
    RESULT_TOO_LONG = 21


RULES = {
    Refusal.FACTS_TOO_LONG: "facts have at most 32,768 bytes",
    Refusal.FACT_BYTE: "a byte of the facts is 9, 10 or 32 to 126, or one CR (13) directly before an LF (10) or as the text's last byte",
    Refusal.FACT_NAME: "a fact starts with a relation name at the line's first byte: a letter or underscore, then letters, digits, "
    'underscores, 1 to 32 bytes, not "_" alone and not reserved',
    Refusal.FACT_ELEMENT: "an element has at most 32 bytes, no quote inside, and a closing quote followed by a blank or the line's end "
    "if it starts with a quote",
    Refusal.ARITY: "a relation has 0 to 3 elements, and as many everywhere",
    Refusal.TOO_MANY_RELATIONS: "facts and query have at most 16 relations",
    Refusal.TOO_MANY_ELEMENTS: "facts and left-hand sides have at most 64 elements",
    Refusal.QUERY_TOO_LONG: "a query has at most 16,384 bytes",
    Refusal.NO_TOKEN: "a token starts here that is none, is over 32 bytes, or is a string or comment left open; or a byte is not 9, 10 "
    "or 32 to 126: a query's lines end in LF (10), not in CR LF (13, 10)",
    Refusal.NO_PROGRAM: "the tokens up to here begin no program",
    Refusal.KIND: "a name has one kind (relation, attribute, loop variable) throughout, its place takes that kind, and a loop variable "
    "stands in its loop's block only and is not bound again there",
    Refusal.FREE_ATTRIBUTES: "an assignment's left attributes are the free ones of its right side; IF and WHILE have none, FOR one, TC "
    "and TCFAST two, a printed expression and what #(e) counts at most 3",
    Refusal.TOO_MUCH: "a query has at most 2,048 tokens and 32 levels, a statement at most 4 attribute names and 16 closures",
    Refusal.STORE_SHORT: "the store has at least the words needed",
    Refusal.NOT_IN_FACTS: "the facts hold a binary relation of this name and both elements",
    Refusal.BUFFER_SHORT: "a chain's buffer has at least 65 bytes",
    Refusal.NO_CHAIN: "no chain exists",
    Refusal.PATTERN: "a pattern is one or more branches parted by |, each one or more pieces: ^, $, or a character, ., set or group with "
    "at most one repeat sign *, +, ? or {m,n}",
    Refusal.NUMBER: "a sum has at most 8 summands, each a count #(e) or a number, and a number is at most 999,999",
    Refusal.FIRST_ARITY: "a relation of both texts has as many elements in the second as in the first",
    Refusal.RESULT_TOO_LONG: "a joined text has at most 32,768 bytes, and no more than the output",
}
JOIN_RULES = {
    **RULES,
    Refusal.TOO_MANY_RELATIONS: "both texts together have at most 16 relations",
    Refusal.TOO_MANY_ELEMENTS: "both texts together have at most 64 elements",
}


class Refused(Exception):
    """A refusal and its place: an offset in one of the texts, or the words needed."""

    def __init__(self, refusal, place):
        super().__init__(f"refused {refusal.value} at {place}: {RULES[refusal]}")
        self.refusal = refusal
        self.place = place


class RefusedJoin(Refused):
    """A refusal of `join` and the text that is refused: first, second, or None with 21, whose place is the length needed."""

    def __init__(self, refusal, place, text):
        super().__init__(refusal, place)
        self.text = text

    def __str__(self):
        where = f"({self.place})" if self.text is None else f"at {self.place} of the {self.text}"
        return f"refused {self.refusal.value} {where}: {JOIN_RULES[self.refusal]}"


@dataclass(frozen=True)
class Part:
    """A part of the facts or of the query."""

    text: Text
    offset: int
    length: int

    def of(self, facts, query):
        text = _bytes(facts if self.text is Text.FACTS else query)
        return text[self.offset : self.offset + self.length]


@dataclass(frozen=True)
class Relation:
    """A relation; `count` is the number of its tuples as loaded."""

    name: Part
    arity: int
    first: int
    count: int


@dataclass(frozen=True)
class Checked:
    universe: int
    words: int
    relations: list


@dataclass(frozen=True)
class Ran:
    """A run; `counts` are the numbers of tuples of 16 relations at its end, in the order of `check`, 0 where there is none."""

    ending: Ending
    steps: int
    output: bytes
    store: list
    counts: list


@dataclass(frozen=True)
class At:
    """A place in a text: line and column from 1, what stands there, and the line around it with the caret's column.

    A line end, with or without its 13, is one past the line.
    """

    text: Text
    line: int
    column: int
    found: bytes
    shown: bytes
    caret: int


@dataclass(frozen=True)
class Explained:
    """Where and why texts were refused; `at` is None for 14 to 17 and 21, whose place is no place in a text.

    `fault` is what is wrong with a refused pattern, number or arity, where that can be told; the caret is then shown under its byte.
    """

    refused: Refused
    at: At
    rule: str
    fault: Fault = None

    def __str__(self):
        number = self.refused.refusal.value
        if self.at is None:
            return f"refused {number} ({self.refused.place}): {self.rule}"
        place = f"{self.at.text}:{self.at.line}:{self.at.column}"
        head = f"{place}: refused {number} at {_named(self.at.found)}: {self.rule}"
        caret = self.at.caret
        if self.fault is not None:
            head += f"; here {self.fault.reason}"
            # a pattern begins after its string's quote
            caret += self.fault.offset + (self.refused.refusal is Refusal.PATTERN)
        return f"{head}\n  {_plain(self.at.shown)}\n  {' ' * caret}^"


def _words(*names):
    return [(n, ctypes.c_uint64) for n in names]


class _Record(ctypes.Structure):
    _fields_ = _words("text", "offset", "length", "arity", "first", "count")


class _Checked(ctypes.Structure):
    _fields_ = _words("refusal", "place", "universe", "words", "relations") + [("records", _Record * 16)]


class _Ran(ctypes.Structure):
    _fields_ = _words("refusal", "place", "ending", "steps", "written") + [("counts", ctypes.c_uint64 * 16)]


class _Part(ctypes.Structure):
    _fields_ = _words("text", "offset", "length")


class _Chained(ctypes.Structure):
    _fields_ = _words("refusal", "place", "count")


class _Joined(ctypes.Structure):
    _fields_ = _words("refusal", "place", "text", "length")


_TEXT = [ctypes.c_char_p, ctypes.c_size_t]
_BUFFER = [ctypes.POINTER(ctypes.c_uint8), ctypes.c_size_t]
_OF = (None, Text.FIRST, Text.SECOND)  # by the number that a join answers


def _bytes(text):
    if text is None:
        return b""
    return text.encode() if isinstance(text, str) else bytes(text)


def _lent(*texts):
    """Pointer and length of each text: the pointer of an empty one is not null."""
    return [x for t in texts for x in (t, len(t))]


def _room(kind, n):
    """An array of n and one more, so that its pointer is good for length 0 too."""
    return (kind * (n + 1))()


def _accept(answer):
    if answer.refusal:
        raise Refused(Refusal(answer.refusal), answer.place)


class Relcalc:
    def __init__(self, path=None):
        """Loads the shared object at path, at $RELCALC_SO, or at target/hosts/librelcalc.so of the repository."""
        here = os.path.dirname(os.path.abspath(__file__))
        default = os.path.join(here, "..", "..", "target", "hosts", "librelcalc.so")
        library = ctypes.CDLL(path or os.environ.get("RELCALC_SO") or default)
        self._check = library.relcalc_check
        self._check.argtypes, self._check.restype = _TEXT * 2, _Checked
        self._run = library.relcalc_run
        store = [ctypes.POINTER(ctypes.c_uint64), ctypes.c_size_t]
        self._run.argtypes, self._run.restype = _TEXT * 2 + [ctypes.c_uint32] + store + _BUFFER, _Ran
        self._element = library.relcalc_element
        self._element.argtypes, self._element.restype = _TEXT * 2 + [ctypes.c_size_t], _Part
        self._chain = library.relcalc_chain
        self._chain.argtypes, self._chain.restype = _TEXT * 4 + _BUFFER, _Chained
        self._join = library.relcalc_join
        self._join.argtypes, self._join.restype = _TEXT * 2 + _BUFFER, _Joined

    def check(self, facts, query):
        """Whether a run would accept the texts, and what it needs."""
        a = self._check(*_lent(_bytes(facts), _bytes(query)))
        _accept(a)
        relations = [Relation(Part(Text(r.text), r.offset, r.length), r.arity, r.first, r.count) for r in a.records[: a.relations]]
        return Checked(a.universe, a.words, relations)

    def run(self, facts, query, budget=1_000_000, words=STORE_WORDS, room=32768):
        """Runs the query over the facts with a store of so many words and room for so many bytes.

        An element is printed in quotes if a fact quoted it, or if it is empty or holds a blank, so the lines of `PRINT ["R"] R(x,y);`
        can be read back as facts. A sum is printed as its digits, a ratio reduced, as `1/3`, or `none` over 0, with no line end.
        """
        if not 0 <= budget < 2**32:
            raise ValueError("a budget has 32 bits")
        store, output = _room(ctypes.c_uint64, words), _room(ctypes.c_uint8, room)
        a = self._run(*_lent(_bytes(facts), _bytes(query)), budget, store, words, output, room)
        _accept(a)
        return Ran(Ending(a.ending), a.steps, bytes(output[: a.written]), store[:words], list(a.counts))

    def element(self, facts, query, n):
        """The part that is the text of element n; None where there is none, or the texts are refused."""
        if not 0 <= n < 2**64:
            return None
        a = self._element(*_lent(_bytes(facts), _bytes(query)), n)
        # no left-hand string stands at the query's start
        return None if (a.text, a.offset, a.length) == (1, 0, 0) else Part(Text(a.text), a.offset, a.length)

    def chain(self, facts, name, first, second, room=CHAIN_BYTES):
        """The element numbers of the first chain of facts of that name.

        First is the one with the fewest elements and, among those, with the smallest number at the earliest difference.
        """
        buffer = _room(ctypes.c_uint8, room)
        a = self._chain(*_lent(*map(_bytes, (facts, name, first, second))), buffer, room)
        _accept(a)
        return buffer[: a.count]

    def chain_texts(self, facts, name, first, second):
        """The texts of the first chain's elements, without quotes: a screen shows them as `B7 -> C10 -> C5`."""
        # the numbers count the facts' elements alone: so do those of a query without left-hand strings
        query = b"PRINT ENDL;"
        return [self.element(facts, query, n).of(facts, query) for n in self.chain(facts, name, first, second)]

    def join(self, first, second, room=FACTS_BYTES):
        """The facts of two texts as one text: relations in byte order of name, tuples ascending, each once.

        An element is in quotes if either text quoted it. Read as facts it has the tuples of both, relation by relation.
        """
        output = _room(ctypes.c_uint8, room)
        a = self._join(*_lent(_bytes(first), _bytes(second)), output, room)
        if a.refusal:
            raise RefusedJoin(Refusal(a.refusal), a.place, _OF[a.text])
        return bytes(output[: a.length])

    def explain(self, refused, facts, query=b""):
        """Where and why the texts of a call were refused; `explain_join` says it of a join."""
        facts, query = _bytes(facts), _bytes(query)
        which = self._text_of(refused, facts)
        at = which and _at(refused, which, facts if which is Text.FACTS else query)
        return Explained(refused, at, RULES[refused.refusal], at and _fault_of(refused, at.found))

    def _text_of(self, refused, facts):
        """Which text the place is in. 5, 6 and 7 are of the facts where the facts alone have them."""
        number = refused.refusal.value
        if 13 < number < 18 or number > 19:
            return None
        if number < 5:
            return Text.FACTS
        alone = self._check(*_lent(facts, b""))
        same = (alone.refusal, alone.place) == (number, refused.place)
        return Text.FACTS if number < 8 and same else Text.QUERY

    def explain_join(self, refused, first, second):
        """Where and why a text of a join was refused."""
        first, second = _bytes(first), _bytes(second)
        at = refused.text and _at(refused, refused.text, first if refused.text is Text.FIRST else second)
        clash = at and refused.refusal is Refusal.FIRST_ARITY
        return Explained(refused, at, JOIN_RULES[refused.refusal], self._arity_fault(first, at.found) if clash else None)

    def _arity_fault(self, first, name):
        """What the first text gives a relation that the second has with another arity."""
        query = b"PRINT ENDL;"
        checked = self._check(*_lent(first, query))
        arities = [r.arity for r in checked.records[: checked.relations] if first[r.offset : r.offset + r.length] == name]
        return Fault(0, f"one with {arities[0] or 'none'} in the first") if arities else None


def _run_of(text, start, ends):
    return next((i for i in range(start, len(text)) if text[i] in ends), len(text))


def _string(rest):
    """The end of the string at the start of a line's rest: after its closing quote, or at the line's end."""
    end = _run_of(rest, 1, b'"')
    return end + (rest[end : end + 1] == b'"')


def _word(rest):
    """The end of the name or element at the start of a line's rest."""
    return _run_of(rest, _string(rest) if rest[:1] == b'"' else 0, b" \t")


def _token(rest):
    """The end of the token at the start of a line's rest."""
    if rest[:1] == b'"':
        return _string(rest)
    if rest[:1].isdigit():
        return len(rest) - len(rest.lstrip(b"0123456789"))
    name = next((i for i, b in enumerate(rest) if not (chr(b).isalnum() and b < 128) and b != ord("_")), len(rest))
    if name:
        return name
    marks = (b"<->", b"->", b"<=", b">=", b"!=", b":=", b"/*")
    return next((len(m) for m in marks if rest.startswith(m)), 1)


def _line(text, place):
    """Where the line around a place begins and ends. The 13s before its byte 10 are no part of it."""
    start = text.rfind(b"\n", 0, place) + 1
    line = text[start : _run_of(text, place, b"\n")]
    return start, start + len(line.rstrip(b"\r"))


def _at(refused, which, text):
    place = min(refused.place, len(text))
    start, end = _line(text, place)
    # a 13 of the line end is shown where it is the refused byte
    if refused.refusal in (Refusal.FACT_BYTE, Refusal.NO_TOKEN) and text.startswith(b"\r", place):
        end = max(end, place + 1)
    # what is behind it is seen at the line's end
    seen = min(place, end)
    if refused.refusal in (Refusal.FACTS_TOO_LONG, Refusal.FACT_BYTE, Refusal.QUERY_TOO_LONG):
        length = 1
    else:
        length = _token(text[seen:end]) if which is Text.QUERY else _word(text[seen:end])
    found = text[place : place + max(length, 1)]
    # a 13 before the place, as rows 1 and 8 can have it, is not shown
    first = max(start, seen - BEFORE, text.rfind(b"\r", start, seen) + 1)
    shown = text[first : min(end, seen + AFTER)]
    return At(which, text.count(b"\n", 0, place) + 1, seen - start + 1, found, shown, seen - first)


def _summand_fault(token):
    """What is wrong with a summand's first token: a number that is too large, whichever summand it is, or one summand too many."""
    if token.isdigit() and int(token) > 999_999:
        return Fault(0, "a number over 999,999")
    return Fault(0, "a ninth summand of one sum") if token.isdigit() or token == b"#" else None


def _fault_of(refused, found):
    """What is wrong with the token that was found, if it was refused as a pattern or a number."""
    if refused.refusal is Refusal.NUMBER:
        return _summand_fault(found)
    string = re.fullmatch(rb'"([^"]*)"', found)
    return first_fault(string[1]) if string and refused.refusal is Refusal.PATTERN else None


def _plain(text):
    """A text's bytes for the eye, one character each."""
    return "".join(chr(b) if 32 <= b < 127 else " " if b == 9 else "?" for b in text)


def _named(found):
    """What was found, for the eye: a single byte that has no sign by its number."""
    if not found:
        return "end of text"
    if len(found) == 1 and not 32 <= found[0] < 127:
        return f"byte {found[0]}"
    return f"`{_plain(found)}`"
