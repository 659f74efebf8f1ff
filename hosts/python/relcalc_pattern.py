"""What is wrong with a pattern that was refused: its first fault, for the words of `explain`.

The engine alone decides whether a pattern is malformed.
"""
import enum
import re
from dataclasses import dataclass


@dataclass(frozen=True)
class Fault:
    """What is wrong, and at which byte of the pattern, from 0; its length where something is lacking at its end.

    With a refused number or arity it is the first byte of what was refused.
    """

    offset: int
    reason: str


class _Before(enum.Enum):
    """What the branch has just before a byte."""

    NOTHING = 0
    ANCHOR = 1
    ATOM = 2
    REPEAT = 3


def first_fault(pattern):
    """The first fault of a pattern's bytes, or None if none is found."""
    before, at, groups = _Before.NOTHING, 0, []
    while at < len(pattern):
        read = _sign(pattern, at, before, groups)
        if isinstance(read, Fault):
            return read
        before, at = read
    if not pattern:
        return Fault(at, "an empty pattern")
    if groups:
        return Fault(groups[-1], "a group that is not closed")
    return Fault(at, "an empty branch or group") if before is _Before.NOTHING else None


def _sign(pattern, at, before, groups):
    """Reads the sign, set or character at a byte, in these open groups: what stands before the next byte and where it is, or a fault."""
    sign = pattern[at : at + 1]
    if sign in (b"^", b"$"):
        return _Before.ANCHOR, at + 1
    if sign in (b"*", b"+", b"?", b"{"):
        return _repeat(pattern, at, before)
    if sign == b"[":
        return _set(pattern, at)
    if sign == b"(":
        groups.append(at)
        return _Before.NOTHING, at + 1
    if sign in (b"|", b")"):
        return _end(sign, at, before, groups)
    if sign == b"\\":
        return (_Before.ATOM, at + 2) if at + 1 < len(pattern) else Fault(at, "a backslash at the end")
    return _Before.ATOM, at + 1


def _repeat(pattern, at, before):
    braces = re.match(rb"\{([0-8]),([0-8])\}", pattern[at:])
    if pattern.startswith(b"{", at) and not (braces and braces[1] <= braces[2]):
        return Fault(at, "a { that opens no {m,n} with 0 <= m <= n <= 8, one digit each")
    if before is _Before.NOTHING:
        return Fault(at, "a repeat sign with nothing before it")
    if before is _Before.ANCHOR:
        return Fault(at, "a repeat sign after ^ or $")
    if before is _Before.REPEAT:
        return Fault(at, "a second repeat sign")
    return _Before.REPEAT, at + (5 if braces else 1)


def _end(sign, at, before, groups):
    """Reads the end of a branch, and of its group."""
    if sign == b")" and not groups:
        return Fault(at, "a ) without its (")
    if before is _Before.NOTHING:
        return Fault(at, "an empty branch or group")
    if sign == b"|":
        return _Before.NOTHING, at + 1
    groups.pop()
    return _Before.ATOM, at + 1


def _set(pattern, start):
    """Reads the set whose bracket is at start: members and ranges from left to right, ] a member only when first."""
    first = at = start + 1 + pattern.startswith(b"^", start + 1)
    while at < len(pattern):
        if pattern.startswith(b"]", at) and at > first:
            return _Before.ATOM, at + 1
        if _is_class(pattern, at):
            return Fault(at, "[: or [. or [= in a set")
        if pattern[at + 1 : at + 2] != b"-" or pattern[at + 2 : at + 3] in (b"", b"]"):
            at += 1
        elif pattern[at] > pattern[at + 2]:
            return Fault(at, "a range that falls")
        else:
            # the range's end is looked at next where it is the [ of [:
            at += 2 if _is_class(pattern, at + 2) else 3
    return Fault(start, "a set that is not closed")


def _is_class(pattern, at):
    return pattern.startswith((b"[:", b"[.", b"[="), at)
