//! What is wrong with a pattern that was refused: its first fault, for the words of `explain`. The engine alone decides whether a
//! pattern is malformed.

/// What is wrong, and at which byte of the pattern, from 0; its length where something is lacking at its end. With a refused number or
/// arity it is the first byte of what was refused.
#[derive(Clone, Copy, Debug, PartialEq, Eq)]
pub struct Fault {
    pub offset: usize,
    pub reason: &'static str,
}

/// What the branch has just before a byte.
#[derive(Clone, Copy, PartialEq)]
enum Before {
    Nothing,
    Anchor,
    Atom,
    Repeat,
}

/// What has been read, and the byte that is next.
type Read = Result<(Before, usize), Fault>;

fn wrong(offset: usize, reason: &'static str) -> Read {
    Err(Fault { offset, reason })
}

/// The first fault of a pattern, if one is found.
pub fn first_fault(pattern: &[u8]) -> Option<Fault> {
    read(pattern).err()
}

fn read(pattern: &[u8]) -> Read {
    let (mut before, mut at, mut open) = (Before::Nothing, 0, vec![]);
    while at < pattern.len() {
        (before, at) = sign(pattern, at, before, &mut open)?;
    }
    match open.last() {
        _ if pattern.is_empty() => wrong(at, "an empty pattern"),
        Some(&group) => wrong(group, "a group that is not closed"),
        None if before == Before::Nothing => wrong(at, "an empty branch or group"),
        None => Ok((before, at)),
    }
}

/// Reads the sign, set or character at a byte; `open` has the groups around it.
fn sign(pattern: &[u8], at: usize, before: Before, open: &mut Vec<usize>) -> Read {
    match pattern[at] {
        b'^' | b'$' => Ok((Before::Anchor, at + 1)),
        b'*' | b'+' | b'?' => repeat(at, 1, before),
        b'{' if is_braces(&pattern[at..]) => repeat(at, 5, before),
        b'{' => wrong(at, "a { that opens no {m,n} with 0 <= m <= n <= 8, one digit each"),
        b'[' => set(pattern, at),
        b'(' => {
            open.push(at);
            Ok((Before::Nothing, at + 1))
        }
        b')' if open.is_empty() => wrong(at, "a ) without its ("),
        b'|' | b')' if before == Before::Nothing => wrong(at, "an empty branch or group"),
        b'|' => Ok((Before::Nothing, at + 1)),
        b')' => {
            open.pop();
            Ok((Before::Atom, at + 1))
        }
        b'\\' if at + 1 == pattern.len() => wrong(at, "a backslash at the end"),
        b'\\' => Ok((Before::Atom, at + 2)),
        _ => Ok((Before::Atom, at + 1)),
    }
}

fn repeat(at: usize, length: usize, before: Before) -> Read {
    match before {
        Before::Nothing => wrong(at, "a repeat sign with nothing before it"),
        Before::Anchor => wrong(at, "a repeat sign after ^ or $"),
        Before::Repeat => wrong(at, "a second repeat sign"),
        Before::Atom => Ok((Before::Repeat, at + length)),
    }
}

fn is_braces(rest: &[u8]) -> bool {
    matches!(rest, [b'{', m @ b'0'..=b'8', b',', n @ b'0'..=b'8', b'}', ..] if m <= n)
}

/// Reads the set whose bracket is at `start`: members and ranges from left to right, `]` a member only when first.
fn set(pattern: &[u8], start: usize) -> Read {
    let first = start + 1 + pattern[start + 1..].starts_with(b"^") as usize;
    let mut at = first;
    loop {
        match pattern[at..] {
            [] => return wrong(start, "a set that is not closed"),
            [b']', ..] if at > first => return Ok((Before::Atom, at + 1)),
            [b'[', b':' | b'.' | b'=', ..] => return wrong(at, "[: or [. or [= in a set"),
            [low, b'-', high, ..] if high != b']' && low > high => return wrong(at, "a range that falls"),
            // the range's end is looked at next where it is the [ of [:
            [_, b'-', b'[', b':' | b'.' | b'=', ..] => at += 2,
            [_, b'-', high, ..] if high != b']' => at += 3,
            _ => at += 1,
        }
    }
}
