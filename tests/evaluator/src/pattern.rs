//! Patterns of Paper 2 of document 02: how one is read, and which stretches of an element it describes; what row 18 refuses.
use std::collections::BTreeSet;

#[derive(Clone, Debug, PartialEq)]
pub enum Pattern {
    Start,
    End,
    Byte(u8),
    Any,
    Set { complement: bool, members: BTreeSet<u8> },
    /// at least so many and at most so many in a row
    Repeat(Box<Pattern>, usize, Option<usize>),
    Row(Vec<Pattern>),
    Either(Vec<Pattern>),
}

/// A pattern's tree, or what is malformed in it.
pub type Reading<T> = Result<T, &'static str>;

struct Reader<'a> {
    s: &'a [u8],
    i: usize,
}

impl Reader<'_> {
    fn peek(&self, ahead: usize) -> Option<u8> {
        self.s.get(self.i + ahead).copied()
    }
    fn takes(&mut self, b: u8) -> bool {
        let found = self.peek(0) == Some(b);
        self.i += found as usize;
        found
    }

    fn branches(&mut self) -> Reading<Pattern> {
        let mut all = vec![self.branch()?];
        while self.takes(b'|') {
            all.push(self.branch()?);
        }
        Ok(Pattern::Either(all))
    }
    fn branch(&mut self) -> Reading<Pattern> {
        let mut pieces = Vec::new();
        loop {
            match (self.peek(0), pieces.last()) {
                (None | Some(b'|' | b')'), None) => return Err("a branch without a piece"),
                (None | Some(b'|' | b')'), _) => return Ok(Pattern::Row(pieces)),
                (Some(b'{' | b'+' | b'*' | b'?'), None) => return Err("a repeat sign first"),
                (Some(b'{' | b'+' | b'*' | b'?'), Some(Pattern::Start | Pattern::End)) => return Err("a repeat sign after ^ or $"),
                (Some(b'{' | b'+' | b'*' | b'?'), _) => return Err("a second repeat sign"),
                (Some(b), _) => {
                    self.i += 1;
                    pieces.push(self.piece(b)?);
                }
            }
        }
    }
    /// The piece that begins with b, already taken.
    fn piece(&mut self, b: u8) -> Reading<Pattern> {
        let one = match b {
            b'^' => return Ok(Pattern::Start),
            b'$' => return Ok(Pattern::End),
            b'.' => Pattern::Any,
            b'[' => self.set()?,
            b'(' => {
                let inside = self.branches()?;
                if !self.takes(b')') {
                    return Err("a group left open");
                }
                inside
            }
            b'\\' => {
                self.i += 1;
                Pattern::Byte(*self.s.get(self.i - 1).ok_or("a backslash last")?)
            }
            _ => Pattern::Byte(b),
        };
        self.repeated(one)
    }
    fn repeated(&mut self, one: Pattern) -> Reading<Pattern> {
        let (least, most) = match self.peek(0) {
            Some(b'*') => (0, None),
            Some(b'+') => (1, None),
            Some(b'?') => (0, Some(1)),
            Some(b'{') => {
                let (m, n) = self.braces().ok_or("wrong braces")?;
                self.i += 4;
                (m, Some(n))
            }
            _ => return Ok(one),
        };
        self.i += 1;
        Ok(Pattern::Repeat(Box::new(one), least, most))
    }
    /// "`{m,n}` with 0 <= m <= n <= 8, one digit each".
    fn braces(&self) -> Option<(usize, usize)> {
        let &[b'{', m @ b'0'..=b'8', b',', n @ b'0'..=b'8', b'}'] = self.s.get(self.i..self.i + 5)? else {
            return None;
        };
        (m <= n).then_some(((m - b'0') as usize, (n - b'0') as usize))
    }
    /// The set after its opening bracket.
    fn set(&mut self) -> Reading<Pattern> {
        let complement = self.takes(b'^');
        let first = self.i;
        let mut members = BTreeSet::new();
        while self.i == first || self.peek(0) != Some(b']') {
            let Some(low) = self.peek(0) else {
                return Err("a set left open");
            };
            match (self.peek(1), self.peek(2)) {
                (Some(b'-'), Some(high)) if high != b']' => {
                    if low > high {
                        return Err("a range that descends");
                    }
                    members.extend(low..=high);
                    self.i += 3;
                }
                _ => {
                    members.insert(low);
                    self.i += 1;
                }
            }
        }
        if self.s[first..self.i].windows(2).any(|w| w[0] == b'[' && b":.=".contains(&w[1])) {
            return Err("[: or [. or [= in a set");
        }
        self.i += 1;
        Ok(Pattern::Set { complement, members })
    }
}

pub fn read(s: &[u8]) -> Reading<Pattern> {
    if s.is_empty() {
        return Err("empty");
    }
    let mut reader = Reader { s, i: 0 };
    let found = reader.branches()?;
    if reader.i < s.len() {
        return Err("a closing bracket too many");
    }
    Ok(found)
}

/// Stretches of one element, each given by the place of its first byte and the place after its last.
#[derive(Clone, PartialEq)]
struct Stretches {
    places: usize,
    has: Vec<bool>,
}

impl Stretches {
    fn all(places: usize, which: impl Fn(usize, usize) -> bool) -> Stretches {
        let has = (0..places * places).map(|n| which(n / places, n % places)).collect();
        Stretches { places, has }
    }
    fn has(&self, from: usize, to: usize) -> bool {
        self.has[from * self.places + to]
    }
    fn or(&self, other: &Stretches) -> Stretches {
        Stretches::all(self.places, |from, to| self.has(from, to) || other.has(from, to))
    }
    /// Those that are one of these and then one of the others.
    fn then(&self, next: &Stretches) -> Stretches {
        let mut found = Stretches::all(self.places, |_, _| false);
        for from in 0..self.places {
            for middle in (from..self.places).filter(|&middle| self.has(from, middle)) {
                (middle..self.places).for_each(|to| found.has[from * self.places + to] |= next.has(middle, to));
            }
        }
        found
    }
    /// Any number in a row, none too.
    fn any_number(&self) -> Stretches {
        let mut found = Stretches::all(self.places, |from, to| from == to || self.has(from, to));
        loop {
            let more = found.then(&found);
            if more == found {
                return found;
            }
            found = more;
        }
    }
}

impl Pattern {
    fn describes(&self, element: &[u8]) -> Stretches {
        let places = element.len() + 1;
        let one_byte = |which: &dyn Fn(u8) -> bool| Stretches::all(places, |from, to| to == from + 1 && which(element[from]));
        let nowhere = || Stretches::all(places, |_, _| false);
        let empty = || Stretches::all(places, |from, to| from == to);
        match self {
            Pattern::Start => Stretches::all(places, |from, to| from == 0 && to == 0),
            Pattern::End => Stretches::all(places, |from, to| from == element.len() && to == from),
            Pattern::Byte(b) => one_byte(&|found| found == *b),
            Pattern::Any => one_byte(&|_| true),
            Pattern::Set { complement, members } => one_byte(&|found| members.contains(&found) != *complement),
            Pattern::Row(pieces) => pieces.iter().fold(empty(), |all, piece| all.then(&piece.describes(element))),
            Pattern::Either(branches) => branches.iter().fold(nowhere(), |all, branch| all.or(&branch.describes(element))),
            Pattern::Repeat(piece, least, most) => {
                let piece = piece.describes(element);
                let one_or_none = piece.or(&empty());
                let first = (0..*least).fold(empty(), |all, _| all.then(&piece));
                match most {
                    None => first.then(&piece.any_number()),
                    Some(most) => (*least..*most).fold(first, |all, _| all.then(&one_or_none)),
                }
            }
        }
    }
    /// "match .. anywhere inside": some stretch of the element is described.
    pub fn matches(&self, element: &[u8]) -> bool {
        self.describes(element).has.contains(&true)
    }
}
