//! A refusal in words: the text, the line and column, what stands there and the rule that it breaks.
use crate::pattern::{first_fault, Fault};
use crate::{check, Refusal, Refused, RefusedJoin, Text};
use std::fmt;

/// Bytes of a line that are shown before and after the place; a string that begins there is shown whole.
const BEFORE: usize = 50;
const AFTER: usize = 40;

#[derive(Clone, Debug, PartialEq, Eq)]
pub struct Explained {
    pub refused: Refused,
    /// none where the place is no place in a text (14 to 17, 21)
    pub at: Option<At>,
    /// the rule that is broken
    pub rule: &'static str,
    /// what is wrong with a refused pattern, number or arity, where that can be told; the caret is then shown under its byte
    pub fault: Option<Fault>,
}

#[derive(Clone, Debug, PartialEq, Eq)]
pub struct At {
    pub text: Text,
    /// from 1
    pub line: usize,
    /// in bytes, from 1; a line end, with or without its 13, is one past the line
    pub column: usize,
    /// the name, element, token or byte at the place; empty at the text's end
    pub found: Vec<u8>,
    /// the line around the place, and where in it the place is
    pub shown: Vec<u8>,
    pub caret: usize,
}

fn rule(refusal: Refusal) -> &'static str {
    match refusal {
        Refusal::FactsTooLong => "facts have at most 32,768 bytes",
        Refusal::FactByte => "a byte of the facts is 9, 10 or 32 to 126, or one CR (13) directly before an LF (10) or as the text's last byte",
        Refusal::FactName => "a fact starts with a relation name at the line's first byte: a letter or underscore, then letters, digits, underscores, 1 to 32 bytes, not \"_\" alone and not reserved",
        Refusal::FactElement => "an element has at most 32 bytes, no quote inside, and a closing quote followed by a blank or the line's end if it starts with a quote",
        Refusal::Arity => "a relation has 0 to 3 elements, and as many everywhere",
        Refusal::TooManyRelations => "facts and query have at most 16 relations",
        Refusal::TooManyElements => "facts and left-hand sides have at most 64 elements",
        Refusal::QueryTooLong => "a query has at most 16,384 bytes",
        Refusal::NoToken => "a token starts here that is none, is over 32 bytes, or is a string or comment left open; or a byte is not 9, 10 or 32 to 126: a query's lines end in LF (10), not in CR LF (13, 10)",
        Refusal::NoProgram => "the tokens up to here begin no program",
        Refusal::Kind => "a name has one kind (relation, attribute, loop variable) throughout, its place takes that kind, and a loop variable stands in its loop's block only and is not bound again there",
        Refusal::FreeAttributes => "an assignment's left attributes are the free ones of its right side; IF and WHILE have none, FOR one, TC and TCFAST two, a printed expression and what #(e) counts at most 3",
        Refusal::TooMuch => "a query has at most 2,048 tokens and 32 levels, a statement at most 4 attribute names and 16 closures",
        Refusal::StoreShort => "the store has at least the words needed",
        Refusal::NotInFacts => "the facts hold a binary relation of this name and both elements",
        Refusal::BufferShort => "a chain's buffer has at least 65 bytes",
        Refusal::NoChain => "no chain exists",
        Refusal::Pattern => "a pattern is one or more branches parted by |, each one or more pieces: ^, $, or a character, ., set or group with at most one repeat sign *, +, ? or {m,n}",
        Refusal::Number => "a sum has at most 8 summands, each a count #(e) or a number, and a number is at most 999,999",
        Refusal::FirstArity => "a relation of both texts has as many elements in the second as in the first",
        Refusal::ResultTooLong => "a joined text has at most 32,768 bytes, and no more than the output",
    }
}

/// The rule that a text of a join breaks.
fn join_rule(refusal: Refusal) -> &'static str {
    match refusal {
        Refusal::TooManyRelations => "both texts together have at most 16 relations",
        Refusal::TooManyElements => "both texts together have at most 64 elements",
        _ => rule(refusal),
    }
}

/// Which text the place is in. 5, 6 and 7 are of the facts where the facts alone have them.
fn text_of(refused: &Refused, facts: &[u8]) -> Option<Text> {
    match refused.refusal.number() {
        1..=4 => Some(Text::Facts),
        5..=7 if check(facts, b"") == Err(*refused) => Some(Text::Facts),
        5..=13 | 18 | 19 => Some(Text::Query),
        _ => None,
    }
}

fn run_of(text: &[u8], ends: impl Fn(u8) -> bool) -> usize {
    text.iter().position(|&b| ends(b)).unwrap_or(text.len())
}

/// The length of the string at the start of a line's rest: to its closing quote, or to the line's end.
fn string(rest: &[u8]) -> usize {
    let inner = run_of(&rest[1..], |b| b == b'"');
    1 + inner + (rest.get(1 + inner) == Some(&b'"')) as usize
}

/// The length of the name or element at the start of a line's rest.
fn word(rest: &[u8]) -> usize {
    let quoted = if rest.first() == Some(&b'"') { string(rest) } else { 0 };
    quoted + run_of(&rest[quoted..], |b| b == b' ' || b == 9)
}

/// The length of the token at the start of a line's rest.
fn token(rest: &[u8]) -> usize {
    const LONG: [&[u8]; 7] = [b"<->", b"->", b"<=", b">=", b"!=", b":=", b"/*"];
    match rest.first() {
        None => 0,
        Some(b'"') => string(rest),
        Some(b) if b.is_ascii_alphabetic() || *b == b'_' => run_of(rest, |b| !b.is_ascii_alphanumeric() && b != b'_'),
        Some(b) if b.is_ascii_digit() => run_of(rest, |b| !b.is_ascii_digit()),
        Some(_) => LONG.iter().find(|m| rest.starts_with(m)).map_or(1, |m| m.len()),
    }
}

/// The place behind the last byte that is such, from `from` on; or `from`.
fn behind(text: &[u8], from: usize, is: impl Fn(u8) -> bool) -> usize {
    text[from..].iter().rposition(|&b| is(b)).map_or(from, |i| from + i + 1)
}

/// Where the line around a place begins and ends. The 13s before its byte 10 are no part of it.
fn line(text: &[u8], place: usize) -> (usize, usize) {
    let start = behind(&text[..place], 0, |b| b == 10);
    let end = place + run_of(&text[place..], |b| b == 10);
    (start, behind(&text[..end], start, |b| b != 13))
}

fn at(refused: &Refused, which: Text, text: &[u8]) -> At {
    let place = refused.place.min(text.len());
    let (start, line_end) = line(text, place);
    // a 13 of the line end is shown where it is the refused byte
    let return_refused = matches!(refused.refusal, Refusal::FactByte | Refusal::NoToken) && text[place..].starts_with(&[13]);
    let end = if return_refused { line_end.max(place + 1) } else { line_end };
    // what is behind it is seen at the line's end
    let seen = place.min(end);
    let length = match (refused.refusal, which) {
        (Refusal::FactsTooLong | Refusal::FactByte | Refusal::QueryTooLong, _) => 1,
        (_, Text::Query) => token(&text[seen..end]),
        (_, Text::Facts | Text::First | Text::Second) => word(&text[seen..end]),
    };
    // a 13 before the place, as rows 1 and 8 can have it, is not shown
    let from = behind(&text[..seen], start.max(seen.saturating_sub(BEFORE)), |b| b == 13);
    let to = end.min(seen + AFTER);
    At {
        text: which,
        line: 1 + text[..place].iter().filter(|&&b| b == 10).count(),
        column: 1 + seen - start,
        found: text[place..text.len().min(place + length.max(1))].to_vec(),
        shown: text[from..to].to_vec(),
        caret: seen - from,
    }
}

/// What is wrong with a summand's first token: a number that is too large, whichever summand it is, or one summand too many.
fn summand_fault(token: &[u8]) -> Option<Fault> {
    let reason = match token.first()? {
        b'0'..=b'9' if token.iter().skip_while(|&&b| b == b'0').count() > 6 => "a number over 999,999",
        b'0'..=b'9' | b'#' => "a ninth summand of one sum",
        _ => return None,
    };
    Some(Fault { offset: 0, reason })
}

/// What is wrong with the token that was found, if it was refused as a pattern or a number.
fn fault_of(refused: &Refused, found: &[u8]) -> Option<Fault> {
    match refused.refusal {
        Refusal::Pattern => first_fault(found.strip_prefix(b"\"")?.strip_suffix(b"\"")?),
        Refusal::Number => summand_fault(found),
        _ => None,
    }
}

/// Where and why the texts of a call were refused; `query` is empty for a chain.
pub fn explain(refused: Refused, facts: &[u8], query: &[u8]) -> Explained {
    let at = text_of(&refused, facts).map(|t| at(&refused, t, if t == Text::Facts { facts } else { query }));
    let fault = at.as_ref().and_then(|a| fault_of(&refused, &a.found));
    Explained { refused, at, rule: rule(refused.refusal), fault }
}

/// What the first text gives a relation that the second has with another arity.
fn arity_fault(first: &[u8], name: &[u8]) -> Option<Fault> {
    let reasons =
        ["one with none in the first", "one with 1 in the first", "one with 2 in the first", "one with 3 in the first"];
    let query = b"PRINT ENDL;";
    let relations = check(first, query).ok()?.relations;
    let relation = relations.iter().find(|r| r.name.of(first, query) == name)?;
    Some(Fault { offset: 0, reason: reasons.get(relation.arity)? })
}

/// Where and why a text of a join was refused.
pub fn explain_join(refused: RefusedJoin, first: &[u8], second: &[u8]) -> Explained {
    let RefusedJoin { refusal, place, text } = refused;
    let refused = Refused { refusal, place };
    let at = text.map(|t| at(&refused, t, if t == Text::First { first } else { second }));
    let clash = at.as_ref().filter(|_| refusal == Refusal::FirstArity);
    let fault = clash.and_then(|a| arity_fault(first, &a.found));
    Explained { refused, at, rule: join_rule(refusal), fault }
}

/// A text's bytes for the eye, one character each.
fn plain(text: &[u8]) -> String {
    text.iter().map(|&b| if (32..127).contains(&b) { b as char } else if b == 9 { ' ' } else { '?' }).collect()
}

/// What was found, for the eye: a single byte that has no sign by its number.
fn named(found: &[u8]) -> String {
    match found {
        [] => "end of text".to_string(),
        [b] if !(32..127).contains(b) => format!("byte {b}"),
        _ => format!("`{}`", plain(found)),
    }
}

impl fmt::Display for Explained {
    fn fmt(&self, f: &mut fmt::Formatter) -> fmt::Result {
        let number = self.refused.refusal.number();
        let Some(at) = &self.at else {
            return write!(f, "refused {number} ({}): {}", self.refused.place, self.rule);
        };
        write!(f, "{}:{}:{}: refused {number} at {}: {}", at.text, at.line, at.column, named(&at.found), self.rule)?;
        let mut caret = at.caret;
        if let Some(fault) = self.fault {
            write!(f, "; here {}", fault.reason)?;
            // a pattern begins after its string's quote
            caret += fault.offset + (self.refused.refusal == Refusal::Pattern) as usize;
        }
        write!(f, "\n  {}\n  {}^", plain(&at.shown), " ".repeat(caret))
    }
}
