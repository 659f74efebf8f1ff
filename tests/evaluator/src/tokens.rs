//! Tokens of a query text; rows 8, 9 and the 2,049th token.
use crate::facts::{is_legal, is_letter, is_reserved};
use crate::Refusal;

#[derive(Clone, Copy, PartialEq, Debug)]
pub enum Kind {
    Identifier,
    Quoted,
    /// a run of digits
    Number,
    /// a reserved word, a mark, or "_"
    Fixed(&'static str),
}

#[derive(Clone, Debug)]
pub struct Token {
    pub kind: Kind,
    /// a string's without its quotes
    pub text: Vec<u8>,
    pub at: usize,
}

const MARKS: [&str; 24] = [
    "<->", "->", "<=", ">=", "!=", ":=", "(", ")", "{", "}", "[", "]", ",", ";", "&", "|", "!", "=", "<", ">", "@", "#", "+", "/",
];
const WORDS: [&str; 26] = [
    "AVG", "DIV", "ELSE", "ENDL", "EX", "EXEC", "EXIT", "FA", "FOR", "IF", "IN", "MAX", "MIN", "MOD", "NUMBER", "PRINT",
    "RELINFO", "STDERR", "STRING", "SUM", "TC", "TCFAST", "TO", "WHILE", "TRUE", "FALSE",
];

/// The end of the token or gap at i, and the token, if it is one.
fn piece(s: &[u8], i: usize) -> Option<(usize, Option<Token>)> {
    let rest = &s[i..];
    let b = rest[0];
    if b == 9 || b == 10 || b == 32 {
        return Some((i + 1, None));
    }
    if rest.starts_with(b"//") {
        return Some((rest.iter().position(|&b| b == 10).map_or(s.len(), |n| i + n), None));
    }
    if rest.starts_with(b"/*") {
        let n = rest[2..].windows(2).position(|w| w == b"*/")?;
        return Some((i + n + 4, None));
    }
    let token = |kind, text: &[u8]| Some(Token { kind, text: text.to_vec(), at: i });
    if is_letter(b) {
        let n = rest.iter().position(|&b| !is_letter(b) && !b.is_ascii_digit()).unwrap_or(rest.len());
        let word = &rest[..n];
        if n > 32 {
            return None;
        }
        let kind = if word == b"_" {
            Kind::Fixed("_")
        } else if is_reserved(word) {
            Kind::Fixed(WORDS.iter().find(|w| w.as_bytes() == word).unwrap())
        } else {
            Kind::Identifier
        };
        return Some((i + n, token(kind, word)));
    }
    if b == b'"' {
        let n = rest[1..].iter().position(|&b| b == b'"' || b == 10)?;
        if rest[n + 1] == 10 || n > 32 {
            return None;
        }
        return Some((i + n + 2, token(Kind::Quoted, &rest[1..n + 1])));
    }
    if b.is_ascii_digit() {
        let n = rest.iter().position(|b| !b.is_ascii_digit()).unwrap_or(rest.len());
        // row 9 speaks of tokens over 32 bytes and leaves out no kind
        return (n <= 32).then(|| (i + n, token(Kind::Number, &rest[..n])));
    }
    let mark = MARKS.iter().find(|m| rest.starts_with(m.as_bytes()))?;
    Some((i + mark.len(), token(Kind::Fixed(mark), mark.as_bytes())))
}

pub fn read(s: &[u8]) -> Result<Vec<Token>, Refusal> {
    if s.len() > 16384 {
        return Err((8, 16384));
    }
    let illegal = s.iter().position(|&b| !is_legal(b)).unwrap_or(s.len());
    let mut tokens = Vec::new();
    let mut i = 0;
    while i < s.len() {
        let Some((end, token)) = piece(s, i) else {
            return Err((9, i.min(illegal)));
        };
        tokens.extend(token);
        i = end;
    }
    if illegal < s.len() {
        return Err((9, illegal));
    }
    if tokens.len() > 2048 {
        return Err((13, tokens[2048].at));
    }
    Ok(tokens)
}
