//! Texts for Paper 2 of document 02: patterns of each form and patterns with one byte wrong, elements that match and elements that would
//! but for one byte, and programs that pick the one by the other.
use crate::facts::needs_quotes;
use crate::generate::Random;
use crate::pattern::{read, Pattern};
use std::collections::BTreeSet;

/// Characters of patterns and elements: few, so that they often meet.
const PLAIN: &[u8] = b"aaaabbbcCAAB0112 ]}-,~\t";
/// The bytes that are no characters outside sets.
pub const SPECIAL: &[u8] = b"^$.[(){|+*?\\";
/// As long as a string or an element may be.
const LONGEST: usize = 32;

fn is_element_byte(b: &u8) -> bool {
    *b == 9 || (32..=126).contains(b) && *b != b'"'
}

fn text(bytes: Vec<u8>) -> String {
    String::from_utf8(bytes).expect("ASCII")
}

/// A byte as a character: with a backslash where it needs one, and at times where it does not.
fn character(r: &mut Random, b: u8) -> String {
    let backslash = if SPECIAL.contains(&b) || r.one_in(12) { "\\" } else { "" };
    format!("{backslash}{}", b as char)
}

fn set(r: &mut Random) -> String {
    let parts = ["a", "b", "c", "0", "a-c", "A-C", "0-9", "b-b", "!-~", "--/", "\\-a", "A-[", "^", "-", "\\", "[", ".", "$", " ", "|", ")"];
    let (not, first) = (*r.pick(&["", "", "^"]), *r.pick(&["", "", "", "", "]", "]-a"]));
    let least = first.is_empty() as usize;
    let inside: String = (0..least + r.below(3)).map(|_| *r.pick(&parts)).collect();
    format!("[{not}{first}{inside}{}]", r.pick(&["", "", "", "-"]))
}

fn repeat(r: &mut Random) -> String {
    let m = *r.pick(&[0, 0, 1, 1, 2, 3, 7, 8]);
    match r.below(5) {
        0 => "*".into(),
        1 => "+".into(),
        2 => "?".into(),
        3 => format!("{{{m},{}}}", m + r.below(9 - m)),
        _ => format!("{{{m},{}}}", 8.min(m + r.below(2))),
    }
}

/// A piece whose groups are at most d deep.
fn piece(r: &mut Random, d: usize) -> String {
    let one = match r.below(16) {
        0 => return "^".into(),
        1 => return "$".into(),
        2 | 3 => ".".into(),
        4..=6 => set(r),
        7 | 8 if d > 0 => format!("({})", branches(r, d - 1)),
        9 => {
            let b = *r.pick(SPECIAL);
            character(r, b)
        }
        _ => {
            let b = *r.pick(PLAIN);
            character(r, b)
        }
    };
    if r.one_in(3) { one + &repeat(r) } else { one }
}

fn branches(r: &mut Random, d: usize) -> String {
    let mut found = String::new();
    for i in 0..*r.pick(&[1, 1, 1, 2, 3]) {
        if i > 0 {
            found.push('|');
        }
        for _ in 0..*r.pick(&[1, 1, 2, 2, 3, 4]) {
            found += &piece(r, d);
        }
    }
    found
}

fn is_pattern(p: &str) -> bool {
    p.len() <= LONGEST && read(p.as_bytes()).is_ok()
}

/// Groups in groups, some of them repeated.
fn deep(r: &mut Random) -> String {
    let (d, b) = (1 + r.below(15), *r.pick(PLAIN));
    let close: String = (0..d).map(|_| *r.pick(&[")", ")", ")*", ")+", ")?"])).collect();
    format!("{}{}{close}", "(".repeat(d), character(r, b))
}

/// A pattern of any form, at times one of 32 bytes.
pub fn pattern(r: &mut Random) -> String {
    let long = r.one_in(8);
    loop {
        let mut p = if r.one_in(20) { deep(r) } else { branches(r, 3) };
        while long && p.len() < LONGEST {
            p += &piece(r, 1);
        }
        if is_pattern(&p) && (!long || p.len() == LONGEST) {
            return p;
        }
    }
}

/// A piece that a byte of an element is described by, most times.
fn piece_of(r: &mut Random, b: u8) -> String {
    let (low, high) = (b.saturating_sub(r.below(3) as u8), b + r.below(3) as u8);
    let one = match r.below(8) {
        0 => ".".into(),
        1 => format!("[{}-{}]", low as char, high as char),
        2 => format!("[^{}{}]", high as char, low as char),
        3 => format!("({}|{})", character(r, b), character(r, high)),
        _ => character(r, b),
    };
    if r.one_in(6) { one + &repeat(r) } else { one }
}

/// A pattern of a part of one of the elements, often anchored.
pub fn pattern_of<S: AsRef<str>>(r: &mut Random, elements: &[S]) -> String {
    loop {
        let element = r.pick(elements).as_ref();
        let from = if r.one_in(2) { 0 } else { r.below(element.len() + 1) };
        let to = element.len().min(from + r.below(6));
        let inside: String = element.as_bytes()[from..to].iter().map(|&b| piece_of(r, b)).collect();
        let start = if from == 0 && r.one_in(2) || r.one_in(9) { "^" } else { "" };
        let end = if to == element.len() && r.one_in(2) || r.one_in(9) { "$" } else { "" };
        let p = format!("{start}{inside}{end}");
        if is_pattern(&p) && p.bytes().all(|b| is_element_byte(&b)) {
            return p;
        }
    }
}

/// With one byte changed, left out or added.
fn damaged(r: &mut Random, p: &str) -> String {
    let mut bytes = p.as_bytes().to_vec();
    let at = r.below(bytes.len() + 1);
    let b = *r.pick(b"^$.[](){}|+*?\\-:=,a19 ");
    match r.below(3) {
        0 if at < bytes.len() => {
            bytes.remove(at);
        }
        1 if at < bytes.len() => bytes[at] = b,
        _ => bytes.insert(at, b),
    }
    bytes.truncate(LONGEST);
    text(bytes)
}

/// A pattern by one byte wrong, or wrong as no single byte makes it.
pub fn malformed(r: &mut Random) -> String {
    let wrong = ["", "a{3}", "a{1,}", "a{,2}", "a{01,2}", "a{2,1}", "a{0,9}", "a{1, 2}", "()", "a||b", "(|a)", ")a(", "[[:alpha:]]", "[[.a.]]", "[[=a=]]", "[A-[.]", "[]", "[^]", "[b-a]", "\\"];
    if r.one_in(4) {
        return r.pick(&wrong).to_string();
    }
    loop {
        let p = pattern(r);
        let p = damaged(r, &p);
        if !is_pattern(&p) {
            return p;
        }
    }
}

/// Bytes that a pattern describes, but for `^` and `$`; the ends of ranges often.
fn described(r: &mut Random, p: &Pattern) -> Vec<u8> {
    match p {
        Pattern::Start | Pattern::End => Vec::new(),
        Pattern::Byte(b) => vec![*b],
        Pattern::Any => vec![*r.pick(PLAIN)],
        Pattern::Set { complement, members } => {
            let all: Vec<u8> = (0..127).filter(|b| is_element_byte(b) && members.contains(b) != *complement).collect();
            let end = if r.one_in(2) { all.last() } else { all.first() };
            if all.is_empty() || r.one_in(2) { end.copied().into_iter().collect() } else { vec![*r.pick(&all)] }
        }
        Pattern::Repeat(piece, least, most) => {
            let times = if r.one_in(3) { *least } else { least + r.below(most.map_or(4, |n| n - least + 1)) };
            (0..times).flat_map(|_| described(r, piece)).collect()
        }
        Pattern::Row(pieces) => pieces.iter().flat_map(|piece| described(r, piece)).collect(),
        Pattern::Either(branches) => {
            let branch = r.pick(branches);
            described(r, branch)
        }
    }
}

fn change(r: &mut Random, bytes: &mut Vec<u8>) {
    let at = r.below(bytes.len() + 1);
    let other = *r.pick(PLAIN);
    match r.below(8) {
        0 if at < bytes.len() => bytes[at] ^= if bytes[at].is_ascii_alphabetic() { 32 } else { 1 },
        1 if at < bytes.len() => bytes[at] += 1,
        2 if at < bytes.len() => bytes[at] -= 1,
        3 if at < bytes.len() => {
            bytes.remove(at);
        }
        4 => bytes.insert(0, other),
        5 => bytes.push(other),
        6 => bytes.extend(bytes.clone()),
        _ => bytes.insert(at, other),
    }
}

/// An element that one of the patterns describes, or nearly; at times of 32 bytes.
fn element(r: &mut Random, patterns: &[String]) -> String {
    let p = read(r.pick(patterns).as_bytes()).expect("well formed");
    let mut bytes = described(r, &p);
    if r.one_in(2) {
        change(r, &mut bytes);
    }
    bytes.retain(is_element_byte);
    bytes.truncate(LONGEST);
    if r.one_in(12) {
        let fill = vec![*r.pick(PLAIN); LONGEST - bytes.len()];
        let at = if r.one_in(2) { 0 } else { bytes.len() };
        bytes.splice(at..at, fill);
    }
    text(bytes)
}

/// So many elements near patterns, or fewer if they are few, in byte order.
pub fn elements(r: &mut Random, patterns: &[String], size: usize) -> Vec<String> {
    let found: BTreeSet<String> = (0..size).map(|_| element(r, patterns)).collect();
    found.into_iter().collect()
}

/// An element as facts give it: in quotes where it needs them, and at times where it does not.
pub fn in_facts(r: &mut Random, e: &str) -> String {
    if needs_quotes(e.as_bytes()) || r.one_in(9) { format!("\"{e}\"") } else { e.to_string() }
}

/// A pattern's string, at times with blanks or comments around it.
fn string(r: &mut Random, p: &str) -> String {
    let gap = *r.pick(&["", "", "", "", "", " ", "\n", "/* p */"]);
    format!("{gap}\"{p}\"{gap}")
}

pub fn atom(r: &mut Random, p: &str, term: &str) -> String {
    format!("@{}({term})", string(r, p))
}

/// Statements with two patterns, 1 and 2, and elements, 3.
const STATEMENTS: [&str; 24] = [
    "PRINT @1(x);",
    "PRINT [\"p\"] @1(x), [\"q\"] !@2(x);",
    "PRINT @1(x) & !@2(x), ENDL, @1(x) | @2(x);",
    "PRINT (@1(x) -> @2(x)) & N(x);",
    "PRINT @1(x) <-> @2(y);",
    "PRINT [\"any\"] @1(_), [\"none\"] !@1(_);",
    "PRINT [\"string\"] @1(3), [\"not\"] !@2(3);",
    "PRINT [\"outside\"] @1(\"outside it\"), [\"not\"] !@1(\"outside it\");",
    "PRINT [\"cmp\"] @1(x) <= @2(x), [\"eq\"] @1(x) = @2(y), [\"in\"] N(x) > @1(x);",
    "PRINT EX(x, On(x,y) & @1(x)), [\"all\"] FA(x, @1(x) -> N(x));",
    "PRINT EX(y, @1(x) & On(y,_)), FA(x, EX(x, @1(x)));",
    "PRINT TC(@1(x) & @2(y)), TCFAST(On(x,y) & !@1(y));",
    "N(x) := @1(x);",
    "S(x) := N(x) & !@1(x); PRINT S(x);",
    "On(x,y) := On(x,y) & (@1(x) | @2(y));",
    "On(x,3) := @1(x); PRINT On(x,y);",
    "N(3); PRINT @1(x);",
    "FOR c IN @1(x) { PRINT [c] @2(c), c, ENDL; }",
    "FOR c IN N(x) { IF @1(c) { S(x) := S(x) | x = c & @2(x); } }",
    "FOR c IN @1(x) & @2(x) { N(x) := N(x) & x != c & !@1(c); }",
    "WHILE @1(_) & EX(x, N(x) & @1(x)) { N(x) := N(x) & !@1(x); }",
    "IF FA(x, @1(x)) { PRINT @1(x); } ELSE { PRINT @2(x); }",
    "IF FALSE() { PRINT @1(x); FOR c IN @2(x) { S(x) := @1(c) & x = c; } }",
    "WHILE FALSE() { PRINT EX(x, @1(x) & @2(y)), @1(3); }",
];

fn statement(r: &mut Random, patterns: &[String], all: &[String]) -> String {
    let (p, q, statement) = (r.pick(patterns), r.pick(patterns), *r.pick(&STATEMENTS));
    let one = |c: char| match c {
        '1' => string(r, p),
        '2' => string(r, q),
        '3' => format!("\"{}\"", if all.is_empty() { "" } else { r.pick(all) }),
        _ => c.to_string(),
    };
    statement.chars().map(one).collect()
}

/// Two texts: elements near some patterns, and statements that pick by them. One pattern is malformed in some.
pub fn texts(r: &mut Random) -> (Vec<u8>, Vec<u8>) {
    let mut patterns: Vec<String> = (0..1 + r.below(3)).map(|_| pattern(r)).collect();
    let size = *r.pick(&[0, 1, 4, 8, 16, 30, 62, 90]);
    let mut all = elements(r, &patterns, size);
    all.truncate(63);
    let mut facts: String = all.iter().map(|e| format!("N {}\n", in_facts(r, e))).collect();
    for _ in 0..if all.is_empty() { 0 } else { r.below(12) } {
        let (a, b) = (r.pick(&all), r.pick(&all));
        facts += &format!("On {} {}\n", in_facts(r, a), in_facts(r, b));
    }
    if r.one_in(3) && !all.is_empty() {
        patterns.push(pattern_of(r, &all));
    }
    if r.one_in(6) {
        patterns.push(malformed(r));
    }
    let query: String = (0..1 + r.below(4)).map(|_| statement(r, &patterns, &all) + "\n").collect();
    (facts.into_bytes(), query.into_bytes())
}
