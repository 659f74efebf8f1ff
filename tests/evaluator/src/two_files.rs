//! Two texts of facts for Paper 7 of document 02: with lines in common, given alike or not; with another arity or a malformed line in either
//! or both; at the limits of what both may have together, of a text's length and of the result's.
use crate::generate::{damage, Random};
use crate::picked;
use crate::saved;
use crate::shapes::shuffle;

/// A call of the join.
pub struct Join {
    pub first: Vec<u8>,
    pub second: Vec<u8>,
    pub room: usize,
}

/// Where byte order is not what one might expect: digits, prefixes, capitals, underscores.
const NAMES: [(&str, usize); 16] = [
    ("A", 1),
    ("A1", 2),
    ("A10", 0),
    ("A2", 3),
    ("B", 2),
    ("_x", 1),
    ("a", 2),
    ("a_", 1),
    ("On", 2),
    ("Held", 1),
    ("IFF", 1),
    ("P", 0),
    ("Q", 0),
    ("T", 3),
    ("Long_relation_name_of_32_bytes__", 2),
    ("Long_relation_name_of_32_bytes_", 1),
];
/// The same for elements, with blanks and nothing at all, and with what would mean something elsewhere.
const TEXTS: [&str; 24] = [
    "", " ", "!", "#", "#x", ".", "10", "9", "A", "B7", "C", "C10", "C2", "Z", "_", "a", "a b", "a\tb", "aa", "ab", "b", "~", "IF",
    "0123456789abcdef0123456789abcdef",
];
/// Lines that are refused wherever they stand, but for the last five, which say less or more than others do.
const FAULTS: [&str; 24] = [
    "7Y a", " Held a", "On\"a\" b", "IF a", "_ a", "_", "NameOf33Bytes_890123456789012345 a", "Held \"a", "Held a\"", "Held \"a\"b", "On a b\"c",
    "Held 0123456789abcdef0123456789abcdefg", "T a b c d", "T a b c \"d\"", "T a b c d\"", "Held \x01", "# \x7f", "Held a\rb", "Held \"\r\"", "On a", "On",
    "T a b", "P a", "A \"a\" b",
];

/// The lines of both, without their ends.
type Lines = [Vec<String>; 2];

/// Where a line may stand: in the first, in the second or in both.
const PLACES: [&[usize]; 3] = [&[0], &[1], &[0, 1]];

fn line(r: &mut Random, name: &str, tuple: &[&str]) -> String {
    let elements: String = tuple.iter().map(|e| format!("{}{}", r.pick(&[" ", " ", " ", "  ", "\t"]), picked::in_facts(r, e))).collect();
    format!("{name}{elements}{}", if r.one_in(9) { " " } else { "" })
}

fn tuple<'a>(r: &mut Random, arity: usize, elements: &[&'a str]) -> Vec<&'a str> {
    (0..arity).map(|_| *r.pick(elements)).collect()
}

/// Puts a line anywhere among others.
fn put(r: &mut Random, lines: &mut Vec<String>, line: String) {
    let at = r.below(lines.len() + 1);
    lines.insert(at, line);
}

/// A tuple at one of these places, in each text as it may be written.
fn put_tuple(r: &mut Random, texts: &mut Lines, places: &[&[usize]], name: &str, tuple: &[&str]) {
    for &text in *r.pick(places) {
        let line = line(r, name, tuple);
        put(r, &mut texts[text], line);
    }
}

/// A few relations over a few elements.
fn overlapping(r: &mut Random) -> Lines {
    let relations: Vec<(&str, usize)> = (0..1 + r.below(7)).map(|_| *r.pick(&NAMES)).collect();
    let elements: Vec<&str> = (0..1 + r.below(10)).map(|_| *r.pick(&TEXTS)).collect();
    let mut texts = Lines::default();
    for _ in 0..r.below(16) {
        let (name, arity) = *r.pick(&relations);
        let tuple = tuple(r, arity, &elements);
        put_tuple(r, &mut texts, &PLACES, name, &tuple);
    }
    texts
}

/// So many relations and elements in both together, or in one alone.
fn full(r: &mut Random, relations: usize, elements: usize, places: &[&[usize]]) -> Lines {
    let texts_of: Vec<String> = (0..elements).map(|i| format!("e{i}")).collect();
    let all: Vec<&str> = texts_of.iter().map(String::as_str).collect();
    let mut lines = Lines::default();
    for i in 0..relations.max(elements) {
        let n = i % relations;
        let mut tuple = tuple(r, n % 3, &all);
        tuple.insert(r.below(tuple.len() + 1), all[i % elements]);
        put_tuple(r, &mut lines, places, &format!("N{n}"), &tuple);
    }
    lines
}

/// More lines of a relation that others may have, most of them of one arity.
fn clash(r: &mut Random, texts: &mut Lines) {
    let (mut name, mut arity) = *r.pick(&NAMES);
    let line = texts[r.below(2)].last().cloned().unwrap_or_default();
    if r.one_in(3) && !line.is_empty() {
        name = line.split([' ', '\t']).next().unwrap_or(name);
        arity = r.below(4);
    }
    for _ in 0..1 + r.below(4) {
        let (arity, places) = if r.one_in(3) { (r.below(5), *r.pick(&[&PLACES[..], &PLACES[1..2], &PLACES[1..2]])) } else { (arity, &PLACES[..]) };
        let tuple = tuple(r, arity, &TEXTS);
        put_tuple(r, texts, places, name, &tuple);
    }
}

/// Lines that are refused.
fn faults(r: &mut Random, texts: &mut Lines) {
    for _ in 0..1 + r.below(2) {
        let line = r.pick(&FAULTS).to_string();
        r.pick(&PLACES).iter().for_each(|&text| put(r, &mut texts[text], line.clone()));
    }
}

/// Relations without columns whose lines have so many bytes together, 2 or more.
fn fill(mut bytes: usize) -> Vec<String> {
    let mut found = Vec::new();
    while bytes > 0 {
        let length = if bytes == 34 { 32 } else { bytes.min(33) };
        found.push(format!("{}{}", (b'a' + found.len() as u8) as char, "_".repeat(length - 2)));
        bytes -= length;
    }
    found
}

/// Lines whose result has so many bytes, over 40 elements of a width; every few of these are in quotes where they come first, and so, in the
/// result, everywhere.
fn long(r: &mut Random, length: usize, width: usize, few: usize) -> Lines {
    let elements: Vec<String> = (0..40).map(|i| format!("{:_<width$}", (b'A' + i) as char)).collect();
    let step = *r.pick(&[1, 7, 63_999, 12_347]);
    let places = if length > 40_000 { &PLACES[..2] } else { &PLACES };
    let mut texts = Lines::default();
    let mut quoted = [false; 40];
    let mut left = length;
    for k in (0..64_000).map(|i| i * step % 64_000) {
        let tuple = [k / 1600, k / 40 % 40, k % 40];
        let bytes = 2 + tuple.iter().map(|e| 1 + width + if e % few == 0 { 2 } else { 0 }).sum::<usize>();
        if left < bytes + 2 {
            break;
        }
        left -= bytes;
        let element = |&e: &usize| if e % few == 0 && !quoted[e] { format!(" \"{}\"", elements[e]) } else { format!(" {}", elements[e]) };
        let line = format!("T{}", tuple.iter().map(element).collect::<String>());
        tuple.iter().for_each(|&e| quoted[e] = true);
        r.pick(places).iter().for_each(|&text| texts[text].push(line.clone()));
    }
    fill(left).into_iter().for_each(|line| r.pick(places).iter().for_each(|&text| texts[text].push(line.clone())));
    texts
}

fn plain(lines: &[String]) -> Vec<u8> {
    lines.iter().flat_map(|l| format!("{l}\n").into_bytes()).collect()
}

/// A text after a comment that makes it so long.
fn padded(text: &[u8], length: usize) -> Vec<u8> {
    let comment = "#".repeat(length.saturating_sub(text.len() + 1));
    [comment.as_bytes(), b"\n", text].concat()
}

/// Lines as a file may have them: with others that are skipped, with a dot line, saved in any way, and at times spoiled.
fn saved_in_any_way(r: &mut Random, lines: &[String]) -> Vec<u8> {
    let mut lines = lines.to_vec();
    while r.one_in(3) {
        let skipped = r.pick(&["# On a \"b\"", "#", "", " \t"]).to_string();
        put(r, &mut lines, skipped);
    }
    let mut text = plain(&lines);
    match r.below(12) {
        0 | 1 => drop(text.pop()),
        2 => text.extend(r.pick(&[".\nOn \"a\" b\n", ".", ". \x01", ".\n7Y\r\r"]).bytes()),
        _ => {}
    }
    match r.below(40) {
        0..=7 => saved::facts(r, &text),
        8 => saved::spoiled(r, &text),
        9 => {
            damage(r, &mut text);
            text
        }
        _ => text,
    }
}

/// The limits of a join: of the result, of each text, and of what both have together.
pub const LIMITS: usize = 11;

/// Two texts one below a limit (past 0), at it (1) or one past it (2); the last have results far past it.
fn limit(r: &mut Random, kind: usize, past: usize) -> (Vec<u8>, Vec<u8>) {
    let n = |limit: usize| limit - 1 + past;
    let few = |r: &mut Random| overlapping(r).map(|lines| plain(&lines));
    let [first, second] = match kind {
        0 => long(r, n(32768), 1, 100).map(|lines| plain(&lines)),
        1 => long(r, n(32768), 1, 1).map(|lines| plain(&lines)),
        2 => long(r, n(32768), 30, 2).map(|lines| plain(&lines)),
        3 => few(r).map(|text| padded(&text, n(32768))),
        4 => [few(r)[0].clone(), padded(b"On a b\n", n(32768))],
        5 => full(r, n(16), 2, &PLACES).map(|lines| plain(&lines)),
        6 => full(r, 2, n(64), &PLACES).map(|lines| plain(&lines)),
        7 => full(r, n(16), n(64), &PLACES[..2]).map(|lines| plain(&lines)),
        8 => [few(r)[0].clone(), format!("Q\nHeld {}\n", "e".repeat(n(32))).into()],
        9 => [few(r)[0].clone(), format!("Q\n{} a\n", "N".repeat(n(32))).into()],
        _ => long(r, 33_000 + 6_000 * past, 30, 2).map(|lines| plain(&lines)),
    };
    (first, second)
}

/// Short texts, some at the limits of what both may have, some with lines that are refused.
fn any(r: &mut Random) -> Lines {
    let mut texts = if r.one_in(5) {
        let (relations, elements) = (*r.pick(&[1, 3, 15, 16, 16, 17]), *r.pick(&[1, 8, 63, 64, 64, 65]));
        let places = *r.pick(&[&PLACES[..], &PLACES[..], &PLACES[..2], &PLACES[..1], &PLACES[1..2]]);
        full(r, relations, elements, places)
    } else {
        overlapping(r)
    };
    if r.one_in(3) {
        clash(r, &mut texts);
    }
    if r.one_in(5) {
        faults(r, &mut texts);
    }
    texts
}

/// Texts whose result is about as long as it may be, or longer, in any order.
fn long_ones(r: &mut Random) -> Lines {
    let (length, width) = (*r.pick(&[32_767, 32_768, 32_769, 33_000, 45_000]), *r.pick(&[1, 2, 8, 30, 30]));
    let few = *r.pick(&[1, 2, 5, 100]);
    let mut texts = long(r, length, width, few);
    texts.iter_mut().for_each(|lines| shuffle(r, lines));
    texts
}

/// The calls that go with the comparison of this number: first each limit below, at and above it, then one in three has a call.
pub fn calls(number: u64) -> Vec<Join> {
    let r = &mut Random::new(number + (7 << 40));
    let limits = 3 * LIMITS as u64;
    let (first, second) = match number {
        k if k < limits => limit(r, (k / 3) as usize, (k % 3) as usize),
        _ if !r.one_in(3) => return Vec::new(),
        _ if r.one_in(300) => long_ones(r).map(|lines| plain(&lines)).into(),
        _ => any(r).map(|lines| saved_in_any_way(r, &lines)).into(),
    };
    let room = if r.one_in(4) { r.below(60) } else { *r.pick(&[0, 4000, 32_768, 40_000]) };
    vec![Join { first, second, room }]
}
