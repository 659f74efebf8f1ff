//! Texts for Paper 6 of document 02: facts with several chains for a question, many of them equally long, with ways through the smallest
//! numbers that are longer or lead nowhere, with cycles and with shorter ways by pairs of another name; and the questions.
use crate::generate::{Chain, Random};
use crate::picked;
use crate::shapes::shuffle;

/// How many elements are joined; others stand beside them.
const SIZES: [usize; 20] = [1, 2, 3, 4, 5, 5, 6, 6, 7, 7, 8, 8, 9, 10, 12, 16, 24, 63, 64, 64];
/// Where byte order is not what one might expect: digits, prefixes, capitals, blanks, nothing at all.
const TEXTS: [&str; 18] =
    ["", " ", "#", "10", "9", "A", "B7", "C", "C10", "C2", "Z", "_", "a", "a b", "a\tb", "ab", "b", "0123456789abcdef0123456789abcdef"];

/// Pairs by the elements' places in a list. The first and the last element are what is mostly asked for.
pub type Pairs = Vec<(usize, usize)>;

/// One in a few of all pairs, an element's with itself too.
pub fn dense(r: &mut Random, n: usize) -> Pairs {
    let few = 2 + n / 16 + r.below(1 + n / 3);
    (0..n * n).filter(|_| r.one_in(few)).map(|i| (i / n, i % n)).collect()
}

/// Layers between the first element and the last, each element joined with several of the next layer.
pub fn layers(r: &mut Random, n: usize) -> Pairs {
    let depth = 1 + n / (2 + r.below(4));
    let in_runs = r.one_in(2);
    let layer = |i: usize| match i {
        0 => 0,
        _ if i + 1 == n => depth + 1,
        _ if in_runs => 1 + i * depth / n,
        _ => 1 + i % depth,
    };
    let next = (0..n * n).map(|i| (i / n, i % n)).filter(|&(a, b)| layer(b) == layer(a) + 1);
    next.filter(|_| !r.one_in(5)).collect()
}

/// A ladder or a grid: to the next of a row, now and then back too, and down to the next row.
fn grid(r: &mut Random, n: usize) -> Pairs {
    let (width, both) = (2 + r.below(4), r.one_in(4));
    let row = (1..n).filter(|i| i % width != 0).map(|i| (i - 1, i));
    let down = (width..n).map(|i| (i - width, i));
    let mut found: Pairs = row.clone().chain(down).filter(|_| !r.one_in(12)).collect();
    found.extend(row.filter(|_| both).map(|(a, b)| (b, a)));
    found
}

/// A ring, mostly with a few chords.
pub fn ring(r: &mut Random, n: usize) -> Pairs {
    let mut found: Pairs = (0..n).map(|i| (i, (i + 1) % n)).collect();
    found.extend((0..r.below(5).saturating_sub(2)).map(|_| (r.below(n), r.below(n))));
    found
}

/// Ways from the first element to the last, each by a run of neighbours of its own length, some of which lead nowhere.
fn ways(r: &mut Random, n: usize) -> Pairs {
    let mut found = Pairs::new();
    let mut at = 1;
    while at + 1 < n {
        let last = (at + r.below(4)).min(n - 2);
        found.push((0, at));
        found.extend((at..last).map(|i| (i, i + 1)));
        if !r.one_in(3) {
            found.push((last, n - 1));
        }
        at = last + 1;
    }
    found
}

const SHAPES: [fn(&mut Random, usize) -> Pairs; 8] = [dense, layers, layers, grid, grid, ring, ring, ways];

/// Pairs back, of an element with itself, to the first element or anywhere.
pub fn more(r: &mut Random, n: usize, pairs: &mut Pairs) {
    for _ in 0..r.below(4) {
        let ((a, b), any) = (*r.pick(pairs), r.below(n));
        pairs.push(*r.pick(&[(b, a), (a, a), (n - 1, 0), (b, 0), (a, any), (any, b)]));
    }
}

/// The texts of so many elements, ascending, or at times in any order.
fn elements(r: &mut Random, n: usize) -> Vec<String> {
    let mut all: Vec<String> = match r.below(5) {
        0 => (0..n).map(|i| format!("e{i:02}")).collect(),
        1 | 2 => (0..n).map(|i| format!("C{i}")).collect(),
        3 => (0..n).map(|i| "a".repeat(i / 4) + ["", "B", "b", " "][i % 4]).collect(),
        _ => (0..n).map(|i| TEXTS.get(i).map_or_else(|| format!("c{i}"), |t| t.to_string())).collect(),
    };
    all.sort();
    if r.one_in(3) {
        shuffle(r, &mut all);
    }
    all
}

/// The texts of so many elements, and of a few others that stand among them in any place.
pub fn with_others(r: &mut Random, n: usize) -> (Vec<String>, Vec<String>) {
    let all = (n + r.below(4)).min(64);
    let mut joined = elements(r, all);
    let mut beside = Vec::new();
    while joined.len() > n {
        beside.push(joined.remove(r.below(joined.len())));
    }
    (joined, beside)
}

pub fn line(r: &mut Random, name: &str, tuple: &[&String]) -> String {
    let elements = tuple.iter().map(|e| format!("{}{}", r.pick(&[" ", " ", " ", "  ", "\t"]), picked::in_facts(r, e)));
    format!("{name}{}\n", elements.collect::<String>())
}

/// The lines in any order: the pairs, some of them again; the elements beside them; and pairs of another name, one of which may be a
/// shorter way. A dot line may leave out the rest.
fn facts(r: &mut Random, joined: &[String], beside: &[String], pairs: &Pairs) -> String {
    let mut lines = Vec::new();
    for (a, b) in pairs {
        for _ in 0..1 + r.one_in(8) as usize {
            lines.push(line(r, "E", &[&joined[*a], &joined[*b]]));
        }
    }
    lines.extend(beside.iter().map(|e| line(r, "H", &[e])));
    for _ in 0..r.below(4) {
        let pair = [r.pick(joined), r.pick(joined)];
        lines.push(line(r, "D", &pair));
    }
    if r.one_in(3) {
        lines.push(line(r, "D", &[&joined[0], &joined[joined.len() - 1]]));
    }
    if r.one_in(4) {
        lines.push(r.pick(&["# E a b\n", "\n", " \t\n"]).to_string());
    }
    shuffle(r, &mut lines);
    if r.one_in(8) {
        lines.push(format!(".\n{}", line(r, "E", &[&joined[0], &joined[joined.len() - 1]])));
    }
    lines.concat()
}

/// A question, mostly for what the pairs are made for: the ends, or an element and itself.
fn call(r: &mut Random, joined: &[String], beside: &[String]) -> Chain {
    let (first, second) = match r.below(8) {
        0..=3 => (&joined[0], &joined[joined.len() - 1]),
        4 => (&joined[0], &joined[0]),
        5 => [r.pick(joined); 2].into(),
        _ => (r.pick(joined), r.pick(joined)),
    };
    let other = if beside.is_empty() { "absent" } else { r.pick(beside) };
    let second = if r.one_in(30) { other } else { second };
    let name = *r.pick(&["E", "E", "E", "E", "E", "E", "E", "E", "E", "E", "E", "D", "D", "H"]);
    let room = if r.one_in(5) { *r.pick(&[66, 66, 200, 200, 64, 0]) } else { 65 };
    Chain { name: name.into(), first: first.as_bytes().to_vec(), second: second.as_bytes().to_vec(), room }
}

/// Two texts, and questions over the facts.
pub fn texts(r: &mut Random) -> (Vec<u8>, Vec<u8>, Vec<Chain>) {
    let n = *r.pick(&SIZES);
    let mut pairs = r.pick(&SHAPES)(r, n);
    if !pairs.is_empty() && !r.one_in(4) {
        more(r, n, &mut pairs);
    }
    let (joined, beside) = with_others(r, n);
    let facts = facts(r, &joined, &beside, &pairs);
    let query = if n <= 12 && r.one_in(2) { "PRINT [\"E\"] TC(E(x,y));" } else { "PRINT ENDL;" };
    let calls = (0..6).map(|_| call(r, &joined, &beside)).collect();
    (facts.into_bytes(), query.into(), calls)
}
