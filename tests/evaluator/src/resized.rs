//! Texts for Paper 4 of document 02: facts that repeat tuples, bare and quoted, and programs whose assignments, most of them in loops,
//! make relations larger and smaller or leave them as they were.
use crate::generate::Random;
use crate::picked;

/// Universes: T has a row for each three elements, so programs over more than a few leave it out.
const SIZES: [usize; 10] = [0, 1, 2, 2, 3, 3, 4, 8, 16, 64];
const FEW: usize = 8;

/// Statements that make a relation larger where they can. 1 and 2 stand for strings.
const LARGER: [&str; 14] = [
    "P();",
    "R(x);",
    "R(1);",
    "R(x) := R(x) | S(x,_);",
    "R(x) := R(x) | FA(y, R(y) -> y < x);",
    "R(x) := R(x) | EX(y, R(y) & S(y,x));",
    "S(1,2);",
    "S(x,1) := TRUE(x);",
    "S(x,y) := S(x,y) | S(y,x);",
    "S(x,y) := TC(S(x,y));",
    "N(x) := N(x) | R(x);",
    "T(1,x,y) := S(x,y);",
    "T(x,y,2) := TRUE(x,y);",
    "T(x,y,z) := T(x,y,z) | (S(x,y) & S(y,z));",
];
/// Statements that make one smaller where they can.
const SMALLER: [&str; 14] = [
    "P() := FALSE();",
    "R(x) := R(x) & EX(y, R(y) & y < x);",
    "R(1) := FALSE();",
    "R(x) := R(x) & N(x);",
    "R(x) := FALSE(x);",
    "S(x,y) := S(x,y) & x < y;",
    "S(1,x) := FALSE(x);",
    "S(1,2) := FALSE();",
    "S(x,x) := S(x,x);",
    "S(x,y) := S(x,y) & !(R(x) & R(y));",
    "N(x) := N(x) & !R(x);",
    "T(x,1,y) := FALSE(x,y);",
    "T(x,y,z) := T(x,y,z) & x != z;",
    "T(x,x,x) := R(x);",
];
/// Statements that leave one as large as it was, most times.
const AS_LARGE: [&str; 8] = [
    "R(x) := R(x);",
    "R(1) := R(1);",
    "S(y,x) := S(x,y);",
    "S(1,x) := S(1,x);",
    "N(x) := N(x) & TRUE(x);",
    "P() := P();",
    "T(y,z,x) := T(x,y,z);",
    "IF R(1) { R(1); } ELSE { R(1) := FALSE(); }",
];
/// What a PRINT adds depends on how large a relation is, so that a buffer ends runs at any turn of a loop.
const PRINTS: [&str; 5] = ["PRINT R(x);", "PRINT [\"S\"] S(x,y);", "PRINT \"turn\", ENDL;", "PRINT N(x), P();", "PRINT R(x), T(x,y,z);"];
/// Loops around * that end of themselves, or not.
const LOOPS: [&str; 10] = [
    "WHILE EX(x, R(x)) { R(x) := R(x) & EX(y, R(y) & y < x); * }",
    "WHILE EX(x, !R(x)) { R(x) := R(x) | FA(y, R(y) | x <= y); * }",
    "WHILE !(EX(y, R(y) & S(y,x)) <= R(x)) { R(x) := R(x) | EX(y, R(y) & S(y,x)); * }",
    "WHILE TRUE() { R(x) := !R(x); * }",
    "WHILE TRUE() { S(x,y) := !S(x,y) & x != y; * }",
    "FOR v IN TRUE(x) { R(x) := R(x) | x = v; * }",
    "FOR v IN R(x) { R(x) := R(x) & x != v; N(x) := N(x) | x = v; * }",
    "FOR v IN S(x,_) { S(x,y) := S(x,y) & x != v; * }",
    "FOR v IN TRUE(x) { IF R(v) { R(x) := R(x) & x != v; } ELSE { S(x,1) := x = v; } * }",
    "FOR v IN R(x) { T(x,y,z) := T(x,y,z) | (x = v & S(y,z)); * }",
];

/// A fact's line, each element bare or in quotes.
fn line(r: &mut Random, name: &str, tuple: &[&String]) -> String {
    let mut found = name.to_string();
    for e in tuple {
        found += *r.pick(&[" ", " ", "\t", "  "]);
        found += &if r.one_in(3) { format!("\"{e}\"") } else { picked::in_facts(r, e) };
    }
    found + *r.pick(&["\n", "\n", " \n"])
}

/// Some tuples, of which many are given again at any later place; and each element, so that the universe has them all.
fn facts(r: &mut Random, elements: &[String]) -> String {
    let mut lines = Vec::new();
    for _ in 0..r.below(10) {
        let (name, arity) = *r.pick(&[("R", 1), ("R", 1), ("S", 2), ("S", 2), ("S", 2), ("T", 3), ("P", 0), ("N", 1)]);
        if arity > 0 && elements.is_empty() {
            continue;
        }
        let tuple: Vec<&String> = (0..arity).map(|_| r.pick(elements)).collect();
        for _ in 0..*r.pick(&[1, 1, 2, 2, 3, 5]) {
            let at = r.below(lines.len() + 1);
            lines.insert(at, line(r, name, &tuple));
        }
    }
    lines.extend(elements.iter().map(|e| line(r, "All", &[e])));
    lines.concat()
}

/// A statement of these forms; those of three columns only over few elements.
fn statement(r: &mut Random, forms: &[&str], elements: &[String]) -> String {
    let form = loop {
        let form = *r.pick(forms);
        if elements.len() <= FEW || !form.contains("T(") {
            break form;
        }
    };
    let new = ["a b".to_string(), "new".to_string()];
    let from = if elements.is_empty() || r.one_in(8) { &new } else { elements };
    let strings = [r.pick(from), r.pick(from)];
    let one = |c: char| match c {
        '1' | '2' => format!("\"{}\"", strings[c as usize - '1' as usize]),
        _ => c.to_string(),
    };
    form.chars().map(one).collect()
}

fn simple(r: &mut Random, elements: &[String]) -> String {
    let forms: &[&str] = match r.below(8) {
        0..=2 => &LARGER,
        3..=5 => &SMALLER,
        6 => &AS_LARGE,
        _ => &PRINTS,
    };
    statement(r, forms, elements)
}

/// A loop with more statements in it, at times another loop.
fn repeated(r: &mut Random, elements: &[String]) -> String {
    let inside = match r.below(6) {
        // a WHILE, since a loop variable is not bound again
        0 => statement(r, &LOOPS[..3], elements).replace('*', ""),
        1 | 2 => simple(r, elements) + &statement(r, &PRINTS, elements),
        _ => (0..r.below(3)).map(|_| simple(r, elements)).collect(),
    };
    statement(r, &LOOPS, elements).replace('*', &inside)
}

/// Two texts over few elements, most times.
pub fn texts(r: &mut Random) -> (Vec<u8>, Vec<u8>) {
    let size = *r.pick(&SIZES);
    let names = if r.one_in(3) { ["", "a b", "a", "b"] } else { ["a", "b", "C10", "B7"] };
    let elements: Vec<String> = (0..size).map(|i| names.get(i).map_or_else(|| format!("e{i:02}"), |n| n.to_string())).collect();
    let facts = facts(r, &elements);
    let mut query = String::new();
    for _ in 0..1 + r.below(3) {
        query += &if r.one_in(3) { simple(r, &elements) } else { repeated(r, &elements) };
        query.push('\n');
    }
    (facts.into_bytes(), query.into_bytes())
}
