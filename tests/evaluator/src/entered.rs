//! Texts for Paper 3 of document 02: strings of left-hand sides that are empty or hold blanks, that facts quote or give bare, or neither,
//! and programs that print the elements so entered: in each column, behind labels, and as what a loop variable stands for.
use crate::generate::Random;
use crate::picked;

/// What brings quotes: no byte at all, a space or a tab, wherever it stands.
const QUOTED: [&str; 14] =
    ["", "", " ", "\t", "5Y off the run", "a b", " a", "a ", "a\tb", "\ta", "a\t", " \t ", "  ", "0123456789abcdef 123456789abcdef"];
/// What does not, though some of it would mean something elsewhere.
const BARE: [&str; 16] = ["a", "a", "b", "ab", "#x", ".x", ".", "a,b", "//", "'a'", "R", "S", "FOR", ";", "\\", "0123456789abcdef0123456789abcdef"];

/// A string for a left-hand side.
pub fn string(r: &mut Random) -> String {
    if r.one_in(2) { r.pick(&QUOTED) } else { r.pick(&BARE) }.to_string()
}

/// Statements that enter strings 1, 2 and 3: four at once, others later or never.
const ENTERING: [&str; 16] = [
    "R(1);",
    "R(1); R(2);",
    "S(1,2);",
    "T(1,2,3);",
    "S(x,1) := R(x);",
    "S(1,x) := R(x) | S(x,_);",
    "T(x,1,y) := S(x,y);",
    "T(1,x,2) := TRUE(x);",
    "S(x,y) := TRUE(x,y);",
    "R(1) := FALSE();",
    "R(x) := !R(x);",
    "S(1,2) := R(3);",
    "IF R(1) { R(2); } ELSE { S(2,3); }",
    "IF FALSE() { R(1); T(1,2,3); }",
    "WHILE R(1) { R(1) := FALSE(); S(1,2); }",
    "FOR v IN R(x) { S(x,1) := x = v; R(2); }",
];

/// Statements that print elements, some of them loop variables beside tuples with the same elements.
const PRINTING: [&str; 22] = [
    "PRINT R(x), S(x,y), T(x,y,z);",
    "PRINT [\"R\"] R(x), [\"S\"] S(x,y), [\"T\"] T(x,y,z);",
    "PRINT R(x);",
    "PRINT [\"R\"] R(x);",
    "PRINT S(x,y);",
    "PRINT [\"S\"] S(x,y);",
    "PRINT T(x,y,z);",
    "PRINT [1] T(z,y,x);",
    "PRINT TRUE(x);",
    "PRINT [2] !R(x), R(x);",
    "PRINT x = 1, S(x,1);",
    "PRINT R(x) & S(y,x), ENDL, 1;",
    "PRINT EX(y, T(x,y,z));",
    "PRINT TC(S(x,y));",
    "PRINT 1, 2, [3] R(x), ENDL;",
    "PRINT [\"P\"] P(), [\"R\"] R(1);",
    "FOR v IN R(x) { PRINT v; }",
    "FOR v IN TRUE(x) { PRINT v, ENDL; PRINT [v] R(v); }",
    "FOR v IN S(_,x) { PRINT [v] S(x,v); }",
    "FOR v IN R(x) { PRINT [v] R(x), v, ENDL, [v] TRUE(); }",
    "FOR v IN S(x,_) { FOR w IN S(v,x) { PRINT [v] T(w,x,y), w, \" \", v; } }",
    "FOR v IN R(x) { R(1); PRINT [v] R(x) & x != v, x = v; }",
];

/// Few facts, so that many elements are entered by the query alone.
fn facts(r: &mut Random, strings: &[String]) -> String {
    let mut found = String::new();
    for _ in 0..if strings.is_empty() { 0 } else { r.below(5) } {
        let (name, arity) = *r.pick(&[("R", 1), ("R", 1), ("S", 2), ("T", 3), ("P", 0), ("Held", 1)]);
        found += name;
        for _ in 0..arity {
            let e = r.pick(strings);
            found += &if r.one_in(4) { format!(" \"{e}\"") } else { format!(" {}", picked::in_facts(r, e)) };
        }
        found.push('\n');
    }
    found
}

fn statement(r: &mut Random, forms: &[&str], strings: &[String]) -> String {
    let three = [r.pick(strings), r.pick(strings), r.pick(strings)];
    let one = |c: char| match c {
        '1'..='3' => format!("\"{}\"", three[c as usize - '1' as usize]),
        _ => c.to_string(),
    };
    r.pick(forms).chars().map(one).collect()
}

/// Two texts over a few strings, of which the facts have the first half at most: they are entered, then printed.
pub fn texts(r: &mut Random) -> (Vec<u8>, Vec<u8>) {
    let strings: Vec<String> = (0..1 + r.below(8)).map(|_| string(r)).collect();
    let facts = facts(r, &strings[..strings.len() / 2]);
    let mut query = String::new();
    for _ in 0..*r.pick(&[1, 1, 2]) {
        query += &format!("{}\n", statement(r, &ENTERING[..4], &strings));
        for _ in 0..r.below(3) {
            query += &format!("{}\n", statement(r, &ENTERING, &strings));
        }
        for _ in 0..1 + r.below(3) {
            query += &format!("{}\n", statement(r, &PRINTING, &strings));
        }
    }
    (facts.into_bytes(), query.into_bytes())
}
