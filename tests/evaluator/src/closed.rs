//! Texts for Paper 8 of document 02: pairs whose closure goes through nodes in and against the order of their numbers, and the manual's
//! programs for it (section 2.3) beside TC and TCFAST.
use crate::generate::Random;
use crate::shapes::shuffle;
use crate::ties::{self, Pairs};

/// How many elements are joined; others stand beside them.
const SIZES: [usize; 24] = [0, 0, 1, 1, 2, 2, 3, 3, 4, 4, 4, 5, 5, 5, 6, 6, 7, 8, 9, 10, 12, 16, 33, 64];

/// Expressions over x and y, to be closed.
const EXPRESSIONS: [&str; 9] = [
    "R(x,y)",
    "R(x,y)",
    "R(x,y)",
    "R(y,x)",
    "R(x,y) | S(y,x)",
    "EX(z, R(x,z) & S(z,y))",
    "R(x,y) & !S(x,y)",
    "R(x,y) | (H(x) & H(y))",
    "S(x,y)",
];

/// The manual's programs: the first; the second; and the second over all elements. They close the expression * into Result.
const PROGRAMS: [&str; 3] = [
    "Result(x,y) := *;
PrevResult(x,y) := FALSE(x,y);
WHILE (PrevResult(x,y) != Result(x,y)) {
    PrevResult(x,y) := Result(x,y);
    Result(x,z) := Result(x,z) | EX(y, Result(x,y) & Result(y,z));
}
",
    "Result(x,y) := *;
Node(x) := Result(x,_) & Result(_,x);
FOR node IN Node(x) {
    Result(x,y) := Result(x,y) | (Result(x,node) & Result(node,y));
}
",
    "Result(x,y) := *;
FOR node IN TRUE(x) {
    Result(x,y) := Result(x,y) | (Result(x,node) & Result(node,y));
}
",
];
/// What the programs' results are called where there are several.
const RESULTS: [&str; 3] = ["Result", "Second", "Third"];

/// What is printed of a result and of the closures of *.
const PRINTS: [&str; 7] = [
    "PRINT [\"Result\"] Result(x,y);\n",
    "PRINT TC(*);\n",
    "PRINT [\"fast\"] TCFAST(*);\n",
    "PRINT [\"same\"] Result(x,y) = TC(*);\n",
    "PRINT [\"same\"] TCFAST(*) = Result(x,y), [\"more\"] Result(x,y) > *;\n",
    "PRINT #(Result(x,y)), \"/\", #(TC(*)), ENDL;\n",
    "PRINT [\"cycle\"] Result(x,x), TC(*) & x = y;\n",
];

/// A chain up, down, from both ends by turns, or in any order.
fn chain(r: &mut Random, n: usize) -> Pairs {
    let mut order: Vec<usize> = (0..n).collect();
    match r.below(4) {
        0 => {}
        1 => order.reverse(),
        2 => order = (0..n).map(|i| if i % 2 == 0 { i / 2 } else { n - 1 - i / 2 }).collect(),
        _ => shuffle(r, &mut order),
    }
    order.windows(2).map(|p| (p[0], p[1])).collect()
}

/// Chains and rings of a few elements each.
fn components(r: &mut Random, n: usize) -> Pairs {
    let mut found = Pairs::new();
    let mut start = 0;
    while start < n {
        let size = 1 + r.below(6.min(n - start));
        let part = if r.one_in(2) { chain(r, size) } else { ties::ring(r, size) };
        found.extend(part.into_iter().map(|(a, b)| (start + a, start + b)));
        start += size;
    }
    found
}

const SHAPES: [fn(&mut Random, usize) -> Pairs; 8] = [chain, chain, chain, components, components, ties::ring, ties::layers, ties::dense];

/// The lines in any order: pairs of R, some of S, and the elements beside them.
fn facts(r: &mut Random, n: usize) -> String {
    let mut pairs = if n == 0 { Pairs::new() } else { r.pick(&SHAPES)(r, n) };
    if !pairs.is_empty() && r.one_in(2) {
        ties::more(r, n, &mut pairs);
    }
    let (joined, beside) = ties::with_others(r, n);
    let mut lines: Vec<String> = pairs.iter().map(|(a, b)| ties::line(r, "R", &[&joined[*a], &joined[*b]])).collect();
    lines.extend(beside.iter().map(|e| ties::line(r, "H", &[e])));
    for _ in 0..r.below(n + 2).min(n) {
        let pair = [r.pick(&joined), r.pick(&joined)];
        lines.push(ties::line(r, "S", &pair));
    }
    shuffle(r, &mut lines);
    lines.concat()
}

/// A program, at times with a PRINT after each node or turn.
fn program(r: &mut Random, programs: &[&str], result: &str) -> String {
    let mut text = r.pick(programs).to_string();
    if r.one_in(3) {
        let item = if text.contains("FOR") { "[node] " } else { "" };
        text = text.replace("\n}", &format!("\n    PRINT {item}Result(x,y);\n}}"));
    }
    if r.one_in(4) {
        text = text.replace('\n', " ");
    }
    text.replace("Result", result)
}

/// One to three programs, then what is printed, the closures as relations too; the expression itself may be one that is assigned first.
fn query(r: &mut Random, programs: &[&str], e: &str) -> String {
    let count = 1 + r.below(3);
    let mut text: String = RESULTS[..count].iter().map(|result| program(r, programs, result)).collect();
    if r.one_in(2) {
        text += *r.pick(&["Closed(x,y) := TC(*);\n", "Closed(x,y) := TCFAST(*);\n", "Closed(x,y) := TC(*); Fast(x,y) := TCFAST(*);\n"]);
    }
    for _ in 0..1 + r.below(3) {
        text += &r.pick(&PRINTS).replace("Result", *r.pick(&RESULTS[..count]));
    }
    if r.one_in(3) {
        return format!("Pair(x,y) := {e};\n{}", text.replace('*', "Pair(x,y)"));
    }
    text.replace('*', e)
}

/// Two texts, and the expression that the query closes. Over many elements the first program's steps are long, so it is mostly left out.
pub fn texts(r: &mut Random) -> (Vec<u8>, Vec<u8>, &'static str) {
    let n = *r.pick(&SIZES);
    let facts = facts(r, n);
    let e = *r.pick(&EXPRESSIONS);
    let programs = if n > 16 && !r.one_in(4) { &PROGRAMS[1..] } else { &PROGRAMS };
    (facts.into_bytes(), query(r, programs, e).into_bytes(), e)
}
