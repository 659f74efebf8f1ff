//! Texts for Paper 5 of document 02: sums and ratios of counts and whole literals, printed and compared by each sign wherever a comparison
//! of relations may stand; and texts with faults in them: a literal too large, a ninth summand, a level or an attribute too many, and
//! quantities where none may stand.
use crate::generate::Random;
use crate::picked;

/// Universes: a count of three attributes has a row for each three elements, so texts over more than a few leave it out.
const SIZES: [usize; 12] = [0, 1, 1, 2, 2, 3, 3, 4, 8, 16, 63, 64];
const FEW: usize = 8;
pub const SIGNS: [&str; 6] = ["=", "!=", "<", "<=", ">", ">="];
/// Small ones often, so that they meet counts and reduce; with zeros in front; the largest.
const NUMBERS: [&str; 22] = [
    "0", "0", "1", "1", "1", "2", "2", "3", "4", "4", "6", "8", "12", "16", "64", "100", "007", "00", "65536", "999998", "999999",
    "00000000000000000000000000999999",
];
/// What is counted: 0 to 3 free attributes. ? stands for a comparison of quantities, % for a string.
const COUNTED: [&str; 36] = [
    "R(x)", "R(x)", "S(x,y)", "S(x,y)", "S(x,_)", "S(_,x)", "S(_,_)", "TRUE()", "FALSE()", "P()", "TRUE(x)", "FALSE(x)", "TRUE(x,y)", "S(x,x)", "!R(x)",
    "R(x) & S(x,y)", "R(x) | S(_,x)", "R(x) -> S(x,y)", "x < y", "EX(y, S(x,y))", "FA(y, S(x,y) -> R(y))", "EX(x, R(x))", "TC(S(x,y))", "S(x,%)", "R(%)",
    "R(x) & x != %", "R(\"absent\")", "!R(\"absent\")", "@\"[a-c1]\"(x)", "R(x) <= S(x,_)", "S(x,y) = S(y,x)", "?", "R(x) & (?)", "TRUE(x) & !(?)", "(?) | P()", "EX(x, R(x) & (?))",
];
const COUNTED_OF_THREE: [&str; 6] = ["T(x,y,z)", "TRUE(x,y,z)", "S(x,y) & S(y,z)", "T(x,x,y)", "R(x) | S(y,z)", "T(x,y,_) & R(z) & (?)"];
/// More free attributes than a printed expression may have.
const COUNTED_OF_FOUR: [&str; 4] = ["TRUE(x,y,z,w)", "S(x,y) & S(z,w)", "R(x) & TRUE(y,z,w)", "FALSE(w,x,y,z)"];

/// Statements that print quantities, $, and what comparisons of them, ?, hold for.
const PRINTS: [&str; 12] = [
    "PRINT $;",
    "PRINT $, ENDL;",
    "PRINT $, \" \", $, ENDL, $;",
    "PRINT \"share \", $, R(x), $;",
    "PRINT ?;",
    "PRINT [\"t\"] ?;",
    "PRINT [\"t\"] ?, [%] ?, $;",
    "PRINT [\"t\"] ?, [\"f\"] !(?), [\"b\"] (?);",
    "PRINT $, [\"t\"] ?, $, R(x);",
    "FOR v IN TRUE(x) { PRINT v, \" \", #(S(v,y)) / #(S(x,y)), ENDL; }",
    "FOR v IN R(x) { PRINT [v] #(R(x) & x < v) + 1 = $; }",
    "FOR v IN S(x,_) { FOR u IN R(x) { PRINT #(S(v,x) | S(x,u)) + #(v = u), \",\"; } }",
];
/// Each other place of a comparison; * stands for more statements.
const PLACES: [&str; 22] = [
    "P() := ?;",
    "P() := !(?) & P();",
    "R(x) := R(x) & (?);",
    "R(x) := EX(y, S(x,y) & (?));",
    "S(x,y) := S(x,y) | (R(x) & R(y) & (?));",
    "S(x,%) := R(x) & (?);",
    "PRINT [\"e\"] EX(x, ?), [\"a\"] FA(x, ?);",
    "PRINT EX(x, S(x,y) & (?)), FA(x, S(x,y) -> (?));",
    "PRINT R(x) & (?), (?) & R(x);",
    "PRINT [\"i\"] (?) -> (?), [\"j\"] (?) <-> P(), [\"o\"] P() | (?);",
    "PRINT [\"c\"] (?) = (?), [\"d\"] (?) < (?), [\"e\"] R(x) <= (?);",
    "PRINT TC(S(x,y) & (?)), TCFAST((?) | S(x,y));",
    "IF ? { * } ELSE { * }",
    "IF (?) & EX(x, R(x)) { * }",
    "IF !(?) { * }",
    "WHILE ? { * P() := !P(); }",
    "WHILE (?) & !P() { P(); * }",
    "FOR v IN R(x) & (?) { * }",
    "FOR v IN TRUE(x) { IF #(S(v,x)) > $ { R(x) := R(x) & x != v; } * }",
    "WHILE #(R(x)) < #(TRUE(x)) { R(x) := R(x) | FA(y, R(y) | x <= y); * }",
    "WHILE #(R(x)) / #(TRUE(x)) > 1/2 { R(x) := R(x) & EX(y, R(y) & y < x); * }",
    "WHILE #(R(x)) != #(R(x) | EX(y, R(y) & S(y,x))) { R(x) := R(x) | EX(y, R(y) & S(y,x)); * }",
];
/// What makes counts differ from one PRINT to the next.
const CHANGES: [&str; 8] = [
    "R(%);", "R(%) := FALSE();", "R(x) := R(x) | EX(y, R(y) & S(y,x));", "R(x) := !R(x);", "S(%,%);", "S(y,x) := S(x,y);", "P();", "S(x,y) := TC(S(x,y));",
];
/// Quantities with something wrong: rows 9 and 10, which most of these are wherever they stand.
const NO_QUANTITIES: [&str; 26] = [
    "1/2/3", "(1+2)/3", "1+(2)", "1/(2)", "1+", "+1", "/1", "1/", "1++1", "x+1", "1+x", "\"a\"+1", "1+\"a\"", "R(x)+1", "1/R(x)", "#", "#()", "#R(x)", "#(x)", "#(1)", "##(R(x))",
    "1.5", "2-1", "2*3", "6//2", "6/*2",
];
/// Comparisons that are none, and quantities where none may stand; N stands for a number, which may be too large.
const NO_COMPARISONS: [&str; 18] = [
    "N", "N < N < N", "!N = N", "N = N & P()", "P() | N = N", "P() -> N = N", "R(x) = N", "N = R(x)", "x = N", "N = x", "=(N,N)", "R(N)", "EX(N, R(x))", "EX(x, N)", "TC(N)", "@\"a\"(N)",
    "N N", "(N)",
];

fn gap(r: &mut Random) -> &'static str {
    *r.pick(&["", "", "", "", "", "", " ", " ", "\n", "/* c */", " // 1/0\n"])
}

/// A slash, beside which a comment may stand: `//` and `/*` would open one.
fn slash(r: &mut Random) -> &'static str {
    *r.pick(&["/", "/", "/", " / ", " / ", "/ ", " /", "/**//", "/ /* c */", "/ // c\n", "/*/ 2 *// ", "\n/\n"])
}

fn number(r: &mut Random) -> String {
    if r.one_in(6) { r.below(1_000_000).to_string() } else { r.pick(&NUMBERS).to_string() }
}

/// A number that no literal may be.
fn large(r: &mut Random) -> String {
    match r.below(6) {
        0 => "9".repeat(32),
        1 => format!("{:0>32}", 1_000_000),
        2 => format!("000{}", 1_000_000 + r.below(2)),
        3 => format!("{}", 1_000_000 + r.below(usize::MAX / 2)),
        _ => "1000000".into(),
    }
}

/// A number that may be too large.
fn any_number(r: &mut Random) -> String {
    if r.one_in(3) { large(r) } else { number(r) }
}

/// Writes statements over a universe. The depth that its functions take is how far counts may stand in one another.
struct Writer<'a> {
    r: &'a mut Random,
    elements: Vec<String>,
    /// a quantity in so many is wrong; 0 for none
    wrong: usize,
}

impl Writer<'_> {
    fn string(&mut self) -> String {
        if self.elements.is_empty() || self.r.one_in(12) { "\"new\"".into() } else { format!("\"{}\"", self.r.pick(&self.elements)) }
    }
    /// A form with its marks filled in.
    fn filled(&mut self, form: &str, d: usize) -> String {
        let mut found = String::new();
        for c in form.chars() {
            match c {
                '?' => found += &self.comparison(d),
                '$' => found += &self.quantity(d),
                '%' => found += &self.string(),
                _ => found.push(c),
            }
        }
        found
    }
    fn is_wrong(&mut self) -> bool {
        self.wrong > 0 && self.r.one_in(self.wrong)
    }
    fn count(&mut self, d: usize) -> String {
        let form = match self.r.below(8) {
            _ if self.is_wrong() && self.r.one_in(2) => *self.r.pick(&COUNTED_OF_FOUR),
            0 | 1 if self.elements.len() <= FEW => *self.r.pick(&COUNTED_OF_THREE),
            _ => *self.r.pick(&COUNTED),
        };
        if d == 0 && form.contains('?') {
            return self.count(0);
        }
        let inside = self.filled(form, d.saturating_sub(1));
        format!("#{}({}{inside})", gap(self.r), gap(self.r))
    }
    fn summand(&mut self, d: usize) -> String {
        if self.r.one_in(3) { number(self.r) } else { self.count(d) }
    }
    fn sum(&mut self, d: usize) -> String {
        let count = match self.r.below(24) {
            _ if self.is_wrong() => 9 + self.r.below(2),
            0 => 8,
            1 => 4 + self.r.below(4),
            2..=5 => 3,
            6..=11 => 2,
            _ => 1,
        };
        let mut found = String::new();
        for i in 0..count {
            if i > 0 {
                found += &format!("{}+{}", gap(self.r), gap(self.r));
            }
            found += &match self.r.below(4) {
                _ if self.wrong > 0 && self.r.one_in(self.wrong * count) => large(self.r),
                // many summands are short ones
                1.. if count > 3 => number(self.r),
                _ => self.summand(d),
            };
        }
        found
    }
    fn quantity(&mut self, d: usize) -> String {
        if self.is_wrong() && self.r.one_in(3) {
            return self.r.pick(&NO_QUANTITIES).to_string();
        }
        let top = self.sum(d);
        match self.r.below(12) {
            0..=4 => top,
            5 => format!("{top}{}0", slash(self.r)),
            6 => format!("0{}{top}", slash(self.r)),
            _ => format!("{top}{}{}", slash(self.r), self.sum(d)),
        }
    }
    /// Two ratios that are equal, or nearly, by different numbers.
    fn like_ratios(&mut self) -> (String, String) {
        let (a, b) = (self.r.below(9), 1 + self.r.below(9));
        let (k, l) = (1 + self.r.below(99_999), 1 + self.r.below(99_999));
        let off = self.r.below(3) / 2;
        (format!("{}{}{}", k * a + off, slash(self.r), k * b), format!("{}{}{}", l * a, slash(self.r), l * b))
    }
    fn comparison(&mut self, d: usize) -> String {
        if self.is_wrong() && self.r.one_in(3) {
            let form = *self.r.pick(&NO_COMPARISONS);
            return form.chars().map(|c| if c == 'N' { any_number(self.r) } else { c.to_string() }).collect();
        }
        let sign = *self.r.pick(&SIGNS);
        let (a, b) = match self.r.below(8) {
            0 => self.like_ratios(),
            1 => {
                let same = self.quantity(d);
                (same.clone(), same)
            }
            _ => (self.quantity(d), self.quantity(d)),
        };
        format!("{a}{}{sign}{}{b}", gap(self.r), gap(self.r))
    }
    fn simple(&mut self) -> String {
        let forms: &[&str] = if self.r.one_in(3) { &CHANGES } else { &PRINTS[..9] };
        let form = *self.r.pick(forms);
        self.filled(form, 1)
    }
    fn statement(&mut self) -> String {
        let form = match self.r.below(10) {
            0..=3 => *self.r.pick(&PRINTS),
            4 => *self.r.pick(&CHANGES),
            _ => *self.r.pick(&PLACES),
        };
        let mut found = String::new();
        for part in form.split_inclusive('*') {
            found += &self.filled(part.trim_end_matches('*'), 2);
            if part.ends_with('*') {
                let inside: String = (0..1 + self.r.below(2)).map(|_| self.simple()).collect();
                found += &inside;
            }
        }
        found
    }
    /// A comparison within levels: the last that is allowed, the first that is not, and one more; at its innermost place a summand that
    /// opens a level, is too large, or is the ninth.
    fn deep(&mut self) -> String {
        let ones = ["1"; 8].join("+");
        let inside = match self.r.below(8) {
            0 => "1 = 1".into(),
            1 | 2 => "#(P()) = 0".into(),
            3 => format!("{} > 1", large(self.r)),
            4 => format!("{ones} = 8"),
            5 => format!("{ones}+1 = 9"),
            6 => format!("1 <= 1/{ones}+#(P())"),
            _ => "1 = 0+#;".into(),
        };
        let levels = *self.r.pick(&[30, 31, 31, 32, 32, 33]);
        // a quantifier's body is visited at each element
        let wraps = if self.elements.len() <= 1 { 6 } else { 4 };
        let one = |e: String, n: usize| match n {
            0 | 1 => format!("({e})"),
            2 => format!("#({e}) = 1"),
            3 => format!("0/1 <= 1+#({e})"),
            4 => format!("EX(x, {e})"),
            _ => format!("FA(y, {e})"),
        };
        let e = (0..levels).fold(inside, |e, _| one(e, self.r.below(wraps)));
        let form = *self.r.pick(&["P() := ?;", "PRINT [\"t\"] ?;", "PRINT #(?);", "IF ? { P(); }", "{ PRINT ?; }"]);
        form.replace('?', &e)
    }
}

fn facts(r: &mut Random, elements: &[String]) -> String {
    let mut found: String = elements.iter().map(|e| format!("All {}\n", picked::in_facts(r, e))).collect();
    if elements.is_empty() {
        return found;
    }
    for (name, arity) in [("R", 1), ("S", 2), ("T", 3)] {
        for _ in 0..r.below(2 + elements.len().min(12)) {
            found += name;
            for _ in 0..arity {
                let e = r.pick(elements);
                found += &format!(" {}", picked::in_facts(r, e));
            }
            found.push('\n');
        }
    }
    if r.one_in(2) { found + "P\n" } else { found }
}

/// A quantity with counts of these expressions.
pub fn quantity_of(r: &mut Random, counted: &[String]) -> String {
    let sum = |r: &mut Random| {
        let count = *r.pick(&[1, 1, 1, 1, 2, 2, 3, 8]);
        let numbers: Vec<String> = (0..count - 1).map(|_| number(r)).collect();
        let first = if counted.is_empty() || r.one_in(4) { number(r) } else { format!("#({})", r.pick(counted)) };
        [vec![first], numbers].concat().join("+")
    };
    let top = sum(r);
    if r.one_in(2) { format!("{top}{}{}", slash(r), sum(r)) } else { top }
}

/// Two texts; those of a fifth have faults.
pub fn texts(r: &mut Random) -> (Vec<u8>, Vec<u8>) {
    let size = *r.pick(&SIZES);
    let names = if r.one_in(4) { ["", "a b", "a", "b"] } else { ["a", "b", "C10", "B7"] };
    let elements: Vec<String> = (0..size).map(|i| names.get(i).map_or_else(|| format!("e{i:02}"), |n| n.to_string())).collect();
    let facts = facts(r, &elements);
    let wrong = if r.one_in(5) { *r.pick(&[3, 10]) } else { 0 };
    let w = &mut Writer { r, elements, wrong };
    let mut query = String::new();
    for _ in 0..1 + w.r.below(4) {
        query += &if w.r.one_in(12) { w.deep() } else { w.statement() };
        query.push('\n');
    }
    (facts.into_bytes(), query.into_bytes())
}
