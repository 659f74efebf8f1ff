//! Accepted texts in which each form of an expression is met often, over universes of 0 to 64 elements: quantifiers that hide
//! or bind nothing, "_", strings, loop variables and repeated attributes in each place, closures and relation comparisons under
//! quantifiers, joins of several atoms, sums and ratios of counts, and every kind of left side and printed column.
use crate::generate::Random;
use crate::shares::SIGNS;
use crate::{entered, picked, shares};

const RELATIONS: [(&str, usize); 8] = [("On", 2), ("Held", 1), ("T", 3), ("Dep", 2), ("P", 0), ("All", 1), ("Q", 2), ("R", 1)];
const ATTRIBUTES: [&str; 4] = ["x", "y", "z", "w"];
const VARIABLES: [&str; 2] = ["c", "v"];
/// Universes: the smallest and the largest often, since a word has 64 bits.
const SIZES: [usize; 16] = [0, 1, 1, 2, 2, 3, 5, 8, 16, 33, 62, 63, 63, 64, 64, 64];
/// More rows than this a result should not have, most times: a universe of 64 elements takes two attributes, one of 16 three.
const ROWS: usize = 4096;

/// An expression and its free attributes, in order of first free occurrence.
struct Expression {
    text: String,
    free: Vec<&'static str>,
}

fn joined(mut a: Vec<&'static str>, b: &[&'static str]) -> Vec<&'static str> {
    for x in b {
        if !a.contains(x) {
            a.push(x);
        }
    }
    a
}

pub fn shuffle<T>(r: &mut Random, all: &mut [T]) {
    for i in (1..all.len()).rev() {
        let j = r.below(i + 1);
        all.swap(i, j);
    }
}

/// Elements in one of four ways: of one length, each a prefix of the next, with blanks and signs, or near patterns.
fn elements(r: &mut Random, size: usize, patterns: &[String]) -> Vec<String> {
    match r.below(8) {
        0 if size <= 32 => (0..size).map(|i| "a".repeat(i + 1)).collect(),
        1 | 2 => (0..size).map(|i| ["", " ", "~", "A b", "#", "."].get(i).map_or(format!("{i}"), |s| s.to_string())).collect(),
        3 | 4 => {
            let mut found = picked::elements(r, patterns, size);
            found.extend((found.len()..size).map(|i| format!("~{i:02}")));
            found
        }
        _ => (0..size).map(|i| format!("e{i:02}")).collect(),
    }
}

struct Writer<'a> {
    r: &'a mut Random,
    /// those of the facts, then two that left sides have, most times alone
    strings: Vec<String>,
    given: usize,
    patterns: Vec<String>,
    attributes: usize,
    open: Vec<&'static str>,
    closures: usize,
}

impl Writer<'_> {
    fn string(&mut self, left: bool) -> String {
        let all = &self.strings;
        let s = match self.r.below(8) {
            0 if !left => "absent",
            // outside the universe too, unless it is on some left side
            1 if !left || all.len() <= 64 => &all[self.r.below(all.len())],
            2 | 3 if self.given > 0 => &all[self.given - 1],
            _ => &all[self.r.below(self.given.max(1))],
        };
        format!("\"{s}\"")
    }
    fn attribute(&mut self) -> &'static str {
        ATTRIBUTES[self.r.below(self.attributes)]
    }
    fn term(&mut self) -> (String, Option<&'static str>) {
        match self.r.below(20) {
            0 | 1 => ("_".into(), None),
            2 => (self.string(false), None),
            3..=5 if !self.open.is_empty() => (self.r.pick(&self.open).to_string(), None),
            _ => {
                let x = self.attribute();
                (x.into(), Some(x))
            }
        }
    }
    fn terms(&mut self, n: usize) -> (Vec<String>, Vec<&'static str>) {
        let (mut texts, mut free) = (Vec::new(), Vec::new());
        let same = if self.r.one_in(9) { Some(self.attribute()) } else { None };
        for _ in 0..n {
            let (text, x) = match (same, self.term()) {
                (Some(x), (_, Some(_))) => (x.into(), Some(x)),
                (_, t) => t,
            };
            texts.push(text);
            free = joined(free, x.as_slice());
        }
        (texts, free)
    }
    fn atom(&mut self) -> Expression {
        // the first four have tuples of the facts, and not all
        let (name, arity) = if self.r.one_in(5) { *self.r.pick(&RELATIONS) } else { *self.r.pick(&RELATIONS[..4]) };
        let (terms, free) = self.terms(arity);
        Expression { text: format!("{name}({})", terms.join(",")), free }
    }
    fn sign(&mut self) -> Expression {
        let s = *self.r.pick(&SIGNS);
        let (terms, free) = self.terms(2);
        let text = if self.r.one_in(3) { format!("{s}({})", terms.join(",")) } else { format!("{}{s}{}", terms[0], terms[1]) };
        Expression { text, free }
    }
    fn pick(&mut self) -> Expression {
        let (term, x) = self.term();
        let p = self.r.pick(&self.patterns);
        Expression { text: picked::atom(self.r, p, &term), free: x.into_iter().collect() }
    }
    fn leaf(&mut self) -> Expression {
        match self.r.below(28) {
            0..=3 => self.sign(),
            24.. => self.pick(),
            4 => {
                let name = *self.r.pick(&["TRUE", "FALSE"]);
                let n = self.r.below(4);
                let (terms, free) = self.terms(n);
                Expression { text: format!("{name}({})", terms.join(",")), free }
            }
            _ => self.atom(),
        }
    }
    /// Atoms joined by one connective without brackets.
    fn join(&mut self) -> Expression {
        let o = *self.r.pick(&[" & ", " & ", " | "]);
        let mut all = self.leaf();
        for _ in 0..1 + self.r.below(2) * self.r.below(3) {
            let not = *self.r.pick(&["", "", "!"]);
            let next = self.leaf();
            all = Expression { text: format!("{}{o}{not}{}", all.text, next.text), free: joined(all.free, &next.free) };
        }
        Expression { text: format!("({})", all.text), free: all.free }
    }
    fn quantified(&mut self, x: &'static str, e: Expression) -> Expression {
        let free = e.free.into_iter().filter(|y| *y != x).collect();
        let (q, guard) = *self.r.pick(&[("EX", ""), ("FA", ""), ("EX", "&"), ("FA", "->")]);
        if guard.is_empty() {
            return Expression { text: format!("{q}({x}, {})", e.text), free };
        }
        // most elements ruled out, so that it is neither true nor false for all values of the others
        let (y, z) = (self.attribute(), self.attribute());
        let (atom, more) = match self.r.below(4) {
            0 => (format!("Held({x})"), vec![]),
            1 => (format!("On({x},{y})"), vec![y]),
            2 => (format!("On({y},{x})"), vec![y]),
            _ => (format!("T({y},{x},{z})"), vec![y, z]),
        };
        let more: Vec<&'static str> = more.into_iter().filter(|y| *y != x).collect();
        Expression { text: format!("{q}({x}, {atom} {guard} {})", e.text), free: joined(joined(Vec::new(), &more), &free) }
    }
    /// Over one or two attributes, inside or not, bound already or not.
    fn quantifier(&mut self, d: usize) -> Expression {
        let inside = self.expression(d);
        let (x, y) = (self.attribute(), self.attribute());
        if self.r.one_in(4) {
            let q = *self.r.pick(&["EX", "FA"]);
            return Expression { text: format!("{q}({x},{y}, {})", inside.text), free: inside.free.into_iter().filter(|z| *z != x && *z != y).collect() };
        }
        self.quantified(x, inside)
    }
    /// With so many free attributes as asked for: others are bound, missing ones added.
    fn with_free(&mut self, mut e: Expression, least: usize, most: usize) -> Expression {
        while e.free.len() > most {
            let x = e.free[self.r.below(e.free.len())];
            e = self.quantified(x, e);
        }
        while e.free.len() < least {
            let x = ATTRIBUTES[..self.attributes.max(least)].iter().find(|x| !e.free.contains(x)).unwrap();
            let (a, o) = *self.r.pick(&[("Held", "|"), ("All", "&"), ("All", "<->"), ("TRUE", "&")]);
            e = Expression { text: format!("({} {o} {a}({x}))", e.text), free: joined(e.free, &[*x]) };
        }
        e
    }
    fn closure(&mut self, d: usize) -> Expression {
        self.closures += 1;
        let inside = self.expression(d);
        let inside = self.with_free(inside, 2, 2);
        let name = *self.r.pick(&["TC", "TCFAST"]);
        Expression { text: format!("{name}({})", inside.text), free: inside.free }
    }
    fn expression(&mut self, d: usize) -> Expression {
        match if d == 0 { 0 } else { self.r.below(14) } {
            0 | 1 => self.leaf(),
            2..=4 => self.join(),
            5..=7 => self.quantifier(d - 1),
            8 if self.attributes > 1 && self.closures < 8 => self.closure(d - 1),
            9 if self.r.one_in(3) => {
                let (s, a, b) = (*self.r.pick(&SIGNS), self.quantity(d - 1), self.quantity(d - 1));
                Expression { text: format!("({a} {s} {b})"), free: Vec::new() }
            }
            9 => {
                let (s, a, b) = (*self.r.pick(&SIGNS), self.expression(d - 1), self.expression(d - 1));
                Expression { text: format!("({} {s} {})", a.text, b.text), free: Vec::new() }
            }
            10 => {
                let e = self.expression(d - 1);
                Expression { text: format!("!{}", e.text), free: e.free }
            }
            _ => {
                let o = *self.r.pick(&["&", "&", "|", "->", "<->"]);
                let (a, b) = (self.expression(d - 1), self.expression(d - 1));
                Expression { text: format!("({} {o} {})", a.text, b.text), free: joined(a.free, &b.free) }
            }
        }
    }
    fn quantity(&mut self, d: usize) -> String {
        let counted: Vec<String> = (0..1 + self.r.below(2)).map(|_| self.counted(d)).collect();
        shares::quantity_of(self.r, &counted)
    }
    fn counted(&mut self, d: usize) -> String {
        let e = self.expression(d);
        self.with_free(e, 0, 3).text
    }
    fn fresh(&mut self, least: usize, most: usize) -> Expression {
        let d = 1 + self.r.below(if self.given > 16 { 3 } else { 4 });
        let e = self.expression(d);
        self.with_free(e, least, most)
    }
    /// The free attributes in any order, some again, and strings.
    fn assignment(&mut self) -> String {
        let e = self.fresh(0, 3);
        let fitting: Vec<(&str, usize)> = RELATIONS.iter().copied().filter(|r| r.1 >= e.free.len()).collect();
        let (name, arity) = *self.r.pick(&fitting);
        let mut left: Vec<String> = e.free.iter().map(|x| x.to_string()).collect();
        while left.len() < arity {
            let again = if e.free.is_empty() || self.r.one_in(2) { self.string(true) } else { self.r.pick(&e.free).to_string() };
            left.push(again);
        }
        shuffle(self.r, &mut left);
        let left = format!("{name}({})", left.join(","));
        if self.r.one_in(12) { format!("{left};\n") } else { format!("{left} := {};\n", e.text) }
    }
    fn word(&mut self) -> String {
        if self.open.is_empty() || self.r.one_in(2) { self.string(false) } else { self.r.pick(&self.open).to_string() }
    }
    fn item(&mut self) -> String {
        match self.r.below(10) {
            0 => "ENDL".into(),
            1 => self.word(),
            2 if self.r.one_in(2) => self.quantity(1),
            k => {
                let most = self.r.below(4);
                let e = self.fresh(most.min(self.attributes), most);
                if k < 4 { format!("[{}] {}", self.word(), e.text) } else { e.text }
            }
        }
    }
    fn print(&mut self) -> String {
        let items: Vec<String> = (0..1 + self.r.below(3)).map(|_| self.item()).collect();
        format!("PRINT {};\n", items.join(", "))
    }
    fn block(&mut self, d: usize) -> String {
        let body: String = (0..1 + self.r.below(2)).map(|_| self.statement(d)).collect();
        format!("{{\n{body}}}\n")
    }
    fn statement(&mut self, d: usize) -> String {
        self.closures = 0;
        match if d == 0 { self.r.below(10) } else { self.r.below(16) } {
            0..=4 => self.assignment(),
            5..=9 => self.print(),
            10 => {
                let e = self.fresh(0, 0);
                format!("IF {} {}ELSE {}", e.text, self.block(d - 1), self.block(d - 1))
            }
            11 => {
                let e = self.fresh(0, 0);
                format!("WHILE {} {}", e.text, self.block(d - 1))
            }
            _ => {
                let e = self.fresh(1, 1);
                let v = VARIABLES[self.open.len()];
                self.open.push(v);
                let body = self.block(d - 1);
                self.open.pop();
                format!("FOR {v} IN {} {body}", e.text)
            }
        }
    }
}

/// Facts over so many elements, in any order: all of them first, then tuples of all elements or of three alone, the last one among them,
/// so that it often is the only one to decide.
fn facts(r: &mut Random, all: &[String]) -> String {
    let mut order: Vec<&String> = all.iter().collect();
    shuffle(r, &mut order);
    let mut out: String = order.iter().map(|e| format!("All {}\n", picked::in_facts(r, e))).collect();
    for (name, arity) in &RELATIONS[..5] {
        let few = r.one_in(2);
        let lines = match arity {
            0 => r.below(2),
            _ if few => all.len().min(1 + r.below(4)),
            // about half of the elements
            1 => all.len() * 3 / 4,
            _ => all.len() * *r.pick(&[0, 1, 2, 2, 4]),
        };
        for _ in 0..lines.min(150) {
            out.push_str(name);
            for _ in 0..*arity {
                let e = match r.below(if few { 4 } else { 9 }) {
                    0 | 1 => all.len() - 1,
                    2 => 0,
                    3 => all.len() / 2,
                    _ => r.below(all.len()),
                };
                out += &format!(" {}", picked::in_facts(r, &all[e]));
            }
            out.push('\n');
        }
    }
    out
}

/// Two accepted texts. The universe has as many elements as one of `SIZES` says, or one or two more by strings on left sides.
pub fn texts(r: &mut Random) -> (Vec<u8>, Vec<u8>) {
    let size = *r.pick(&SIZES);
    let mut patterns: Vec<String> = (0..2).map(|_| picked::pattern(r)).collect();
    let mut strings = elements(r, size, &patterns);
    let facts = facts(r, &strings);
    patterns.extend(strings.iter().take(2).map(|_| picked::pattern_of(r, &strings)));
    let most = (1..=4).filter(|n| size.pow(*n as u32) <= ROWS).max().unwrap_or(1);
    let attributes = if r.one_in(60) { 3 } else { 1 + r.below(most) };
    strings.extend([entered::string(r), "f".to_string()]);
    let w = &mut Writer { r, strings, given: size, patterns, attributes, open: Vec::new(), closures: 0 };
    let query: String = (0..1 + w.r.below(4)).map(|_| w.statement(2)).collect();
    (facts.into_bytes(), query.into_bytes())
}
