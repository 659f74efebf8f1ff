//! Which forms the expressions, patterns, quantities, statements, repeated facts and printed elements of accepted texts have, how large
//! relations become, how texts with a malformed pattern or a number are refused, and where bytes 13 stand in texts, by name: what the
//! tally counts.
use crate::facts::{is_legal, needs_quotes, Fact};
use crate::names::left_strings;
use crate::parse::{Expr, Item, Quantity, Stmt, Sum, Summand, Term, LARGEST_LITERAL};
use crate::pattern::{self, Pattern};
use crate::picked::SPECIAL;
use crate::tokens::{self, Kind, Token};
use crate::{accept, pattern_strings, Accepted, Ran};
use std::cmp::Ordering;
use std::collections::btree_map::{BTreeMap, Entry};
use std::collections::BTreeSet;

pub struct Forms<'a> {
    texts: &'a Accepted,
    found: Vec<String>,
}

/// What an expression stands in: the attributes that quantifiers around it bind, whether a connective is around it, and which closure or
/// comparison hides all else.
#[derive(Clone, Default)]
struct Around {
    bound: Vec<Vec<u8>>,
    connective: bool,
    within: &'static str,
}

impl Around {
    fn only(within: &'static str) -> Around {
        Around { within, ..Around::default() }
    }
}

/// Every name of an attribute or variable that stands in an expression.
fn occurs(e: &Expr, x: &[u8]) -> bool {
    let is = |p: &Term| matches!(p, Term::Name(t) if t.text == x);
    match e {
        Expr::Atom(_, ps) | Expr::True(ps) | Expr::False(ps) => ps.iter().any(is),
        Expr::Sign(_, a, b) => is(a) || is(b),
        Expr::Matches(_, a) => is(a),
        Expr::Not(a) | Expr::Tc(a) | Expr::Ex(_, a) | Expr::Fa(_, a) => occurs(a, x),
        Expr::Two(_, a, b) | Expr::Compare(_, a, b) => occurs(a, x) || occurs(b, x),
        Expr::Weigh(_, a, b) => a.counted().chain(b.counted()).any(|e| occurs(e, x)),
    }
}

/// What a pattern holds, each once.
fn in_pattern(p: &Pattern, repeated: bool, found: &mut BTreeSet<&'static str>) {
    match p {
        Pattern::Start | Pattern::End => {
            found.insert(if repeated { "^ or $ in a repeat" } else if *p == Pattern::Start { "^" } else { "$" });
        }
        Pattern::Byte(b) => {
            found.insert(if SPECIAL.contains(b) { "a backslash" } else { "a character" });
        }
        Pattern::Any => {
            found.insert(".");
        }
        Pattern::Set { complement, .. } => {
            found.insert(if *complement { "a complement" } else { "a set" });
        }
        Pattern::Repeat(piece, least, most) => {
            let sign = match (least, most) {
                (0, None) => "*",
                (_, None) => "+",
                (0, Some(0)) => "{0,0}",
                (0, Some(1)) => "?",
                _ => "{m,n}",
            };
            found.extend([sign, if repeated { "a repeat in a repeat" } else { sign }]);
            in_pattern(piece, true, found);
        }
        Pattern::Row(pieces) => pieces.iter().for_each(|piece| in_pattern(piece, repeated, found)),
        Pattern::Either(branches) => {
            if branches.len() > 1 {
                found.insert("branches");
            }
            branches.iter().for_each(|branch| in_pattern(branch, repeated, found));
        }
    }
}

impl Forms<'_> {
    fn add(&mut self, what: String) {
        self.found.push(what);
    }
    fn term(&self, p: &Term) -> &'static str {
        match p {
            Term::Any => "_",
            Term::Name(t) if self.texts.names.is_variable(&t.text) => "variable",
            Term::Name(_) => "attribute",
            Term::Quoted(t) if self.texts.universe.contains(&t.text) => "string",
            Term::Quoted(_) => "string outside",
        }
    }
    fn terms(&mut self, ps: &[Term]) {
        for (i, p) in ps.iter().enumerate() {
            self.add(format!("atom of {}: {} in place {}", ps.len(), self.term(p), i + 1));
        }
        let names: Vec<&[u8]> = ps.iter().filter(|p| self.term(p) == "attribute").filter_map(|p| if let Term::Name(t) = p { Some(t.text.as_slice()) } else { None }).collect();
        let most = names.iter().map(|x| names.iter().filter(|y| *y == x).count()).max().unwrap_or(0);
        if most > 1 {
            self.add(format!("atom of {}: an attribute {most} times", ps.len()));
        }
    }
    /// What is in a pattern, and which elements match.
    fn pattern(&mut self, text: &[u8]) {
        let mut found = BTreeSet::new();
        let p = &self.texts.patterns[text];
        in_pattern(p, false, &mut found);
        if text.len() == 32 {
            found.insert("32 bytes");
        }
        let matching = self.texts.universe.iter().filter(|e| p.matches(e)).count();
        let which = match self.texts.universe.len() - matching {
            0 if matching == 0 => "no elements at all",
            0 => "each element",
            _ if matching == 0 => "no element",
            _ => "some elements",
        };
        self.add(format!("pattern that matches {which}"));
        self.found.extend(found.iter().map(|what| format!("pattern with {what}")));
    }
    fn quantifier(&mut self, x: &[u8], inside: &Expr, around: &Around) {
        let free = self.texts.names.free(inside).iter().any(|y| y == x);
        let how = if free { "free inside" } else if occurs(inside, x) { "bound again inside" } else { "not inside" };
        let hides = if around.bound.iter().any(|y| y == x) { ", hiding" } else { "" };
        self.add(format!("quantified attribute {how}{hides}"));
        let mut inner = around.clone();
        inner.bound.push(x.to_vec());
        inner.connective = false;
        self.expression(inside, &inner);
    }
    fn expression(&mut self, e: &Expr, around: &Around) {
        let under = if around.bound.is_empty() { "" } else { " under a quantifier" };
        match e {
            Expr::Atom(_, ps) => self.terms(ps),
            Expr::True(ps) | Expr::False(ps) => self.add(format!("TRUE or FALSE of {}", ps.len().min(4))),
            Expr::Sign(s, a, b) => self.add(format!("{} {s} {}", self.term(a), self.term(b))),
            Expr::Matches(pattern, a) => {
                self.add(format!("pattern of {}{under}{}", self.term(a), around.within));
                self.pattern(&pattern.text);
            }
            Expr::Not(a) => self.expression(a, around),
            Expr::Two(_, a, b) => {
                let inner = Around { connective: true, ..around.clone() };
                self.expression(a, &inner);
                self.expression(b, &inner);
            }
            Expr::Ex(x, a) | Expr::Fa(x, a) => self.quantifier(&x.text, a, around),
            Expr::Tc(a) => {
                self.add(format!("closure{under}"));
                self.expression(a, &Around::only(" in a closure"));
            }
            Expr::Compare(_, a, b) => {
                let part = if around.connective { " beside a connective" } else { "" };
                self.add(format!("relation comparison{under}{part}"));
                self.expression(a, &Around::only(" in a comparison"));
                self.expression(b, &Around::only(" in a comparison"));
            }
            Expr::Weigh(s, a, b) => {
                let part = if around.connective { " beside a connective" } else { "" };
                self.add(format!("quantities compared by {s}"));
                self.add(format!("quantities compared{under}{part}{}", around.within));
                self.quantity(a, around);
                self.quantity(b, around);
            }
        }
    }
    fn sum(&mut self, sum: &Sum, around: &Around) {
        self.add(format!("sum of {}", sum.len()));
        for s in sum {
            match s {
                Summand::Count(e) => self.count(e, around),
                Summand::Literal(n) if *n == 0 || *n == LARGEST_LITERAL => self.add(format!("literal {n}")),
                Summand::Literal(_) => self.add("literal between".into()),
            }
        }
    }
    fn quantity(&mut self, q: &Quantity, around: &Around) {
        self.sum(&q.top, around);
        if let Some(bottom) = &q.bottom {
            self.add("ratio".into());
            self.sum(bottom, around);
        }
    }
    fn count(&mut self, e: &Expr, around: &Around) {
        let free = self.texts.names.free(e);
        let hides = if free.iter().any(|x| around.bound.contains(x)) { ", hiding" } else { "" };
        self.add(format!("count of {} attributes{hides}{}", free.len(), around.within));
        self.expression(e, &Around::only(" in a count"));
    }
    /// An expression of a statement that may have none free, so that it may be a comparison of quantities.
    fn whole(&mut self, e: &Expr, place: &str) {
        if let Expr::Weigh(..) = e {
            self.add(format!("quantities compared as {place}"));
        }
        self.expression(e, &Around::default());
    }
    fn left(&mut self, left: &[Term]) {
        let names: Vec<&Vec<u8>> = left.iter().filter_map(|p| if let Term::Name(t) = p { Some(&t.text) } else { None }).collect();
        let again = (1..names.len()).any(|i| names[..i].contains(&names[i]));
        let strings = left.len() - names.len();
        self.add(format!("left side of {}: {strings} strings{}", left.len(), if again { ", an attribute again" } else { "" }));
    }
    fn item(&mut self, i: &Item) {
        if let Item::Rows(label, e) = i {
            let columns = self.texts.names.free(e).len();
            let label = if label.is_some() { ", labelled" } else { "" };
            self.add(format!("printed columns: {columns}{label}"));
            self.whole(e, &format!("an item{label}"));
        }
        if let Item::Quantity(q) = i {
            self.add(format!("printed {}", if q.bottom.is_some() { "ratio" } else { "sum" }));
            self.quantity(q, &Around::default());
        }
    }
    fn statements(&mut self, all: &[Stmt]) {
        for s in all {
            match s {
                Stmt::Assign(_, _, left, e) => {
                    self.left(left);
                    self.whole(e, "a right side");
                }
                Stmt::Print(_, items) => {
                    self.add(format!("printed items: {}", items.len().min(4)));
                    items.iter().for_each(|i| self.item(i));
                }
                Stmt::If(_, e, yes, no) => {
                    self.whole(e, "the test of an IF");
                    self.statements(yes);
                    self.statements(no);
                }
                Stmt::While(_, e, body) => {
                    self.whole(e, "the test of a WHILE");
                    self.statements(body);
                }
                Stmt::For(_, _, e, body) => {
                    self.expression(e, &Around::default());
                    self.statements(body);
                }
                Stmt::Block(body) => self.statements(body),
            }
        }
    }
}

/// Each form as often as it occurs.
pub fn of(texts: &Accepted) -> Vec<String> {
    let mut forms = Forms { texts, found: vec![format!("universe of {:2}", texts.universe.len())] };
    if !texts.patterns.is_empty() {
        forms.add("text with patterns".into());
    }
    left_strings(&texts.program).iter().for_each(|t| forms.add(format!("left-hand string {}", element(texts, &t.text))));
    forms.found.extend(repeated(&texts.facts.facts));
    forms.statements(&texts.program);
    forms.found
}

/// Facts that give a tuple again, by how this one and the first one put elements in quotes.
fn repeated(facts: &[Fact]) -> Vec<String> {
    let values = |f: &Fact| f.elements.iter().map(|e| e.value.clone()).collect::<Vec<_>>();
    let how = |f: &Fact| if f.elements.iter().any(|e| e.quoted) { "quoted" } else { "bare" };
    let mut firsts: BTreeMap<_, &str> = BTreeMap::new();
    let mut found = Vec::new();
    for f in facts {
        match firsts.entry((&f.name, values(f))) {
            Entry::Vacant(place) => drop(place.insert(how(f))),
            Entry::Occupied(first) => found.push(format!("fact of {} repeated: {}, then {}", f.elements.len(), first.get(), how(f))),
        }
    }
    found
}

/// How the counts at a run's end differ from those as loaded, by its ending.
pub fn counts(w: &Accepted, ran: &Ran) -> String {
    let records = w.checked().records;
    let differ = |how: Ordering| records.iter().zip(ran.counts).any(|([.., loaded], end)| end.cmp(loaded) == how);
    let how = match (differ(Ordering::Greater), differ(Ordering::Less)) {
        (true, true) => "larger and smaller",
        (true, false) => "larger",
        (false, true) => "smaller",
        _ => "as loaded",
    };
    format!("{:?} with counts {how}", ran.ending)
}

/// How the assignments of a run changed the size of each relation that they were to.
pub fn changes(ran: &Ran) -> Vec<String> {
    let word = |how: &Ordering| match how {
        Ordering::Less => "smaller",
        Ordering::Equal => "as large",
        Ordering::Greater => "larger",
    };
    ran.changes.values().map(|all| format!("relation made {}", all.iter().map(word).collect::<Vec<_>>().join(", "))).collect()
}

/// What decides whether an element is printed in quotes: its text, and how facts give it.
fn element(w: &Accepted, text: &[u8]) -> String {
    let blanks = match (text.contains(&b' '), text.contains(&9)) {
        _ if text.is_empty() => "empty",
        (true, true) => "with space and tab",
        (true, false) => "with a space",
        (false, true) => "with a tab",
        _ => "without blanks",
    };
    let facts = match (w.facts.quote(text), w.facts.universe.contains(text)) {
        (true, _) => "quoted by a fact",
        (_, true) => "bare in facts",
        _ => "in no fact",
    };
    format!("{blanks}, {facts}")
}

fn quotes(w: &Accepted, text: &[u8]) -> &'static str {
    match (w.facts.quote(text), needs_quotes(text)) {
        (true, true) => "in quotes for a fact and for its text",
        (true, false) => "in quotes for a fact alone",
        (false, true) => "in quotes for its text alone",
        _ => "bare",
    }
}

/// Which elements a run prints and how, each once; the last PRINT is the one that comparisons also try with a byte too few.
pub fn printed(w: &Accepted, ran: &Ran) -> Vec<String> {
    let of = |bits: u64| (0..w.universe.len()).filter(move |a| bits >> a & 1 == 1).map(|a| &w.universe[a]);
    let mut found: Vec<String> = of(ran.printed.in_tuples).map(|e| format!("printed in a tuple: {}", element(w, e))).collect();
    found.extend(of(ran.printed.in_tuples).map(|e| format!("printed {}", quotes(w, e))));
    found.extend(of(ran.printed.as_items).map(|e| format!("printed as a loop's item: {}", element(w, e))));
    found.extend(of(ran.printed.as_labels).map(|e| format!("printed as a loop's label: {}", element(w, e))));
    let start = ran.pages.iter().rev().find(|&&page| page < ran.output.len()).copied().unwrap_or(0);
    // no other byte is a quote
    let in_quotes: BTreeSet<&str> = ran.output[start..].split(|&b| b == b'"').skip(1).step_by(2).map(|e| quotes(w, e)).collect();
    found.extend(in_quotes.iter().map(|how| format!("last PRINT with elements {how}")));
    found
}

/// How a text with a malformed pattern is refused: for which fault of it, and what would be next if there were none, or for what else.
pub fn malformed(facts: &[u8], query: &[u8]) -> Vec<String> {
    let tokens = tokens::read(query).unwrap_or_default();
    let fault = |t: &Token| if t.kind == Kind::Quoted { pattern::read(&t.text).err() } else { None };
    let Some((nth, first)) = pattern_strings(&tokens).enumerate().find_map(|(n, t)| Some((n, fault(t)?))) else {
        return Vec::new();
    };
    match accept(facts, query) {
        Err((18, _)) => {
            let mut mended = query.to_vec();
            // from the last one on, so that places before it stay
            let wrong: Vec<&Token> = pattern_strings(&tokens).filter(|t| fault(t).is_some()).collect();
            wrong.iter().rev().for_each(|t| drop(mended.splice(t.at + 1..t.at + 1 + t.text.len(), *b"a")));
            let next = accept(facts, &mended).map_or_else(|(row, _)| format!("before {row}"), |_| "alone".into());
            let which = if nth == 0 { "the first" } else { "a later" };
            vec![format!("refused 18 for {first}"), format!("refused 18 {next}"), format!("refused 18 at {which} pattern")]
        }
        Err((row, _)) => vec![format!("malformed pattern, but refused {row:2}")],
        Ok(_) => unreachable!(),
    }
}

/// Runs of digits in a text, and how a text is refused at one, or at a ninth summand.
pub fn numbers(facts: &[u8], query: &[u8]) -> Vec<String> {
    let tokens = tokens::read(query).unwrap_or_default();
    let large = |t: &Token| t.text.iter().skip_while(|b| **b == b'0').count() > 6;
    let kind = |t: &Token| match t.text.as_slice() {
        _ if large(t) => "over 999,999",
        [b'0', _, ..] => "with a zero in front",
        _ => "at most 999,999",
    };
    let length = |t: &Token| if t.text.len() == 32 { " of 32 digits" } else { "" };
    let runs = tokens.iter().filter(|t| t.kind == Kind::Number);
    let mut found: Vec<String> = runs.map(|t| format!("number {}{}", kind(t), length(t))).collect();
    let Err((row @ (10 | 19), place)) = accept(facts, query) else {
        return found;
    };
    // where a text ends too soon there is no token
    let Some(t) = tokens.iter().find(|t| t.at == place) else {
        return found;
    };
    match t.kind {
        Kind::Number => found.push(format!("refused {row} at a number {}", kind(t))),
        Kind::Fixed("#" | "+" | "/") => found.push(format!("refused {row} at a {}", String::from_utf8_lossy(&t.text))),
        _ => {}
    }
    found
}

/// Where a byte 13 of a line stands.
fn place(facts: &[u8], at: usize) -> &'static str {
    let start = facts[..at].iter().rposition(|&b| b == 10).map_or(0, |n| n + 1);
    let before = &facts[start..at];
    match facts.get(at + 1) {
        None if before.is_empty() => "as the last byte, on an empty line",
        None => "as the last byte, after others of its line",
        Some(10) => "before byte 10",
        Some(13) if at + 2 == facts.len() => "before another, the last byte",
        _ if before.starts_with(b"#") => "in a comment",
        Some(13) => "before another",
        Some(b'.') if before.is_empty() => "before a dot at the line's start",
        _ if before.iter().filter(|&&b| b == b'"').count() % 2 == 1 => "in quotes",
        _ => "elsewhere in a line",
    }
}

/// Where bytes 13 stand in facts, each place once; what else there is on the last line, and which byte at the length limit.
pub fn bytes_13(facts: &[u8]) -> BTreeSet<String> {
    let dot = facts.windows(2).position(|w| w == b"\n.").map_or(facts.len(), |n| n + 1);
    let read = if facts.starts_with(b".") { b"" } else { &facts[..dot] };
    let all = (0..facts.len()).filter(|&i| facts[i] == 13);
    let mut found: BTreeSet<String> = all.map(|i| if i < read.len() { place(facts, i) } else { "after a dot line's dot" }.to_string()).collect();
    let lines: Vec<&[u8]> = read.split_inclusive(|&b| b == 10).collect();
    if found.contains("before byte 10") {
        let alone = lines.iter().filter(|l| l.ends_with(b"\n") && !l.ends_with(b"\r\n")).count();
        found.insert(format!("before {} byte 10", if alone == 0 { "each" } else { "not each" }));
        if lines[lines.len() - 1].iter().any(|&b| b != 13 && !is_legal(b)) {
            found.insert("before byte 10, and an illegal byte on the last line".into());
        }
    }
    if !found.is_empty() && facts.len().abs_diff(32768) <= 1 {
        found.insert(format!("in {} bytes, the last within the limit {}", facts.len(), facts[facts.len().min(32768) - 1]));
    }
    found
}
