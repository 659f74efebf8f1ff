//! Paper 3 of document 02 as a property, of the evaluator as of the archive: "a relation printed with its own name in front, on a page of
//! at most 32,768 bytes, and read back as facts has the same tuples of texts; an empty relation prints nothing and counts as empty when
//! absent."
use crate::calculator::{refused, same, Answer, Calculator};
use crate::facts::{needs_quotes, Relation};
use crate::generate::Texts;
use crate::join::Tuples;
use crate::names::Names;
use crate::run::Ending;
use crate::{tokens, Accepted};
use std::collections::BTreeSet;

/// The longest page that is spoken of.
const PAGE: usize = 32768;
/// Bytes lent to a run: enough for the pages of all its relations, most times.
const ROOM: usize = 1 << 22;

impl Answer {
    /// "Tuple (a) is bit a; (a,b) is bit b of word a; (a,b,c) is bit c of word U × a + b; the empty tuple is bit 0."
    pub fn tuples(&self, relation: usize, elements: &[Vec<u8>]) -> Tuples {
        let [_, _, _, arity, ..] = self.checked.records[relation];
        let u = self.checked.universe;
        let mut found = Tuples::new();
        for (n, word) in self.store[self.checked.table(relation)].iter().enumerate() {
            for bit in (0..64).filter(|bit| word >> bit & 1 == 1) {
                let numbers = [n / u.max(1), n % u.max(1), bit];
                found.insert(numbers[3 - arity..].iter().map(|&a| elements[a].clone()).collect());
            }
        }
        found
    }
}

/// `PRINT ["R"] R(x0,x1,..);`: an attribute for each column, by a name that has no other kind.
fn print_of(r: &Relation, names: &Names) -> String {
    let name = String::from_utf8_lossy(&r.name);
    let attributes = (0..).map(|i| format!("x{i}")).filter(|x| names.may_be_attribute(x.as_bytes()));
    format!("PRINT [\"{name}\"] {name}({});", attributes.take(r.arity).collect::<Vec<_>>().join(","))
}

/// The query, then each PRINT, with an empty line behind its page; on lines of their own, since the query may end in a comment. None where
/// that is over a limit.
fn with_prints(query: &[u8], prints: &[String]) -> Option<Vec<u8>> {
    let mut text = query.to_vec();
    prints.iter().for_each(|print| text.extend(format!("\n{print} PRINT ENDL;").bytes()));
    tokens::read(&text).is_ok().then_some(text)
}

/// The pages that end with empty lines: no other line is empty, since each begins with a name.
fn pages(output: &[u8]) -> Vec<Vec<u8>> {
    let mut found = vec![Vec::new()];
    for line in output.split_inclusive(|&b| b == 10) {
        match line {
            b"\n" => found.push(Vec::new()),
            _ => found.last_mut().unwrap().extend(line),
        }
    }
    found.pop();
    found
}

/// A page is empty where there are no tuples. Read as facts it gives the tuples and no element besides, and is printed again.
fn read(c: &impl Calculator, page: &[u8], print: &str, tuples: &Tuples) -> Result<(), String> {
    same("whether the page is empty", page.is_empty(), tuples.is_empty())?;
    let back = c.answer(page, print.as_bytes(), 1, PAGE).map_err(refused)?;
    let elements = c.elements(page, print.as_bytes(), back.checked.universe);
    same("what is read", &back.tuples(0, &elements), tuples)?;
    same("its count", back.checked.records.iter().map(|[.., count]| *count).collect(), vec![tuples.len()])?;
    same("the universe", back.checked.universe, tuples.iter().flatten().collect::<BTreeSet<_>>().len())?;
    same("what is printed again", (back.ending, &back.output[..]), (Ending::Done, page))
}

/// What is met where a relation is read back.
fn met(w: &Accepted, r: &Relation, tuples: &Tuples, page: &[u8]) -> Vec<String> {
    let which = match tuples.len() {
        0 => "no tuple",
        n if n == w.universe.len().pow(r.arity as u32) => "each tuple",
        _ => "some tuples",
    };
    let mut found = vec![format!("read back: {which} of {}", r.arity)];
    if tuples.iter().flatten().any(|e| needs_quotes(e) && !w.facts.quote(e)) {
        found.push("read back: elements in quotes for their texts alone".into());
    }
    if page.len() + 1 >= PAGE {
        found.push(format!("read back: page of {}", page.len()));
    }
    found
}

/// The pages of all relations, printed by a query that goes on behind its end; none where they are too long together.
fn printed(c: &impl Calculator, t: &Texts, query: &[u8], end: &Answer, count: usize) -> Result<Option<Vec<Vec<u8>>>, String> {
    let (steps, before) = (end.steps + 2 * count as u64, end.output.len());
    let answer = c.answer(&t.facts, query, steps as u32, before + ROOM).map_err(refused)?;
    if answer.ending == Ending::Full {
        return Ok(None);
    }
    let (found, due) = ((answer.ending, answer.steps, &answer.store, answer.counts), (Ending::Done, steps, &end.store, end.counts));
    same("the run with PRINTs", found, due)?;
    same("what it prints before them", answer.output.get(..before), Some(&end.output[..]))?;
    let pages = pages(&answer.output[before..]);
    same("the number of pages", pages.len(), count)?;
    Ok(Some(pages))
}

/// Each relation at the end of a run, read back from its page: what is met, or what differs. Left out are runs that are not done within
/// the budget, queries too long to be followed by PRINTs, and pages that are too long.
pub fn relations(c: &impl Calculator, t: &Texts, w: &Accepted) -> Result<Vec<String>, String> {
    let left = |why: &str| Ok(vec![format!("not read back: {why}")]);
    let end = c.answer(&t.facts, &t.query, t.budget, ROOM).map_err(refused)?;
    if end.ending != Ending::Done {
        return left("run not done");
    }
    let prints: Vec<String> = w.names.relations.iter().map(|r| print_of(r, &w.names)).collect();
    let Some(query) = with_prints(&t.query, &prints) else {
        return left("query at its limit");
    };
    let Some(pages) = printed(c, t, &query, &end, prints.len())? else {
        return left("pages too long together");
    };
    let elements = c.elements(&t.facts, &t.query, end.checked.universe);
    let mut found = vec!["read back: text".to_string()];
    for (n, (page, print)) in pages.iter().zip(&prints).enumerate() {
        if page.len() > PAGE {
            found.push("not read back: page too long".into());
            continue;
        }
        let tuples = end.tuples(n, &elements);
        read(c, page, print, &tuples).map_err(|e| format!("{print} {e}"))?;
        found.extend(met(w, &w.names.relations[n], &tuples, page));
    }
    Ok(found)
}
