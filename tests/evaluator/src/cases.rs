//! The evaluator held to a file of test cases.
use crate::by_nodes::{self, Table};
use crate::calculator::Evaluator;
use crate::json::Json;
use crate::run::Ending;
use crate::{accept, chain, check, comes_first, element, join, joined, run, Refusal};

/// Papers 1 to this one of document 02 are in force.
const PAPERS: u64 = 8;

/// Whether a case holds now: one of document 02 says after which papers it does.
pub fn holds(c: &Json) -> bool {
    let after = c.get("holds_at").list();
    after.is_empty() || after.iter().any(|n| n.number() == PAPERS)
}

fn refusal(j: &Json) -> Option<Refusal> {
    let l = j.get("refused").list();
    (!l.is_empty()).then(|| (l[0].number() as u32, l[1].number() as usize))
}

fn text_number(j: &Json) -> usize {
    if j.text() == "facts" { 0 } else { 1 }
}

fn numbers(l: &[Json]) -> Vec<usize> {
    l.iter().map(|n| n.number() as usize).collect()
}

pub fn check_agrees(c: &Json, facts: &[u8], query: &[u8]) -> bool {
    let want = c.get("check");
    match check(facts, query) {
        Err(r) => refusal(want) == Some(r),
        Ok(k) => {
            let record = |r: &Json| [vec![text_number(&r.list()[0])], numbers(&r.list()[1..])].concat();
            let records: Vec<Vec<usize>> = want.get("relations").list().iter().map(record).collect();
            refusal(want).is_none() && k.universe == want.get("U").number() as usize && k.words == want.get("words").number() as usize && records == k.records
        }
    }
}

pub fn run_agrees(c: &Json, facts: &[u8], query: &[u8]) -> bool {
    let want = c.get("run");
    match run(facts, query, c.get("budget").number() as u32, c.get("store").number() as usize, c.get("out").number() as usize) {
        Err(r) => refusal(want) == Some(r),
        Ok(k) => {
            let ending = match k.ending {
                Ending::Done => "done",
                Ending::Spent => "spent",
                Ending::Full => "full",
            };
            let tables: Vec<u64> = want.get("tables").list().iter().map(Json::number).collect();
            let counts = numbers(want.get("counts").list());
            refusal(want).is_none() && ending == want.get("ending").text() && k.steps == want.get("steps").number() && k.output == want.get("output").bytes() && k.tables == tables && counts == k.counts
        }
    }
}

pub fn element_agrees(c: &Json) -> bool {
    let e = c.get("expect").list();
    element(&accept(&c.get("facts").bytes(), &c.get("query").bytes()), c.get("n").number() as usize) == [text_number(&e[0]), e[1].number() as usize, e[2].number() as usize]
}

/// The case's own chain is held to what Paper 6 says of every other, too.
pub fn chain_agrees(c: &Json) -> bool {
    let room = c.get("buflen").number() as usize;
    let question = chain::question(&c.get("facts").bytes(), &c.get("rel").bytes(), &c.get("a").bytes(), &c.get("b").bytes(), room);
    match question.and_then(|q| Ok((q.answer()?, q))) {
        Err(r) => refusal(c) == Some(r),
        Ok((found, q)) => {
            let want = numbers(c.get("chain").list());
            refusal(c).is_none() && found == want && comes_first::of_all(&q, &want).is_ok()
        }
    }
}

/// The case's texts are held to what Paper 7 says of every result, too.
pub fn join_agrees(c: &Json) -> bool {
    let (first, second, room) = (c.get("first").bytes(), c.get("second").bytes(), c.get("outlen").number() as usize);
    let agrees = match join::join(&first, &second, room) {
        Err((r, text)) => refusal(c) == Some(r) && c.get("text").number() as usize == text,
        Ok(found) => refusal(c).is_none() && c.get("length").number() as usize == found.len() && c.get("output").bytes() == found,
    };
    agrees && joined::of(&Evaluator, &first, &second, room).is_ok()
}

/// The words of a case's pairs.
fn table(pairs: &Json, u: usize) -> Table {
    let mut words = vec![0; u];
    pairs.list().iter().map(|p| numbers(p.list())).for_each(|p| words[p[0]] |= 1 << p[1]);
    words
}

/// A case's tables after 0, 1, .. nodes.
pub fn tables(c: &Json) -> Vec<Table> {
    c.get("tables").list().iter().map(|pairs| table(pairs, c.get("u").number() as usize)).collect()
}

/// The case's tables are those that a search finds, and those of the manual's programs.
pub fn nodes_agree(c: &Json) -> bool {
    let due = tables(c);
    by_nodes::tables(&table(c.get("pairs"), c.get("u").number() as usize)) == due && by_nodes::of_known(&Evaluator, &due).is_ok()
}
