//! How many generated texts are accepted, how the others are refused, which forms the accepted ones have, which elements they print,
//! what ratios come to, how large relations become and which are read back, what malformed patterns and numbers come to, where bytes 13
//! stand, which chains there are, how texts are joined, and what closures come to node by node: what the comparisons reach.
use evaluator::calculator::Evaluator;
use evaluator::generate::{texts, Chain, Texts, LIMITS};
use evaluator::read_back::relations;
use evaluator::two_files::{calls, Join};
use evaluator::{accept, by_nodes, chain, comes_first, counted, forms, joined, Accepted};
use std::collections::BTreeMap;

/// What accepted texts have and what their runs do.
fn reached(t: &Texts, w: &Accepted) -> Vec<String> {
    let mut found = forms::of(w);
    if let Ok(ran) = w.run(t.budget, w.checked().words, t.room) {
        found.extend(forms::printed(w, &ran));
        found.push(forms::counts(w, &ran));
        found.extend(forms::changes(&ran));
        found.extend(ran.came_to.iter().map(|what| what.to_string()));
    }
    found.extend(relations(&Evaluator, t, w).unwrap_or_else(|e| vec![format!("read back: {e}")]));
    found.extend(counted::relations(&Evaluator, t).err().map(|e| format!("counted: {e}")));
    let closed = |e| by_nodes::of(&Evaluator, &t.facts, e).unwrap_or_else(|e| vec![format!("by nodes: {e}")]);
    found.extend(t.closing.into_iter().flat_map(closed));
    found
}

/// What a question comes to.
fn answered(facts: &[u8], c: &Chain) -> Vec<String> {
    match chain::question(facts, &c.name, &c.first, &c.second, c.room).and_then(|q| Ok((q.answer()?, q))) {
        Ok((found, q)) => {
            let kinds = comes_first::of_all(&q, &found).unwrap_or_else(|e| vec![format!("first chain: {e}")]);
            [vec!["chain".to_string()], kinds].concat()
        }
        Err((17, _)) if c.first == c.second => vec!["chain refused 17".into(), "chain refused 17 with equal ends".into()],
        Err((row, _)) => vec![format!("chain refused {row:2}")],
    }
}

/// What a join comes to, and what it holds to.
fn joined_as(j: &Join) -> Vec<String> {
    joined::of(&Evaluator, &j.first, &j.second, j.room).unwrap_or_else(|e| vec![format!("join: {e}")])
}

fn main() {
    let count: u64 = std::env::args().nth(1).map_or(20_000, |n| n.parse().expect("a number of texts"));
    let mut tally: BTreeMap<String, u64> = BTreeMap::new();
    for number in 0..count {
        let t = texts(number);
        let accepted = accept(&t.facts, &t.query);
        forms::bytes_13(&t.facts).into_iter().for_each(|place| *tally.entry(format!("byte 13 {place}")).or_default() += 1);
        if t.query.contains(&13) {
            *tally.entry("byte 13 in the query".into()).or_default() += 1;
        }
        forms::malformed(&t.facts, &t.query).into_iter().for_each(|how| *tally.entry(how).or_default() += 1);
        forms::numbers(&t.facts, &t.query).into_iter().for_each(|what| *tally.entry(what).or_default() += 1);
        if let Ok(w) = &accepted {
            reached(&t, w).into_iter().for_each(|form| *tally.entry(form).or_default() += 1);
        }
        let store = |needed: usize| (needed as i64 + t.spare).max(0) as usize;
        let what = match accepted.and_then(|w| w.run(t.budget, store(w.checked().words), t.room)) {
            Ok(r) => format!("{:?}", r.ending),
            Err((row, place)) => {
                if number < 3 * LIMITS as u64 {
                    println!("limit {:2} {}: refused {row} {place}", number / 3, ["below", "at", "above"][number as usize % 3]);
                }
                format!("refused {row:2}")
            }
        };
        *tally.entry(what).or_default() += 1;
        t.chains.iter().flat_map(|c| answered(&t.facts, c)).for_each(|what| *tally.entry(what).or_default() += 1);
        calls(number).iter().flat_map(joined_as).for_each(|what| *tally.entry(what).or_default() += 1);
    }
    for (what, n) in tally {
        println!("{n:7} {what}");
    }
}
