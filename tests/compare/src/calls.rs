//! Each call of the archive held to the evaluator's answer, with all memory that it was lent.
use evaluator::generate::Chain;
use evaluator::run::Ending;
use evaluator::{chain, comes_first, counted, element, forms, Accepted, Counts, Ran, Refusal};
use relcalc::c;
use std::collections::BTreeMap;
use std::fmt;

pub type Difference = Result<(), String>;

/// How often each refusal, each ending, each way in which counts change, each kind of relation read back, of chain, of join and of closure
/// was met.
#[derive(Default)]
pub struct Met(BTreeMap<String, usize>);

/// What matters where a chain is found, or none between equal ends.
const CHAINS: [&str; 11] = [
    "no other as short",
    "first by its second number",
    "first by a later number",
    "not first by the last difference",
    "an element joined with itself",
    "round a cycle",
    "64 numbers",
    "65 numbers",
    "smallest neighbours lead nowhere",
    "smallest neighbours lead a longer way",
    "none between equal ends",
];

/// What matters where two texts are joined, or refused for more than a row of one text.
const JOINS: [&str; 18] = [
    "written",
    "nothing to write",
    "a tuple of both",
    "in quotes for the first",
    "in quotes for the second",
    "not the order of the lines' bytes",
    "longer than both texts",
    "16 relations of both",
    "64 elements of both",
    "32,768 bytes",
    "6 for both together",
    "7 for both together",
    "20",
    "20 with a second text that is right by itself",
    "20 where the second gave the first's arity before",
    "21 by the output",
    "21 by 32,768",
    "21 by both",
];

/// What matters where a closure is held to chains, node by node.
const NODES: [&str; 11] = [
    "a table",
    "a pair between worked ends",
    "a pair between ends not worked",
    "a cycle closed",
    "a node joined with itself",
    "a node that adds nothing",
    "no node of its own",
    "elements beside its own nodes",
    "each element its own node",
    "no element",
    "64 elements",
];

impl Met {
    pub fn add(&mut self, what: String) {
        *self.0.entry(what).or_default() += 1;
    }
    pub fn add_all(&mut self, other: Met) {
        other.0.into_iter().for_each(|(what, times)| *self.0.entry(what).or_default() += times);
    }
    fn refused(&mut self, call: &str, r: &Refusal) {
        self.add(format!("{call} {:2}", r.0));
    }
    /// Whether all of them were.
    pub fn all(&self) -> Difference {
        let check = (1..=13).chain([18, 19]).map(|r| format!("check {r:2}"));
        let run = (1..=14).chain([18, 19]).map(|r| format!("run {r:2}"));
        let chain = (1..=7).chain(15..=17).map(|r| format!("chain {r:2}"));
        let endings = ["run Done", "run Spent", "run Full", "check accepted", "chain found"].map(String::from);
        let ways = ["as loaded", "larger", "smaller", "larger and smaller"];
        let counts = ["Done", "Spent", "Full"].into_iter().flat_map(|end| ways.map(|how| format!("{end} with counts {how}")));
        let tuples = (0..=3).flat_map(|n| ["no tuple", "each tuple"].map(|which| format!("read back: {which} of {n}")));
        let pages = ["page of 32767", "page of 32768", "elements in quotes for their texts alone"].map(|what| format!("read back: {what}"));
        let left = ["page too long", "query at its limit", "run not done"].map(|why| format!("not read back: {why}"));
        let chains = CHAINS.map(|kind| format!("chain: {kind}")).into_iter();
        let rows = [1, 2].into_iter().flat_map(|text| (1..=7).map(move |row| format!("join: {row} of text {text}")));
        let joins = JOINS.map(|kind| format!("join: {kind}")).into_iter().chain(rows);
        let nodes = NODES.map(|kind| format!("by nodes: {kind}"));
        let due = check.chain(run).chain(chain).chain(endings).chain(counts).chain(tuples).chain(pages).chain(left);
        let due = due.chain(chains).chain(joins).chain(nodes);
        let never: Vec<String> = due.filter(|w| !self.0.contains_key(w)).collect();
        if never.is_empty() { Ok(()) } else { Err(format!("never met: {}", never.join(", "))) }
    }
}

impl fmt::Display for Met {
    fn fmt(&self, f: &mut fmt::Formatter) -> fmt::Result {
        let all: Vec<String> = self.0.iter().map(|(what, n)| format!("{what}: {n}")).collect();
        write!(f, "{}", all.join("; "))
    }
}

pub fn same<T: PartialEq + fmt::Debug>(what: &str, archive: T, evaluator: T) -> Difference {
    if archive == evaluator { Ok(()) } else { Err(format!("{what}: archive {archive:?}, evaluator {evaluator:?}")) }
}

/// Two stretches of memory, by their first difference.
pub fn same_memory<T: PartialEq + fmt::Debug>(what: &str, archive: &[T], evaluator: &[T]) -> Difference {
    match archive.iter().zip(evaluator).position(|(a, b)| a != b) {
        None => Ok(()),
        Some(i) => same(&format!("{what} {i}"), &archive[i], &evaluator[i]),
    }
}

/// What lent memory holds before a call, different at each place.
fn pattern(n: usize) -> Vec<u64> {
    (1..=n as u64).map(|i| i.wrapping_mul(0x9E37_79B9_7F4A_7C15)).collect()
}
pub fn byte_pattern(n: usize) -> Vec<u8> {
    (0..n).map(|i| (i % 251) as u8 + 3).collect()
}

pub fn check_differs(facts: &[u8], query: &[u8], accepted: &Result<Accepted, Refusal>, met: &mut Met) -> Difference {
    let mut want = c::Checked::default();
    match accepted {
        Err(r) => {
            met.refused("check", r);
            (want.refusal, want.place) = (r.0 as u64, r.1 as u64);
        }
        Ok(w) => {
            met.add("check accepted".into());
            let k = w.checked();
            (want.universe, want.words, want.relations) = (k.universe as u64, k.words as u64, k.records.len() as u64);
            for (to, from) in want.records.iter_mut().zip(k.records) {
                let [text, offset, length, arity, first, count] = from.map(|n| n as u64);
                *to = c::Record { text, offset, length, arity, first, count };
            }
        }
    }
    same("check", c::check(facts, query), want)
}

pub fn counts(ran: &c::Ran) -> Counts {
    ran.counts.map(|n| n as usize)
}

/// Answers the evaluator's run, if the texts and the store are accepted.
pub fn run_differs(facts: &[u8], query: &[u8], accepted: &Result<Accepted, Refusal>, budget: u32, words: usize, room: usize, met: &mut Met) -> Result<Option<Ran>, String> {
    let (mut store, mut output) = (pattern(words), byte_pattern(room));
    let (mut want_store, mut want_output) = (store.clone(), output.clone());
    let mut want = c::Ran::default();
    let answer = accepted.as_ref().map_err(|r| *r).and_then(|w| Ok((w, w.run(budget, words, room)?)));
    match &answer {
        Err(r) => {
            met.refused("run", r);
            (want.refusal, want.place) = (r.0 as u64, r.1 as u64);
        }
        Ok((w, ran)) => {
            met.add(format!("run {:?}", ran.ending));
            met.add(forms::counts(w, ran));
            want.ending = match ran.ending {
                Ending::Done => 0,
                Ending::Spent => 1,
                Ending::Full => 2,
            };
            (want.steps, want.written, want.counts) = (ran.steps, ran.output.len() as u64, ran.counts.map(|n| n as u64));
            want_store[..w.checked().words].fill(0);
            want_store[..ran.tables.len()].copy_from_slice(&ran.tables);
            want_output[..ran.output.len()].copy_from_slice(&ran.output);
        }
    }
    let found = c::run(facts, query, budget, &mut store, &mut output);
    let lent = format!("run with budget {budget}, {words} words, {room} bytes");
    same(&lent, found, want)?;
    same_memory(&format!("{lent}: word"), &store, &want_store)?;
    same_memory(&format!("{lent}: byte"), &output, &want_output)?;
    let Ok((w, ran)) = answer else {
        return Ok(None);
    };
    counted::agree(&w.checked(), &store, &counts(&found))?;
    Ok(Some(ran))
}

/// All elements, and numbers that are none.
pub fn elements_differ(facts: &[u8], query: &[u8], accepted: &Result<Accepted, Refusal>) -> Difference {
    let u = accepted.as_ref().map_or(0, |w| w.universe.len());
    for n in (0..=u + 1).chain([64, 255, 256, u32::MAX as usize + 1, usize::MAX]) {
        let [text, offset, length] = element(accepted, n).map(|n| n as u64);
        same(&format!("element {n}"), c::element(facts, query, n), c::Part { text, offset, length })?;
    }
    Ok(())
}

/// The archive's chain is held to every other for its question before it is held to the evaluator's, so that it is seen which one is wrong.
pub fn chain_differs(facts: &[u8], call: &Chain, met: &mut Met) -> Difference {
    let mut buffer = byte_pattern(call.room);
    let mut want_buffer = buffer.clone();
    let found = c::chain(facts, &call.name, &call.first, &call.second, &mut buffer);
    let text = |t: &[u8]| String::from_utf8_lossy(t).into_owned();
    let lent = format!("chain {:?} {:?} {:?} with {} bytes", text(&call.name), text(&call.first), text(&call.second), call.room);
    let question = chain::question(facts, &call.name, &call.first, &call.second, call.room);
    if let (Ok(q), 0) = (&question, found.refusal) {
        let numbers: Vec<usize> = buffer.iter().take(found.count as usize).map(|&n| n as usize).collect();
        comes_first::of_all(q, &numbers).map_err(|e| format!("{lent}: {e}"))?.into_iter().for_each(|kind| met.add(kind));
    }
    let mut want = c::Chained::default();
    match question.and_then(|q| q.answer()) {
        Err(r) => {
            met.refused("chain", &r);
            if r.0 == 17 && call.first == call.second {
                met.add("chain: none between equal ends".into());
            }
            (want.refusal, want.place) = (r.0 as u64, r.1 as u64);
        }
        Ok(numbers) => {
            met.add("chain found".into());
            want.count = numbers.len() as u64;
            want_buffer.iter_mut().zip(numbers).for_each(|(byte, n)| *byte = n as u8);
        }
    }
    same(&lent, found, want)?;
    same_memory(&format!("{lent}: byte"), &buffer, &want_buffer)
}
