//! Compares the archive with the evaluator, byte for byte: the check, runs, all elements, chains and joins, over generated texts and over
//! the cases; relations are also printed and read back, their tuples counted, chains held to every other for their question, joins to what
//! their texts read as, and closures to chains after each node. The last line is `N passed, M failed`, a text, join or case each.
mod calls;
mod joins;
mod properties;

use calls::{chain_differs, check_differs, elements_differ, run_differs, Difference, Met};
use evaluator::cases::{chain_agrees, check_agrees, element_agrees, holds, join_agrees, nodes_agree, run_agrees, tables};
use evaluator::generate::{texts, Chain, Texts};
use evaluator::json::{read, Json};
use evaluator::run::Ending;
use evaluator::two_files::{self, Join};
use evaluator::{accept, either_way, Accepted, Refusal};
use joins::join_differs;
use properties::{closing_differs, counted_differs, read_back_differs, tables_differ};
use std::thread;

/// Differences that are shown whole.
const SHOWN: usize = 10;

#[derive(Default)]
struct Counts {
    passed: usize,
    failed: usize,
}

impl Counts {
    fn add(&mut self, what: &str, found: Difference) {
        let Err(difference) = found else {
            self.passed += 1;
            return;
        };
        self.failed += 1;
        if self.failed <= SHOWN {
            println!("{what}: {difference}");
        }
    }
}

/// The run that a text asks for, then runs with budget, store and buffer at the edge of what the first one took, and with a buffer that
/// a PRINT before the last fills, or would by one byte more.
fn runs_differ(t: &Texts, accepted: &Result<Accepted, Refusal>, met: &mut Met) -> Difference {
    let needed = accepted.as_ref().map_or(0, |w| w.checked().words);
    let words = if t.spare < 0 { needed.saturating_sub(1) } else { needed + t.spare as usize };
    let run = |budget: u32, words: usize, room: usize, met: &mut Met| run_differs(&t.facts, &t.query, accepted, budget, words, room, met);
    let Some(ran) = run(t.budget, words, t.room, met)? else {
        return Ok(());
    };
    let (steps, written) = (ran.steps as u32, ran.output.len());
    if ran.ending == Ending::Done {
        run(u32::MAX, needed, written, met)?;
        run(steps - 1, needed, written, met)?;
    }
    if written > 0 {
        run(t.budget, needed + 1, written - 1, met)?;
    }
    if let Some(&page) = ran.pages.get(ran.pages.len() / 2).filter(|&&page| 0 < page && page < written) {
        run(t.budget, needed, page - 1, met)?;
        run(t.budget, needed, page, met)?;
    }
    run(steps, needed, written + 1, met)?;
    Ok(())
}

fn text_differs(t: &Texts, met: &mut Met) -> Difference {
    let accepted = accept(&t.facts, &t.query);
    if !either_way::agrees(t, &accepted) {
        return Err("the evaluator answers otherwise where the facts are saved with CR LF".into());
    }
    check_differs(&t.facts, &t.query, &accepted, met)?;
    if t.elements {
        elements_differ(&t.facts, &t.query, &accepted)?;
    }
    runs_differ(t, &accepted, met)?;
    read_back_differs(t, &accepted, met)?;
    counted_differs(t, &accepted)?;
    closing_differs(t, met)?;
    t.chains.iter().try_for_each(|c| chain_differs(&t.facts, c, met))
}

fn agrees(holds: bool) -> Difference {
    if holds { Ok(()) } else { Err("the evaluator's answer is not the case's".into()) }
}

fn case_differs(c: &Json, met: &mut Met) -> Difference {
    let (facts, query) = (c.get("facts").bytes(), c.get("query").bytes());
    let accepted = accept(&facts, &query);
    agrees(check_agrees(c, &facts, &query) && run_agrees(c, &facts, &query))?;
    check_differs(&facts, &query, &accepted, met)?;
    elements_differ(&facts, &query, &accepted)?;
    let number = |key: &str| c.get(key).number() as usize;
    let (budget, room) = (number("budget") as u32, number("out"));
    run_differs(&facts, &query, &accepted, budget, number("store"), room, met)?;
    let t = Texts { facts, query, budget, spare: 0, room, elements: true, chains: Vec::new(), closing: None };
    read_back_differs(&t, &accepted, met)?;
    counted_differs(&t, &accepted)
}

fn element_case_differs(c: &Json) -> Difference {
    agrees(element_agrees(c))?;
    let (facts, query) = (c.get("facts").bytes(), c.get("query").bytes());
    elements_differ(&facts, &query, &accept(&facts, &query))
}

fn chain_case_differs(c: &Json, met: &mut Met) -> Difference {
    agrees(chain_agrees(c))?;
    let bytes = |key: &str| c.get(key).bytes();
    let chain = Chain { name: bytes("rel"), first: bytes("a"), second: bytes("b"), room: c.get("buflen").number() as usize };
    chain_differs(&bytes("facts"), &chain, met)
}

fn join_case_differs(c: &Json, met: &mut Met) -> Difference {
    agrees(join_agrees(c))?;
    let call = Join { first: c.get("first").bytes(), second: c.get("second").bytes(), room: c.get("outlen").number() as usize };
    join_differs(&call, met)
}

fn nodes_case_differs(c: &Json, met: &mut Met) -> Difference {
    agrees(nodes_agree(c))?;
    tables_differ(&tables(c), met)
}

fn cases(path: &str, counts: &mut Counts, met: &mut Met) {
    let all = read(&std::fs::read_to_string(path).expect("a file of cases"));
    let of = |key: &str| all.get(key).list().iter().filter(|c| holds(c));
    let name = |c: &Json| format!("case {}", c.get("name").text());
    of("cases").for_each(|c| counts.add(&name(c), case_differs(c, met)));
    of("elements").for_each(|c| counts.add(&name(c), element_case_differs(c)));
    of("chains").for_each(|c| counts.add(&name(c), chain_case_differs(c, met)));
    of("joins").for_each(|c| counts.add(&name(c), join_case_differs(c, met)));
    of("nodes").for_each(|c| counts.add(&name(c), nodes_case_differs(c, met)));
}

/// Those of document 01, and those of document 02's papers.
const CASES: [&str; 2] = [concat!(env!("CARGO_MANIFEST_DIR"), "/../cases.json"), concat!(env!("CARGO_MANIFEST_DIR"), "/../papers.json")];

/// `--count N` texts from `--first K` on, and the cases in `--cases FILE` alone.
struct Options {
    first: u64,
    count: u64,
    cases: Vec<String>,
}

fn options() -> Options {
    let mut found = Options { first: 0, count: 20_000, cases: CASES.map(String::from).to_vec() };
    let mut words = std::env::args().skip(1);
    while let Some(word) = words.next() {
        let value = words.next().unwrap_or_else(|| panic!("{word} of what?"));
        match word.as_str() {
            "--first" => found.first = value.parse().expect("a number"),
            "--count" => found.count = value.parse().expect("a number"),
            "--cases" => found.cases = vec![value],
            _ => panic!("unknown option {word}"),
        }
    }
    found
}

/// A difference, with the two texts that it is met in.
fn shown(found: Difference, [(one, first), (two, second)]: [(&str, &[u8]); 2]) -> Difference {
    found.map_err(|d| format!("{d}\n  {one} {:?}\n  {two} {:?}", String::from_utf8_lossy(first), String::from_utf8_lossy(second)))
}

/// Enough for the deepest query, on both sides.
const STACK: usize = 64 << 20;

/// The texts, and the joins that go with them, of every `step`th number from `start` on.
fn every(o: &Options, start: u64, step: u64) -> (Counts, Met) {
    let (mut counts, mut met) = (Counts::default(), Met::default());
    for number in (o.first + start..o.first + o.count).step_by(step as usize) {
        let t = texts(number);
        let found = text_differs(&t, &mut met);
        counts.add(&format!("text {number}"), shown(found, [("facts", &t.facts), ("query", &t.query)]));
        for j in two_files::calls(number) {
            let found = join_differs(&j, &mut met);
            counts.add(&format!("join of text {number}"), shown(found, [("first", &j.first), ("second", &j.second)]));
        }
    }
    (counts, met)
}

/// All numbers, shared out over the cores.
fn numbers(o: &Options, counts: &mut Counts, met: &mut Met) {
    let cores = thread::available_parallelism().map_or(1, usize::from) as u64;
    thread::scope(|s| {
        let begin = |start| thread::Builder::new().stack_size(STACK).spawn_scoped(s, move || every(o, start, cores)).expect("a thread");
        let begun: Vec<_> = (0..cores).map(begin).collect();
        for part in begun {
            let (more, new) = part.join().expect("a thread that ends");
            counts.passed += more.passed;
            counts.failed += more.failed;
            met.add_all(new);
        }
    });
}

fn main() {
    let o = options();
    let (mut counts, mut met) = (Counts::default(), Met::default());
    numbers(&o, &mut counts, &mut met);
    o.cases.iter().for_each(|path| cases(path, &mut counts, &mut met));
    if o.first == 0 && o.count >= 20_000 {
        counts.add("texts", met.all());
    }
    println!("{met}");
    println!("{} passed, {} failed", counts.passed, counts.failed);
    std::process::exit((counts.failed > 0) as i32);
}
