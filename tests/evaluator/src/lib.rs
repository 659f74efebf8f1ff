//! An evaluator of RML over RSF for the tests: written from documents 01 and 02 alone, with sets of tuples and a big-step run, so that it
//! shares no fault with the engine or its definition.
pub mod by_nodes;
pub mod calculator;
pub mod cases;
pub mod chain;
pub mod closed;
pub mod comes_first;
pub mod counted;
pub mod either_way;
pub mod entered;
pub mod facts;
pub mod forms;
pub mod generate;
pub mod join;
pub mod joined;
pub mod json;
pub mod meaning;
pub mod names;
pub mod nodes;
pub mod parse;
pub mod pattern;
pub mod picked;
pub mod ratio;
pub mod read_back;
pub mod resized;
pub mod run;
pub mod saved;
pub mod shapes;
pub mod shares;
pub mod ties;
pub mod tokens;
pub mod two_files;

use facts::{Element, Facts};
use meaning::{Row, Set, World};
use names::Names;
use parse::Stmt;
use pattern::Pattern;
use run::{Changes, Ending, Printed, Run};
use std::cell::{OnceCell, RefCell};
use std::collections::{BTreeMap, BTreeSet};
use std::ops::Range;
use tokens::{Kind, Token};

/// A row of document 01's table and its place.
pub type Refusal = (u32, usize);

/// Two accepted texts.
pub struct Accepted {
    pub facts: Facts,
    pub program: Vec<Stmt>,
    /// by their texts
    pub patterns: BTreeMap<Vec<u8>, Pattern>,
    pub names: Names,
    pub universe: Vec<Vec<u8>>,
    /// by a pattern's text, the elements that match; found once, since a comparison runs the same texts several times
    matching: OnceCell<BTreeMap<Vec<u8>, Set>>,
}

fn table_words(u: usize, arity: usize) -> usize {
    if arity < 2 {
        1
    } else {
        u.pow(arity as u32 - 1)
    }
}

/// The strings of a program that are patterns, in text order.
pub fn pattern_strings(tokens: &[Token]) -> impl Iterator<Item = &Token> {
    tokens.windows(2).filter(|w| w[0].kind == Kind::Fixed("@")).map(|w| &w[1])
}

/// The patterns of a program; row 18.
fn patterns(tokens: &[Token]) -> Result<BTreeMap<Vec<u8>, Pattern>, Refusal> {
    pattern_strings(tokens).map(|t| Ok((t.text.clone(), pattern::read(&t.text).map_err(|_| (18, t.at))?))).collect()
}

pub fn accept(facts_text: &[u8], query: &[u8]) -> Result<Accepted, Refusal> {
    let facts = facts::read(facts_text)?;
    let tokens = tokens::read(query)?;
    let program = parse::read(&tokens, query.len())?;
    let patterns = patterns(&tokens)?;
    let names = names::check(&facts, &program)?;
    let mut universe = facts.universe.clone();
    for t in names::left_strings(&program) {
        universe.insert(t.text.clone());
        if universe.len() > 64 {
            return Err((7, t.at));
        }
    }
    Ok(Accepted { facts, program, patterns, names, universe: universe.into_iter().collect(), matching: OnceCell::new() })
}

/// A relation's record: text, offset, length, arity, first word, number of tuples as loaded.
pub type Record = [usize; 6];

#[derive(PartialEq, Debug)]
pub struct Checked {
    pub universe: usize,
    pub words: usize,
    pub records: Vec<Record>,
}

impl Checked {
    /// Where a relation's words stand in the store.
    pub fn table(&self, relation: usize) -> Range<usize> {
        let [_, _, _, arity, first, _] = self.records[relation];
        first..first + table_words(self.universe, arity)
    }
}

/// A number for each relation that two texts may have, in store order.
pub type Counts = [usize; 16];

impl Accepted {
    pub fn checked(&self) -> Checked {
        let u = self.universe.len();
        let mut records = Vec::new();
        let (mut first, mut largest) = (0, 0);
        for (r, count) in self.names.relations.iter().zip(self.counts(&self.loaded())) {
            records.push([r.text, r.at, r.name.len(), r.arity, first, count]);
            first += table_words(u, r.arity);
            largest = largest.max(table_words(u, r.arity));
        }
        Checked { universe: u, words: first + largest + 16 * u, records }
    }
    fn number(&self, text: &[u8]) -> usize {
        self.universe.iter().position(|t| t == text).unwrap()
    }
    fn loaded(&self) -> BTreeMap<Vec<u8>, Set> {
        let mut tables: BTreeMap<Vec<u8>, Set> = self.names.relations.iter().map(|r| (r.name.clone(), Set::new())).collect();
        for f in &self.facts.facts {
            let tuple = f.elements.iter().map(|e| self.number(&e.value)).collect();
            tables.get_mut(&f.name).unwrap().insert(tuple);
        }
        tables
    }
    /// The sizes of the relations' sets; "unused records all zero".
    fn counts(&self, tables: &BTreeMap<Vec<u8>, Set>) -> Counts {
        let mut counts = Counts::default();
        self.names.relations.iter().zip(&mut counts).for_each(|(r, count)| *count = tables[&r.name].len());
        counts
    }
    fn matching(&self) -> BTreeMap<Vec<u8>, Set> {
        let elements = |p: &Pattern| (0..self.universe.len()).filter(|&a| p.matches(&self.universe[a])).map(|a| Row::from_iter([a])).collect();
        self.patterns.iter().map(|(text, p)| (text.clone(), elements(p))).collect()
    }
    /// A table's words.
    fn words(&self, tuples: &Set, arity: usize) -> Vec<u64> {
        let u = self.universe.len();
        let mut words = vec![0; table_words(u, arity)];
        for t in tuples {
            let last = if arity == 0 { 0 } else { t.at(arity - 1) };
            words[t.iter().take(arity.saturating_sub(1)).fold(0, |w, a| w * u + a)] |= 1u64 << last;
        }
        words
    }
}

#[derive(PartialEq, Debug)]
pub struct Ran {
    pub ending: Ending,
    pub steps: u64,
    pub output: Vec<u8>,
    /// the output's length after each PRINT
    pub pages: Vec<usize>,
    pub printed: Printed,
    pub changes: Changes,
    /// what quantities came to where they were compared or printed
    pub came_to: BTreeSet<&'static str>,
    /// the relations' words, in store order
    pub tables: Vec<u64>,
    /// how many tuples each relation has
    pub counts: Counts,
}

pub fn check(facts: &[u8], query: &[u8]) -> Result<Checked, Refusal> {
    Ok(accept(facts, query)?.checked())
}

pub fn run(facts: &[u8], query: &[u8], budget: u32, store: usize, room: usize) -> Result<Ran, Refusal> {
    accept(facts, query)?.run(budget, store, room)
}

impl Accepted {
    pub fn run(&self, budget: u32, store: usize, room: usize) -> Result<Ran, Refusal> {
        let needed = self.checked().words;
        if store < needed {
            return Err((14, needed));
        }
        let matching = self.matching.get_or_init(|| self.matching());
        let world = World {
            universe: &self.universe,
            names: &self.names,
            matching,
            tables: self.loaded(),
            variables: BTreeMap::new(),
            came_to: RefCell::default(),
        };
        let quoted: BTreeSet<usize> =
            self.facts.facts.iter().flat_map(|f| &f.elements).filter(|e| e.quoted).map(|e| self.number(&e.value)).collect();
        let mut run = Run::new(world, quoted, budget, room);
        let ending = run.program(&self.program);
        let tables = self.names.relations.iter().flat_map(|r| self.words(&run.world.tables[&r.name], r.arity)).collect();
        let counts = self.counts(&run.world.tables);
        let came_to = run.world.came_to.take();
        let Run { steps, output, pages, printed, changes, .. } = run;
        Ok(Ran { ending, steps, output, pages, printed, changes, came_to, tables, counts })
    }
    fn element(&self, n: usize) -> [usize; 3] {
        let Some(text) = self.universe.get(n) else {
            return [1, 0, 0];
        };
        let mut in_facts = self.facts.facts.iter().flat_map(|f: &facts::Fact| &f.elements);
        if let Some(Element { quoted, at, .. }) = in_facts.find(|e| e.value == *text) {
            return [0, at + *quoted as usize, text.len()];
        }
        let t = names::left_strings(&self.program).into_iter().find(|t| t.text == *text).unwrap();
        [1, t.at + 1, text.len()]
    }
}

/// The text (0 facts, 1 query), offset and length of element n.
pub fn element(accepted: &Result<Accepted, Refusal>, n: usize) -> [usize; 3] {
    accepted.as_ref().map_or([1, 0, 0], |w| w.element(n))
}
