//! What papers of document 02 promise as properties is said of any calculator: of the evaluator here, and of the archive.
use crate::join::{join, Told};
use crate::run::Ending;
use crate::{accept, Checked, Counts, Ran, Refusal};

/// What a check answers, then a run with as much store as it needs.
pub struct Answer {
    pub checked: Checked,
    pub ending: Ending,
    pub steps: u64,
    pub output: Vec<u8>,
    /// the relations' words, and perhaps more
    pub store: Vec<u64>,
    pub counts: Counts,
}

pub trait Calculator {
    fn answer(&self, facts: &[u8], query: &[u8], budget: u32, room: usize) -> Result<Answer, Refusal>;
    /// The texts of all elements by number, of which there are so many.
    fn elements(&self, facts: &[u8], query: &[u8], count: usize) -> Vec<Vec<u8>>;
    /// What is written to an output of so many bytes.
    fn join(&self, first: &[u8], second: &[u8], room: usize) -> Result<Vec<u8>, Told>;
}

pub struct Evaluator;

impl Calculator for Evaluator {
    fn answer(&self, facts: &[u8], query: &[u8], budget: u32, room: usize) -> Result<Answer, Refusal> {
        let accepted = accept(facts, query)?;
        let checked = accepted.checked();
        let Ran { ending, steps, output, tables: store, counts, .. } = accepted.run(budget, checked.words, room)?;
        Ok(Answer { checked, ending, steps, output, store, counts })
    }
    fn elements(&self, facts: &[u8], query: &[u8], _: usize) -> Vec<Vec<u8>> {
        accept(facts, query).map_or(Vec::new(), |w| w.universe)
    }
    fn join(&self, first: &[u8], second: &[u8], room: usize) -> Result<Vec<u8>, Told> {
        join(first, second, room)
    }
}

/// What a property finds that should be the same.
pub fn same<T: PartialEq>(what: &str, found: T, due: T) -> Result<(), String> {
    if found == due { Ok(()) } else { Err(format!("{what} differs")) }
}

pub fn refused((row, at): Refusal) -> String {
    format!("refused {row} {at}")
}
