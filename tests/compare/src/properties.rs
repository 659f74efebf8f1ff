//! What papers of document 02 promise of any calculator, through the archive: each relation that a run leaves, printed and read back
//! (Paper 3), the counts of runs, as many as the tables have tuples (Paper 4), two texts joined, which read as their union (Paper 7), and
//! closures node by node, as chains have them (Paper 8).
use crate::calls::{counts, Difference, Met};
use evaluator::by_nodes::{self, Table};
use evaluator::calculator::{Answer, Calculator, Evaluator};
use evaluator::generate::Texts;
use evaluator::join::Told;
use evaluator::run::Ending;
use evaluator::two_files::Join;
use evaluator::{counted, joined, read_back, Accepted, Checked, Refusal};
use relcalc::c;

struct Archive {
    /// whether each element is asked for; if not, their texts are the evaluator's
    elements: bool,
}

fn of_evaluator(difference: String) -> String {
    format!("the evaluator: {difference}")
}

fn accepted(row: u64, place: u64) -> Result<(), Refusal> {
    if row == 0 { Ok(()) } else { Err((row as u32, place as usize)) }
}

impl Calculator for Archive {
    fn answer(&self, facts: &[u8], query: &[u8], budget: u32, room: usize) -> Result<Answer, Refusal> {
        let k = c::check(facts, query);
        accepted(k.refusal, k.place)?;
        let (mut store, mut output) = (vec![0; k.words as usize], vec![0; room]);
        let ran = c::run(facts, query, budget, &mut store, &mut output);
        accepted(ran.refusal, ran.place)?;
        let ending = match ran.ending {
            0 => Ending::Done,
            1 => Ending::Spent,
            _ => Ending::Full,
        };
        output.truncate(ran.written as usize);
        let records = k.records[..k.relations as usize].iter();
        let records = records.map(|r| [r.text, r.offset, r.length, r.arity, r.first, r.count].map(|n| n as usize)).collect();
        let checked = Checked { universe: k.universe as usize, words: k.words as usize, records };
        Ok(Answer { checked, ending, steps: ran.steps, output, store, counts: counts(&ran) })
    }
    fn elements(&self, facts: &[u8], query: &[u8], count: usize) -> Vec<Vec<u8>> {
        if !self.elements {
            return Evaluator.elements(facts, query, count);
        }
        let text = |n| {
            let part = c::element(facts, query, n);
            let text = if part.text == 0 { facts } else { query };
            text[part.offset as usize..][..part.length as usize].to_vec()
        };
        (0..count).map(text).collect()
    }
    fn join(&self, first: &[u8], second: &[u8], room: usize) -> Result<Vec<u8>, Told> {
        let mut output = vec![0; room];
        let found = c::join(first, second, &mut output);
        accepted(found.refusal, found.place).map_err(|r| (r, found.text as usize))?;
        output.truncate(found.length as usize);
        Ok(output)
    }
}

pub fn read_back_differs(t: &Texts, accepted: &Result<Accepted, Refusal>, met: &mut Met) -> Difference {
    let Ok(w) = accepted else {
        return Ok(());
    };
    read_back::relations(&Evaluator, t, w).map_err(of_evaluator)?;
    read_back::relations(&Archive { elements: t.elements }, t, w)?.into_iter().for_each(|what| met.add(what));
    Ok(())
}

pub fn counted_differs(t: &Texts, accepted: &Result<Accepted, Refusal>) -> Difference {
    if accepted.is_err() {
        return Ok(());
    }
    counted::relations(&Evaluator, t).map_err(of_evaluator)?;
    counted::relations(&Archive { elements: false }, t)
}

pub fn joined_differs(call: &Join, room: usize, met: &mut Met) -> Difference {
    joined::of(&Evaluator, &call.first, &call.second, room).map_err(of_evaluator)?;
    joined::of(&Archive { elements: false }, &call.first, &call.second, room)?.into_iter().for_each(|what| met.add(what));
    Ok(())
}

pub fn closing_differs(t: &Texts, met: &mut Met) -> Difference {
    let Some(e) = t.closing else {
        return Ok(());
    };
    by_nodes::of(&Evaluator, &t.facts, e).map_err(of_evaluator)?;
    by_nodes::of(&Archive { elements: false }, &t.facts, e)?.into_iter().for_each(|what| met.add(what));
    Ok(())
}

/// The archive's tables are held to a case's; the evaluator's were.
pub fn tables_differ(due: &[Table], met: &mut Met) -> Difference {
    by_nodes::of_known(&Archive { elements: false }, due)?.into_iter().for_each(|what| met.add(what));
    Ok(())
}
