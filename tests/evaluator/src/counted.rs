//! Paper 4 of document 02 as a property, of the evaluator as of the archive: "After any number of steps, spent and full endings included,
//! each count equals the number of tuples in that table. Beside the relations, check reports the counts as loaded and run the counts at
//! its end."
use crate::calculator::{refused, same, Calculator};
use crate::generate::Texts;
use crate::run::Ending;
use crate::{Checked, Counts};

/// The number of tuples in each table: "the empty tuple is bit 0", each other tuple a bit too, and "Other bits are zero".
fn tuples(checked: &Checked, store: &[u64]) -> Counts {
    let mut found = Counts::default();
    for (n, count) in found.iter_mut().enumerate().take(checked.records.len()) {
        *count = store[checked.table(n)].iter().map(|word| word.count_ones() as usize).sum();
    }
    found
}

/// Whether a run's counts are those of the tables that it left.
pub fn agree(checked: &Checked, store: &[u64], counts: &Counts) -> Result<(), String> {
    let tuples = tuples(checked, store);
    if *counts == tuples { Ok(()) } else { Err(format!("counts {counts:?} of tables with {tuples:?} tuples")) }
}

/// As loaded, where the check has the same counts; after some of the steps; and where the text's budget and buffer end the run.
pub fn relations(c: &impl Calculator, t: &Texts) -> Result<(), String> {
    let run = |budget: u32| {
        let a = c.answer(&t.facts, &t.query, budget, t.room).map_err(refused)?;
        agree(&a.checked, &a.store, &a.counts).map_err(|e| format!("budget {budget}: {e}"))?;
        Ok::<_, String>(a)
    };
    let start = run(0)?;
    same("the run without a step", (start.ending, start.steps), (Ending::Spent, 0))?;
    let loaded = start.checked.records.iter().map(|[.., count]| *count);
    same("the check's counts", loaded.chain([0; 16]).take(16).collect::<Vec<_>>(), start.counts.to_vec())?;
    let end = run(t.budget)?;
    run(end.steps as u32 / 2)?;
    Ok(())
}
