//! Paper 6 of document 02 as a property, of the evaluator's answer as of the archive's: "Every other chain for that question is as long or
//! longer, and if equally long comes later."
use crate::chain::Question;
use std::collections::BTreeSet;

/// Numbers that a search goes on to, at most: where chains are long and many, not all of them are tried.
const VISITS: usize = 20_000;

/// "from first to second, each neighbouring pair a fact of that name, no number twice except that the last may equal the first"
fn is_chain(q: &Question, c: &[usize]) -> bool {
    let repeats = c.len() - c.iter().collect::<BTreeSet<_>>().len();
    c.len() >= 2
        && c[0] == q.first
        && c[c.len() - 1] == q.second
        && c.windows(2).all(|p| q.pairs.contains(&p.iter().copied().collect()))
        && (repeats == 0 || (repeats == 1 && q.first == q.second))
}

/// All chains for a question that are no longer than an answer, depth first, each held against it.
struct Search<'a> {
    answer: &'a [usize],
    second: usize,
    after: Vec<Vec<usize>>,
    visits: usize,
    /// where others as long differ first
    differences: BTreeSet<usize>,
    /// whether one of them has the smaller number where they differ last
    smaller_last: bool,
}

impl Search<'_> {
    /// Each chain that begins with these numbers.
    fn go_on(&mut self, walk: &mut Vec<usize>) -> Result<(), String> {
        for next in self.after[walk[walk.len() - 1]].clone() {
            if self.visits == VISITS {
                return Ok(());
            }
            self.visits += 1;
            let new = !walk.contains(&next);
            walk.push(next);
            if next == self.second {
                self.hold_against(walk)?;
            } else if new && walk.len() < self.answer.len() {
                self.go_on(walk)?;
            }
            walk.pop();
        }
        Ok(())
    }
    fn hold_against(&mut self, other: &[usize]) -> Result<(), String> {
        let answer = self.answer;
        if other.len() < answer.len() {
            return Err(format!("{answer:?} is longer than {other:?}"));
        }
        let mut differences = (0..answer.len()).filter(|&i| other[i] != answer[i]);
        let Some(earliest) = differences.next() else {
            return Ok(());
        };
        if other[earliest] < answer[earliest] {
            return Err(format!("{answer:?} comes later than {other:?}"));
        }
        let last = differences.last().unwrap_or(earliest);
        self.differences.insert(earliest);
        self.smaller_last |= other[last] < answer[last];
        Ok(())
    }
    /// What a walk comes to that always goes on to the smallest number, if it was not there before.
    fn smallest_neighbours(&self) -> &'static str {
        let mut walk = vec![self.answer[0]];
        loop {
            let mut after = self.after[walk[walk.len() - 1]].iter();
            match after.find(|n| **n == self.second || !walk.contains(n)) {
                None => return "smallest neighbours lead nowhere",
                Some(&n) => walk.push(n),
            }
            if walk[walk.len() - 1] == self.second {
                break;
            }
        }
        if walk == self.answer { "smallest neighbours lead there" } else { "smallest neighbours lead a longer way" }
    }
    /// What is met where an answer comes first.
    fn met(&self) -> Vec<String> {
        let count = self.answer.len();
        let all = self.visits < VISITS;
        let equal = self.answer[0] == self.second;
        let kinds = [
            (!all, "not each other tried"),
            (all && self.differences.is_empty(), "no other as short"),
            (self.differences.contains(&1), "first by its second number"),
            (self.differences.iter().any(|&at| at > 1), "first by a later number"),
            (self.smaller_last, "not first by the last difference"),
            (equal && count == 2, "an element joined with itself"),
            (equal && count > 2, "round a cycle"),
            (count == 64, "64 numbers"),
            (count == 65, "65 numbers"),
            (true, self.smallest_neighbours()),
        ];
        kinds.into_iter().filter(|(met, _)| *met).map(|(_, what)| format!("chain: {what}")).collect()
    }
}

/// Whether an answer is a chain and comes before each other: what is met, or what differs. Where a search is too long, it says that not
/// each other was tried.
pub fn of_all(q: &Question, answer: &[usize]) -> Result<Vec<String>, String> {
    if !is_chain(q, answer) {
        return Err(format!("{answer:?} is no chain"));
    }
    let mut search = Search { answer, second: q.second, after: q.after(), visits: 0, differences: BTreeSet::new(), smaller_last: false };
    search.go_on(&mut vec![q.first])?;
    Ok(search.met())
}
