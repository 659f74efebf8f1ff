//! The chain call, with Paper 6 of document 02: "the first: fewest elements, and among those the smallest element number at the earliest
//! difference".
use crate::meaning::{reach, Row, Set};
use crate::{facts, Refusal};
use std::collections::{BTreeMap, BTreeSet};

/// What a call asks: a chain of the facts' pairs of that name, from one number to another.
pub struct Question {
    pub pairs: Set,
    pub first: usize,
    pub second: usize,
    /// how many elements the facts have
    universe: usize,
}

/// What a call asks, or its refusal by the facts, 15 or 16.
pub fn question(facts: &[u8], name: &[u8], first: &[u8], second: &[u8], room: usize) -> Result<Question, Refusal> {
    let f = facts::read(facts)?;
    let universe: Vec<&Vec<u8>> = f.universe.iter().collect();
    let number = |t: &[u8]| universe.iter().position(|u| *u == t);
    let (true, Some(first), Some(second)) = (f.relations.iter().any(|r| r.name == name && r.arity == 2), number(first), number(second)) else {
        return Err((15, 0));
    };
    if room < 65 {
        return Err((16, 0));
    }
    let of_name = f.facts.iter().filter(|g| g.name == name);
    let pairs = of_name.map(|g| g.elements.iter().map(|e| number(&e.value).unwrap()).collect()).collect();
    Ok(Question { pairs, first, second, universe: universe.len() })
}

impl Question {
    /// For each element, those that it is joined with, ascending.
    pub fn after(&self) -> Vec<Vec<usize>> {
        let mut found = vec![Vec::new(); self.universe];
        self.pairs.iter().for_each(|p| found[p.at(0)].push(p.at(1)));
        found
    }
    /// The first chain; row 17 by what can be reached at all, which is found another way.
    pub fn answer(&self) -> Result<Vec<usize>, Refusal> {
        let chain = self.first_chain();
        let exists = reach(&self.pairs, self.universe).contains(&Row::from_iter([self.first, self.second]));
        assert_eq!(chain.is_some(), exists, "a chain is found where one exists");
        chain.ok_or((17, 0))
    }
    /// One number more each turn, and for each element that a turn is the first to reach the smallest list that ends with it: what is put
    /// behind a larger list as long is larger too. The first element counts as reached only when a pair leads back to it.
    fn first_chain(&self) -> Option<Vec<usize>> {
        let after = self.after();
        let mut reached: BTreeSet<usize> = BTreeSet::new();
        let mut lists = vec![vec![self.first]];
        while !lists.is_empty() {
            let mut longer: BTreeMap<usize, Vec<usize>> = BTreeMap::new();
            for list in &lists {
                for &next in after[list[list.len() - 1]].iter().filter(|next| !reached.contains(*next)) {
                    let list = [&list[..], &[next]].concat();
                    longer.entry(next).and_modify(|least| *least = list.clone().min(least.clone())).or_insert(list);
                }
            }
            if let Some(found) = longer.remove(&self.second) {
                return Some(found);
            }
            reached.extend(longer.keys());
            lists = longer.into_values().collect();
        }
        None
    }
}
