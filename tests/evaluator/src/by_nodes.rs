//! Paper 8 of document 02 as a property, of the evaluator as of the archive: "after each node the working table holds exactly the pairs
//! joined by a chain of e pairs whose inner elements are nodes already worked". TC shows its last table alone; the manual's own program
//! shows each, where a budget ends it after a node, and must come to what TC and TCFAST give.
use crate::calculator::{refused, same, Calculator};
use crate::run::Ending;
use crate::Record;
use std::collections::VecDeque;

/// The words of a relation of pairs: "(a,b) is bit b of word a".
pub type Table = Vec<u64>;

/// The second program of section 2.3 behind its first line, over all elements and over its own nodes, with the steps before the first.
const PROGRAMS: [(usize, &str); 2] = [
    (2, "FOR node IN TRUE(x) { Result(x,y) := Result(x,y) | (Result(x,node) & Result(node,y)); }"),
    (3, "Node(x) := Result(x,_) & Result(_,x); FOR node IN Node(x) { Result(x,y) := Result(x,y) | (Result(x,node) & Result(node,y)); }"),
];
/// Where nodes are fewer, a program is ended after each of them; the more there are, the longer it runs, so the fewer times it is.
const FEW: usize = 8;

fn has(table: &Table, a: usize, b: usize) -> bool {
    table[a] >> b & 1 == 1
}

/// What an element is joined with by chains whose inner elements are numbers below `worked`: breadth first, going on from these alone.
fn joined_with(e: &Table, first: usize, worked: usize) -> u64 {
    let mut found = 0;
    let mut ends = VecDeque::from([first]);
    while let Some(a) = ends.pop_front() {
        for b in (0..e.len()).filter(|&b| has(e, a, b)) {
            if found >> b & 1 == 0 && b < worked {
                ends.push_back(b);
            }
            found |= 1 << b;
        }
    }
    found
}

/// The tables after 0, 1, .. nodes, as the paper has them.
pub fn tables(e: &Table) -> Vec<Table> {
    (0..=e.len()).map(|worked| (0..e.len()).map(|a| joined_with(e, a, worked)).collect()).collect()
}

/// "Node(x) := Result(x,_) & Result(_,x)": the elements with pairs out and in.
fn own_nodes(e: &Table) -> Vec<usize> {
    let into = e.iter().fold(0, |all, word| all | word);
    (0..e.len()).filter(|&a| e[a] != 0 && into >> a & 1 == 1).collect()
}

/// Facts with the pairs of R, and each element, numbered as in the pairs.
fn facts(e: &Table) -> Vec<u8> {
    let u = e.len();
    let pairs = (0..u * u).map(|i| (i / u, i % u)).filter(|&(a, b)| has(e, a, b)).map(|(a, b)| format!("R e{a:02} e{b:02}\n"));
    let all = (0..u).map(|a| format!("All e{a:02}\n"));
    pairs.chain(all).collect::<String>().into_bytes()
}

/// The pairs that a node adds to the table before it.
fn added(due: &[Table], node: usize) -> impl Iterator<Item = (usize, usize)> + '_ {
    let (u, before, after) = (due.len() - 1, &due[node], &due[node + 1]);
    (0..u * u).map(move |i| (i / u, i % u)).filter(|&(a, b)| has(after, a, b) && !has(before, a, b))
}

/// What is met where a closure is held to the paper.
fn met(due: &[Table]) -> Vec<String> {
    let (u, own) = (due.len() - 1, own_nodes(&due[0]));
    let adds = |with: fn(usize, usize, usize) -> bool| (0..u).any(|node| added(due, node).any(|(a, b)| with(node, a, b)));
    let kinds = [
        (adds(|node, a, b| a < node && b < node), "a pair between worked ends"),
        (adds(|node, a, b| a > node && b > node), "a pair between ends not worked"),
        (adds(|_, a, b| a == b), "a cycle closed"),
        (own.iter().any(|&node| has(&due[0], node, node)), "a node joined with itself"),
        (own.iter().any(|&node| added(due, node).next().is_none()), "a node that adds nothing"),
        (own.is_empty() && u > 0, "no node of its own"),
        (!own.is_empty() && own.len() < u, "elements beside its own nodes"),
        (!own.is_empty() && own.len() == u, "each element its own node"),
        (u == 0, "no element"),
        (u == 64, "64 elements"),
    ];
    kinds.into_iter().filter(|(met, _)| *met).map(|(_, what)| format!("by nodes: {what}")).collect()
}

/// An expression over x and y, closed over some facts.
struct Closing<'a, C: Calculator> {
    c: &'a C,
    facts: &'a [u8],
    e: &'a str,
}

impl<C: Calculator> Closing<'_, C> {
    /// Result's words after so many steps of a query that begins with it, and the run's ending.
    fn result(&self, query: &str, steps: usize) -> Result<(Ending, Table), String> {
        let a = self.c.answer(self.facts, query.as_bytes(), steps as u32, 0).map_err(refused)?;
        same("the number of steps", a.steps, steps as u64)?;
        let first_named = |[text, at, ..]: &Record| (*text, *at) == (1, 0);
        let relation = a.checked.records.iter().position(first_named).ok_or("Result has no record")?;
        Ok((a.ending, a.store[a.checked.table(relation)].to_vec()))
    }
    /// The pairs of an expression, by one assignment.
    fn pairs(&self, e: &str) -> Result<Table, String> {
        Ok(self.result(&format!("Result(x,y) := {e};"), 1)?.1)
    }
    /// A program ended after each of its nodes, or after some where they are many: how often. The elements before the next node count as
    /// worked, since those that are no nodes of it add nothing.
    fn program(&self, (before, text): (usize, &str), nodes: &[usize], due: &[Table]) -> Result<usize, String> {
        let query = format!("Result(x,y) := {};\n{text}", self.e);
        let apart = 1 + nodes.len().pow(2) / FEW.pow(2);
        // not always after the same ones
        let first = due[0].iter().map(|word| word.count_ones() as usize).sum::<usize>() % apart;
        let ended: Vec<usize> = (first..nodes.len()).step_by(apart).chain([nodes.len()]).collect();
        for &worked in &ended {
            let (ending, table) = match nodes.get(worked) {
                Some(&next) => (Ending::Spent, &due[next]),
                None => (Ending::Done, &due[due.len() - 1]),
            };
            let found = self.result(&query, before + 2 * worked);
            let held = found.and_then(|found| same("the ending or the table", found, (ending, table.clone())));
            held.map_err(|difference| format!("{query}\nafter {worked} nodes: {difference}"))?;
        }
        Ok(ended.len())
    }
    /// Both programs, and what they come to: what is met, each table too, or what differs.
    fn hold(&self, due: &[Table]) -> Result<Vec<String>, String> {
        let [all, own] = PROGRAMS;
        let u = due.len() - 1;
        let held = self.program(all, &(0..u).collect::<Vec<_>>(), due)? + self.program(own, &own_nodes(&due[0]), due)?;
        for closure in ["TC", "TCFAST"] {
            same(closure, &self.pairs(&format!("{closure}({})", self.e))?, &due[u])?;
        }
        Ok([met(due), vec!["by nodes: a table".into(); held]].concat())
    }
}

/// Holds an expression over x and y to the paper, over some facts: what is met, or what differs.
pub fn of(c: &impl Calculator, facts: &[u8], e: &str) -> Result<Vec<String>, String> {
    let closing = Closing { c, facts, e };
    closing.hold(&tables(&closing.pairs(e)?))
}

/// Holds the pairs of R to tables that are known: what is met, or what differs.
pub fn of_known(c: &impl Calculator, due: &[Table]) -> Result<Vec<String>, String> {
    Closing { c, facts: &facts(&due[0]), e: "R(x,y)" }.hold(due)
}
