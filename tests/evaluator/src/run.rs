//! Statements, big-step: the run under a budget and a buffer.
use crate::facts::needs_quotes;
use crate::meaning::{Result as Rows, Row, Set, World};
use crate::parse::{Expr, Item, Stmt, Term};
use std::cmp::Ordering;
use std::collections::{BTreeMap, BTreeSet};

#[derive(Clone, Copy, PartialEq, Debug)]
pub enum Ending {
    Done,
    Spent,
    Full,
}

/// The elements that are printed, a bit for each: in tuples, and as what loop variables stand for.
#[derive(Clone, Copy, Default, PartialEq, Debug)]
pub struct Printed {
    pub in_tuples: u64,
    pub as_items: u64,
    pub as_labels: u64,
}

impl Printed {
    fn add(&mut self, more: Printed) {
        self.in_tuples |= more.in_tuples;
        self.as_items |= more.as_items;
        self.as_labels |= more.as_labels;
    }
}

/// By a relation's name, how assignments changed its size.
pub type Changes = BTreeMap<Vec<u8>, BTreeSet<Ordering>>;

/// What one PRINT adds to the output.
#[derive(Default)]
struct Page {
    bytes: Vec<u8>,
    printed: Printed,
}

pub struct Run<'a> {
    pub world: World<'a>,
    /// the elements that some fact quoted
    pub quoted: BTreeSet<usize>,
    pub budget: u64,
    pub room: usize,
    pub steps: u64,
    pub output: Vec<u8>,
    pub pages: Vec<usize>,
    pub printed: Printed,
    pub changes: Changes,
}

type Res = Result<(), Ending>;

impl<'a> Run<'a> {
    pub fn new(world: World<'a>, quoted: BTreeSet<usize>, budget: u32, room: usize) -> Run<'a> {
        let (budget, steps) = (budget as u64, 0);
        Run { world, quoted, budget, room, steps, output: Vec::new(), pages: Vec::new(), printed: Printed::default(), changes: Changes::new() }
    }
}

impl Run<'_> {
    fn test_budget(&self) -> Res {
        if self.steps == self.budget {
            return Err(Ending::Spent);
        }
        Ok(())
    }
    fn holds(&self, e: &Expr) -> bool {
        !self.world.eval(e).rows.is_empty()
    }

    fn assign(&mut self, name: &[u8], left: &[Term], e: &Expr) {
        let given = self.world.eval(e);
        let old = &self.world.tables[name];
        let kept = old.iter().copied().filter(|t| self.differs(left, t));
        let new: Set = given.rows.iter().map(|row| self.tuple(&given, left, row)).chain(kept).collect();
        self.changes.entry(name.to_vec()).or_default().insert(new.len().cmp(&old.len()));
        self.world.tables.insert(name.to_vec(), new);
    }
    /// What the left-hand terms stand for under a row of the result.
    fn tuple(&self, given: &Rows, left: &[Term], row: &Row) -> Row {
        let element = |p: &Term| match p {
            Term::Name(x) => row.at(given.columns.iter().position(|c| *c == x.text).unwrap()),
            Term::Quoted(s) => self.world.universe.iter().position(|t| *t == s.text).unwrap(),
            Term::Any => unreachable!(),
        };
        left.iter().map(element).collect()
    }
    fn differs(&self, left: &[Term], t: &Row) -> bool {
        left.iter().zip(t.iter()).any(|(p, a)| matches!(p, Term::Quoted(s) if self.world.universe[a] != s.text))
    }

    /// A string or a loop variable's element, which quotes are never put around.
    fn bare(&self, p: &Term, printed: &mut u64) -> Vec<u8> {
        match p {
            Term::Quoted(t) => t.text.clone(),
            Term::Name(t) => {
                let a = self.world.variables[&t.text];
                *printed |= 1 << a;
                self.world.universe[a].clone()
            }
            Term::Any => unreachable!(),
        }
    }
    /// An element of a tuple: "in quotes if a fact quoted it, or if it is empty or holds a space or tab". No other byte brings quotes.
    fn shown(&self, a: usize, printed: &mut u64) -> Vec<u8> {
        *printed |= 1 << a;
        let text = &self.world.universe[a];
        if self.quoted.contains(&a) || needs_quotes(text) {
            return [b"\"", text.as_slice(), b"\""].concat();
        }
        text.clone()
    }
    fn item(&self, i: &Item, page: &mut Page) {
        match i {
            Item::Endl => page.bytes.push(10),
            Item::Word(p) => {
                let word = self.bare(p, &mut page.printed.as_items);
                page.bytes.extend(word);
            }
            Item::Quantity(q) => page.bytes.extend(self.world.quantity_text(q).bytes()),
            Item::Rows(label, e) => {
                for row in self.world.eval(e).rows {
                    let mut parts: Vec<Vec<u8>> = label.iter().map(|p| self.bare(p, &mut page.printed.as_labels)).collect();
                    parts.extend(row.iter().map(|a| self.shown(a, &mut page.printed.in_tuples)));
                    page.bytes.extend(parts.join(&b' '));
                    page.bytes.push(10);
                }
            }
        }
    }

    fn statement(&mut self, s: &Stmt) -> Res {
        match s {
            Stmt::Assign(_, r, left, e) => {
                self.test_budget()?;
                self.assign(&r.text, left, e);
                self.steps += 1;
            }
            Stmt::Print(_, items) => {
                self.test_budget()?;
                let mut page = Page::default();
                items.iter().for_each(|i| self.item(i, &mut page));
                if self.output.len() + page.bytes.len() > self.room {
                    return Err(Ending::Full);
                }
                self.output.extend(page.bytes);
                self.printed.add(page.printed);
                self.pages.push(self.output.len());
                self.steps += 1;
            }
            Stmt::If(_, e, yes, no) => {
                self.test_budget()?;
                self.steps += 1;
                return if self.holds(e) { self.all(yes) } else { self.all(no) };
            }
            Stmt::While(_, e, body) => loop {
                self.test_budget()?;
                self.steps += 1;
                if !self.holds(e) {
                    break;
                }
                self.all(body)?;
            },
            Stmt::For(_, v, e, body) => {
                self.test_budget()?;
                self.steps += 1;
                for row in self.world.eval(e).rows {
                    self.test_budget()?;
                    self.steps += 1;
                    self.world.variables.insert(v.text.clone(), row.at(0));
                    self.all(body)?;
                }
            }
            Stmt::Block(body) => return self.all(body),
        }
        Ok(())
    }
    fn all(&mut self, body: &[Stmt]) -> Res {
        body.iter().try_for_each(|s| self.statement(s))
    }

    pub fn program(&mut self, body: &[Stmt]) -> Ending {
        match self.all(body) {
            Ok(()) => Ending::Done,
            Err(e) => e,
        }
    }
}
