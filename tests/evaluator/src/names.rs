//! Kinds of names, free attributes and what a statement may hold; rows 11, 5, 6, then 13 and 12, then 7.
use crate::facts::{Facts, Relation};
use crate::parse::{Expr, Item, Quantity, Stmt, Term};
use crate::tokens::Token;
use crate::Refusal;
use std::collections::{BTreeMap, BTreeSet};

#[derive(Clone, Copy, PartialEq)]
enum Kind {
    Relation(usize),
    Attribute,
    Variable { open: bool },
}

pub struct Names {
    kinds: BTreeMap<Vec<u8>, Kind>,
    pub relations: Vec<Relation>,
}

type Res = Result<(), Refusal>;

impl Names {
    pub fn is_variable(&self, name: &[u8]) -> bool {
        matches!(self.kinds.get(name), Some(Kind::Variable { .. }))
    }
    /// Whether a name is an attribute, or none yet.
    pub fn may_be_attribute(&self, name: &[u8]) -> bool {
        matches!(self.kinds.get(name), None | Some(Kind::Attribute))
    }

    fn relation(&mut self, t: &Token, arity: usize) -> Res {
        match self.kinds.get(&t.text) {
            Some(Kind::Relation(i)) if self.relations[*i].arity == arity => Ok(()),
            Some(Kind::Relation(_)) => Err((5, t.at)),
            Some(_) => Err((11, t.at)),
            None if arity > 3 => Err((5, t.at)),
            None if self.relations.len() == 16 => Err((6, t.at)),
            None => {
                self.kinds.insert(t.text.clone(), Kind::Relation(self.relations.len()));
                self.relations.push(Relation { name: t.text.clone(), arity, text: 1, at: t.at });
                Ok(())
            }
        }
    }
    fn attribute(&mut self, t: &Token) -> Res {
        if !self.may_be_attribute(&t.text) {
            return Err((11, t.at));
        }
        self.kinds.insert(t.text.clone(), Kind::Attribute);
        Ok(())
    }
    fn term(&mut self, p: &Term) -> Res {
        match p {
            Term::Name(t) if self.kinds.get(&t.text) == Some(&Kind::Variable { open: true }) => Ok(()),
            Term::Name(t) => self.attribute(t),
            _ => Ok(()),
        }
    }
    fn word(&mut self, p: &Term) -> Res {
        match p {
            Term::Name(t) if self.kinds.get(&t.text) != Some(&Kind::Variable { open: true }) => Err((11, t.at)),
            _ => Ok(()),
        }
    }
    fn expression(&mut self, e: &Expr) -> Res {
        match e {
            Expr::Atom(r, ps) => {
                self.relation(r, ps.len())?;
                ps.iter().try_for_each(|p| self.term(p))
            }
            Expr::True(ps) | Expr::False(ps) => ps.iter().try_for_each(|p| self.term(p)),
            Expr::Sign(_, a, b) => {
                self.term(a)?;
                self.term(b)
            }
            Expr::Matches(_, a) => self.term(a),
            Expr::Not(a) | Expr::Tc(a) => self.expression(a),
            Expr::Two(_, a, b) | Expr::Compare(_, a, b) => {
                self.expression(a)?;
                self.expression(b)
            }
            Expr::Ex(x, a) | Expr::Fa(x, a) => {
                self.attribute(x)?;
                self.expression(a)
            }
            Expr::Weigh(_, a, b) => {
                self.quantity(a)?;
                self.quantity(b)
            }
        }
    }
    fn quantity(&mut self, q: &Quantity) -> Res {
        q.counted().try_for_each(|e| self.expression(e))
    }
    fn statements(&mut self, all: &[Stmt]) -> Res {
        all.iter().try_for_each(|s| self.statement(s))
    }
    fn statement(&mut self, s: &Stmt) -> Res {
        match s {
            Stmt::Assign(_, r, left, e) => {
                self.relation(r, left.len())?;
                for p in left {
                    if let Term::Name(t) = p {
                        self.attribute(t)?;
                    }
                }
                self.expression(e)
            }
            Stmt::Print(_, items) => items.iter().try_for_each(|i| match i {
                Item::Rows(label, e) => {
                    label.iter().try_for_each(|p| self.word(p))?;
                    self.expression(e)
                }
                Item::Word(p) => self.word(p),
                Item::Quantity(q) => self.quantity(q),
                Item::Endl => Ok(()),
            }),
            Stmt::If(_, e, yes, no) => {
                self.expression(e)?;
                self.statements(yes)?;
                self.statements(no)
            }
            Stmt::While(_, e, body) => {
                self.expression(e)?;
                self.statements(body)
            }
            Stmt::For(_, v, e, body) => {
                match self.kinds.get(&v.text) {
                    None | Some(Kind::Variable { open: false }) => {}
                    _ => return Err((11, v.at)),
                }
                self.kinds.insert(v.text.clone(), Kind::Variable { open: false });
                self.expression(e)?;
                self.kinds.insert(v.text.clone(), Kind::Variable { open: true });
                self.statements(body)?;
                self.kinds.insert(v.text.clone(), Kind::Variable { open: false });
                Ok(())
            }
            Stmt::Block(body) => self.statements(body),
        }
    }

    /// The free attributes, in order of first free occurrence.
    pub fn free(&self, e: &Expr) -> Vec<Vec<u8>> {
        let mut found = Vec::new();
        self.add_free(e, &BTreeSet::new(), &mut found);
        found
    }
    fn add_terms(&self, ps: &[&Term], hidden: &BTreeSet<Vec<u8>>, found: &mut Vec<Vec<u8>>) {
        for p in ps {
            if let Term::Name(t) = p {
                if !self.is_variable(&t.text) && !hidden.contains(&t.text) && !found.contains(&t.text) {
                    found.push(t.text.clone());
                }
            }
        }
    }
    fn add_free(&self, e: &Expr, hidden: &BTreeSet<Vec<u8>>, found: &mut Vec<Vec<u8>>) {
        match e {
            Expr::Atom(_, ps) | Expr::True(ps) | Expr::False(ps) => self.add_terms(&ps.iter().collect::<Vec<_>>(), hidden, found),
            Expr::Sign(_, a, b) => self.add_terms(&[a, b], hidden, found),
            Expr::Matches(_, a) => self.add_terms(&[a], hidden, found),
            Expr::Not(a) | Expr::Tc(a) => self.add_free(a, hidden, found),
            Expr::Two(_, a, b) => {
                self.add_free(a, hidden, found);
                self.add_free(b, hidden, found);
            }
            Expr::Ex(x, a) | Expr::Fa(x, a) => {
                let mut more = hidden.clone();
                more.insert(x.text.clone());
                self.add_free(a, &more, found);
            }
            Expr::Compare(..) | Expr::Weigh(..) => {}
        }
    }

    fn survey<'a>(&'a self, left: &'a [Term], e: &'a Expr) -> Survey<'a> {
        let mut found = Survey::of(self);
        found.terms(left);
        found.expression(e);
        found
    }
    fn limits(&self, at: usize, found: Survey, right: bool) -> Res {
        if found.attributes.len() > 4 || found.closures.len() > 16 {
            return Err((13, at));
        }
        let closed = found.closures.iter().all(|e| self.free(e).len() == 2);
        let counted = found.counted.iter().all(|e| self.free(e).len() <= PRINTED);
        if !right || !closed || !counted {
            return Err((12, at));
        }
        Ok(())
    }
    fn rows(&self, all: &[Stmt]) -> Res {
        for s in all {
            match s {
                Stmt::Assign(at, _, left, e) => {
                    let mut given = Vec::new();
                    self.add_terms(&left.iter().collect::<Vec<_>>(), &BTreeSet::new(), &mut given);
                    let (given, free): (BTreeSet<_>, BTreeSet<_>) = (given.into_iter().collect(), self.free(e).into_iter().collect());
                    self.limits(*at, self.survey(left, e), given == free)?;
                }
                Stmt::Print(at, items) => {
                    let mut found = Survey::of(self);
                    items.iter().for_each(|i| found.item(i));
                    let right = items.iter().all(|i| !matches!(i, Item::Rows(_, e) if self.free(e).len() > PRINTED));
                    self.limits(*at, found, right)?;
                }
                Stmt::If(at, e, yes, no) => {
                    self.limits(*at, self.survey(&[], e), self.free(e).is_empty())?;
                    self.rows(yes)?;
                    self.rows(no)?;
                }
                Stmt::While(at, e, body) => {
                    self.limits(*at, self.survey(&[], e), self.free(e).is_empty())?;
                    self.rows(body)?;
                }
                Stmt::For(at, _, e, body) => {
                    self.limits(*at, self.survey(&[], e), self.free(e).len() == 1)?;
                    self.rows(body)?;
                }
                Stmt::Block(body) => self.rows(body)?,
            }
        }
        Ok(())
    }
}

/// Free attributes that a printed expression, or what `#(e)` counts, has at most.
pub const PRINTED: usize = 3;

/// All attribute names of a statement, what each of its closures closes, and what each `#(e)` counts, wherever it stands.
struct Survey<'a> {
    names: &'a Names,
    attributes: BTreeSet<Vec<u8>>,
    closures: Vec<&'a Expr>,
    counted: Vec<&'a Expr>,
}

impl<'a> Survey<'a> {
    fn of(names: &'a Names) -> Survey<'a> {
        Survey { names, attributes: BTreeSet::new(), closures: Vec::new(), counted: Vec::new() }
    }
    fn terms(&mut self, ps: impl IntoIterator<Item = &'a Term>) {
        for p in ps {
            if let Term::Name(t) = p {
                if !self.names.is_variable(&t.text) {
                    self.attributes.insert(t.text.clone());
                }
            }
        }
    }
    fn expression(&mut self, e: &'a Expr) {
        match e {
            Expr::Atom(_, ps) | Expr::True(ps) | Expr::False(ps) => self.terms(ps),
            Expr::Sign(_, a, b) => self.terms([a, b]),
            Expr::Matches(_, a) => self.terms([a]),
            Expr::Not(a) => self.expression(a),
            Expr::Tc(a) => {
                self.closures.push(a);
                self.expression(a);
            }
            Expr::Two(_, a, b) | Expr::Compare(_, a, b) => {
                self.expression(a);
                self.expression(b);
            }
            Expr::Ex(x, a) | Expr::Fa(x, a) => {
                self.attributes.insert(x.text.clone());
                self.expression(a);
            }
            Expr::Weigh(_, a, b) => {
                self.quantity(a);
                self.quantity(b);
            }
        }
    }
    fn quantity(&mut self, q: &'a Quantity) {
        for e in q.counted() {
            self.counted.push(e);
            self.expression(e);
        }
    }
    fn item(&mut self, i: &'a Item) {
        match i {
            Item::Rows(_, e) => self.expression(e),
            Item::Quantity(q) => self.quantity(q),
            Item::Word(_) | Item::Endl => {}
        }
    }
}

/// The strings on left-hand sides, in text order.
pub fn left_strings(all: &[Stmt]) -> Vec<&Token> {
    let mut found = Vec::new();
    for s in all {
        match s {
            Stmt::Assign(_, _, left, _) => found.extend(left.iter().filter_map(|p| if let Term::Quoted(t) = p { Some(t) } else { None })),
            Stmt::If(_, _, a, b) => {
                found.extend(left_strings(a));
                found.extend(left_strings(b));
            }
            Stmt::While(_, _, a) | Stmt::For(_, _, _, a) | Stmt::Block(a) => found.extend(left_strings(a)),
            Stmt::Print(..) => {}
        }
    }
    found
}

pub fn check(facts: &Facts, program: &[Stmt]) -> Result<Names, Refusal> {
    let kinds = facts.relations.iter().enumerate().map(|(i, r)| (r.name.clone(), Kind::Relation(i))).collect();
    let mut names = Names { kinds, relations: facts.relations.clone() };
    names.statements(program)?;
    names.rows(program)?;
    Ok(names)
}
