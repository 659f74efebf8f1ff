//! How many nodes a plain evaluation of one statement visits at most: generated runs are cut short by it.
use crate::parse::{Expr, Item, Quantity, Stmt, Term};
use crate::Accepted;

impl Accepted {
    fn power(&self, n: usize) -> u64 {
        (self.universe.len() as u64).max(1).saturating_pow(n as u32)
    }
    fn terms(&self, ps: &[&Term]) -> u64 {
        self.power(ps.iter().filter(|p| matches!(p, Term::Any)).count())
    }
    /// Nodes of an expression at one assignment, and those of its closures, which are worked out once.
    fn of(&self, e: &Expr) -> (u64, u64) {
        let both = |a: &Expr, b: &Expr, n: u64| {
            let (a, b) = (self.of(a), self.of(b));
            (n.saturating_mul(a.0.saturating_add(b.0)), a.1.saturating_add(b.1))
        };
        match e {
            Expr::Atom(_, ps) | Expr::True(ps) | Expr::False(ps) => (self.terms(&ps.iter().collect::<Vec<_>>()), 0),
            Expr::Sign(_, a, b) => (self.terms(&[a, b]), 0),
            Expr::Matches(_, a) => (self.terms(&[a]), 0),
            Expr::Not(a) => self.of(a),
            Expr::Two(_, a, b) => both(a, b, 1),
            Expr::Ex(_, a) | Expr::Fa(_, a) => {
                let (n, closures) = self.of(a);
                (self.power(1).saturating_mul(n), closures)
            }
            Expr::Tc(a) => {
                let (n, closures) = self.of(a);
                (1, closures.saturating_add(self.power(2).saturating_mul(n)))
            }
            Expr::Compare(_, a, b) => {
                let mut columns = self.names.free(a);
                columns.extend(self.names.free(b));
                columns.sort();
                columns.dedup();
                both(a, b, 2 * self.power(columns.len()))
            }
            Expr::Weigh(_, a, b) => {
                let (a, b) = (self.quantity(a), self.quantity(b));
                (a.0.saturating_add(b.0), a.1.saturating_add(b.1))
            }
        }
    }
    /// A count visits what it counts at each assignment.
    fn quantity(&self, q: &Quantity) -> (u64, u64) {
        q.counted().fold((1, 0), |(nodes, closures), e| {
            let (n, c) = self.of(e);
            let counted = self.power(self.names.free(e).len()).saturating_mul(n);
            (nodes.saturating_add(counted), closures.saturating_add(c))
        })
    }
    fn times(&self, e: &Expr, n: usize) -> u64 {
        let (nodes, closures) = self.of(e);
        self.power(n).saturating_mul(nodes).saturating_add(closures)
    }
    fn most(&self, body: &[Stmt]) -> u64 {
        let one = |s: &Stmt| match s {
            Stmt::Assign(_, _, left, e) => self.times(e, left.len()),
            Stmt::Print(_, items) => {
                let one = |i: &Item| match i {
                    Item::Rows(_, e) => self.times(e, self.names.free(e).len()).saturating_mul(2),
                    Item::Quantity(q) => {
                        let (nodes, closures) = self.quantity(q);
                        nodes.saturating_add(closures).saturating_mul(2)
                    }
                    Item::Word(_) | Item::Endl => 1,
                };
                items.iter().map(one).fold(0, u64::saturating_add)
            }
            Stmt::If(_, e, yes, no) => self.times(e, 0).max(self.most(yes)).max(self.most(no)),
            Stmt::While(_, e, body) => self.times(e, 0).max(self.most(body)),
            Stmt::For(_, _, e, body) => self.times(e, 1).max(self.most(body)),
            Stmt::Block(body) => self.most(body),
        };
        body.iter().map(one).max().unwrap_or(1)
    }
    /// The most of any of the statements.
    pub fn nodes(&self) -> u64 {
        self.most(&self.program).max(1)
    }
}
