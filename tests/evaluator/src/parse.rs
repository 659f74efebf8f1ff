//! Programs by recursive descent; rows 10, 19 and 13 (nesting).
use crate::tokens::{Kind, Token};
use crate::Refusal;

#[derive(Clone, Debug)]
pub enum Term {
    Name(Token),
    Quoted(Token),
    Any,
}

#[derive(Clone, Debug)]
pub enum Expr {
    Atom(Token, Vec<Term>),
    True(Vec<Term>),
    False(Vec<Term>),
    Sign(&'static str, Term, Term),
    /// a pattern's string and its term
    Matches(Token, Term),
    Not(Box<Expr>),
    Two(&'static str, Box<Expr>, Box<Expr>),
    Ex(Token, Box<Expr>),
    Fa(Token, Box<Expr>),
    Tc(Box<Expr>),
    Compare(&'static str, Box<Expr>, Box<Expr>),
    /// a sign between sums or ratios
    Weigh(&'static str, Quantity, Quantity),
}

#[derive(Clone, Debug)]
pub enum Summand {
    /// `#(e)`
    Count(Box<Expr>),
    Literal(u128),
}

pub type Sum = Vec<Summand>;

/// A sum, or a sum over a sum.
#[derive(Clone, Debug)]
pub struct Quantity {
    pub top: Sum,
    pub bottom: Option<Sum>,
}

impl Quantity {
    pub fn summands(&self) -> impl Iterator<Item = &Summand> {
        self.top.iter().chain(self.bottom.iter().flatten())
    }
    /// What its `#(e)` count, in text order.
    pub fn counted(&self) -> impl Iterator<Item = &Expr> {
        self.summands().filter_map(|s| if let Summand::Count(e) = s { Some(&**e) } else { None })
    }
}

#[derive(Clone, Debug)]
pub enum Item {
    Rows(Option<Term>, Expr),
    Word(Term),
    Quantity(Quantity),
    Endl,
}

#[derive(Clone, Debug)]
pub enum Stmt {
    Assign(usize, Token, Vec<Term>, Expr),
    Print(usize, Vec<Item>),
    If(usize, Expr, Vec<Stmt>, Vec<Stmt>),
    While(usize, Expr, Vec<Stmt>),
    For(usize, Token, Expr, Vec<Stmt>),
    Block(Vec<Stmt>),
}

const SIGNS: [&str; 6] = ["=", "!=", "<", "<=", ">", ">="];
pub const SUMMANDS: usize = 8;
pub const LARGEST_LITERAL: u128 = 999_999;

struct Parser<'a> {
    tokens: &'a [Token],
    next: usize,
    depth: usize,
    length: usize,
}

type Res<T> = Result<T, Refusal>;

impl Parser<'_> {
    fn kind(&self, ahead: usize) -> Option<Kind> {
        self.tokens.get(self.next + ahead).map(|t| t.kind)
    }
    fn is(&self, s: &'static str) -> bool {
        self.kind(0) == Some(Kind::Fixed(s))
    }
    fn one_of(&self, set: &[&'static str]) -> Option<&'static str> {
        set.iter().copied().find(|s| self.is(s))
    }
    fn place(&self) -> usize {
        self.tokens.get(self.next).map_or(self.length, |t| t.at)
    }
    fn fail<T>(&self) -> Res<T> {
        Err((10, self.place()))
    }
    fn take(&mut self) -> Token {
        self.next += 1;
        self.tokens[self.next - 1].clone()
    }
    fn expect(&mut self, s: &'static str) -> Res<()> {
        if !self.is(s) {
            return self.fail();
        }
        self.next += 1;
        Ok(())
    }
    /// The token that opens a level.
    fn open(&mut self) -> Res<()> {
        if self.depth == 32 {
            return Err((13, self.place()));
        }
        self.depth += 1;
        self.next += 1;
        Ok(())
    }
    fn identifier(&mut self) -> Res<Token> {
        if self.kind(0) != Some(Kind::Identifier) {
            return self.fail();
        }
        Ok(self.take())
    }

    fn list<T>(&mut self, one: fn(&mut Self) -> Res<T>) -> Res<Vec<T>> {
        self.expect("(")?;
        let mut all = Vec::new();
        if !self.is(")") {
            all.push(one(self)?);
            while self.is(",") {
                self.next += 1;
                all.push(one(self)?);
            }
        }
        self.expect(")")?;
        Ok(all)
    }
    fn left(&mut self) -> Res<Term> {
        match self.kind(0) {
            Some(Kind::Identifier) => Ok(Term::Name(self.take())),
            Some(Kind::Quoted) => Ok(Term::Quoted(self.take())),
            _ => self.fail(),
        }
    }
    fn term(&mut self) -> Res<Term> {
        if self.is("_") {
            self.next += 1;
            return Ok(Term::Any);
        }
        self.left()
    }

    fn sign(&mut self) -> Res<&'static str> {
        let Some(s) = self.one_of(&SIGNS) else {
            return self.fail();
        };
        self.next += 1;
        Ok(s)
    }
    fn quantified(&mut self, make: fn(Token, Box<Expr>) -> Expr) -> Res<Expr> {
        self.open()?;
        self.expect("(")?;
        let mut names = vec![self.identifier()?];
        self.expect(",")?;
        while self.kind(0) == Some(Kind::Identifier) && self.kind(1) == Some(Kind::Fixed(",")) {
            names.push(self.take());
            self.next += 1;
        }
        let mut e = self.expression()?;
        self.expect(")")?;
        self.depth -= 1;
        while let Some(x) = names.pop() {
            e = make(x, Box::new(e));
        }
        Ok(e)
    }
    fn matches(&mut self) -> Res<Expr> {
        self.expect("@")?;
        if self.kind(0) != Some(Kind::Quoted) {
            return self.fail();
        }
        let pattern = self.take();
        self.expect("(")?;
        let a = self.term()?;
        self.expect(")")?;
        Ok(Expr::Matches(pattern, a))
    }
    fn primary(&mut self) -> Res<Expr> {
        let Some(kind) = self.kind(0) else {
            return self.fail();
        };
        match kind {
            Kind::Identifier if self.kind(1) == Some(Kind::Fixed("(")) => {
                let name = self.take();
                Ok(Expr::Atom(name, self.list(Self::term)?))
            }
            Kind::Identifier | Kind::Quoted | Kind::Fixed("_") => {
                let a = self.term()?;
                let s = self.sign()?;
                Ok(Expr::Sign(s, a, self.term()?))
            }
            Kind::Fixed("(") => {
                self.open()?;
                let e = self.expression()?;
                self.expect(")")?;
                self.depth -= 1;
                Ok(e)
            }
            Kind::Fixed("EX") => self.quantified(Expr::Ex),
            Kind::Fixed("FA") => self.quantified(Expr::Fa),
            Kind::Fixed("TC" | "TCFAST") => {
                self.open()?;
                self.expect("(")?;
                let e = self.expression()?;
                self.expect(")")?;
                self.depth -= 1;
                Ok(Expr::Tc(Box::new(e)))
            }
            Kind::Fixed("TRUE") => {
                self.next += 1;
                Ok(Expr::True(self.list(Self::term)?))
            }
            Kind::Fixed("FALSE") => {
                self.next += 1;
                Ok(Expr::False(self.list(Self::term)?))
            }
            Kind::Fixed(s) if SIGNS.contains(&s) => {
                self.next += 1;
                self.expect("(")?;
                let a = self.term()?;
                self.expect(",")?;
                let b = self.term()?;
                self.expect(")")?;
                Ok(Expr::Sign(s, a, b))
            }
            Kind::Fixed("@") => self.matches(),
            _ => self.fail(),
        }
    }
    fn negation(&mut self) -> Res<Expr> {
        if !self.is("!") {
            return self.primary();
        }
        self.open()?;
        let e = self.negation()?;
        self.depth -= 1;
        Ok(Expr::Not(Box::new(e)))
    }
    fn chain(&mut self, sign: &'static str, one: fn(&mut Self) -> Res<Expr>) -> Res<Expr> {
        let mut e = one(self)?;
        while self.is(sign) {
            self.next += 1;
            e = Expr::Two(sign, Box::new(e), Box::new(one(self)?));
        }
        Ok(e)
    }
    fn disjunction(&mut self) -> Res<Expr> {
        self.chain("|", |p| p.chain("&", Self::negation))
    }
    fn implication(&mut self) -> Res<Expr> {
        let a = self.disjunction()?;
        let Some(s) = self.one_of(&["->", "<->"]) else {
            return Ok(a);
        };
        self.next += 1;
        Ok(Expr::Two(s, Box::new(a), Box::new(self.disjunction()?)))
    }
    fn starts_quantity(&self) -> bool {
        matches!(self.kind(0), Some(Kind::Fixed("#") | Kind::Number))
    }
    /// The next summand of a sum that has so many: at its first token 10, then 19, then 13.
    fn summand(&mut self, before: usize) -> Res<Summand> {
        if !self.starts_quantity() {
            return self.fail();
        }
        if before == SUMMANDS {
            return Err((19, self.place()));
        }
        if self.is("#") {
            self.open()?;
            self.expect("(")?;
            let e = self.expression()?;
            self.expect(")")?;
            self.depth -= 1;
            return Ok(Summand::Count(Box::new(e)));
        }
        let token = self.take();
        let value = token.text.iter().fold(0, |n, digit| 10 * n + (digit - b'0') as u128);
        if value > LARGEST_LITERAL {
            return Err((19, token.at));
        }
        Ok(Summand::Literal(value))
    }
    fn sum(&mut self) -> Res<Sum> {
        let mut all = vec![self.summand(0)?];
        while self.is("+") {
            self.next += 1;
            all.push(self.summand(all.len())?);
        }
        Ok(all)
    }
    fn quantity(&mut self) -> Res<Quantity> {
        let top = self.sum()?;
        if !self.is("/") {
            return Ok(Quantity { top, bottom: None });
        }
        self.next += 1;
        Ok(Quantity { top, bottom: Some(self.sum()?) })
    }
    /// The rest of a comparison of sums or ratios, which is a whole expression.
    fn weighed(&mut self, a: Quantity) -> Res<Expr> {
        let s = self.sign()?;
        Ok(Expr::Weigh(s, a, self.quantity()?))
    }
    fn expression(&mut self) -> Res<Expr> {
        if self.starts_quantity() {
            let a = self.quantity()?;
            return self.weighed(a);
        }
        let a = self.implication()?;
        let Some(s) = self.one_of(&SIGNS) else {
            return Ok(a);
        };
        self.next += 1;
        Ok(Expr::Compare(s, Box::new(a), Box::new(self.implication()?)))
    }

    fn item(&mut self) -> Res<Item> {
        if self.is("ENDL") {
            self.next += 1;
            return Ok(Item::Endl);
        }
        if self.is("[") {
            self.next += 1;
            let s = self.left()?;
            self.expect("]")?;
            return Ok(Item::Rows(Some(s), self.expression()?));
        }
        if self.starts_quantity() {
            let a = self.quantity()?;
            let alone = self.one_of(&SIGNS).is_none();
            return Ok(if alone { Item::Quantity(a) } else { Item::Rows(None, self.weighed(a)?) });
        }
        let word = matches!(self.kind(0), Some(Kind::Identifier | Kind::Quoted));
        let alone = matches!(self.kind(1), Some(Kind::Fixed("," | ";")));
        if word && alone {
            return Ok(Item::Word(self.left()?));
        }
        Ok(Item::Rows(None, self.expression()?))
    }
    fn block(&mut self) -> Res<Vec<Stmt>> {
        if !self.is("{") {
            return self.fail();
        }
        self.open()?;
        let mut all = vec![self.statement()?];
        while !self.is("}") {
            all.push(self.statement()?);
        }
        self.next += 1;
        self.depth -= 1;
        Ok(all)
    }
    fn statement(&mut self) -> Res<Stmt> {
        let at = self.place();
        match self.kind(0) {
            Some(Kind::Identifier) => {
                let name = self.take();
                let left = self.list(Self::left)?;
                if self.is(";") {
                    self.next += 1;
                    let e = Expr::True(left.clone());
                    return Ok(Stmt::Assign(at, name, left, e));
                }
                self.expect(":=")?;
                let e = self.expression()?;
                self.expect(";")?;
                Ok(Stmt::Assign(at, name, left, e))
            }
            Some(Kind::Fixed("IF")) => {
                self.next += 1;
                let e = self.expression()?;
                let yes = self.block()?;
                let mut no = Vec::new();
                if self.is("ELSE") {
                    self.next += 1;
                    no = self.block()?;
                }
                Ok(Stmt::If(at, e, yes, no))
            }
            Some(Kind::Fixed("WHILE")) => {
                self.next += 1;
                let e = self.expression()?;
                Ok(Stmt::While(at, e, self.block()?))
            }
            Some(Kind::Fixed("FOR")) => {
                self.next += 1;
                let v = self.identifier()?;
                self.expect("IN")?;
                let e = self.expression()?;
                Ok(Stmt::For(at, v, e, self.block()?))
            }
            Some(Kind::Fixed("{")) => Ok(Stmt::Block(self.block()?)),
            Some(Kind::Fixed("PRINT")) => {
                self.next += 1;
                let mut items = vec![self.item()?];
                while self.is(",") {
                    self.next += 1;
                    items.push(self.item()?);
                }
                self.expect(";")?;
                Ok(Stmt::Print(at, items))
            }
            _ => self.fail(),
        }
    }
}

/// The statements of a text of so many bytes.
pub fn read(tokens: &[Token], length: usize) -> Result<Vec<Stmt>, Refusal> {
    let mut p = Parser { tokens, next: 0, depth: 0, length };
    let mut all = vec![p.statement()?];
    while p.next < tokens.len() {
        all.push(p.statement()?);
    }
    Ok(all)
}
