//! RML queries over RSF facts. `include/relcalc.h` says what each call answers; here its numbers are enums and structs.
//!
//! ```
//! let facts = b"On C10 C5\nOn C5 C2\n";
//! let query = b"Dep(x,y) := TC(On(x,y)); PRINT Dep(x,y);";
//! let mut store = vec![0; relcalc::check(facts, query).unwrap().words];
//! let mut output = [0; 1000];
//! let ran = relcalc::run(facts, query, 1_000_000, &mut store, &mut output).unwrap();
//! assert_eq!(ran.ending, relcalc::Ending::Done);
//! assert_eq!(&output[..ran.written], b"C10 C2\nC10 C5\nC5 C2\n");
//! assert_eq!(ran.counts[..2], [2, 3]); // tuples of On and Dep
//! ```
pub mod c;
mod explain;
mod pattern;

pub use explain::{explain, explain_join, At, Explained};
pub use pattern::Fault;
use std::fmt;

/// Words of store that are enough for every accepted pair of texts.
pub const STORE_WORDS: usize = 70_656;
/// Relations that facts and query may have together.
pub const RELATIONS: usize = 16;
/// Bytes that a chain needs at least, and that are enough for each.
pub const CHAIN_BYTES: usize = 65;
/// Bytes that facts may have, and that are enough for all that a join writes.
pub const FACTS_BYTES: usize = 32_768;

/// Why a call refuses, by the numbers of documents 01 and 02.
#[derive(Clone, Copy, Debug, PartialEq, Eq)]
pub enum Refusal {
    FactsTooLong = 1,
    FactByte,
    FactName,
    FactElement,
    Arity,
    TooManyRelations,
    TooManyElements,
    QueryTooLong,
    NoToken,
    NoProgram,
    Kind,
    FreeAttributes,
    TooMuch,
    StoreShort,
    NotInFacts,
    BufferShort,
    NoChain,
    Pattern,
    Number,
    FirstArity,
    ResultTooLong,
}

impl Refusal {
    const ALL: [Refusal; 21] = [
        Refusal::FactsTooLong,
        Refusal::FactByte,
        Refusal::FactName,
        Refusal::FactElement,
        Refusal::Arity,
        Refusal::TooManyRelations,
        Refusal::TooManyElements,
        Refusal::QueryTooLong,
        Refusal::NoToken,
        Refusal::NoProgram,
        Refusal::Kind,
        Refusal::FreeAttributes,
        Refusal::TooMuch,
        Refusal::StoreShort,
        Refusal::NotInFacts,
        Refusal::BufferShort,
        Refusal::NoChain,
        Refusal::Pattern,
        Refusal::Number,
        Refusal::FirstArity,
        Refusal::ResultTooLong,
    ];

    /// The documents' number.
    pub fn number(self) -> u64 {
        self as u64
    }
}

/// A refusal and its place: an offset in one of the texts, or the words needed.
#[derive(Clone, Copy, Debug, PartialEq, Eq)]
pub struct Refused {
    pub refusal: Refusal,
    pub place: usize,
}

fn accepted(number: u64, place: u64) -> Result<(), Refused> {
    match number.checked_sub(1) {
        None => Ok(()),
        Some(i) => Err(Refused { refusal: Refusal::ALL[i as usize], place: place as usize }),
    }
}

/// A refusal of `join` and its place: an offset in the text that is refused, or the length needed where that is neither.
#[derive(Clone, Copy, Debug, PartialEq, Eq)]
pub struct RefusedJoin {
    pub refusal: Refusal,
    pub place: usize,
    /// `Text::First` or `Text::Second`
    pub text: Option<Text>,
}

/// Which text: the facts or the query, or one of the two that are joined.
#[derive(Clone, Copy, Debug, PartialEq, Eq)]
pub enum Text {
    Facts,
    Query,
    First,
    Second,
}

impl fmt::Display for Text {
    fn fmt(&self, f: &mut fmt::Formatter) -> fmt::Result {
        f.write_str(match self {
            Text::Facts => "facts",
            Text::Query => "query",
            Text::First => "first text",
            Text::Second => "second text",
        })
    }
}

/// A part of the facts or of the query.
#[derive(Clone, Copy, Debug, PartialEq, Eq)]
pub struct Part {
    pub text: Text,
    pub offset: usize,
    pub length: usize,
}

impl Part {
    fn new(text: u64, offset: u64, length: u64) -> Part {
        let text = if text == 0 { Text::Facts } else { Text::Query };
        Part { text, offset: offset as usize, length: length as usize }
    }

    /// Its bytes, out of the texts that the call was lent.
    pub fn of<'a>(&self, facts: &'a [u8], query: &'a [u8]) -> &'a [u8] {
        let text = if self.text == Text::Facts { facts } else { query };
        &text[self.offset..self.offset + self.length]
    }
}

/// A relation: the first place of its name, its arity, its first word in the store and the number of its tuples as loaded.
#[derive(Clone, Copy, Debug, PartialEq, Eq)]
pub struct Relation {
    pub name: Part,
    pub arity: usize,
    pub first: usize,
    pub count: usize,
}

/// The number of elements, the words that a run needs, and the relations in store order.
#[derive(Clone, Debug, PartialEq, Eq)]
pub struct Checked {
    pub universe: usize,
    pub words: usize,
    pub relations: Vec<Relation>,
}

#[derive(Clone, Copy, Debug, PartialEq, Eq)]
pub enum Ending {
    Done,
    Spent,
    Full,
}

/// How a run ended, the steps completed, the bytes written, and the number of tuples of each relation then: in store order, as the
/// relations of `check`, and 0 where there is none.
#[derive(Clone, Copy, Debug, PartialEq, Eq)]
pub struct Ran {
    pub ending: Ending,
    pub steps: u32,
    pub written: usize,
    pub counts: [usize; RELATIONS],
}

/// Whether a run would accept the texts, and what it needs.
pub fn check(facts: &[u8], query: &[u8]) -> Result<Checked, Refused> {
    let a = c::check(facts, query);
    accepted(a.refusal, a.place)?;
    let relation = |r: &c::Record| {
        let name = Part::new(r.text, r.offset, r.length);
        Relation { name, arity: r.arity as usize, first: r.first as usize, count: r.count as usize }
    };
    let relations = a.records[..a.relations as usize].iter().map(relation).collect();
    Ok(Checked { universe: a.universe as usize, words: a.words as usize, relations })
}

/// Runs the query over the facts; on refusal store and output are unchanged. An element is printed in quotes if a fact quoted it, or if
/// it is empty or holds a blank, so the lines of `PRINT ["R"] R(x,y);` can be read back as facts. A sum is printed as its digits, a
/// ratio reduced, as `1/3`, or `none` over 0, with no line end.
pub fn run(facts: &[u8], query: &[u8], budget: u32, store: &mut [u64], output: &mut [u8]) -> Result<Ran, Refused> {
    let a = c::run(facts, query, budget, store, output);
    accepted(a.refusal, a.place)?;
    let ending = match a.ending {
        0 => Ending::Done,
        1 => Ending::Spent,
        _ => Ending::Full,
    };
    Ok(Ran { ending, steps: a.steps as u32, written: a.written as usize, counts: a.counts.map(|n| n as usize) })
}

/// Where the text of element n stands; none where n is not below the number of elements, or the texts are refused.
pub fn element(facts: &[u8], query: &[u8], n: usize) -> Option<Part> {
    let a = c::element(facts, query, n);
    let part = Part::new(a.text, a.offset, a.length);
    // no left-hand string stands at the query's start
    (part != Part { text: Text::Query, offset: 0, length: 0 }).then_some(part)
}

/// Writes the numbers of the first chain of facts of that name to the buffer and answers their count; on refusal the buffer is unchanged.
/// First is the one with the fewest elements and, among those, with the smallest number at the earliest difference.
pub fn chain(facts: &[u8], name: &[u8], first: &[u8], second: &[u8], buffer: &mut [u8]) -> Result<usize, Refused> {
    let a = c::chain(facts, name, first, second, buffer);
    accepted(a.refusal, a.place)?;
    Ok(a.count as usize)
}

/// The texts of the first chain's elements, without quotes: a screen shows them as `B7 -> C10 -> C5`.
///
/// ```
/// let texts = relcalc::chain_texts(b"On C10 C5\nOn B7 C10\n", b"On", b"B7", b"C5").unwrap();
/// assert_eq!(texts.join(&b" -> "[..]), b"B7 -> C10 -> C5");
/// ```
pub fn chain_texts<'a>(facts: &'a [u8], name: &[u8], first: &[u8], second: &[u8]) -> Result<Vec<&'a [u8]>, Refused> {
    let mut numbers = [0; CHAIN_BYTES];
    let count = chain(facts, name, first, second, &mut numbers)?;
    // the numbers count the facts' elements alone: so do those of a query without left-hand strings
    let query = b"PRINT ENDL;";
    let part = |&n: &u8| element(facts, query, n.into()).expect("a chain's elements stand in the facts");
    Ok(numbers[..count].iter().map(|n| part(n).of(facts, query)).collect())
}

/// The facts of two texts as one text: relations in byte order of name, tuples ascending, each once, an element in quotes if either text
/// quoted it. Read as facts it has the tuples of both, relation by relation.
///
/// ```
/// let joined = relcalc::join(b"On C10 C5\nHeld B7\n", b"Rated \"B7\" AA\r\nHeld B7\r\n").unwrap();
/// assert_eq!(joined, b"Held \"B7\"\nOn C10 C5\nRated \"B7\" AA\n");
/// ```
pub fn join(first: &[u8], second: &[u8]) -> Result<Vec<u8>, RefusedJoin> {
    let mut output = vec![0; FACTS_BYTES];
    let a = c::join(first, second, &mut output);
    let text = match a.text {
        1 => Some(Text::First),
        2 => Some(Text::Second),
        _ => None,
    };
    accepted(a.refusal, a.place).map_err(|Refused { refusal, place }| RefusedJoin { refusal, place, text })?;
    output.truncate(a.length as usize);
    Ok(output)
}
