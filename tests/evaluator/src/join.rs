//! The join of Paper 7 of document 02: "a call that takes two fact texts and writes one: relations in byte order of name, tuples ascending,
//! each line once". What both texts say is sets of tuples of texts, by name.
use crate::facts::{needs_quotes, Facts};
use crate::Refusal;
use std::collections::{BTreeMap, BTreeSet};

/// The longest result.
const LONGEST: usize = 32768;

/// A refusal and which text it is of: 1 the first, 2 the second, 0 neither.
pub type Told = (Refusal, usize);

/// A relation's tuples by the texts of their elements.
pub type Tuples = BTreeSet<Vec<Vec<u8>>>;

/// Both texts, the second read after the first.
fn read(first: &[u8], second: &[u8]) -> Result<Facts, Told> {
    let mut both = Facts::default();
    both.read_more(first, 0).map_err(|r| (r, 1))?;
    both.read_more(second, 1).map_err(|r| (r, 2))?;
    Ok(both)
}

impl Facts {
    fn tuples(&self) -> BTreeMap<Vec<u8>, Tuples> {
        let mut found: BTreeMap<Vec<u8>, Tuples> = BTreeMap::new();
        for f in &self.facts {
            found.entry(f.name.clone()).or_default().insert(f.elements.iter().map(|e| e.value.clone()).collect());
        }
        found
    }
    /// The elements that some line puts in quotes.
    pub fn quoted(&self) -> BTreeSet<&[u8]> {
        self.facts.iter().flat_map(|f| &f.elements).filter(|e| e.quoted).map(|e| &e.value[..]).collect()
    }
}

/// "a line is the name, then each element after one space, then byte 10"
fn line(name: &[u8], tuple: &[Vec<u8>], quoted: &BTreeSet<&[u8]>) -> Vec<u8> {
    let mut found = name.to_vec();
    for e in tuple {
        let quote: &[u8] = if quoted.contains(&e[..]) || needs_quotes(e) { b"\"" } else { b"" };
        found.extend([b" ", quote, e, quote].concat());
    }
    found.push(10);
    found
}

/// The whole result, however long it is.
pub fn whole(first: &[u8], second: &[u8]) -> Result<Vec<u8>, Told> {
    let both = read(first, second)?;
    let quoted = both.quoted();
    let lines = |(name, tuples): (&Vec<u8>, &Tuples)| tuples.iter().flat_map(|t| line(name, t, &quoted)).collect::<Vec<u8>>();
    Ok(both.tuples().iter().flat_map(lines).collect())
}

/// Row 21: "a result over 32,768 bytes or the lent output, last".
pub fn lent(result: Vec<u8>, room: usize) -> Result<Vec<u8>, Told> {
    if result.len() > LONGEST.min(room) { Err(((21, result.len()), 0)) } else { Ok(result) }
}

pub fn join(first: &[u8], second: &[u8], room: usize) -> Result<Vec<u8>, Told> {
    lent(whole(first, second)?, room)
}
