//! Facts: lines, names, elements; rows 1 to 7.
use crate::Refusal;
use std::collections::BTreeSet;

const RESERVED: &str = "AVG DIV ELSE ENDL EX EXEC EXIT FA FOR IF IN MAX MIN MOD NUMBER PRINT RELINFO STDERR STRING SUM TC TCFAST TO WHILE TRUE FALSE";

pub fn is_reserved(word: &[u8]) -> bool {
    RESERVED.split(' ').any(|r| r.as_bytes() == word)
}

pub fn is_letter(b: u8) -> bool {
    b.is_ascii_alphabetic() || b == b'_'
}

pub fn is_name(word: &[u8]) -> bool {
    !word.is_empty()
        && word.len() <= 32
        && is_letter(word[0])
        && word.iter().all(|&b| is_letter(b) || b.is_ascii_digit())
        && word != b"_"
        && !is_reserved(word)
}

pub fn is_legal(b: u8) -> bool {
    b == 9 || b == 10 || (32..=126).contains(&b)
}

pub struct Element {
    pub value: Vec<u8>,
    pub quoted: bool,
    /// its first byte, or its opening quote
    pub at: usize,
}

pub struct Fact {
    pub name: Vec<u8>,
    /// the line's first byte
    pub at: usize,
    pub elements: Vec<Element>,
}

/// A relation with the first place of its name: text 0 is the facts, 1 the query or, in a join, the second text.
#[derive(Clone)]
pub struct Relation {
    pub name: Vec<u8>,
    pub arity: usize,
    pub text: usize,
    pub at: usize,
}

#[derive(Default)]
pub struct Facts {
    pub facts: Vec<Fact>,
    pub relations: Vec<Relation>,
    pub universe: BTreeSet<Vec<u8>>,
}

impl Facts {
    /// Whether some fact quotes this element.
    pub fn quote(&self, text: &[u8]) -> bool {
        self.facts.iter().flat_map(|f| &f.elements).any(|e| e.quoted && e.value == text)
    }
}

/// The lines that are read, each with the place of its first byte and without its end: "one byte 13 directly before byte 10, or as the last
/// byte of the text, belong to the line end".
fn lines(text: &[u8]) -> Vec<(usize, &[u8])> {
    let mut found = Vec::new();
    let mut at = 0;
    for line in text.split(|&b| b == 10) {
        if line.first() == Some(&b'.') {
            break;
        }
        found.push((at, line.strip_suffix(b"\r").unwrap_or(line)));
        at += line.len() + 1;
    }
    found
}

fn is_blank(b: u8) -> bool {
    b == b' ' || b == 9
}

/// Whether a line can hold a text as an element in quotes alone: "only a quoted one may hold blanks", and a bare one is "not empty".
pub fn needs_quotes(text: &[u8]) -> bool {
    text.is_empty() || text.iter().any(|&b| is_blank(b))
}

/// The elements of a line after its name; row 4, and row 5 at a fourth.
fn elements(line: &[u8], at: usize, mut i: usize) -> Result<Vec<Element>, Refusal> {
    let mut found = Vec::new();
    loop {
        while i < line.len() && is_blank(line[i]) {
            i += 1;
        }
        if i == line.len() {
            return Ok(found);
        }
        let start = i;
        let quoted = line[i] == b'"';
        let value = if quoted {
            let Some(n) = line[i + 1..].iter().position(|&b| b == b'"') else {
                return Err((4, at + start));
            };
            i += n + 2;
            if i < line.len() && !is_blank(line[i]) {
                return Err((4, at + start));
            }
            line[start + 1..i - 1].to_vec()
        } else {
            while i < line.len() && !is_blank(line[i]) {
                i += 1;
            }
            line[start..i].to_vec()
        };
        if value.len() > 32 || value.contains(&b'"') {
            return Err((4, at + start));
        }
        if found.len() == 3 {
            return Err((5, at + start));
        }
        found.push(Element { value, quoted, at: at + start });
    }
}

/// The lines that are read; rows 1 and 2.
fn legal_lines(text: &[u8]) -> Result<Vec<(usize, &[u8])>, Refusal> {
    if text.len() > 32768 {
        return Err((1, 32768));
    }
    let lines = lines(text);
    for (at, line) in &lines {
        if let Some(i) = line.iter().position(|&b| !is_legal(b)) {
            return Err((2, at + i));
        }
    }
    Ok(lines)
}

fn is_skipped(line: &[u8]) -> bool {
    line.first() == Some(&b'#') || line.iter().all(|&b| is_blank(b))
}

/// A line by itself; rows 3 and 4, and row 5 at a fourth element.
fn fact(line: &[u8], at: usize) -> Result<Fact, Refusal> {
    let end = line.iter().position(|&b| is_blank(b)).unwrap_or(line.len());
    let name = line[..end].to_vec();
    if !is_name(&name) {
        return Err((3, at));
    }
    Ok(Fact { name, at, elements: elements(line, at, end)? })
}

impl Facts {
    /// Another arity, which is row 20 where another text gave the first and else row 5; row 6.
    fn enter_relation(&mut self, f: &Fact, text: usize) -> Result<(), Refusal> {
        let (name, arity) = (&f.name, f.elements.len());
        match self.relations.iter().find(|r| r.name == *name) {
            Some(r) if r.arity == arity => {}
            Some(r) if r.text != text => return Err((20, f.at)),
            Some(_) => return Err((5, f.elements.last().map_or(f.at, |e| e.at))),
            None if self.relations.len() == 16 => return Err((6, f.at)),
            None => self.relations.push(Relation { name: name.clone(), arity, text, at: f.at }),
        }
        Ok(())
    }
    /// Row 7.
    fn enter_elements(&mut self, f: &Fact) -> Result<(), Refusal> {
        for e in &f.elements {
            self.universe.insert(e.value.clone());
            if self.universe.len() > 64 {
                return Err((7, e.at));
            }
        }
        Ok(())
    }
    /// Reads a text, by its number, after those before it: the limits count what all of them have.
    pub fn read_more(&mut self, text: &[u8], number: usize) -> Result<(), Refusal> {
        for (at, line) in legal_lines(text)?.into_iter().filter(|(_, line)| !is_skipped(line)) {
            let fact = fact(line, at)?;
            self.enter_relation(&fact, number)?;
            self.enter_elements(&fact)?;
            self.facts.push(fact);
        }
        Ok(())
    }
}

pub fn read(text: &[u8]) -> Result<Facts, Refusal> {
    let mut all = Facts::default();
    all.read_more(text, 0)?;
    Ok(all)
}
