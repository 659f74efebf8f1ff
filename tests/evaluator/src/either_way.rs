//! Paper 1 of document 02 as a property, tested apart from the engine: "The same facts saved either way, both within the length limit, load
//! to the same tables."
use crate::generate::Texts;
use crate::saved::crlf;
use crate::{accept, facts, Accepted, Refusal};

/// The same facts with CR LF, and a byte 13 at the end of a last line without byte 10.
fn copy(facts: &[u8]) -> Vec<u8> {
    let mut text = crlf(facts);
    if text.last() != Some(&10) {
        text.push(13);
    }
    text
}

/// Whether facts without bytes 13 and their copy, if it is within the limit, are answered alike: a place in the copy is as many bytes
/// further on as there are line ends before it, all else is the same.
pub fn agrees(t: &Texts, accepted: &Result<Accepted, Refusal>) -> bool {
    let copy = copy(&t.facts);
    if t.facts.contains(&13) || copy.len() > 32768 {
        return true;
    }
    let further = |at: usize| at + t.facts[..at].iter().filter(|&&b| b == 10).count();
    match (accepted, accept(&copy, &t.query)) {
        (Err((row, at)), Err(found)) if facts::read(&t.facts).is_err() => found == (*row, further(*at)),
        (Err(refusal), Err(found)) => found == *refusal,
        (Ok(a), Ok(b)) => same_answers(a, &b, t, further),
        _ => false,
    }
}

fn same_answers(a: &Accepted, b: &Accepted, t: &Texts, further: impl Fn(usize) -> usize) -> bool {
    // a record and the part of an element both begin with a text and an offset in it
    let moved = |part: &mut [usize]| {
        if part[0] == 0 {
            part[1] = further(part[1]);
        }
    };
    let mut checked = a.checked();
    checked.records.iter_mut().for_each(|record| moved(record));
    let same_element = |n: usize| {
        let mut part = a.element(n);
        moved(&mut part);
        part == b.element(n)
    };
    checked == b.checked()
        && a.universe == b.universe
        && (0..=a.universe.len()).all(same_element)
        && a.run(t.budget, checked.words, t.room) == b.run(t.budget, checked.words, t.room)
}
