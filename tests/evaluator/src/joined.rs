//! Paper 7 of document 02 as a property, of the evaluator as of the archive: "Reading the result gives the union of the two, relation by
//! relation", with the elements that either text quoted in quotes; names ascend, no line stands twice, each line is as a PRINT has it, the
//! other order writes the same, and a result joined with itself is itself.
use crate::calculator::{refused, same, Calculator};
use crate::facts;
use crate::join::{Told, Tuples};
use std::collections::{BTreeMap, BTreeSet};

/// Shows each element, so that it is seen which ones some fact quotes.
const QUERY: &[u8] = b"PRINT TRUE(x);";
const ROOM: usize = 4096;

/// What a calculator reads in a text of facts.
#[derive(PartialEq)]
struct Reading {
    tables: BTreeMap<Vec<u8>, Tuples>,
    elements: BTreeSet<Vec<u8>>,
    /// as they are printed
    quoted: BTreeSet<Vec<u8>>,
}

fn reading(c: &impl Calculator, text: &[u8]) -> Result<Reading, String> {
    let answer = c.answer(text, QUERY, 1, ROOM).map_err(refused)?;
    let elements = c.elements(text, QUERY, answer.checked.universe);
    let names = answer.checked.records.iter().map(|[_, at, length, ..]| text[*at..][..*length].to_vec());
    let tables = names.enumerate().map(|(n, name)| (name, answer.tuples(n, &elements))).collect();
    let quoted = answer.output.split(|&b| b == 10).filter(|line| line.first() == Some(&b'"')).map(<[u8]>::to_vec).collect();
    Ok(Reading { tables, elements: elements.into_iter().collect(), quoted })
}

fn union(first: &Reading, second: &Reading) -> Reading {
    let mut tables = first.tables.clone();
    second.tables.iter().for_each(|(name, tuples)| tables.entry(name.clone()).or_default().extend(tuples.iter().cloned()));
    Reading { tables, elements: &first.elements | &second.elements, quoted: &first.quoted | &second.quoted }
}

/// The result's lines, each with its byte 10: the names ascend, and no line stands twice.
fn in_order(lines: &[&[u8]]) -> Result<(), String> {
    let mut names: Vec<&[u8]> = lines.iter().filter_map(|l| l.split(|b| b" \n".contains(b)).next()).collect();
    names.dedup();
    same("whether names ascend", names.windows(2).all(|n| n[0] < n[1]), true)?;
    same("the number of different lines", lines.iter().collect::<BTreeSet<_>>().len(), lines.len())?;
    same("whether each line is ended", lines.iter().all(|l| l.ends_with(b"\n")), true)
}

/// `PRINT ["R"] R(x0,..), ..;` for all relations in byte order of name, over the result as facts, is the result.
fn printed_again(c: &impl Calculator, result: &[u8], tables: &BTreeMap<Vec<u8>, Tuples>) -> Result<(), String> {
    let attributes: Vec<String> = (0..).map(|i| format!("x{i}")).filter(|x| !tables.contains_key(x.as_bytes())).take(3).collect();
    let item = |(name, tuples): (&Vec<u8>, &Tuples)| {
        let (name, arity) = (String::from_utf8_lossy(name), tuples.first().map_or(0, Vec::len));
        format!("[\"{name}\"] {name}({})", attributes[..arity].join(","))
    };
    let items: Vec<String> = tables.iter().map(item).collect();
    if items.is_empty() {
        return same("what is written", result, b"");
    }
    let page = c.answer(result, format!("PRINT {};", items.join(",")).as_bytes(), 1, result.len()).map_err(refused)?.output;
    same("what is printed of the result", &page[..], result)
}

/// Both orders are refused or neither, for the length or for a text, and they write or need the same.
fn other_order(c: &impl Calculator, first: &[u8], second: &[u8], room: usize, answer: &Result<Vec<u8>, Told>) -> Result<(), String> {
    let by_text = |a: Result<Vec<u8>, Told>| match a {
        Err(((row, _), text)) if row != 21 => Err((text > 0, (0, 0))),
        Err((length, _)) => Err((false, length)),
        Ok(result) => Ok(result),
    };
    same("the other order", by_text(c.join(second, first, room)), by_text(answer.clone()))
}

fn again(c: &impl Calculator, result: &[u8]) -> Result<(), String> {
    let due = Ok(result.to_vec());
    same("the result joined with itself", &c.join(result, result, result.len()), &due)?;
    same("the result joined with nothing", &c.join(result, b"", result.len()), &due)
}

/// What is met where two texts are joined.
fn met(first: &Reading, second: &Reading, lines: &[&[u8]], longer: bool) -> Vec<String> {
    let both = union(first, second);
    let bare = |r: &Reading, e: &Vec<u8>| r.elements.contains(&e[1..e.len() - 1]) && !r.quoted.contains(e);
    let shared = |(name, tuples): (&Vec<u8>, &Tuples)| second.tables.get(name).is_some_and(|others| !others.is_disjoint(tuples));
    let length: usize = lines.iter().map(|l| l.len()).sum();
    let kinds = [
        (true, "written"),
        (lines.is_empty(), "nothing to write"),
        (first.tables.iter().any(shared), "a tuple of both"),
        (second.quoted.iter().any(|e| bare(first, e)), "in quotes for the second"),
        (first.quoted.iter().any(|e| bare(second, e)), "in quotes for the first"),
        (lines.windows(2).any(|l| l[0] > l[1]), "not the order of the lines' bytes"),
        (longer, "longer than both texts"),
        (both.tables.len() == 16 && first.tables.len().max(second.tables.len()) < 16, "16 relations of both"),
        (both.elements.len() == 64 && first.elements.len().max(second.elements.len()) < 64, "64 elements of both"),
        (length == 32768, "32,768 bytes"),
    ];
    kinds.into_iter().filter(|(met, _)| *met).map(|(_, what)| format!("join: {what}")).collect()
}

/// What is met where a call is refused.
fn met_refused(second: &[u8], room: usize, ((row, place), text): Told) -> Vec<String> {
    let alone = facts::read(second).err();
    let same_line = |at: usize| place <= at && !second[place..at].contains(&10);
    let of_text = format!("{row} of text {text}");
    let kinds = [
        (row < 20, &of_text[..]),
        ((row == 6 || row == 7) && text == 2 && alone.is_none(), if row == 6 { "6 for both together" } else { "7 for both together" }),
        (row == 20, "20"),
        (row == 20 && alone.is_none(), "20 with a second text that is right by itself"),
        (row == 20 && alone.is_some_and(|(row, at)| row == 5 && same_line(at)), "20 where the second gave the first's arity before"),
        (row == 21 && place <= 32768, "21 by the output"),
        (row == 21 && place > 32768 && place <= room, "21 by 32,768"),
        (row == 21 && place > 32768 && place > room, "21 by both"),
    ];
    kinds.into_iter().filter(|(met, _)| *met).map(|(_, what)| format!("join: {what}")).collect()
}

/// Holds a call to the paper: what is met, or what differs.
pub fn of(c: &impl Calculator, first: &[u8], second: &[u8], room: usize) -> Result<Vec<String>, String> {
    let answer = c.join(first, second, room);
    other_order(c, first, second, room, &answer)?;
    let result = match answer {
        Ok(result) => result,
        Err(told) => return Ok(met_refused(second, room, told)),
    };
    let lines: Vec<&[u8]> = result.split_inclusive(|&b| b == 10).collect();
    in_order(&lines)?;
    let (one, two) = (reading(c, first)?, reading(c, second)?);
    let read = reading(c, &result)?;
    same("what is read", &read, &union(&one, &two))?;
    printed_again(c, &result, &read.tables)?;
    again(c, &result)?;
    Ok(met(&one, &two, &lines, result.len() > first.len() + second.len()))
}
