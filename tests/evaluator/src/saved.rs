//! Texts with bytes 13, for Paper 1 of document 02: "Let one byte 13 directly before byte 10, or as the last byte of the text, belong to
//! the line end. A byte 13 anywhere else keeps refusal 2."
use crate::generate::Random;

/// With CR LF throughout: a byte 13 before each byte 10.
pub fn crlf(text: &[u8]) -> Vec<u8> {
    text.iter().flat_map(|&b| if b == 10 { vec![13, 10] } else { vec![b] }).collect()
}

/// With CR LF at some lines.
fn mixed(r: &mut Random, facts: &[u8]) -> Vec<u8> {
    facts.iter().flat_map(|&b| if b == 10 && r.one_in(2) { vec![13, 10] } else { vec![b] }).collect()
}

/// With CR LF, and a byte 13 alone at the end of the last line.
fn last_line(facts: &[u8]) -> Vec<u8> {
    [&crlf(facts.strip_suffix(b"\n").unwrap_or(facts)), b"\r".as_slice()].concat()
}

/// With CR LF after each line, the last too, and then more.
fn then(facts: &[u8], more: &[u8]) -> Vec<u8> {
    let end: &[u8] = if facts.last().is_none_or(|&b| b == 10) { b"" } else { b"\r\n" };
    [&crlf(facts), end, more].concat()
}

/// Facts saved another way: within the length limit, what was accepted stays so if it had no byte 13.
pub fn facts(r: &mut Random, facts: &[u8]) -> Vec<u8> {
    match r.below(10) {
        0..=3 => crlf(facts),
        4..=6 => mixed(r, facts),
        7 => last_line(facts),
        8 => then(facts, b"\r"),
        _ => then(facts, r.pick(&[".\r", ".\r\n", ". x\r\r\n", ".\r.\r\n\rHeld a\rHeld\r\r"]).as_bytes()),
    }
}

/// Facts saved with CR LF and one byte 13 too many: before a line end, inside a line, for a line end, before a dot, in a comment or in
/// quotes.
fn too_many(r: &mut Random, facts: &[u8]) -> Vec<u8> {
    let mut text = then(facts, b"#\r\n");
    let lines: Vec<usize> = text.split_inclusive(|&b| b == 10).map(<[u8]>::len).collect();
    let line = r.below(lines.len() - 1);
    let start: usize = lines[..line].iter().sum();
    let end = start + lines[line] - 2;
    let (at, without, with): (usize, usize, &[u8]) = match r.below(6) {
        0 => (end, 0, b"\r"),
        1 => (start + r.below(end - start), 0, b"\r"),
        2 => (end + 1, 1, b""),
        3 => (start, 0, b"\r.\r\n"),
        4 => (start, 0, b"# a\rb\r\n"),
        _ => (start, 0, b"Held \"a\rb\"\r\n"),
    };
    text.splice(at..at + without, with.iter().copied());
    text
}

/// Facts saved with CR LF after a comment that makes them as long as is allowed, or a byte shorter or longer. A 13, a 10 or neither is the
/// last byte within the limit.
fn at_limit(r: &mut Random, facts: &[u8]) -> Vec<u8> {
    let text = then(facts, r.pick(&["", "\r", "\r\n"]).as_bytes());
    let length: usize = *r.pick(&[32767, 32768, 32768, 32769, 32769]);
    let comment = "#".repeat(length.saturating_sub(text.len() + 2));
    [comment.as_bytes(), b"\r\n", &text].concat()
}

/// Facts saved with CR LF that are refused, most times: for an illegal byte on the last line, whatever stands before it, for the length,
/// for two bytes 13 as the last, or for one elsewhere.
pub fn spoiled(r: &mut Random, facts: &[u8]) -> Vec<u8> {
    let illegal: [&[u8]; 4] = [b"Held \x01", b"# \x7f\r\n", b"\x00\r", b"7Y \xff\r\n"];
    match r.below(9) {
        0 => then(facts, *r.pick(&illegal)),
        1 => at_limit(r, facts),
        2 => [&last_line(facts), b"\r".as_slice()].concat(),
        _ => too_many(r, facts),
    }
}

/// A query with bytes 13, which is row 9 wherever they stand.
pub fn query(r: &mut Random, query: &[u8]) -> Vec<u8> {
    let at = match r.below(3) {
        0 => return crlf(query),
        1 => query.len(),
        _ => r.below(query.len()),
    };
    [&query[..at], b"\r", &query[at..]].concat()
}
