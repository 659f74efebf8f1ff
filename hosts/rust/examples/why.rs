//! Why is it on the list? A query prints the held bonds that hang on C5, and each line is shown with the first chain that leads there.
use relcalc::{chain_texts, run, Ending, Refusal, Refused, STORE_WORDS};

// from B7 to C5: two chains of three elements, by C10 and by C20, and a longer one by C1
const FACTS: &[u8] = b"\
On C10 C5
On C5 C2
On B7 C10
On B7 C20
On C20 C5
On B7 C1
On C1 C10
On C10 C1
On \"5Y off the run\" C20
On B9 C2
Held B7
Held B9
Held \"5Y off the run\"
";
const QUERY: &[u8] = b"PRINT Held(x) & EX(y, TC(On(x,y)) & y = \"C5\");";

/// The query's page: lines of one element each.
fn page() -> Result<String, Refused> {
    let (mut store, mut output) = (vec![0; STORE_WORDS], vec![0; 32_768]);
    let ran = run(FACTS, QUERY, 1_000_000, &mut store, &mut output)?;
    assert_eq!(ran.ending, Ending::Done, "a page that is spent or full lacks lines: do not act on it");
    Ok(String::from_utf8_lossy(&output[..ran.written]).into_owned())
}

/// The text of a line's one element: a page may have it in quotes, and no element holds a quote.
fn bare(line: &str) -> &str {
    line.trim_matches('"')
}

/// The first chain of facts On between two elements.
fn why(first: &str, second: &str) -> Result<String, Refused> {
    match chain_texts(FACTS, b"On", first.as_bytes(), second.as_bytes()) {
        Ok(texts) => Ok(String::from_utf8_lossy(&texts.join(&b" -> "[..])).into_owned()),
        Err(refused) if refused.refusal == Refusal::NoChain => Ok("no chain".to_string()),
        Err(refused) => Err(refused),
    }
}

fn main() -> Result<(), Refused> {
    for line in page()?.lines() {
        println!("{line}: {}", why(bare(line), "C5")?);
    }
    for (first, second) in [("B9", "C5"), ("C10", "C10")] {
        println!("{first} to {second}: {}", why(first, second)?);
    }
    Ok(())
}
