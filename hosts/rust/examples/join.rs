//! The rates file and the credit file as one: what a join writes, a query over it that needs both, and two files that are refused.
use relcalc::{explain_join, join, run, Ending, Refused, STORE_WORDS};

const RATES: &[u8] = b"\
# rates, saved with LF
On C10 C5
On C5 C2
On B7 C10
On \"5Y off the run\" C5
Held B7
";
const CREDIT: &[u8] = b"\
# credit, saved with CR LF\r
Rated \"B7\" AA\r
Rated \"5Y off the run\" BBB\r
Held \"5Y off the run\"\r
Held B7\r
";
// On has two elements in the rates file, and a quote is left open
const NO_CURVE: &[u8] = b"Rated B7 AA\nOn C5\n";
const NO_QUOTE: &[u8] = b"Held B7\n\nHeld \"5Y off the run\n";
const QUERY: &[u8] = b"PRINT [\"on C2:\"] EX(y, TC(On(x,y)) & y = \"C2\") & Rated(x,r);";

/// What is joined; or why it is not: which text, its line and the refusal.
fn joined(first: &[u8], second: &[u8]) -> Result<Vec<u8>, String> {
    join(first, second).map_err(|refused| {
        let number = refused.refusal.number();
        match explain_join(refused, first, second).at {
            Some(at) => format!("{}, line {}: refused {number}", at.text, at.line),
            None => format!("neither text: refused {number}"),
        }
    })
}

/// The query's page over facts.
fn page(facts: &[u8]) -> Result<String, Refused> {
    let (mut store, mut output) = (vec![0; STORE_WORDS], vec![0; 32_768]);
    let ran = run(facts, QUERY, 1_000_000, &mut store, &mut output)?;
    assert_eq!(ran.ending, Ending::Done, "a page that is spent or full lacks lines: do not act on it");
    Ok(String::from_utf8_lossy(&output[..ran.written]).into_owned())
}

fn main() -> Result<(), Refused> {
    let facts = joined(RATES, CREDIT).expect("two right files");
    print!("{}{}", String::from_utf8_lossy(&facts), page(&facts)?);
    for (first, second) in [(RATES, NO_CURVE), (NO_QUOTE, CREDIT)] {
        println!("{}", joined(first, second).unwrap_err());
    }
    Ok(())
}
