//! The wrapper over the archive: the worked example, facts saved with CR LF, patterns, printed quotes, counts of tuples, sums and ratios,
//! first chains, joined texts, refusals, empty and equal texts, largest sizes.
use relcalc::{c, chain, chain_texts, check, element, explain, explain_join, join, run};
use relcalc::{Ending, Explained, Fault, Refusal, Refused, RefusedJoin, Text, CHAIN_BYTES, FACTS_BYTES, RELATIONS, STORE_WORDS};

const FACTS: &[u8] = b"On C10 C5\nOn C5 C2\nOn B7 C10\nHeld B7\n";
const FACTS_CR_LF: &[u8] = b"On C10 C5\r\nOn C5 C2\r\nOn B7 C10\r\nHeld B7\r\n";
const QUERY: &[u8] = b"Dep(x,y) := TC(On(x,y)); PRINT [\"Dep\"] Dep(x,y);";
const PAGE: &[u8] = b"Dep B7 C10\nDep B7 C2\nDep B7 C5\nDep C10 C2\nDep C10 C5\nDep C5 C2\n";

const NO_BRACES: &str = "a { that opens no {m,n} with 0 <= m <= n <= 8, one digit each";
/// Where each is wrong, and how.
const NO_PATTERNS: [(&str, usize, &str); 51] = [
    ("", 0, "an empty pattern"),
    ("a|", 2, "an empty branch or group"),
    ("|a", 0, "an empty branch or group"),
    ("a||b", 2, "an empty branch or group"),
    ("a|b|", 4, "an empty branch or group"),
    ("a()b", 2, "an empty branch or group"),
    ("(())", 2, "an empty branch or group"),
    ("(a|)", 3, "an empty branch or group"),
    ("*a", 0, "a repeat sign with nothing before it"),
    ("a|+", 2, "a repeat sign with nothing before it"),
    ("({1,2})", 1, "a repeat sign with nothing before it"),
    ("^*", 1, "a repeat sign after ^ or $"),
    ("(a$)?$?", 6, "a repeat sign after ^ or $"),
    ("^{0,1}", 1, "a repeat sign after ^ or $"),
    ("a**", 2, "a second repeat sign"),
    ("a+?", 2, "a second repeat sign"),
    ("[*]{1,2}*", 8, "a second repeat sign"),
    ("a*{1,2}", 2, "a second repeat sign"),
    ("a{", 1, NO_BRACES),
    ("a{1", 1, NO_BRACES),
    ("a{3}", 1, NO_BRACES),
    ("a{1,}", 1, NO_BRACES),
    ("a{,2}", 1, NO_BRACES),
    ("a{01,2}", 1, NO_BRACES),
    ("a{1, 2}", 1, NO_BRACES),
    ("a{2,1}", 1, NO_BRACES),
    ("a{0,9}", 1, NO_BRACES),
    ("a{1,2", 1, NO_BRACES),
    ("a{1-2}", 1, NO_BRACES),
    ("(a", 0, "a group that is not closed"),
    ("((a)", 0, "a group that is not closed"),
    ("(a|(", 3, "a group that is not closed"),
    ("(a\\)", 0, "a group that is not closed"),
    ("a)", 1, "a ) without its ("),
    ("(a))|b", 3, "a ) without its ("),
    (")(", 0, "a ) without its ("),
    ("a[", 1, "a set that is not closed"),
    ("[]", 0, "a set that is not closed"),
    ("[^]", 0, "a set that is not closed"),
    ("(a[b)", 2, "a set that is not closed"),
    ("[a-", 0, "a set that is not closed"),
    ("[b-a]", 1, "a range that falls"),
    ("[a-cz-x]", 4, "a range that falls"),
    ("[a--]", 1, "a range that falls"),
    ("[^a-\\]", 2, "a range that falls"),
    ("[[:alpha:]]", 1, "[: or [. or [= in a set"),
    ("[[.]", 1, "[: or [. or [= in a set"),
    ("[a[=]", 2, "[: or [. or [= in a set"),
    ("[A-[.]", 3, "[: or [. or [= in a set"),
    ("\\", 0, "a backslash at the end"),
    ("a\\\\\\", 3, "a backslash at the end"),
];
/// What is picked out of B7, C10, C2, C5.
const PATTERNS: [(&str, &str); 19] = [
    ("^C1", "C10\n"),
    ("C", "C10\nC2\nC5\n"),
    ("c", ""),
    ("^C.$", "C2\nC5\n"),
    ("[1-5]", "C10\nC2\nC5\n"),
    ("[^C2-5]$", "B7\nC10\n"),
    ("[]7-]", "B7\n"),
    ("^C1*0?2+$|7", "B7\nC2\n"),
    ("^(B|C1){1,1}.$", "B7\nC10\n"),
    ("^.{3,8}$", "C10\n"),
    ("C{0,0}7", "B7\n"),
    ("\\C\\5", "C5\n"),
    ("^^B", "B7\n"),
    ("(^)*7$$", "B7\n"),
    ("a*^B", "B7\n"),
    ("C^2", ""),
    ("(^|C1)0", "C10\n"),
    ("[.]|[:]|[^^]{3,3}", "C10\n"),
    ("]|}|-|,|:| |\t|[[]|[a-c-e]", ""),
];

fn picking(pattern: &str) -> String {
    format!("PRINT @\"{pattern}\"(x);")
}

/// Counts of the first relations; there are no others.
fn sixteen(first: &[usize]) -> [usize; RELATIONS] {
    std::array::from_fn(|i| first.get(i).copied().unwrap_or(0))
}

fn refused(refusal: Refusal, place: usize) -> Refused {
    Refused { refusal, place }
}

/// The explanation of why the texts are refused.
fn told(facts: &[u8], query: &[u8]) -> Explained {
    explain(check(facts, query).unwrap_err(), facts, query)
}

#[test]
fn worked_example() {
    let checked = check(FACTS, QUERY).unwrap();
    assert_eq!((checked.universe, checked.words), (4, 77));
    let names: Vec<&[u8]> = checked.relations.iter().map(|r| r.name.of(FACTS, QUERY)).collect();
    assert_eq!(names, [&b"On"[..], b"Held", b"Dep"]);
    assert_eq!(checked.relations.iter().map(|r| (r.arity, r.first, r.count)).collect::<Vec<_>>(), [(2, 0, 3), (1, 4, 1), (2, 5, 0)]);
    let (mut store, mut output) = (vec![7; 79], vec![7; 100]);
    let ran = run(FACTS, QUERY, 1_000_000, &mut store, &mut output).unwrap();
    assert_eq!((ran.ending, ran.steps, ran.counts), (Ending::Done, 2, sixteen(&[3, 1, 6])));
    assert_eq!(&output[..ran.written], PAGE);
    assert!(output[ran.written..].iter().all(|&b| b == 7));
    assert_eq!(store[..9], [2, 8, 0, 4, 1, 14, 12, 0, 4]);
    assert!(store[9..77].iter().all(|&w| w == 0));
    assert_eq!(store[77..], [7, 7]);
}

#[test]
fn spent_and_full() {
    let mut store = [0; 77];
    let ran = run(FACTS, QUERY, 1, &mut store, &mut [0; 63]).unwrap();
    assert_eq!((ran.ending, ran.steps, ran.written), (Ending::Spent, 1, 0));
    let ran = run(FACTS, QUERY, 2, &mut store, &mut [0; 62]).unwrap();
    assert_eq!((ran.ending, ran.steps, ran.written), (Ending::Full, 1, 0));
    let ran = run(FACTS, QUERY, 2, &mut store, &mut [0; 63]).unwrap();
    assert_eq!((ran.ending, ran.steps, ran.written), (Ending::Done, 2, 63));
}

#[test]
fn elements_and_chains() {
    let texts: Vec<&[u8]> = (0..4).map(|n| element(FACTS, QUERY, n).unwrap().of(FACTS, QUERY)).collect();
    assert_eq!(texts, [&b"B7"[..], b"C10", b"C2", b"C5"]);
    assert_eq!(element(FACTS, QUERY, 4), None);
    assert_eq!(element(FACTS, QUERY, usize::MAX), None);
    assert_eq!(element(FACTS, b"", 0), None);
    let mut buffer = [9; CHAIN_BYTES + 1];
    assert_eq!(chain(FACTS, b"On", b"B7", b"C2", &mut buffer), Ok(4));
    assert_eq!(buffer[..5], [0, 1, 3, 2, 9]);
    assert_eq!(chain(FACTS, b"On", b"C2", b"B7", &mut buffer), Err(refused(Refusal::NoChain, 0)));
    assert_eq!(chain(FACTS, b"Held", b"C2", b"B7", &mut buffer), Err(refused(Refusal::NotInFacts, 0)));
    assert_eq!(chain(FACTS, b"On", b"B7", b"C2", &mut buffer[..64]), Err(refused(Refusal::BufferShort, 0)));
    assert_eq!(buffer[..5], [0, 1, 3, 2, 9]);
}

#[test]
fn facts_with_cr_lf() {
    let checked = check(FACTS_CR_LF, QUERY).unwrap();
    assert_eq!((checked.universe, checked.words), (4, 77));
    let names: Vec<&[u8]> = checked.relations.iter().map(|r| r.name.of(FACTS_CR_LF, QUERY)).collect();
    assert_eq!(names, [&b"On"[..], b"Held", b"Dep"]);
    assert_eq!(checked.relations.iter().map(|r| (r.name.offset, r.arity, r.first)).collect::<Vec<_>>(), [(0, 2, 0), (32, 1, 4), (0, 2, 5)]);
    let (mut store, mut output) = (vec![7; 77], vec![7; 100]);
    let ran = run(FACTS_CR_LF, QUERY, 1_000_000, &mut store, &mut output).unwrap();
    assert_eq!((ran.ending, ran.steps, &output[..ran.written]), (Ending::Done, 2, PAGE));
    assert_eq!(store[..9], [2, 8, 0, 4, 1, 14, 12, 0, 4]);
    let parts: Vec<_> = (0..4).map(|n| element(FACTS_CR_LF, QUERY, n).map(|p| (p.text, p.offset, p.length)).unwrap()).collect();
    assert_eq!(parts, [(Text::Facts, 24, 2), (Text::Facts, 3, 3), (Text::Facts, 17, 2), (Text::Facts, 7, 2)]);
    let mut buffer = [9; CHAIN_BYTES];
    assert_eq!(chain(FACTS_CR_LF, b"On", b"B7", b"C2", &mut buffer), Ok(4));
    assert_eq!(buffer[..5], [0, 1, 3, 2, 9]);
}

#[test]
fn line_ends() {
    let universe = |facts: &[u8]| check(facts, b"PRINT ENDL;").map(|c| c.universe);
    assert_eq!(universe(b"\r"), Ok(0));
    assert_eq!(universe(b"Held B7\n\r"), Ok(1));
    assert_eq!(universe(b"Held B7\nHeld \"C2\"\r\n\r\n# a\r\nHeld C5 \r"), Ok(3));
    assert_eq!(universe(b"Held B7\r\n.\rx\r\r\n"), Ok(1));
    assert_eq!(universe(b"Held aaaabbbbccccddddeeeeffffgggghhhh\r\n"), Ok(1));
    assert_eq!(universe(b"Held aaaabbbbccccddddeeeeffffgggghhhhi\r\n"), Err(refused(Refusal::FactElement, 5)));
    assert_eq!(universe(b"Held B7\r\nHeld \xC8\r\n"), Err(refused(Refusal::FactByte, 14)));
    let lines = b"\r\n".repeat(16_384);
    assert_eq!(universe(&lines), Ok(0));
    assert_eq!(universe(&[&lines[..], b"\r"].concat()), Err(refused(Refusal::FactsTooLong, 32_768)));
}

#[test]
fn returns_elsewhere() {
    let facts: [(usize, &[u8]); 8] = [
        (4, b"On C\r10 C5\r\n"),
        (7, b"Held B7\r\r\n"),
        (7, b"Held B7\r\r"),
        (7, b"Held B7\rHeld C2\r"),
        (7, b"Held B7\r."),
        (3, b"# a\rb\n"),
        (7, b"Held \"a\rb\"\n"),
        (10, b" Held\nOn a\rb c\n"),
    ];
    for (place, text) in facts {
        assert_eq!(check(text, b"PRINT ENDL;"), Err(refused(Refusal::FactByte, place)));
    }
    let queries: [(usize, &[u8]); 4] =
        [(14, b"PRINT Held(x);\r\n"), (4, b"// a\r\nPRINT ENDL;"), (8, b"PRINT \"a\rb\";"), (11, b"PRINT ENDL;\r")];
    for (place, text) in queries {
        assert_eq!(check(FACTS, text), Err(refused(Refusal::NoToken, place)));
    }
    let mut buffer = [9; CHAIN_BYTES];
    assert_eq!(chain(b"On C5\r C2\n", b"On", b"C5", b"C2", &mut buffer), Err(refused(Refusal::FactByte, 5)));
    assert_eq!(buffer, [9; CHAIN_BYTES]);
}

fn page(query: &str) -> String {
    let (mut store, mut output) = (vec![7; STORE_WORDS], [7; 100]);
    let ran = run(FACTS, query.as_bytes(), 99, &mut store, &mut output).unwrap();
    assert_eq!(ran.ending, Ending::Done, "{query}");
    String::from_utf8(output[..ran.written].to_vec()).unwrap()
}

#[test]
fn patterns() {
    for (pattern, picked) in PATTERNS {
        assert_eq!(page(&picking(pattern)), picked, "{pattern}");
    }
    assert_eq!(page("Q(x) := On(x,_) & @\"^C1\"(x); PRINT Q(x);"), "C10\n");
    let terms = "PRINT [\"a\"] @\"^C\"(\"C2\"), [\"b\"] @\"^B\"(\"C2\"), [\"c\"] @\".\"(\"Z\"), [\"d\"] @\"7$\"(_), [\"e\"] @\"8$\"(_);";
    assert_eq!(page(terms), "a\nd\n");
    assert_eq!(page("FOR v IN On(x,_) { IF @\"^C\"(v) { PRINT v, ENDL; } }"), "C10\nC5\n");
    assert_eq!(page("PRINT !@ /* a */ \"C\" // b\n (x);"), "B7\n");
    assert_eq!(page("Held(\"D.1\"); Held(\"DX1\"); PRINT @\"D[.]1\"(x);"), "D.1\n");
    assert_eq!(check(FACTS, picking("Z").as_bytes()).unwrap().universe, 4);
}

#[test]
fn printed_quotes() {
    assert_eq!(page("Held(\"5Y off the run\"); PRINT Held(x);"), "\"5Y off the run\"\nB7\n");
    let kinds = "Held(\"\"); Held(\" \"); Held(\"a\tb\"); Held(\"C2\"); Held(\"#x\"); PRINT Held(x);";
    assert_eq!(page(kinds), "\"\"\n\" \"\n#x\nB7\nC2\n\"a\tb\"\n");
    assert_eq!(page("R(\"a b\"); FOR v IN R(x) { PRINT v, ENDL, [v] R(x), \"c d\"; }"), "a b\na b \"a b\"\nc d");
    let (mut store, mut output) = ([0; 64], [0; 10]);
    let ran = run(b"R a\nS \"a\"\nR b\n", b"R(\"b\"); PRINT R(x);", 9, &mut store, &mut output).unwrap();
    assert_eq!(&output[..ran.written], b"\"a\"\nb\n");
}

#[test]
fn pages_read_back() {
    let held = page("Held(\"5Y off the run\"); Held(\"\"); PRINT [\"Held\"] Held(x);");
    assert_eq!(held, "Held \"\"\nHeld \"5Y off the run\"\nHeld B7\n");
    // another relation is absent, so it is empty
    let (facts, query) = (held.as_bytes(), b"PRINT [\"Held\"] Held(x), [\"On\"] On(x,y);");
    let texts: Vec<&[u8]> = (0..3).map(|n| element(facts, query, n).unwrap().of(facts, query)).collect();
    assert_eq!(texts, [&b""[..], b"5Y off the run", b"B7"]);
    let (mut store, mut output) = (vec![0; check(facts, query).unwrap().words], vec![0; facts.len()]);
    let ran = run(facts, query, 1, &mut store, &mut output).unwrap();
    assert_eq!((ran.ending, store[0], &output[..ran.written]), (Ending::Done, 0b111, facts));
}

/// The counts as loaded.
fn loaded(facts: &str, query: &str) -> Vec<usize> {
    check(facts.as_bytes(), query.as_bytes()).unwrap().relations.iter().map(|r| r.count).collect()
}

/// The counts of a run whose store and output hold something else before it.
fn counts(query: &str, budget: u32, room: usize) -> [usize; RELATIONS] {
    run(FACTS, query.as_bytes(), budget, &mut vec![7; STORE_WORDS], &mut vec![7; room]).unwrap().counts
}

#[test]
fn counts_as_loaded() {
    let dep = "Dep(x,y) := TC(On(x,y));";
    assert_eq!(loaded("On C10 C5\nOn C5 C2\nOn C10 C5\nHeld B7\nHeld B7\n", dep), [2, 1, 0]);
    assert_eq!(loaded("Held \"B7\"\nHeld B7\nOn B7 \"C2\"\r\nOn \"B7\" C2\nHeld \"B7\"\n", dep), [1, 1, 0]);
    assert_eq!(loaded("T a b c\nT \"a\" b c\nT a\tb  c \nT c b a\n", "PRINT ENDL;"), [2]);
    assert_eq!(loaded("P\nP \nP", "PRINT ENDL;"), [1]);
    assert_eq!(loaded("Held \"\"\nHeld \" \"\nHeld  \"\"\n# Held a\n.\nHeld b\n", "PRINT ENDL;"), [2]);
    assert_eq!(loaded("", "IF FALSE() { R(\"a\"); } PRINT P();"), [0, 0]);
    assert_eq!(loaded(&"P\n".repeat(16_384), "PRINT ENDL;"), [1]);
    assert_eq!(c::check(FACTS, QUERY).records[3..], [c::Record::default(); 13]);
}

#[test]
fn counts_at_the_end() {
    let dep = "Dep(x,y) := TC(On(x,y)); PRINT [\"Dep\"] Dep(x,y);";
    for (budget, room, due) in [(0, 63, [3, 1, 0]), (1, 63, [3, 1, 6]), (2, 62, [3, 1, 6]), (2, 63, [3, 1, 6])] {
        assert_eq!(counts(dep, budget, room), sixteen(&due));
    }
    assert_eq!(counts("PRINT ENDL;", 9, 1), sixteen(&[3, 1]));
    assert_eq!(counts("Held(\"C2\"); On(\"B7\",x) := FALSE(x);", 9, 0), sixteen(&[2, 2]));
    assert_eq!(counts("On(\"C2\",\"Z\"); Held(x) := Held(x);", 9, 0), sixteen(&[4, 1]));
    assert_eq!(counts("On(x,y) := FALSE(x,y); T(x,y,z); P();", 9, 0), sixteen(&[0, 1, 64, 1]));
    let shrinks = "FOR v IN On(x,_) { On(x,y) := On(x,y) & x != v; Gone(x) := Gone(x) | x = v; PRINT v; }";
    let steps = [[3, 0], [3, 0], [3, 0], [2, 0], [2, 1], [2, 1], [2, 1], [1, 1], [1, 2], [1, 2], [1, 2], [0, 2], [0, 3], [0, 3]];
    for (budget, [on, gone]) in steps.into_iter().enumerate() {
        assert_eq!(counts(shrinks, budget as u32, 99), sixteen(&[on, 1, gone]), "{budget} steps");
    }
    // B7, C10 and C5 are printed: 2, 3 and 2 bytes
    for (room, due) in [(1, [2, 1, 1]), (4, [1, 1, 2]), (6, [0, 1, 3])] {
        assert_eq!(counts(shrinks, 99, room), sixteen(&due));
    }
    let turns = "WHILE TRUE() { Held(x) := !Held(x); }";
    assert_eq!((counts(turns, 4, 0), counts(turns, 6, 0)), (sixteen(&[3, 1]), sixteen(&[3, 3])));
}

#[test]
fn no_counts_of_refusals() {
    let texts: [(&[u8], &[u8], u64, u64); 3] =
        [(FACTS, b"PRINT On(x,y)", 10, 13), (b"Held B7\nHeld B7 C2\n", QUERY, 5, 16), (FACTS, b"Dep(x) := TC(On(x,y));", 12, 0)];
    for (facts, query, refusal, place) in texts {
        assert_eq!(c::check(facts, query), c::Checked { refusal, place, ..Default::default() });
        assert_eq!(c::run(facts, query, 9, &mut [7; 99], &mut [7; 99]), c::Ran { refusal, place, ..Default::default() });
    }
    let short = c::run(FACTS, QUERY, 9, &mut [7; 76], &mut [7; 99]);
    assert_eq!(short, c::Ran { refusal: 14, place: 77, ..Default::default() });
}

#[test]
fn sizes_of_the_structs() {
    assert_eq!((size_of::<c::Record>(), size_of::<c::Checked>(), size_of::<c::Ran>()), (6 * 8, (5 + 6 * 16) * 8, (5 + 16) * 8));
    assert_eq!((size_of::<c::Chained>(), size_of::<c::Joined>()), (3 * 8, 4 * 8));
}

#[test]
fn quantities() {
    let pages = [
        ("PRINT #(On(x,y)), #(On(x,_)), #(TRUE()), #(FALSE(x));", "3310"),
        ("PRINT #(Held(x) & On(x,_)) / #(On(x,_));", "1/3"),
        ("FOR c IN On(_,x) { PRINT c, \" \", #(On(x,c)) / #(On(x,y)), ENDL; }", "C10 1/3\nC2 1/3\nC5 1/3\n"),
        ("PRINT 1+2/3+4, \" \", 6/3, \" \", 0/5, \" \", 007, \" \", 999999+999999;", "3/7 2/1 0/1 7 1999998"),
        ("PRINT 1/0, 0/0, #(Held(x))/#(FALSE(x));", "nonenonenone"),
        ("PRINT [\"a\"] 2/4 = 3/6, [\"b\"] 1/3 < 1/2, [\"c\"] 5/9 < 4/7, [\"d\"] 2 > 4/2;", "a\nb\nc\n"),
        ("PRINT [\"a\"] 1/0 = 1, [\"b\"] 1/0 != 1, [\"c\"] 1 <= 0/0, [\"d\"] !(1/0 = 1/0);", "d\n"),
        ("PRINT [\"a\"] 65536 = 0/65536;", ""),
        ("PRINT Held(x) & (#(On(x,y)) = 3);", "B7\n"),
        ("WHILE #(Held(x)) < 3 { Held(x) := Held(x) | EX(y, Held(y) & On(y,x)); } PRINT #(Held(x));", "3"),
        ("IF #(Held(x))/#(On(x,_)) < 1/2 { PRINT \"low\"; } ELSE { PRINT \"high\"; }", "low"),
        ("PRINT 6/*2*//3, 6// 2\n;", "2/16"),
        ("PRINT 00000000000000000000000000999999;", "999999"),
    ];
    for (query, printed) in pages {
        assert_eq!(page(query), printed, "{query}");
    }
    let (mut store, mut output) = (vec![7; STORE_WORDS], [7; 3]);
    let ran = run(FACTS, b"PRINT 10/4;", 9, &mut store, &mut output[..2]).unwrap();
    assert_eq!((ran.ending, ran.steps, ran.written), (Ending::Full, 0, 0));
    let ran = run(FACTS, b"PRINT 10/4;", 9, &mut store, &mut output).unwrap();
    assert_eq!((ran.ending, ran.steps, ran.written, &output), (Ending::Done, 1, 3, b"5/2"));
    let ran = run(b"", b"PRINT #(TRUE(x)), #(TRUE());", 9, &mut [], &mut output).unwrap();
    assert_eq!((ran.ending, ran.written, &output), (Ending::Done, 2, b"012"));
}

#[test]
fn refused_numbers() {
    let digits = format!("PRINT {};", "0".repeat(33));
    let rows = [
        (Refusal::Number, 6, "PRINT 1000000;"),
        (Refusal::Number, 6, "PRINT 0001000000;"),
        (Refusal::Number, 22, "PRINT 1+1+1+1+1+1+1+1+1;"),
        (Refusal::Number, 21, "IF 2/1+1+1+1+1+1+1+1+#(Held(x)) < 1 { P(); }"),
        (Refusal::Number, 19, "PRINT zz, @\"(\"(x), 1000000;"),
        (Refusal::NoToken, 6, &digits),
        (Refusal::NoProgram, 9, "PRINT On(1000000,x);"),
        (Refusal::NoProgram, 7, "PRINT !1=1;"),
        (Refusal::NoProgram, 13, "PRINT [\"a\"] 1;"),
        (Refusal::FreeAttributes, 5, "P(); PRINT #(TRUE(x,y,z,w));"),
        (Refusal::FreeAttributes, 0, "Q(x) := #(On(x,y)) > 1;"),
    ];
    for (refusal, place, query) in rows {
        let query = query.as_bytes();
        assert_eq!(check(FACTS, query), Err(refused(refusal, place)));
        assert_eq!(run(FACTS, query, 9, &mut [7; 99], &mut []), Err(refused(refusal, place)));
        assert_eq!(element(FACTS, query, 0), None);
    }
}

#[test]
fn words_on_refused_numbers() {
    let told = |refusal, place, query: &str| explain(refused(refusal, place), FACTS, query.as_bytes()).to_string();
    let large = told(Refusal::Number, 16, "IF #(Held(x)) > 1000000 { P(); }");
    assert!(large.starts_with("query:1:17: refused 19 at `1000000`: "), "{large}");
    assert!(large.ends_with("; here a number over 999,999\n  IF #(Held(x)) > 1000000 { P(); }\n                  ^"), "{large}");
    let ninth = told(Refusal::Number, 24, "PRINT\n1+1+1+1+1+1+1+1\n+ 999999;");
    assert!(ninth.starts_with("query:3:3: refused 19 at `999999`: "), "{ninth}");
    assert!(ninth.ends_with("; here a ninth summand of one sum\n  + 999999;\n    ^"), "{ninth}");
    let ninth = told(Refusal::Number, 22, "PRINT 1+1+1+1+1+1+1+1+#(Held(x));");
    assert!(ninth.starts_with("query:1:23: refused 19 at `#`: a sum has at most 8 summands"), "{ninth}");
    assert!(ninth.ends_with(&format!("; here a ninth summand of one sum\n  PRINT 1+1+1+1+1+1+1+1+#(Held(x));\n  {}^", " ".repeat(22))), "{ninth}");
    let digits = told(Refusal::NoToken, 6, &format!("PRINT {};", "1".repeat(33)));
    assert!(digits.starts_with(&format!("query:1:7: refused 9 at `{}`: ", "1".repeat(33))), "{digits}");
    let term = told(Refusal::NoProgram, 9, "PRINT On(12x,y);");
    assert!(term.starts_with("query:1:10: refused 10 at `12`: "), "{term}");
}

/// The numbers of the chain of facts R; the buffer's other bytes stay.
fn numbers(facts: &str, first: &str, second: &str) -> Vec<u8> {
    let mut buffer = [99; CHAIN_BYTES + 1];
    let count = chain(facts.as_bytes(), b"R", first.as_bytes(), second.as_bytes(), &mut buffer).unwrap();
    assert!(buffer[count..].iter().all(|&b| b == 99), "{facts}");
    buffer[..count].to_vec()
}

/// The texts of the chain of facts R.
fn texts<'a>(facts: &'a str, first: &str, second: &str) -> Result<Vec<&'a str>, Refused> {
    let texts = chain_texts(facts.as_bytes(), b"R", first.as_bytes(), second.as_bytes())?;
    Ok(texts.into_iter().map(|t| std::str::from_utf8(t).unwrap()).collect())
}

#[test]
fn first_chains() {
    let rows: [(&str, &str, &str, &[u8]); 11] = [
        ("R a b\nR a c\nR b d\nR c d\n", "a", "d", &[0, 1, 3]),
        ("R c d\nR b d\nR a c\nR a b\n", "a", "d", &[0, 1, 3]),
        ("R a b\nR b c\nR c e\nR a d\nR d e\n", "a", "e", &[0, 3, 4]),
        ("R a b\nR b c\nR a c\n", "a", "c", &[0, 2]),
        ("R a b\nR b y\nR y z\nR a c\nR c d\nR d z\n", "a", "z", &[0, 1, 4, 5]),
        ("R z y\nR y b\nR b a\nR z x\nR x c\nR c a\n", "z", "a", &[5, 3, 2, 0]),
        ("R B7 C2\nR C2 X\nR B7 C10\nR C10 X\n", "B7", "X", &[0, 1, 3]),
        ("R s a\nR a t\nR s B\nR B t\n", "s", "t", &[2, 0, 3]),
        ("S A\nR a b\nT c a B\n", "a", "b", &[2, 3]),
        ("R x c\nR c z\nR x \"a b\"\nR \"a b\" z\n", "x", "z", &[2, 0, 3]),
        ("R a b\nR b z\nR a \"\"\nR \"\" z\n", "a", "z", &[1, 0, 3]),
    ];
    for (facts, first, second, due) in rows {
        assert_eq!(numbers(facts, first, second), due, "{facts}");
    }
}

#[test]
fn first_cycles() {
    let rows: [(&str, &str, &[u8]); 6] = [
        ("R a a\n", "a", &[0, 0]),
        ("R \"\" \"\"\n", "", &[0, 0]),
        ("R a b\nR b a\nR b b\n", "b", &[1, 1]),
        ("R a b\nR b c\nR c a\nR a d\nR d a\n", "a", &[0, 3, 0]),
        ("R a b\nR b c\nR c a\nR a d\nR d a\n", "b", &[1, 2, 0, 1]),
        ("R b c\nR c b\nR b a\nR a b\n", "b", &[1, 0, 1]),
    ];
    for (facts, ends, due) in rows {
        assert_eq!(numbers(facts, ends, ends), due, "{facts}");
    }
}

#[test]
fn texts_of_chains() {
    assert_eq!(texts("R B7 C10\nR C10 C5\nR B7 C20\nR C20 C5\n", "B7", "C5"), Ok(vec!["B7", "C10", "C5"]));
    let cr_lf = "R \"B7\" C10\r\nR C10 \"5Y off the run\"\r\n";
    assert_eq!(texts(cr_lf, "B7", "5Y off the run"), Ok(vec!["B7", "C10", "5Y off the run"]));
    assert_eq!(texts("R a b\nR b z\nR a \"\"\nR \"\" z\n", "a", "z"), Ok(vec!["a", "", "z"]));
    assert_eq!(texts("S A\nR b a\nR a b\r", "b", "b"), Ok(vec!["b", "a", "b"]));
    assert_eq!(texts("R a b\n", "b", "a"), Err(refused(Refusal::NoChain, 0)));
    assert_eq!(texts("R a b\n", "a", "a"), Err(refused(Refusal::NoChain, 0)));
    assert_eq!(texts("R a b\n", "a", "\"b\""), Err(refused(Refusal::NotInFacts, 0)));
    assert_eq!(texts("R a b c\n", "a", "b"), Err(refused(Refusal::NotInFacts, 0)));
    assert_eq!(texts("R a\nR a b\n", "a", "b"), Err(refused(Refusal::Arity, 8)));
    assert_eq!(texts("R a b\r c\n", "a", "b"), Err(refused(Refusal::FactByte, 5)));
    let found = chain_texts(FACTS, b"On", b"B7", b"C5").unwrap();
    let parts: [&[u8]; 3] = [&FACTS[22..24], &FACTS[3..6], &FACTS[7..9]];
    assert!(found.len() == 3 && found.iter().zip(parts).all(|(text, part)| std::ptr::eq(*text, part)), "{found:?}");
}

#[test]
fn refused_chains() {
    let mut buffer = [9; CHAIN_BYTES];
    let mut ask = |facts: &[u8], first: &[u8], second: &[u8], room| chain(facts, b"R", first, second, &mut buffer[..room]);
    assert_eq!(ask(b"R a b\n", b"a", b"a", 65), Err(refused(Refusal::NoChain, 0)));
    assert_eq!(ask(b"R a b\nR b b\n", b"a", b"a", 65), Err(refused(Refusal::NoChain, 0)));
    assert_eq!(ask(b"R a b\nS b c\n", b"a", b"c", 65), Err(refused(Refusal::NoChain, 0)));
    assert_eq!(ask(b"R a b\n", b"a", b"b", 64), Err(refused(Refusal::BufferShort, 0)));
    assert_eq!(ask(b"R a b\n", b"b", b"a", 0), Err(refused(Refusal::BufferShort, 0)));
    assert_eq!(ask(b"R a b\n", b"a", b"c", 0), Err(refused(Refusal::NotInFacts, 0)));
    assert_eq!(ask(b"R a\nR a b\n", b"x", b"y", 0), Err(refused(Refusal::Arity, 8)));
    assert_eq!(buffer, [9; CHAIN_BYTES]);
}

/// What is written for two texts in either order, and for it and itself: these lines. The output's other bytes stay, and all of them
/// where it is one byte short.
fn joins(first: &str, second: &str, lines: &str) {
    let (first, second, lines) = (first.as_bytes(), second.as_bytes(), lines.as_bytes());
    for (a, b) in [(first, second), (second, first), (lines, lines)] {
        assert_eq!(join(a, b).as_deref(), Ok(lines), "{}", String::from_utf8_lossy(lines));
    }
    for room in [lines.len(), lines.len() + 9] {
        let mut output = vec![7; room];
        assert_eq!(c::join(first, second, &mut output), c::Joined { length: lines.len() as u64, ..Default::default() });
        assert!(output.starts_with(lines) && output[lines.len()..].iter().all(|&b| b == 7));
    }
    if let Some(short) = lines.len().checked_sub(1) {
        let mut output = vec![7; short];
        assert_eq!(c::join(first, second, &mut output), c::Joined { refusal: 21, place: lines.len() as u64, ..Default::default() });
        assert!(output.iter().all(|&b| b == 7));
    }
}

#[test]
fn joined_texts() {
    let rates = std::str::from_utf8(FACTS).unwrap();
    let rows = [
        ("R a\nR b\n", "R b\nR c\n", "R a\nR b\nR c\n"),
        (rates, "Rated B7 AA\r\nHeld C5\r\n", "Held B7\nHeld C5\nOn B7 C10\nOn C10 C5\nOn C5 C2\nRated B7 AA\n"),
        ("b x\nA x\n_a x\nA2 x\n", "A1 x\nA10 x\nA x\nB x\n", "A x\nA1 x\nA10 x\nA2 x\nB x\n_a x\nb x\n"),
        ("R m\n", "R z\nR a\n", "R a\nR m\nR z\n"),
        ("R b a\nR a c\n", "R a b\nR aa a\nR C2 z\nR C10 z\n", "R C10 z\nR C2 z\nR a b\nR a c\nR aa a\nR b a\n"),
        ("T b a a\nT a b c\n", "T a b a\nT a a z\n", "T a a z\nT a b a\nT a b c\nT b a a\n"),
        ("P\n", "P \nQ", "P\nQ\n"),
        ("R a\nR a\n", "S b\nS b\nS  b\n", "R a\nS b\n"),
        ("R  a\t\tb \t\n", "R\tc d", "R a b\nR c d\n"),
        ("# one\n\n \t\nR a\n", "\n#\nR b\n#", "R a\nR b\n"),
        ("R a\n.\n", "R b\n", "R a\nR b\n"),
        ("R a\r\nR b\r", "R c\nR b\r\n", "R a\nR b\nR c\n"),
        ("\r\n \r\nR a\r\n", "\r", "R a\n"),
        ("", "S b\nR a", "R a\nS b\n"),
        ("# a\n\n", ".\nR a\n", ""),
        ("", "", ""),
        (rates, rates, "Held B7\nOn B7 C10\nOn C10 C5\nOn C5 C2\n"),
        (rates, &rates[10..], "Held B7\nOn B7 C10\nOn C10 C5\nOn C5 C2\n"),
    ];
    for (first, second, lines) in rows {
        joins(first, second, lines);
    }
}

#[test]
fn joined_quotes() {
    joins("S a\nT a b\n", "R \"a\"\n", "R \"a\"\nS \"a\"\nT \"a\" b\n");
    joins("R a\n", "R \"a\"\n", "R \"a\"\n");
    joins("R a\nR \"a\"\n", "", "R \"a\"\n");
    joins("R \"a\"\n", "R B\n", "R B\nR \"a\"\n");
    joins("R !\n", "R \"\"\n", "R \"\"\nR !\n");
    joins("Held \"5Y off the run\"\n", "Held \"\t\"\nHeld \"\"\n", "Held \"\"\nHeld \"\t\"\nHeld \"5Y off the run\"\n");
    joins("R a\n.\nR \"a\"\n", "# \"a\"\nS a\n. R \"a\"", "R a\nS a\n");
}

fn refused_join(refusal: Refusal, place: usize, text: Text) -> RefusedJoin {
    RefusedJoin { refusal, place, text: Some(text) }
}

/// Two texts of which one is refused; the output's bytes stay, and the refusal does not depend on their number.
fn unjoined(first: &str, second: &str, due: RefusedJoin) {
    let (first, second) = (first.as_bytes(), second.as_bytes());
    assert_eq!(join(first, second), Err(due));
    let text = if due.text == Some(Text::First) { 1 } else { 2 };
    for room in [0, 99] {
        let mut output = vec![7; room];
        let answer = c::Joined { refusal: due.refusal.number(), place: due.place as u64, text, length: 0 };
        assert_eq!(c::join(first, second, &mut output), answer);
        assert!(output.iter().all(|&b| b == 7));
    }
}

#[test]
fn refused_joins() {
    use Refusal::*;
    use Text::{First, Second};
    let hashes = "#".repeat(32_769);
    let rows = [
        ("R a\nR b\rc\n", "S \"\n", FactByte, 7, First),
        ("R a\n", "R b\rc\n", FactByte, 3, Second),
        ("TRUE a\n", "9\n", FactName, 0, First),
        ("R a\n", "R a\n R b\n", FactName, 4, Second),
        ("R a\nR \"b\n", "R a\n", FactElement, 6, First),
        ("R a\n", "R a\nR \"b\n", FactElement, 6, Second),
        ("S a b c d\n", "R a\n", Arity, 8, First),
        ("R a\n", "S a b c d\n", Arity, 8, Second),
        ("R a b\nR c\n", "", Arity, 8, First),
        ("R a b\nR c\n", "R a b c\n", Arity, 8, First),
        ("S a\n", "R a\nR b \"c\"\n", Arity, 8, Second),
        ("S a\n", "R a\nR\n", Arity, 4, Second),
        // 20 where the first text has the relation, at the name
        ("R a b\n", "R a b\nR a\n", FirstArity, 6, Second),
        ("R\n", "R a\n", FirstArity, 0, Second),
        ("R a\n", "S x\nR\n", FirstArity, 4, Second),
        ("R a\n", "R a b\n9\n", FirstArity, 0, Second),
        ("R a\n.\nR a b\n", "R b c\n", FirstArity, 0, Second),
        ("R a\n", "R a b c d\n", Arity, 8, Second),
        ("R a\n", "R a b\"c\n", FactElement, 4, Second),
        ("R a\n", "R a b\n#\x7F\n", FactByte, 7, Second),
        (&hashes, "9\n", FactsTooLong, 32_768, First),
        ("R a\n", &hashes, FactsTooLong, 32_768, Second),
        ("9\n", &hashes, FactName, 0, First),
    ];
    for (first, second, refusal, place, text) in rows {
        unjoined(first, second, refused_join(refusal, place, text));
    }
    assert_eq!(join(&[b'#'; FACTS_BYTES], &[b'#'; FACTS_BYTES]), Ok(vec![]));
}

/// 6 and 7 count those of both texts.
#[test]
fn joined_limits() {
    use Refusal::{FirstArity, TooManyElements, TooManyRelations};
    use Text::{First, Second};
    let names = |numbers: std::ops::Range<usize>| numbers.map(|i| format!("N{i:02}\n")).collect::<String>();
    let elements = |count: usize| (0..count).map(|i| format!("E e{i:02}\n")).collect::<String>();
    unjoined(&names(0..16), "# a\nN00\nM\n", refused_join(TooManyRelations, 8, Second));
    joins(&names(0..16), "N15\nN00\n", &names(0..16));
    joins(&names(0..10), &names(10..16), &names(0..16));
    unjoined(&names(0..10), &names(10..17), refused_join(TooManyRelations, 24, Second));
    unjoined(&names(10..17), &names(0..10), refused_join(TooManyRelations, 36, Second));
    unjoined(&names(0..17), "9\n", refused_join(TooManyRelations, 64, First));
    joins(&elements(64), "E e63\n", &elements(64));
    unjoined(&elements(64), "F e00 new\n", refused_join(TooManyElements, 6, Second));
    unjoined(&elements(64), "F \"new\"\nE new one\n", refused_join(TooManyElements, 2, Second));
    unjoined(&elements(64), "E new one\n", refused_join(FirstArity, 0, Second));
    unjoined(&(elements(64) + &names(0..15)), "M new\n", refused_join(TooManyRelations, 0, Second));
    unjoined(&elements(65), "9\n", refused_join(TooManyElements, 386, First));
    unjoined(&elements(63), "F x x y\n", refused_join(TooManyElements, 6, Second));
    joins(&elements(63), "F x x\n", &(elements(63) + "F x x\n"));
}

/// The first pairs over 64 elements of one byte: six bytes a line.
fn pairs(name: &str, count: usize) -> Vec<String> {
    let byte = |i: usize| (b'0' + i as u8) as char;
    (0..count).map(|i| format!("{name} {} {}\n", byte(i / 64), byte(i % 64))).collect()
}

#[test]
fn longest_joins() {
    let lines = [pairs("R", 4096), pairs("S", 1365)].concat();
    let others = [pairs("P", 4096), pairs("Q", 1365)].concat().concat();
    let falling: String = lines.iter().rev().map(|line| &line[..]).collect();
    let lines = lines.concat();
    joins(&falling, &lines, &lines);
    joins(&falling, "P", &format!("P\n{lines}"));
    let too_long = |first: &str, second: &str, needed| {
        let due = RefusedJoin { refusal: Refusal::ResultTooLong, place: needed, text: None };
        assert_eq!(join(first.as_bytes(), second.as_bytes()), Err(due));
        // a longer output is of no use
        let mut output = vec![7; 70_000];
        let answer = c::join(first.as_bytes(), second.as_bytes(), &mut output);
        assert_eq!(answer, c::Joined { refusal: 21, place: needed as u64, text: 0, length: 0 });
        assert!(output.iter().all(|&b| b == 7));
    };
    too_long(&falling, &others, 2 * 32_766);
    too_long(&falling, "Pq", 32_769);
    too_long(&format!("{falling}Pq"), "", 32_769);
    // the element 0 stands 128 times in R, 86 times in S and once in P
    too_long(&falling, "P \"0\"\n", 32_766 + 2 * (128 + 86) + 6);
}

/// What is joined has the relations, counts and pages of both texts, and nothing else.
#[test]
fn joined_texts_read_back() {
    let (first, second) = ("On C10 C5\nHeld B7\nHeld C5\nP\n", "Held \"B7\"\r\nOn C2 \"5Y off the run\"\r\nRated B7 AA\r\n");
    let joined = String::from_utf8(join(first.as_bytes(), second.as_bytes()).unwrap()).unwrap();
    assert_eq!(joined, "Held \"B7\"\nHeld C5\nOn C10 C5\nOn C2 \"5Y off the run\"\nP\nRated \"B7\" AA\n");
    assert_eq!(loaded(&joined, "PRINT ENDL;"), [2, 2, 1, 1]);
    let query = b"PRINT [\"Held\"] Held(x), [\"On\"] On(x,y), [\"P\"] P(), [\"Rated\"] Rated(x,y);";
    let (mut store, mut output) = (vec![0; STORE_WORDS], vec![0; joined.len()]);
    let ran = run(joined.as_bytes(), query, 1, &mut store, &mut output).unwrap();
    assert_eq!((ran.ending, ran.written, &output[..]), (Ending::Done, joined.len(), joined.as_bytes()));
}

/// The explanation of why two texts are not joined.
fn told_join(first: &[u8], second: &[u8]) -> Explained {
    explain_join(join(first, second).unwrap_err(), first, second)
}

#[test]
fn words_on_refused_joins() {
    let e = told_join(FACTS, b"Rated B7 AA\r\nOn C5\r\n");
    let at = e.at.clone().unwrap();
    assert_eq!((e.refused, at.text, at.line, at.column), (refused(Refusal::FirstArity, 13), Text::Second, 2, 1));
    assert_eq!((&at.found[..], e.fault), (&b"On"[..], Some(Fault { offset: 0, reason: "one with 2 in the first" })));
    let rule = "a relation of both texts has as many elements in the second as in the first; here one with 2 in the first";
    assert_eq!(e.to_string(), format!("second text:2:1: refused 20 at `On`: {rule}\n  On C5\n  ^"));
    for (first, second, fault) in [("R\n", "R a\n", "none"), ("R a\n", "R\n", "1"), ("R a b c\n", "R a\n", "3")] {
        let e = told_join(first.as_bytes(), second.as_bytes()).to_string();
        assert!(e.contains(&format!("; here one with {fault} in the first\n")), "{e}");
    }
    let e = told_join(b"Held B7\nHeld \"C 5\" C2\n", FACTS).to_string();
    assert!(e.starts_with("first text:2:12: refused 5 at `C2`: a relation has 0 to 3 elements"), "{e}");
    assert!(e.ends_with("\n  Held \"C 5\" C2\n             ^"), "{e}");
    let e = told_join(FACTS, b"Rated a\nRated b c\n").to_string();
    assert!(e.starts_with("second text:2:9: refused 5 at `c`: "), "{e}");
    let e = told_join(FACTS, b"# a\nOn C10\r C2\r\n").to_string();
    assert!(e.starts_with("second text:2:7: refused 2 at byte 13: ") && e.ends_with("\n  On C10? C2\n        ^"), "{e}");
    let names: String = (0..16).map(|i| format!("N{i}\n")).collect();
    let e = told_join(names.as_bytes(), b"N0\nM\n").to_string();
    assert!(e.starts_with("second text:2:1: refused 6 at `M`: both texts together have at most 16 relations\n"), "{e}");
    let elements: String = (0..65).map(|i| format!("E {i}\n")).collect();
    let e = told_join(elements.as_bytes(), b"").to_string();
    assert!(e.starts_with("first text:65:3: refused 7 at `64`: both texts together have at most 64 elements\n"), "{e}");
    let e = explain_join(RefusedJoin { refusal: Refusal::ResultTooLong, place: 32_769, text: None }, FACTS, FACTS);
    assert_eq!((&e.at, e.to_string().starts_with("refused 21 (32769): a joined text has at most 32,768 bytes")), (&None, true));
    assert_eq!(explain(refused(Refusal::FirstArity, 0), FACTS, QUERY).at, None);
}

#[test]
fn words_on_any_joined_text_and_place() {
    use Refusal::*;
    let rows = [FactsTooLong, FactByte, FactName, FactElement, Arity, TooManyRelations, TooManyElements, FirstArity, ResultTooLong];
    let texts: [&[u8]; 6] = [b"", b"\r", b"\n\r\n", b"a\r\nb\r", b"\"\r\n\"", b"\r\r\n"];
    for (row, text, place) in rows.iter().flat_map(|r| texts.map(|t| (0..=t.len() + 1).map(move |p| (*r, t, p)))).flatten() {
        for which in [Text::First, Text::Second] {
            let e = explain_join(refused_join(row, place, which), text, text);
            let at = e.at.clone().unwrap();
            assert_eq!((at.text, at.found.is_empty()), (which, place >= text.len()), "{e}");
            assert!(at.caret <= at.shown.len() && !at.shown.contains(&10) && !at.shown[..at.caret].contains(&13), "{e}");
        }
    }
}

#[test]
fn refused_patterns() {
    for (pattern, _, _) in NO_PATTERNS {
        assert_eq!(check(FACTS, picking(pattern).as_bytes()), Err(refused(Refusal::Pattern, 7)), "{pattern}");
    }
    let over_32 = picking(&"a".repeat(33));
    let rows = [
        (Refusal::Pattern, 8, "PRINT @ \"\" (x);"),
        (Refusal::Pattern, 16, "PRINT @\"a\"(x), @\"(\"(x), @\"\"(x);"),
        (Refusal::Pattern, 20, "IF FALSE() { PRINT @\"(\"(x); }"),
        (Refusal::Pattern, 7, "PRINT @\"\"(On);"),
        (Refusal::NoToken, 7, &over_32),
        (Refusal::NoProgram, 13, "PRINT @\"(\"(x)"),
        (Refusal::NoProgram, 26, "FOR v IN Held(x) { PRINT @v(x); }"),
        (Refusal::NoProgram, 12, "PRINT @\"(\"(x,y);"),
        (Refusal::Kind, 11, "PRINT @\"a\"(On);"),
        (Refusal::FreeAttributes, 0, "S() := @\"^C1\"(x);"),
    ];
    for (refusal, place, query) in rows {
        let query = query.as_bytes();
        assert_eq!(check(FACTS, query), Err(refused(refusal, place)));
        assert_eq!(run(FACTS, query, 9, &mut [7; 99], &mut []), Err(refused(refusal, place)));
        assert_eq!(element(FACTS, query, 0), None);
    }
}

#[test]
fn a_refusal_changes_nothing() {
    let (mut store, mut output) = ([7; 76], [7; 10]);
    assert_eq!(run(FACTS, QUERY, 9, &mut store, &mut output), Err(refused(Refusal::StoreShort, 77)));
    assert_eq!(run(FACTS, b"PRINT On(x,y)", 9, &mut store, &mut output), Err(refused(Refusal::NoProgram, 13)));
    assert_eq!(run(b"Held B7\r\r\n", QUERY, 9, &mut store, &mut output), Err(refused(Refusal::FactByte, 7)));
    assert_eq!(run(FACTS, b"PRINT ENDL;\r\n", 9, &mut store, &mut output), Err(refused(Refusal::NoToken, 11)));
    assert_eq!(run(FACTS, b"PRINT @\"C{3}\"(x);", 9, &mut store, &mut output), Err(refused(Refusal::Pattern, 7)));
    assert_eq!(run(FACTS, b"PRINT 1000000;", 9, &mut store, &mut output), Err(refused(Refusal::Number, 6)));
    assert_eq!((store, output), ([7; 76], [7; 10]));
}

#[test]
fn refusals_in_words() {
    let e = told(FACTS, b"P();\n\tPRINT On(x,y);\nHeld(x) := On(x,y);");
    assert_eq!(e.refused, refused(Refusal::FreeAttributes, 21));
    let at = e.at.clone().unwrap();
    assert_eq!((at.text, at.line, at.column, &at.found[..]), (Text::Query, 3, 1, &b"Held"[..]));
    assert!(e.to_string().ends_with("\n  Held(x) := On(x,y);\n  ^"), "{e}");
    let e = told(b"Held B7\nOn C10 C5 x\n", b"Dep(x) := On(x,_);");
    assert_eq!((e.refused, e.at.unwrap().text), (refused(Refusal::Arity, 10), Text::Query));
    let e = told(b"Held B7\nHeld \"C 5\" C2\n", b"PRINT Held(x);");
    let at = e.at.clone().unwrap();
    assert_eq!((e.refused, at.text, &at.found[..]), (refused(Refusal::Arity, 19), Text::Facts, &b"C2"[..]));
    assert!(e.to_string().starts_with("facts:2:12: refused 5 at `C2`: "), "{e}");
    assert!(e.to_string().ends_with("\n  Held \"C 5\" C2\n             ^"), "{e}");
    let e = told(FACTS, b"PRINT On(x,y)");
    assert!(e.to_string().starts_with("query:1:14: refused 10 at end of text: "), "{e}");
    let e = explain(refused(Refusal::StoreShort, 77), FACTS, QUERY);
    assert_eq!((e.at.clone(), e.to_string().starts_with("refused 14 (77): ")), (None, true));
    let e = told(&[b'#'; 32_769], QUERY);
    assert_eq!((e.refused, e.at.unwrap().column), (refused(Refusal::FactsTooLong, 32_768), 32_769));
}

#[test]
fn words_on_facts_with_cr_lf() {
    let e = told(b"Held B7\r\nTRUE\r\n", QUERY);
    assert_eq!(e.refused, refused(Refusal::FactName, 9));
    assert!(e.to_string().starts_with("facts:2:1: refused 3 at `TRUE`: "), "{e}");
    assert!(e.to_string().ends_with("\n  TRUE\n  ^"), "{e}");
    let e = told(b"Held B7\r\nHeld \"5Y\r\nHeld C2\r\n", QUERY);
    assert_eq!(e.refused, refused(Refusal::FactElement, 14));
    assert!(e.to_string().starts_with("facts:2:6: refused 4 at `\"5Y`: "), "{e}");
    assert!(e.to_string().ends_with("\n  Held \"5Y\n       ^"), "{e}");
    let e = told(b"Held B7\r\nHeld B7 C2\r\n", QUERY);
    assert_eq!(e.refused, refused(Refusal::Arity, 17));
    assert!(e.to_string().starts_with("facts:2:9: refused 5 at `C2`: "), "{e}");
    assert!(e.to_string().ends_with("\n  Held B7 C2\n          ^"), "{e}");
    let e = told(b"Held B7\r\nOn C10\r C2\r\n", QUERY);
    assert_eq!(e.refused, refused(Refusal::FactByte, 15));
    assert!(e.to_string().starts_with("facts:2:7: refused 2 at byte 13: "), "{e}");
    let rule = " or one CR (13) directly before an LF (10) or as the text's last byte";
    assert!(e.to_string().ends_with(&format!("{rule}\n  On C10? C2\n        ^")), "{e}");
}

#[test]
fn words_on_refused_returns() {
    let e = told(b"Held B7\r\r\n", QUERY);
    assert!(e.to_string().starts_with("facts:1:8: refused 2 at byte 13: "), "{e}");
    assert!(e.to_string().ends_with("\n  Held B7?\n         ^"), "{e}");
    let e = told(FACTS, b"PRINT Held(x);\r\nPRINT ENDL;\r\n");
    assert!(e.to_string().starts_with("query:1:15: refused 9 at byte 13: "), "{e}");
    let rule = ": a query's lines end in LF (10), not in CR LF (13, 10)";
    assert!(e.to_string().ends_with(&format!("{rule}\n  PRINT Held(x);?\n                ^")), "{e}");
    let e = told(FACTS, b"PRINT \"5Y\r\n;");
    assert!(e.to_string().starts_with("query:1:7: refused 9 at `\"5Y`: "), "{e}");
    assert!(e.to_string().ends_with("\n  PRINT \"5Y\n        ^"), "{e}");
}

#[test]
fn faults_of_patterns() {
    let told = |query: &str, place| explain(refused(Refusal::Pattern, place), FACTS, query.as_bytes());
    for (pattern, offset, reason) in NO_PATTERNS {
        let query = picking(pattern);
        let e = told(&query, 7);
        let at = e.at.clone().unwrap();
        assert_eq!((e.fault, at.text, at.column), (Some(Fault { offset, reason }), Text::Query, 8), "{e}");
        assert!(e.to_string().starts_with(&format!("query:1:8: refused 18 at `\"{pattern}\"`: ")), "{e}");
        assert!(e.to_string().ends_with(&format!("; here {reason}\n  {query}\n  {}^", " ".repeat(8 + offset))), "{e}");
    }
    for (pattern, _) in PATTERNS {
        assert_eq!(told(&picking(pattern), 7).fault, None, "{pattern}");
    }
    let line = format!("  @\"{}a{}\" (x);", "(".repeat(16), ")".repeat(15));
    let e = told(&format!("PRINT On(x,_) &\n{line}"), 19);
    assert!(e.to_string().starts_with("query:2:4: refused 18 at `\"(((("), "{e}");
    assert!(e.to_string().ends_with(&format!("; here a group that is not closed\n  {line}\n      ^")), "{e}");
}

#[test]
fn words_where_a_limit_meets_a_line_end() {
    let shown = |e: Explained| e.at.map(|a| (a.line, a.column, a.found, a.shown, a.caret)).unwrap();
    let told_facts = |hashes, end: &[u8]| shown(told(&[&b"#".repeat(hashes)[..], end].concat(), QUERY));
    assert_eq!(told_facts(32_767, b"\r\n"), (1, 32_768, vec![10], vec![b'#'; 50], 50));
    assert_eq!(told_facts(32_768, b"\r\n"), (1, 32_769, vec![13], vec![b'#'; 50], 50));
    assert_eq!(told_facts(32_766, b"\r\r\n"), (1, 32_767, vec![10], vec![b'#'; 50], 50));
    assert_eq!(told_facts(32_760, b"\rOn a b c d"), (1, 32_769, b"c".to_vec(), b"On a b c d".to_vec(), 7));
    let told_query = |blanks, end: &[u8]| shown(told(FACTS, &[&b" ".repeat(blanks)[..], end].concat()));
    assert_eq!(told_query(16_383, b"\r\n"), (1, 16_384, vec![10], vec![b' '; 50], 50));
    assert_eq!(told_query(16_384, b"\r\n"), (1, 16_385, vec![13], vec![b' '; 50], 50));
}

#[test]
fn words_on_any_text_and_place() {
    use Refusal::*;
    let rows = [FactsTooLong, FactByte, FactElement, Arity, NoToken, NoProgram, Pattern, Number];
    let texts: [&[u8]; 6] = [b"", b"\r", b"\n\r\n", b"a\r\nb\r", b"\"\r\n\"", b"\r\r\n"];
    for (row, text, place) in rows.iter().flat_map(|r| texts.map(|t| (0..=t.len() + 1).map(move |p| (*r, t, p)))).flatten() {
        let e = explain(refused(row, place), text, text);
        let at = e.at.clone().unwrap();
        assert_eq!((at.found.is_empty(), e.fault), (place >= text.len(), None), "{e}");
        assert!(at.caret <= at.shown.len() && !at.shown.contains(&10) && !at.shown[..at.caret].contains(&13), "{e}");
    }
    let at = explain(refused(Refusal::FactName, 99), b"Held B7\r\nHeld C2\r", b"").at.unwrap();
    assert_eq!((at.line, at.column, &at.found[..], &at.shown[..], at.caret), (2, 8, &b""[..], &b"Held C2"[..], 7));
}

#[test]
fn empty_texts_and_lengths() {
    assert_eq!(check(b"", b""), Err(refused(Refusal::NoProgram, 0)));
    assert_eq!(run(b"", b"", 0, &mut [], &mut []), Err(refused(Refusal::NoProgram, 0)));
    let checked = check(b"", b"PRINT ENDL;").unwrap();
    assert_eq!((checked.universe, checked.words, checked.relations.len()), (0, 0, 0));
    let ran = run(b"", b"PRINT ENDL;", 5, &mut [], &mut []).unwrap();
    assert_eq!((ran.ending, ran.steps), (Ending::Full, 0));
    let ran = run(b"", b"PRINT FALSE();", 5, &mut [], &mut []).unwrap();
    assert_eq!((ran.ending, ran.steps, ran.written), (Ending::Done, 1, 0));
    assert_eq!(chain(b"", b"", b"", b"", &mut []), Err(refused(Refusal::NotInFacts, 0)));
}

#[test]
fn one_text_as_facts_and_query() {
    let text = b"#\nPRINT ENDL;";
    assert_eq!(check(text, text), Err(refused(Refusal::FactName, 2)));
    let text = b".\nPRINT ENDL;";
    assert_eq!(check(text, text), Err(refused(Refusal::NoToken, 0)));
    let text = b"\n\n \t\n";
    assert_eq!(check(text, text), Err(refused(Refusal::NoProgram, 5)));
    assert_eq!(chain(b"a a a", b"a", b"a", b"a", &mut [0; 65]), Ok(2));
}

#[test]
fn largest_sizes() {
    let mut facts: Vec<u8> = (0..64).flat_map(|i| format!("R0 e{i:02} e{:02} e00\n", (i + 1) % 64).into_bytes()).collect();
    for r in 1..16 {
        facts.extend(format!("R{r} e00 e00 e00\n").bytes());
    }
    facts.resize(32_768, b'\n');
    let mut query = b"R1(x,y,z) := R0(x,y,z); PRINT EX(z, R1(x,y,z));".to_vec();
    query.resize(16_384, b' ');
    let checked = check(&facts, &query).unwrap();
    assert_eq!((checked.universe, checked.words, checked.relations.len()), (64, STORE_WORDS, 16));
    assert_eq!(checked.relations.iter().map(|r| r.count).collect::<Vec<_>>(), [[64].as_slice(), &[1; 15]].concat());
    let (mut store, mut output) = (vec![7; STORE_WORDS], vec![7; 32_768]);
    let ran = run(&facts, &query, u32::MAX, &mut store, &mut output).unwrap();
    assert_eq!((ran.ending, ran.steps, ran.written), (Ending::Done, 2, 64 * 8));
    assert_eq!(ran.counts[..], [[64, 64].as_slice(), &[1; 14]].concat());
    let ran = run(&facts, b"PRINT #(TRUE(x,y,z)), \" \", #(R0(x,y,z)) / 64+64;", 9, &mut store, &mut output).unwrap();
    assert_eq!((ran.ending, &output[..ran.written]), (Ending::Done, &b"262144 1/2"[..]));
    let ran = run(&facts, b"R0(x,y,z) := FALSE(x,y,z); R15(x,y,z);", 9, &mut store, &mut []).unwrap();
    assert_eq!(ran.counts[..], [[0].as_slice(), &[1; 14], &[262_144]].concat());
    assert_eq!(element(&facts, &query, 63).unwrap().of(&facts, &query), b"e63");
    facts.push(b'\n');
    assert_eq!(check(&facts, &query), Err(refused(Refusal::FactsTooLong, 32_768)));
    facts.pop();
    query.push(b' ');
    assert_eq!(check(&facts, &query), Err(refused(Refusal::QueryTooLong, 16_384)));
    let ring: Vec<u8> = (0..64).flat_map(|i| format!("On e{i:02} e{:02}\n", (i + 1) % 64).into_bytes()).collect();
    assert_eq!(chain(&ring, b"On", b"e05", b"e05", &mut [0; CHAIN_BYTES]), Ok(65));
    let rest: Vec<u8> = (1..16).flat_map(|r| format!("R{r}\n").into_bytes()).collect();
    let facts = [ring, rest].concat();
    let found = chain_texts(&facts, b"On", b"e05", b"e05").unwrap();
    assert_eq!((found.len(), found[0], found[1], found[64]), (65, &b"e05"[..], &b"e06"[..], &b"e05"[..]));
}
