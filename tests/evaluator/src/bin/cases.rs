//! Runs the evaluator over a file of test cases and says how many of those that hold agree.
use evaluator::cases::{chain_agrees, check_agrees, element_agrees, holds, join_agrees, nodes_agree, run_agrees};
use evaluator::json::{read, Json};

fn main() {
    let path = std::env::args().nth(1).expect("a file of cases");
    let all = read(&std::fs::read_to_string(path).unwrap());
    let (mut passed, mut failed) = (0, 0);
    let mut say = |c: &Json, ok: bool, what: &str| {
        if ok { passed += 1 } else { failed += 1; println!("{what} differs: {}", c.get("name").text()) }
    };
    let of = |key: &str| all.get(key).list().iter().filter(|c| holds(c));
    for c in of("cases") {
        let (facts, query) = (c.get("facts").bytes(), c.get("query").bytes());
        say(c, check_agrees(c, &facts, &query), "check");
        say(c, run_agrees(c, &facts, &query), "run");
    }
    of("elements").for_each(|c| say(c, element_agrees(c), "element"));
    of("chains").for_each(|c| say(c, chain_agrees(c), "chain"));
    of("joins").for_each(|c| say(c, join_agrees(c), "join"));
    of("nodes").for_each(|c| say(c, nodes_agree(c), "table after a node"));
    println!("{passed} passed, {failed} failed");
}
