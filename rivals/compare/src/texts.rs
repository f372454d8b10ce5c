//! Cases as text, with the rival's answers, run by ours.

use crate::ours::{self, Tally};
use rival::cases::Runner;
use rival::generator::Random;
use rival::making;

/// How many cases go into one text.
const BATCH: usize = 200;

/// Whether the two take a case as none in ways of their own: an image that reading refuses where a plan, a conversion or
/// a run is asked for. The images themselves are compared by `images`.
fn apart(given: &str, answer: &str) -> bool {
    let asks = ["plan ", "convert ", "run "]
        .iter()
        .any(|kind| given.starts_with(kind));
    let number = answer
        .strip_prefix("refused ")
        .and_then(|rest| rest.split(' ').next()?.parse::<u8>().ok());
    asks && number.is_some_and(|number| number <= 7)
}

/// Whether a banked memory is given cells, which ours is no case.
fn given_cells(given: &str) -> bool {
    given.contains("banked") && !given.contains("cells=- ") && !given.ends_with("cells=-")
}

/// A case of the kind with the rival's answer, or nothing where it is none.
fn case(runner: &mut Runner, random: &mut Random, kind: &str, id: usize) -> Option<String> {
    if kind != "cases" {
        let block = making::block(runner, random, kind, id)?;
        let head = block.lines().next().unwrap_or_default();
        return (!given_cells(head)).then_some(block);
    }
    let given = making::case(random, id);
    let answer = runner.answer(&given)?;
    let left_out = apart(&given, &answer) || given.starts_with("run ") && given_cells(&given);
    (!left_out).then(|| format!("{given} -> {answer}"))
}

/// Compares so many cases of the kind `cases`, `memory` or `bench`, and gives those that differ.
pub fn compare(
    runner: &mut Runner,
    random: &mut Random,
    kind: &str,
    count: usize,
) -> (Tally, Vec<String>) {
    let mut tally = Tally::default();
    let mut differing = Vec::new();
    for first in (0..count).step_by(BATCH) {
        let ids = first..count.min(first + BATCH);
        let cases: Vec<String> = ids
            .filter_map(|id| case(runner, random, kind, id))
            .collect();
        let all = ours::case_file(&cases.join("\n"));
        tally.agree += all.agree;
        tally.all += all.all;
        if all.agree < all.all || all.all != cases.len() {
            differing.extend(cases.into_iter().filter(|case| differs(case)));
        }
    }
    (tally, differing)
}

fn differs(case: &str) -> bool {
    ours::case_file(case) != Tally { agree: 1, all: 1 }
}
