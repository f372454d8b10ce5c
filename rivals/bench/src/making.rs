//! Random cases as case files have them.

use crate::cases::Runner;
use crate::generator::{self, Random};
use crate::program::Kind;
use crate::text;

const LENGTHS: [usize; 4] = [0, 40, 201, 3_000];

/// The case `KIND ID ..` without its answer.
pub fn case(random: &mut Random, id: usize) -> String {
    let cap = random.of(&LENGTHS);
    let well = random.chance(50);
    let image = if well {
        generator::gentle(random).image()
    } else {
        generator::image(random)
    };
    let image = text::show_bytes(&image);
    match random.below(5) {
        0 => format!("read {id} cap={cap} img={image}"),
        1 => format!("plan {id} cap={cap} img={image}"),
        2..=3 => format!(
            "convert {id} hides={} cap={cap} img={image}",
            random.below(2)
        ),
        _ => run_case(random, id),
    }
}

fn run_case(random: &mut Random, id: usize) -> String {
    let kind = random.of(&[Kind::Source, Kind::Source, Kind::Converted]);
    let draft = generator::draft(random, kind);
    let make = generator::make(random, draft.cells());
    let cells = text::trimmed(&generator::words(random, draft.cells().saturating_sub(1)));
    let regs = text::trimmed(&generator::words(random, 16));
    let cap = random.of(&[10, 1_000_000, 1_000_000]);
    let image = text::show_bytes(&draft.image());
    format!("run {id} mem={make} cells={cells} regs={regs} vcap={cap} img={image}")
}

/// A block with its answers, of the kind `memory` or `bench`.
pub fn block(runner: &mut Runner, random: &mut Random, kind: &str, id: usize) -> Option<String> {
    let hides = random.chance(50);
    let draft = generator::seatable(random, hides);
    let most = draft.cells() + 4 * usize::from(kind == "memory");
    let make = generator::make(random, most);
    let cells = text::trimmed(&generator::words(random, most.saturating_sub(1)));
    let head = format!("{kind} {id} {make} cells={cells}");
    let calls = match kind {
        "memory" => generator::memory_calls(random, most),
        _ => generator::bench_calls(random, &draft),
    };
    let lines: Vec<String> = calls.iter().map(|call| format!("{call} = ?")).collect();
    let lines: Vec<&str> = lines.iter().map(String::as_str).collect();
    runner
        .block(&head, &lines)
        .map(|answers| format!("{head}\n{answers}end"))
}
