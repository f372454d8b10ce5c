//! Writes random images, or cases with the answers that this writing of the bench gives.

use rival::cases::Runner;
use rival::generator::{self, Random};
use rival::making::{block, case};
use rival::text;
use std::io::{BufWriter, Result, Write};
use std::process::ExitCode;

const USAGE: &str = "generate SEED COUNT [images | cases | memories | benches]";
fn write_all(seed: u64, count: usize, what: &str) -> Result<()> {
    let mut random = Random::new(seed);
    let mut runner = Runner::default();
    let mut out = BufWriter::new(std::io::stdout().lock());
    for id in 0..count {
        let line = match what {
            "images" => Some(text::show_bytes(&generator::image(&mut random))),
            "memories" => block(&mut runner, &mut random, "memory", id),
            "benches" => block(&mut runner, &mut random, "bench", id),
            _ => {
                let given = case(&mut random, id);
                runner
                    .answer(&given)
                    .map(|answer| format!("{given} -> {answer}"))
            }
        };
        writeln!(out, "{}", line.unwrap_or_default())?;
    }
    out.flush()
}

fn main() -> ExitCode {
    let arguments: Vec<String> = std::env::args().skip(1).collect();
    let seed = arguments.first().and_then(|text| text.parse().ok());
    let count = arguments.get(1).and_then(|text| text.parse().ok());
    let what = arguments.get(2).map_or("images", String::as_str);
    let known = ["images", "cases", "memories", "benches"].contains(&what);
    let (Some(seed), Some(count), true) = (seed, count, known && arguments.len() <= 3) else {
        eprintln!("{USAGE}");
        return ExitCode::FAILURE;
    };
    match write_all(seed, count, what) {
        Ok(()) => ExitCode::SUCCESS,
        Err(_) => ExitCode::FAILURE,
    }
}
