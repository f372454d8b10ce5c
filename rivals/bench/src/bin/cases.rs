//! Runs the case files that are named, and prints how many cases of each agree.

use rival::cases::{judge, Runner};
use std::path::Path;
use std::process::ExitCode;

fn main() -> ExitCode {
    let mut runner = Runner::default();
    let (mut agree, mut all, mut unread) = (0, 0, false);
    for name in std::env::args().skip(1) {
        let Ok(text) = std::fs::read_to_string(&name) else {
            println!("{name}: cannot be read");
            unread = true;
            continue;
        };
        let tally = judge(&mut runner, &text);
        let stem = Path::new(&name)
            .file_stem()
            .map_or(name.clone().into(), |s| s.to_string_lossy());
        println!("{stem}: {} of {} agree", tally.agree, tally.all);
        tally.notes.iter().for_each(|note| println!("{note}"));
        agree += tally.agree;
        all += tally.all;
    }
    println!("total: {agree} of {all} agree");
    ExitCode::from(u8::from(unread || all == 0 || agree < all))
}
