//! Compares ours with the rival on random images and cases, from a seed and a number of rounds.

use compare::images::{Counts, Lists};
use compare::texts;
use rival::cases::Runner;
use rival::generator::{self, Random};
use rival::text;
use std::process::ExitCode;

/// How many of each kind one round has.
const IMAGES: usize = 5_000;
const TEXTS: [(&str, usize); 3] = [("cases", 2_000), ("bench", 600), ("memory", 600)];

struct Campaign {
    random: Random,
    runner: Runner,
    lists: Lists,
    counts: Counts,
    tallies: [(usize, usize); 3],
    differing: usize,
}

impl Campaign {
    fn images(&mut self) {
        for number in 0..IMAGES {
            // Those of a source are wanted as often as all the others.
            let image = match number % 2 {
                0 => generator::gentle(&mut self.random).image(),
                _ => generator::image(&mut self.random),
            };
            let compared = self
                .lists
                .compare(&mut self.random, &image, &mut self.counts);
            if let Err(why) = compared {
                self.differing += 1;
                println!("image {}\n  {why}", text::show_bytes(&image));
            }
        }
    }

    fn texts(&mut self) {
        for (sum, (kind, count)) in self.tallies.iter_mut().zip(TEXTS) {
            let (tally, differing) =
                texts::compare(&mut self.runner, &mut self.random, kind, count);
            sum.0 += tally.agree;
            sum.1 += tally.all;
            self.differing += differing.len().max(tally.all - tally.agree);
            differing.iter().for_each(|case| println!("{case}"));
        }
    }

    fn report(&self) {
        let Counts {
            images,
            well_formed,
            labelled,
            converted,
            run,
            steps,
        } = self.counts;
        println!("images {images}: well-formed {well_formed}, labelled {labelled}, converted {converted}");
        println!("runs {run}, of {steps} steps");
        for (&(agree, all), (kind, _)) in self.tallies.iter().zip(TEXTS) {
            println!("{kind} {agree} of {all}");
        }
        println!("differing {}", self.differing);
    }
}

fn main() -> ExitCode {
    let numbers: Vec<u64> = std::env::args()
        .skip(1)
        .filter_map(|word| word.parse().ok())
        .collect();
    let [seed, rounds] = numbers[..] else {
        eprintln!("campaign SEED ROUNDS");
        return ExitCode::FAILURE;
    };
    let mut campaign = Campaign {
        random: Random::new(seed),
        runner: Runner::default(),
        lists: Lists::default(),
        counts: Counts::default(),
        tallies: [(0, 0); 3],
        differing: 0,
    };
    for _ in 0..rounds {
        campaign.images();
        campaign.texts();
    }
    campaign.report();
    ExitCode::from(u8::from(campaign.differing > 0))
}
