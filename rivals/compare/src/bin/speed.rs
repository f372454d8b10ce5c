//! How fast ours is against the rival, in one process: ratios of the rival's time to ours, so that 2 says that ours
//! takes half as long. Medians of several rounds, in which the two take turns.

use compare::images::shape;
use compare::{ours, samples};
use rival::conversion::convert;
use rival::generator::Random;
use rival::image;
use rival::labels::plan;
use rival::machine::{self, Visit, ENTRY};
use rival::make::Make;
use rival::memory::Memory;
use rival::most::{most_marks, most_steps};
use rival::program::{Instruction, Kind, Program};
use std::hint::black_box;
use std::time::{Duration, Instant};

const ROUNDS: usize = 15;
const LENGTHS: [usize; 5] = [10, 25, 50, 100, 200];
const IMAGES: usize = 16;
/// How long one measuring should take.
const AIM: Duration = Duration::from_millis(30);

/// What two rates come to: the medians of ours and of the ratio.
struct Rates {
    our: f64,
    ratio: f64,
}

fn seconds(work: impl FnOnce()) -> f64 {
    let start = Instant::now();
    work();
    start.elapsed().as_secs_f64()
}

fn median(mut numbers: Vec<f64>) -> f64 {
    numbers.sort_by(f64::total_cmp);
    numbers[numbers.len() / 2]
}

/// Does the work of both so many times, often enough to be measured. What ours takes for no time at all is left out.
fn rates(mut rival: impl FnMut(usize), mut our: impl FnMut(usize)) -> Rates {
    let mut times = 8;
    while seconds(|| rival(times)) < AIM.as_secs_f64() {
        times *= 2;
    }
    our(times);
    let (mut our_rates, mut ratios) = (Vec::new(), Vec::new());
    for _ in 0..ROUNDS {
        let theirs = seconds(|| rival(times));
        let none = seconds(|| our(0));
        let ours = seconds(|| our(times)) - none;
        our_rates.push(times as f64 / ours);
        ratios.push(theirs / ours);
    }
    Rates {
        our: median(our_rates),
        ratio: median(ratios),
    }
}

fn list() -> Vec<Instruction> {
    vec![Instruction::default(); Kind::Converted.most_instructions()]
}

fn program(image: &[u8]) -> Program {
    image::read_fitting(image).expect("a sample is well-formed")
}

fn reading(images: &[Vec<u8>]) -> Rates {
    let mut out = vec![0; 4096];
    let mut kept = Some(list());
    let rival = |times| {
        for image in images {
            for _ in 0..times {
                let read = image::read(black_box(image), kept.take().unwrap_or_default());
                kept = black_box(read).ok().map(Program::into_list);
            }
        }
    };
    let our = |times| {
        for image in images {
            black_box(ours::rewrite(black_box(image), &mut out, times)).ok();
        }
    };
    rates(rival, our)
}

fn planning(images: &[Vec<u8>]) -> Rates {
    let programs: Vec<Program> = images.iter().map(|image| program(image)).collect();
    let (mut sets, mut ours_sets) = ([0; 201], [0; 201]);
    let rival = |times| {
        for source in &programs {
            for _ in 0..times {
                black_box(plan(black_box(source), black_box(&mut sets))).ok();
            }
        }
    };
    let our = |times| {
        for image in images {
            black_box(ours::plan(black_box(image), &mut ours_sets, times)).ok();
        }
    };
    rates(rival, our)
}

fn converting(images: &[Vec<u8>]) -> Rates {
    let programs: Vec<Program> = images.iter().map(|image| program(image)).collect();
    let mut out = vec![0; 24_064];
    let mut kept = Some(list());
    let rival = |times| {
        for source in &programs {
            for _ in 0..times {
                let straight = convert(black_box(source), true, kept.take().unwrap_or_default());
                kept = black_box(straight).ok().map(Program::into_list);
            }
        }
    };
    let our = |times| {
        for image in images {
            black_box(ours::convert(black_box(image), true, &mut out, times)).ok();
        }
    };
    rates(rival, our)
}

/// How many steps a program makes that is to make about so many, and the rates of its runs, at a table of so many cells.
fn running(steps: usize, cells: usize, layers: &str) -> (usize, Rates) {
    let image = samples::looping(steps, cells);
    let source = program(&image);
    let named = |list: usize| Make::named(&format!("flat:{cells}:{list}{layers}")).expect("a name");
    let marks = most_marks(&source, named(0).build(Vec::new()).as_ref());
    let make = named(marks);
    let mut memory = make.build(Vec::new());
    let mut visits = vec![Visit::default(); most_steps(source.code())];
    let room = visits.len();
    let entry = [0; ENTRY];
    let made = machine::run(&source, memory.as_mut(), &entry, &mut visits).expect("a sample runs");
    memory.clear();
    let rival = |times| {
        for _ in 0..times {
            let ran = machine::run(black_box(&source), memory.as_mut(), &entry, &mut visits);
            black_box(ran).ok();
            black_box(&memory).marks();
            memory.clear();
        }
    };
    let mut words = vec![0; cells];
    let our = |times| {
        words.fill(0);
        let ran = ours::run(
            black_box(&image),
            &entry,
            &mut words,
            shape(&make),
            room,
            times,
        );
        assert_eq!(ran.map(|ran| ran.steps), Ok(made.steps));
    };
    (made.steps, rates(rival, our))
}

/// How fast something is, how long one of it takes, and the ratio, as the last columns of a table.
fn shown(rates: &Rates, each: f64, unit: f64) -> String {
    let rate = rates.our * each;
    format!(
        "{:.0} | {:.2} | {:.2} |",
        rate,
        unit / rates.our,
        rates.ratio
    )
}

fn of_images() {
    println!("| work | instructions | images/s | µs an image | ratio |");
    println!("| --- | ---: | ---: | ---: | ---: |");
    let works: [(&str, fn(&[Vec<u8>]) -> Rates); 3] = [
        ("read", reading),
        ("plan", planning),
        ("convert", converting),
    ];
    for (name, work) in works {
        for length in LENGTHS {
            let images = samples::sources(&mut Random::new(1), length, IMAGES);
            let rates = work(&images);
            let each = IMAGES as f64;
            println!("| {name} | {length} | {}", shown(&rates, each, 1e6 / each));
        }
    }
}

/// Steps and cells, on a flat memory and under a full scan. The marks of a run have to be at most 1,000,000.
const FLAT: [(usize, usize); 7] = [
    (1_000, 16),
    (10_000, 16),
    (100_000, 16),
    (1_000_000, 16),
    (100_000, 4),
    (100_000, 128),
    (100_000, 1_024),
];
const SCANS: [(usize, usize); 9] = [
    (1_000, 4),
    (10_000, 4),
    (100_000, 4),
    (1_000_000, 4),
    (10_000, 16),
    (10_000, 64),
    (10_000, 256),
    (1_000, 256),
    (1_000, 1_024),
];

fn of_runs() {
    println!("| memory | steps | cells | steps/s | µs a run | ratio |");
    println!("| --- | ---: | ---: | ---: | ---: | ---: |");
    for (name, layers, samples) in [("flat", "", &FLAT[..]), ("full scan", "+scan", &SCANS[..])] {
        for &(steps, cells) in samples {
            let (made, rates) = running(steps, cells, layers);
            let columns = shown(&rates, made as f64, 1e6);
            println!("| {name} | {made} | {cells} | {columns}");
        }
    }
}

fn main() {
    of_images();
    println!();
    of_runs();
}
