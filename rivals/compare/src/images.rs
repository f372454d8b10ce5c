//! One image, by both: read and written back, labelled, converted, run.

use crate::ours::{self, Refused, Run, Shape};
use rival::conversion::convert;
use rival::generator::{self, Random};
use rival::image;
use rival::labels::plan;
use rival::machine::{self, Visit, ENTRY};
use rival::make::{Layer, Make};
use rival::memory::{Memory, BANKED};
use rival::program::{HandedBack, Instruction, Kind, Program};
use rival::refusal::Refusal;

/// A header of 64 bytes and 3,000 instructions of 8 bytes, and some more.
const BYTES: usize = 24_072;
const SETS: usize = 210;
/// Longer than any run that is not refused, or far shorter than most.
const VISITS: [usize; 3] = [20, 1_000_000, 1_000_000];

/// How many of these were compared.
#[derive(Clone, Copy, Debug, Default)]
pub struct Counts {
    pub images: usize,
    pub well_formed: usize,
    pub labelled: usize,
    pub converted: usize,
    pub run: usize,
    pub steps: usize,
}

/// What both write into, made once.
pub struct Lists {
    visits: Vec<Visit>,
    bytes: [Vec<u8>; 2],
    sets: [Vec<u16>; 2],
}

impl Default for Lists {
    fn default() -> Self {
        Lists {
            visits: vec![Visit::default(); 1_000_000],
            bytes: [vec![0; BYTES], vec![0; BYTES]],
            sets: [vec![0; SETS], vec![0; SETS]],
        }
    }
}

fn told(refusal: Refusal) -> Refused {
    Refused {
        number: refusal.reason as u8,
        place: refusal.place,
    }
}

fn room() -> Vec<Instruction> {
    vec![Instruction::default(); Kind::Converted.most_instructions()]
}

fn given_back(back: HandedBack) -> Refused {
    told(back.refusal)
}

/// The pile of a make, in numbers.
pub fn shape(make: &Make) -> Shape {
    let number = |at: usize| match make.layers.get(at) {
        None => 0,
        Some(Layer::Scan) => 1,
        Some(Layer::Line(exponent)) => 2 + (*exponent).min(6) as u8,
    };
    Shape {
        banked: make.banked,
        list: make.limit,
        first: number(0),
        second: number(1),
        third: number(2),
        fourth: number(3),
    }
}

/// Where the two differ, as text.
type Compared = Result<(), String>;

fn same<T: PartialEq + std::fmt::Debug>(what: &str, rival: T, our: T) -> Compared {
    if rival == our {
        return Ok(());
    }
    Err(format!("{what}: the rival has {rival:?}, ours is {our:?}"))
}

/// The lists are compared whole: later entries have to stay.
fn same_list<T: PartialEq>(what: &str, lists: &[Vec<T>; 2]) -> Compared {
    if lists[0] == lists[1] {
        return Ok(());
    }
    Err(format!("{what}: what is written differs"))
}

/// How long a list is made: mostly long enough.
fn length(random: &mut Random, long: usize) -> usize {
    if random.chance(80) {
        long
    } else {
        random.below(long + 1)
    }
}

/// What the rival read, or why it did not.
type Read<'a> = Result<&'a Program, Refused>;

impl Lists {
    /// Compares all that is made of an image.
    pub fn compare(&mut self, random: &mut Random, image: &[u8], counts: &mut Counts) -> Compared {
        counts.images += 1;
        let read = image::read(image, room()).map_err(given_back);
        let read = read.as_ref().map_err(|refused| *refused);
        counts.well_formed += usize::from(read.is_ok());
        self.rewritten(random, image, read)?;
        self.labelled(random, image, read, counts)?;
        for hides in [false, true] {
            self.converted(random, image, read, hides, counts)?;
        }
        self.run(random, image, read, counts)
    }

    fn fill_bytes(&mut self, length: usize, byte: u8) {
        for bytes in &mut self.bytes {
            bytes.clear();
            bytes.resize(length, byte);
        }
    }

    fn rewritten(&mut self, random: &mut Random, image: &[u8], read: Read) -> Compared {
        let room = length(random, image.len() + 8);
        self.fill_bytes(room, random.any() as u8);
        let rival =
            read.and_then(|program| image::write(program, &mut self.bytes[0]).map_err(told));
        let our = ours::rewrite(image, &mut self.bytes[1], random.below(2));
        same("read and write", rival, our)?;
        same_list("read and write", &self.bytes)
    }

    fn labelled(
        &mut self,
        random: &mut Random,
        image: &[u8],
        read: Read,
        counts: &mut Counts,
    ) -> Compared {
        let (room, set) = (length(random, SETS), random.any() as u16);
        for sets in &mut self.sets {
            sets.clear();
            sets.resize(room, set);
        }
        let rival = read.and_then(|program| {
            plan(program, &mut self.sets[0]).map_err(told)?;
            Ok(program.code().len() + 1)
        });
        counts.labelled += usize::from(rival.is_ok());
        let our = ours::plan(image, &mut self.sets[1], random.below(2));
        same("labels", rival, our)?;
        same_list("labels", &self.sets)
    }

    fn converted(
        &mut self,
        random: &mut Random,
        image: &[u8],
        read: Read,
        hides: bool,
        counts: &mut Counts,
    ) -> Compared {
        let room = length(random, BYTES);
        self.fill_bytes(room, random.any() as u8);
        let rival = read.and_then(|source| {
            let straight = convert(source, hides, self::room()).map_err(given_back)?;
            image::write(&straight, &mut self.bytes[0]).map_err(told)
        });
        counts.converted += usize::from(rival.is_ok());
        let our = ours::convert(image, hides, &mut self.bytes[1], random.below(2));
        same("conversion", rival, our)?;
        same_list("conversion", &self.bytes)
    }

    /// Both run on a pile of one make, with the same cells and registers.
    fn run(
        &mut self,
        random: &mut Random,
        image: &[u8],
        read: Read,
        counts: &mut Counts,
    ) -> Compared {
        let most = read.map_or(4, |program| program.header().cells());
        let make = Make::named(&generator::make(random, most)).expect("a name that can be read");
        let mut cells = match make.banked {
            true => vec![0; BANKED],
            false => generator::words(random, make.size),
        };
        let mut memory = make.build(cells.clone());
        let words = generator::words(random, ENTRY);
        let mut entry = [0; ENTRY];
        entry.copy_from_slice(&words);
        let visits = &mut self.visits[..random.of(&VISITS)];
        let our = ours::run(
            image,
            &words,
            &mut cells,
            shape(&make),
            visits.len(),
            random.below(2),
        );
        let rival = read.and_then(|program| {
            let ending = machine::run(program, memory.as_mut(), &entry, visits).map_err(told)?;
            Ok(Run {
                steps: ending.steps,
                marks: ending.marks,
                fault: ending.fault,
            })
        });
        counts.run += usize::from(rival.is_ok());
        counts.steps += rival.map_or(0, |run| run.steps);
        same("run", rival, our)?;
        same("cells", memory.cells(), &cells)
    }
}
