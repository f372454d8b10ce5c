//! Random images and call lists from a seed: well-formed ones that reach into the corners, and
//! damaged ones.

use crate::conversion;
use crate::image::{self, HEADER, STEP};
use crate::program::{Instruction, Kind, Op, MOST_OPEN, MOST_ROUNDS, MOST_TABLES, OPS};
use crate::text;

/// A small generator of random numbers: a counter, mixed.
#[derive(Clone, Debug)]
pub struct Random(u64);

impl Random {
    pub fn new(seed: u64) -> Self {
        Random(seed)
    }

    pub fn any(&mut self) -> u64 {
        self.0 = self.0.wrapping_add(0x9e37_79b9_7f4a_7c15);
        let mut mixed = self.0;
        mixed = (mixed ^ mixed >> 30).wrapping_mul(0xbf58_476d_1ce4_e5b9);
        mixed = (mixed ^ mixed >> 27).wrapping_mul(0x94d0_49bb_1331_11eb);
        mixed ^ mixed >> 31
    }

    /// A number below the bound, which is not 0.
    pub fn below(&mut self, bound: usize) -> usize {
        (self.any() % bound as u64) as usize
    }

    pub fn within(&mut self, low: usize, high: usize) -> usize {
        low + self.below(high - low + 1)
    }

    pub fn chance(&mut self, percent: usize) -> bool {
        self.below(100) < percent
    }

    pub fn of<T: Copy>(&mut self, choices: &[T]) -> T {
        choices[self.below(choices.len())]
    }

    /// A word: mostly small, sometimes an edge, sometimes any.
    pub fn word(&mut self) -> u32 {
        const EDGES: [u32; 8] = [0, 1, 31, 32, 0x3ff, 0x400, 0x8000_0000, u32::MAX];
        match self.below(10) {
            0..=5 => self.below(7) as u32,
            6..=7 => self.of(&EDGES),
            _ => self.any() as u32,
        }
    }
}

/// What a program is written from: the header's values and the instructions.
#[derive(Clone, Debug)]
pub struct Draft {
    pub kind: Kind,
    pub secret: u16,
    /// The length of each table, and whether it is secret.
    pub tables: Vec<(usize, bool)>,
    pub code: Vec<Instruction>,
}

impl Draft {
    pub fn cells(&self) -> usize {
        self.tables.iter().map(|table| table.0).sum()
    }

    /// The image, laid out here once more and not by the writer that is to be tried.
    pub fn image(&self) -> Vec<u8> {
        let mut bytes = vec![1, 0, self.tables.len() as u8, self.kind as u8];
        bytes.extend((self.code.len() as u16).to_le_bytes());
        bytes.extend(self.secret.to_le_bytes());
        for &(len, secret) in &self.tables {
            bytes.extend((len as u16).to_le_bytes());
            bytes.extend([u8::from(secret), 0]);
        }
        bytes.resize(HEADER, 0);
        for step in &self.code {
            bytes.extend([step.op as u8, step.d, step.a, step.b]);
            bytes.extend(step.k.to_le_bytes());
        }
        bytes
    }
}

/// Grows a draft by nested blocks. Few registers are used, so that one step feeds the next.
struct Grower<'a> {
    random: &'a mut Random,
    draft: Draft,
    registers: Vec<u8>,
    /// How many more instructions there may be.
    room: usize,
}

/// The most rounds of all repeats around together, so that most programs can be run.
const ROUNDS: usize = 2_000;

impl Grower<'_> {
    fn register(&mut self) -> u8 {
        self.random.of(&self.registers)
    }

    fn put(&mut self, step: Instruction) {
        self.draft.code.push(step);
        self.room = self.room.saturating_sub(1);
    }

    fn block(&mut self, depth: usize, rounds: usize) {
        for _ in 0..self.random.within(1, 6) {
            let nests = depth < MOST_OPEN && self.room >= 4;
            match self.random.below(10) {
                0..=1 if nests => self.branch(depth, rounds),
                2 if nests && rounds < ROUNDS => self.repeat(depth, rounds),
                3..=5 if !self.draft.tables.is_empty() && self.room >= 2 => self.access(),
                _ if self.room > 0 => self.compute(),
                _ => return,
            }
        }
    }

    fn branch(&mut self, depth: usize, rounds: usize) {
        self.room -= 2;
        let a = self.register();
        self.put(Instruction::new(Op::If, 0, a, 0));
        self.block(depth + 1, rounds);
        if self.room > 0 && self.random.chance(60) {
            self.put(Instruction::bracket(Op::Else));
            self.block(depth + 1, rounds);
        }
        self.draft.code.push(Instruction::bracket(Op::End));
    }

    /// A repeat, mostly by a register that was set just before.
    fn repeat(&mut self, depth: usize, rounds: usize) {
        self.room -= 2;
        let most = match self.random.below(20) {
            0 => MOST_ROUNDS as usize,
            1..=3 => self.random.within(1, 40),
            _ => self.random.within(1, 4),
        };
        let a = self.register();
        if self.random.chance(60) {
            let count = self.random.within(0, most + 1) as u32;
            self.put(Instruction::constant(a, count));
        }
        let opening = Instruction::new(Op::Repeat, 0, a, 0);
        self.put(Instruction {
            k: most as u32,
            ..opening
        });
        self.block(depth + 1, rounds * most);
        self.draft.code.push(Instruction::bracket(Op::Again));
    }

    /// A load or a store, mostly by an index that is set to lie in the table or just outside it.
    fn access(&mut self) {
        let table = self.random.below(self.draft.tables.len());
        let len = self.draft.tables[table].0;
        let (d, a) = (self.register(), self.register());
        if self.random.chance(70) {
            let out = self.random.chance(12);
            let index = if out {
                self.random.of(&[len, len + 1])
            } else {
                self.random.below(len)
            };
            self.put(Instruction::constant(a, index as u32));
        }
        let op = self.random.of(&[Op::Load, Op::Store]);
        self.put(Instruction::new(op, d, a, table as u8));
    }

    fn compute(&mut self) {
        let op = OPS[self.random.below(Op::Load as usize)];
        let (d, a, b) = (self.register(), self.register(), self.register());
        let step = match op {
            Op::Const => Instruction::constant(d, self.random.word()),
            Op::Move => Instruction::new(op, d, a, 0),
            Op::Shl | Op::Shr | Op::Rotl => {
                let k = self.random.below(32) as u32;
                Instruction {
                    k,
                    ..Instruction::new(op, d, a, 0)
                }
            }
            _ => Instruction::new(op, d, a, b),
        };
        self.put(step);
    }
}

fn tables(random: &mut Random) -> Vec<(usize, bool)> {
    let count = random.of(&[0, 1, 1, 2, 2, 3, MOST_TABLES]);
    let secret = random.of(&[10, 50, 100]);
    let table = |_| {
        let len = match random.below(20) {
            0 => random.of(&[64, 500, 512]),
            _ => random.within(1, 6),
        };
        (len, random.chance(secret))
    };
    (0..count).map(table).collect()
}

/// A well-formed program of the kind.
pub fn draft(random: &mut Random, kind: Kind) -> Draft {
    let secret = random.of(&[0, 0xffff, 1 << 3, 0b101]) as u16;
    let secret = if random.chance(50) {
        random.any() as u16
    } else {
        secret
    };
    let tables = tables(random);
    let count = random.within(2, 6);
    let registers = (0..count).map(|_| random.below(usize::from(kind.registers())) as u8);
    let registers = registers.collect();
    let most = kind.most_instructions();
    let room = random.of(&[2, 8, 20, 40, 80, 160, most]);
    let draft = Draft {
        kind,
        secret,
        tables,
        code: Vec::new(),
    };
    let mut grower = Grower {
        random,
        draft,
        registers,
        room,
    };
    while grower.room > 0 && grower.random.chance(95) {
        grower.block(0, 1);
    }
    grower.draft
}

/// A draft of a source that tends to be converted: its repeats are by public registers, and what
/// is stored into is secret.
pub fn gentle(random: &mut Random) -> Draft {
    let mut draft = draft(random, Kind::Source);
    let repeats = draft.code.iter().filter(|step| step.op == Op::Repeat);
    let indices = draft
        .code
        .iter()
        .filter(|step| matches!(step.op, Op::Load | Op::Store));
    for step in repeats.chain(indices) {
        draft.secret &= !(1 << step.a);
    }
    for step in draft.code.iter().filter(|step| step.op == Op::Store) {
        draft.tables[usize::from(step.b)].1 = true;
    }
    draft
}

/// A draft that can be seated, unless none of a few tries can.
pub fn seatable(random: &mut Random, hides: bool) -> Draft {
    let fits = |draft: &Draft| {
        let source = image::read_fitting(&draft.image());
        source.is_ok_and(|source| conversion::convert_fitting(&source, hides).is_ok())
    };
    let mut draft = gentle(random);
    for _ in 0..8 {
        if fits(&draft) {
            break;
        }
        draft = gentle(random);
    }
    draft
}

/// Openings deeper than may be, or ones that are left open.
fn unbalanced(random: &mut Random, draft: &mut Draft) {
    let at = random.below(draft.code.len() + 1);
    let bracket = random.of(&[Op::If, Op::Else, Op::End, Op::Repeat, Op::Again]);
    let k = u32::from(bracket == Op::Repeat);
    let times = random.of(&[1, 1, 1, MOST_OPEN, MOST_OPEN + 1]);
    let step = Instruction {
        k,
        ..Instruction::bracket(bracket)
    };
    draft.code.splice(at..at, std::iter::repeat_n(step, times));
}

/// An image that is damaged in one place, or in a few.
pub fn damaged(random: &mut Random) -> Vec<u8> {
    let kind = random.of(&[Kind::Source, Kind::Source, Kind::Converted]);
    let mut draft = draft(random, kind);
    let unbalance = random.chance(25);
    if unbalance {
        unbalanced(random, &mut draft);
    }
    let mut image = draft.image();
    for _ in 0..random.of(&[usize::from(!unbalance), 1, 2]) {
        hurt(random, &mut image);
    }
    image
}

fn hurt(random: &mut Random, image: &mut Vec<u8>) {
    const BYTES: [u8; 9] = [0, 1, 2, 8, 9, 16, 21, 32, 255];
    let byte = if random.chance(70) {
        random.of(&BYTES)
    } else {
        random.any() as u8
    };
    let steps = image.len().saturating_sub(HEADER) / STEP;
    let anywhere = random.below(image.len().max(1));
    match random.below(10) {
        0 => image.truncate(anywhere),
        1 => image.push(byte),
        2 => image.truncate(image.len() - image.len().min(STEP)),
        4 | 5 if image.len() >= HEADER => image[random.below(HEADER)] = byte,
        6..=8 if steps > 0 => {
            image[HEADER + STEP * random.below(steps) + random.below(STEP)] = byte
        }
        _ if !image.is_empty() => image[anywhere] ^= 1 << random.below(8),
        _ => {}
    }
}

/// An image, of whatever sort.
pub fn image(random: &mut Random) -> Vec<u8> {
    match random.below(10) {
        0..=3 => draft(random, Kind::Source).image(),
        4..=5 => gentle(random).image(),
        6..=7 => draft(random, Kind::Converted).image(),
        _ => damaged(random),
    }
}

/// The name of a pile for so many cells.
pub fn make(random: &mut Random, cells: usize) -> String {
    let list = random.of(&[0, 3, 200, 5_000, 20_000, 1_000_000]);
    let mut name = if random.chance(25) {
        format!("banked:1024:{list}")
    } else {
        let size = if random.chance(10) {
            cells.saturating_sub(1)
        } else {
            cells + random.below(4)
        };
        format!("flat:{size}:{list}")
    };
    for _ in 0..random.of(&[0, 0, 1, 1, 2, 4]) {
        let exponent = random.below(8);
        let line = random.chance(60);
        name += &if line {
            format!("+line{exponent}")
        } else {
            "+scan".to_string()
        };
    }
    name
}

pub fn words(random: &mut Random, count: usize) -> Vec<u32> {
    (0..count).map(|_| random.word()).collect()
}

/// Calls to a bench: some before a program is seated, the seat of the image, and many after it.
pub fn bench_calls(random: &mut Random, draft: &Draft) -> Vec<String> {
    let mut calls = Vec::new();
    for _ in 0..random.below(3) {
        calls.push(bench_call(random, draft));
    }
    calls.push(format!("seat {}", text::show_bytes(&draft.image())));
    for _ in 0..random.within(1, 25) {
        calls.push(bench_call(random, draft));
    }
    calls
}

/// Mostly a table that there is, and a cell that it has.
fn cell(random: &mut Random, draft: &Draft) -> (usize, usize) {
    if draft.tables.is_empty() || random.chance(5) {
        return (draft.tables.len() + random.below(2), random.below(3));
    }
    let table = random.below(draft.tables.len());
    let len = draft.tables[table].0;
    let index = if random.chance(10) {
        len + random.below(2)
    } else {
        random.below(len)
    };
    (table, index)
}

fn bench_call(random: &mut Random, draft: &Draft) -> String {
    let (table, index) = cell(random, draft);
    let word = random.word();
    match random.below(20) {
        0..=4 => format!("put {table} {index} {word:x}"),
        5..=9 => format!("arg {} {word:x}", random.below(17)),
        10..=12 => format!(
            "go {}",
            random.of(&[0, 10, 100, 10_000, 1_000_000, 1_000_000])
        ),
        13..=14 => format!("look {table} {index}"),
        15..=16 => format!("open {table} {index}"),
        17..=18 => "outcome".to_string(),
        _ if random.chance(10) => format!("seat {}", text::show_bytes(&damaged(random))),
        _ => "clear".to_string(),
    }
}

/// Calls to a memory of so many cells: accesses within it, at its edge and outside.
pub fn memory_calls(random: &mut Random, cells: usize) -> Vec<String> {
    (0..random.within(1, 30))
        .map(|_| memory_call(random, cells))
        .collect()
}

fn memory_call(random: &mut Random, cells: usize) -> String {
    let len = random.below(7);
    let wide = random.of(&[0, 1, cells, cells + 1, 1_000, u32::MAX as usize]);
    let len = if random.chance(10) { wide } else { len };
    let base = random.below(cells + 1);
    let base = if random.chance(5) {
        wide
    } else {
        base.saturating_sub(len)
    };
    let off = if random.chance(10) {
        len
    } else {
        random.below(len.clamp(1, 1_024))
    };
    match random.below(20) {
        0..=5 => format!("read {base} {len} {off}"),
        6..=11 => format!("write {base} {len} {off} {:x}", random.word()),
        12 => format!("cost {} {len}", random.of(&['r', 'w'])),
        13 => "free".to_string(),
        14 => "size".to_string(),
        15 => "hides".to_string(),
        16 => "marks".to_string(),
        17..=18 => format!("mark {}", random.below(12)),
        _ => "clear".to_string(),
    }
}
