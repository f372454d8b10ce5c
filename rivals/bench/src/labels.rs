//! Which registers may depend on a secret at each place: the smallest sets that keep the rules.
//!
//! All moves but that of an again go forward. So one walk sets all, except that it goes back to the
//! place after a repeat whenever its again raises the set there. A set only ever grows, and only by
//! what a rule asks for, so what is reached is the smallest.

use crate::program::{Instruction, Kind, Op, Program, Table, MOST_OPEN, MOST_SOURCE};
use crate::refusal::{Reason, Refusal};

/// A set of registers, bit i for register i.
pub type Set = u16;

#[derive(Clone, Copy, Default)]
struct Open {
    place: usize,
    secret: bool,
    /// What leaves the opening or, once it has come, the else.
    carried: Set,
}

/// The smallest sets of a source at places 0 to n; later entries are of no meaning.
pub struct Labels {
    sets: [Set; MOST_SOURCE + 1],
}

impl Labels {
    pub fn at(&self, place: usize) -> Set {
        self.sets[place]
    }
}

pub fn has(set: Set, register: u8) -> bool {
    set >> (register & 15) & 1 != 0
}

fn secret_tables(tables: &[Table]) -> Set {
    let bits = tables
        .iter()
        .enumerate()
        .map(|(number, table)| u16::from(table.secret) << number);
    bits.sum()
}

/// Only of a source: others have more registers and places than the sets hold.
pub fn of_source(program: &Program) -> Result<Labels, Refusal> {
    if program.kind() != Kind::Source {
        return Err(Reason::NotASource.at(0));
    }
    let mut walk = Walk {
        labels: Labels {
            sets: [0; MOST_SOURCE + 1],
        },
        open: [Open::default(); MOST_OPEN],
        depth: 0,
        secret_ifs: 0,
    };
    walk.labels.sets[0] = program.header.secret;
    let code = program.code();
    let tables = secret_tables(program.tables());
    let mut place = 0;
    while let Some(step) = code.get(place) {
        place = walk.pass(place, step, tables);
    }
    Ok(walk.labels)
}

/// Writes S(0) to S(n) into the list; later entries stay.
pub fn plan(program: &Program, list: &mut [Set]) -> Result<(), Refusal> {
    let labels = of_source(program)?;
    let needed = program.code().len() + 1;
    let room = list
        .get_mut(..needed)
        .ok_or(Reason::NoRoomForResult.at(needed))?;
    room.copy_from_slice(&labels.sets[..needed]);
    Ok(())
}

struct Walk {
    labels: Labels,
    open: [Open; MOST_OPEN],
    depth: usize,
    secret_ifs: usize,
}

impl Walk {
    /// Brings the place's moves about, and answers the place to go on with.
    fn pass(&mut self, place: usize, step: &Instruction, secret_tables: Set) -> usize {
        let here = self.labels.sets[place];
        if step.op < Op::If {
            let masked = self.secret_ifs > 0;
            self.labels.sets[place + 1] |= leaves(here, step, secret_tables, masked);
            return place + 1;
        }
        match step.op {
            Op::Else => self.pass_else(place, here),
            Op::End => self.pass_end(place, here),
            Op::Again => self.pass_again(place, here),
            _ => self.pass_opening(place, here, step),
        }
    }

    fn pass_opening(&mut self, place: usize, here: Set, step: &Instruction) -> usize {
        let secret = step.op == Op::If && has(here, step.a);
        self.open[self.depth] = Open {
            place,
            secret,
            carried: here,
        };
        self.depth += 1;
        self.secret_ifs += usize::from(secret);
        self.labels.sets[place + 1] |= here;
        place + 1
    }

    fn pass_end(&mut self, place: usize, here: Set) -> usize {
        let here = here | self.pop().carried;
        self.labels.sets[place] = here;
        self.labels.sets[place + 1] |= here;
        place + 1
    }

    fn pass_else(&mut self, place: usize, here: Set) -> usize {
        let top = &mut self.open[self.depth - 1];
        let from_then = if top.secret { here } else { 0 };
        self.labels.sets[place + 1] |= top.carried | from_then;
        top.carried = here;
        place + 1
    }

    fn pass_again(&mut self, place: usize, here: Set) -> usize {
        let top = self.open[self.depth - 1];
        let body = top.place + 1;
        if here & !self.labels.sets[body] != 0 {
            self.labels.sets[body] |= here;
            return body;
        }
        self.pop();
        self.labels.sets[place + 1] |= here | top.carried;
        place + 1
    }

    fn pop(&mut self) -> Open {
        self.depth -= 1;
        let top = self.open[self.depth];
        self.secret_ifs -= usize::from(top.secret);
        top
    }
}

const A: u8 = 1;
const B: u8 = 2;
const D: u8 = 4;
const TABLE: u8 = 8;

/// Which of its fields an op that is no bracket reads, a store apart: at the op's number.
const READS: [u8; 15] = {
    let mut reads = [A | B; 15];
    reads[Op::Const as usize] = 0;
    reads[Op::Move as usize] = A;
    reads[Op::Shl as usize] = A;
    reads[Op::Shr as usize] = A;
    reads[Op::Rotl as usize] = A;
    reads[Op::Pick as usize] = A | B | D;
    reads[Op::Load as usize] = A | TABLE;
    reads
};

/// What leaves the place of an op that is no bracket. `secret_tables` has bit t set for a secret
/// table t.
fn leaves(here: Set, step: &Instruction, secret_tables: Set, masked: bool) -> Set {
    let Some(&reads) = READS.get(step.op as usize) else {
        return here;
    };
    let bit = |set: Set, number: u8, field: u8| u8::from(has(set, number)) * field;
    let secret = bit(here, step.a, A)
        | bit(here, step.b, B)
        | bit(here, step.d, D)
        | bit(secret_tables, step.b, TABLE);
    let target = 1 << (step.d & 15);
    let raised = masked | (reads & secret != 0);
    here & !target | if raised { target } else { 0 }
}
