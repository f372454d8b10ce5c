//! Most steps and most marks: sums over the nested blocks, held at 1,000,001.

use crate::memory::{Access, Memory};
use crate::program::{Instruction, Op, Program, MOST_OPEN};

pub const MOST: usize = 1_000_000;
pub const HELD: usize = MOST + 1;

/// What the sum has to know of an instruction.
#[derive(Clone, Copy, Debug, PartialEq, Eq)]
pub enum Shape {
    /// No bracket, and what it costs.
    Plain(usize),
    If,
    Else,
    End,
    Repeat(u32),
    Again,
}

#[derive(Clone, Copy, Default)]
struct Open {
    before: u64,
    first_arm: u64,
    rounds: u64,
}

impl Open {
    fn at(before: u64, shape: Shape) -> Open {
        let rounds = match shape {
            Shape::Repeat(most) => u64::from(most),
            _ => 0,
        };
        Open {
            before,
            first_arm: 0,
            rounds,
        }
    }
}

/// The sum over properly nested shapes, where each bracket that is passed costs `bracket`.
pub fn most(bracket: u64, shapes: impl Iterator<Item = Shape>) -> usize {
    let held = |sum: u64| sum.min(HELD as u64);
    let mut open = [Open::default(); MOST_OPEN];
    let mut depth = 0;
    let mut sum = 0;
    for shape in shapes {
        match shape {
            Shape::Plain(cost) => sum = held(sum + cost as u64),
            Shape::If | Shape::Repeat(_) => {
                open[depth] = Open::at(sum, shape);
                depth += 1;
                sum = 0;
            }
            Shape::Else => {
                open[depth - 1].first_arm = sum + bracket;
                sum = 0;
            }
            Shape::End => {
                depth -= 1;
                let of = open[depth];
                sum = held(of.before + 2 * bracket + sum.max(of.first_arm));
            }
            Shape::Again => {
                depth -= 1;
                let of = open[depth];
                sum = held(of.before + bracket + of.rounds * (sum + bracket));
            }
        }
    }
    sum as usize
}

fn shape(step: &Instruction, cost: impl Fn(&Instruction) -> usize) -> Shape {
    match step.op {
        Op::If => Shape::If,
        Op::Else => Shape::Else,
        Op::End => Shape::End,
        Op::Repeat => Shape::Repeat(step.k),
        Op::Again => Shape::Again,
        _ => Shape::Plain(cost(step)),
    }
}

pub fn most_steps(code: &[Instruction]) -> usize {
    most(1, code.iter().map(|step| shape(step, |_| 1)))
}

pub fn most_marks<M: Memory + ?Sized>(program: &Program, memory: &M) -> usize {
    let tables = program.tables();
    let len = |step: &Instruction| usize::from(tables[usize::from(step.b)].len);
    let cost = |step: &Instruction| match step.op {
        Op::Load => memory.cost(Access::Read, len(step)),
        Op::Store => memory.cost(Access::Write, len(step)),
        _ => 0,
    };
    most(0, program.code().iter().map(|step| shape(step, cost)))
}
