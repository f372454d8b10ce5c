//! The machine: code with its jumps and tables worked out once, and a run over any memory.

use crate::memory::{Memory, Window};
use crate::most::{most_marks, most_steps, MOST};
use crate::program::{Instruction, Op, Program, Table, MOST_OPEN};
use crate::refusal::{Reason, Refusal};

pub const REGISTERS: usize = 32;
pub const ENTRY: usize = 16;

#[derive(Clone, Copy, Debug, Default, PartialEq, Eq)]
#[repr(u8)]
pub enum Choice {
    #[default]
    Onward,
    Inward,
    Past,
    Fault,
}

#[derive(Clone, Copy, Debug, Default, PartialEq, Eq)]
pub struct Visit {
    pub place: u16,
    pub choice: Choice,
}

/// Operands: the target, and what is read. The last is a register or a distance.
#[derive(Clone, Copy, Debug, PartialEq, Eq)]
struct Of {
    d: u8,
    a: u8,
    b: u8,
}

/// A register and the table that it goes through.
#[derive(Clone, Copy, Debug, PartialEq, Eq)]
struct Cell {
    d: u8,
    a: u8,
    first: u16,
    len: u16,
}

/// An instruction with all that it needs, in eight bytes.
#[derive(Clone, Copy, Debug, PartialEq, Eq)]
enum Step {
    Const { d: u8, k: u32 },
    Move(Of),
    Add(Of),
    Sub(Of),
    Mul(Of),
    And(Of),
    Or(Of),
    Xor(Of),
    Shl(Of),
    Shr(Of),
    Rotl(Of),
    Below(Of),
    Same(Of),
    Pick(Of),
    Load(Cell),
    Store(Cell),
    If { a: u8, past: u16 },
    Else { end: u16 },
    End,
    Repeat { a: u8, most: u16, past: u16 },
    Again { body: u16 },
}

/// A program made ready to run; `steps` and `cells` are its most steps and its tables' cells.
#[derive(Clone, Debug)]
pub struct Code {
    code: Vec<Step>,
    steps: usize,
    cells: usize,
}

#[derive(Clone, Copy, Debug, PartialEq, Eq)]
pub struct Ending {
    pub registers: [u32; REGISTERS],
    pub steps: usize,
    pub marks: usize,
    pub fault: Option<usize>,
}

/// For each bracket the place that it leads to, were it passed by. 0 elsewhere.
fn jumps(code: &[Instruction]) -> Vec<u16> {
    let mut jumps = vec![0; code.len()];
    let mut open = [0; MOST_OPEN];
    let mut depth = 0;
    for (place, step) in code.iter().enumerate() {
        match step.op {
            Op::If | Op::Repeat => {
                open[depth] = place;
                depth += 1;
            }
            Op::Else => {
                jumps[open[depth - 1]] = place as u16 + 1;
                open[depth - 1] = place;
            }
            Op::End => {
                depth -= 1;
                jumps[open[depth]] = place as u16;
            }
            Op::Again => {
                depth -= 1;
                jumps[open[depth]] = place as u16 + 1;
                jumps[place] = open[depth] as u16 + 1;
            }
            _ => {}
        }
    }
    jumps
}

fn ready(step: &Instruction, to: u16, tables: &[Table]) -> Step {
    let Instruction { op, d, a, b, k } = *step;
    let of = Of { d, a, b };
    let by = Of { b: k as u8, ..of };
    let cell = || {
        let Table { first, len, .. } = tables[usize::from(b)];
        Cell { d, a, first, len }
    };
    match op {
        Op::Const => Step::Const { d, k },
        Op::Move => Step::Move(of),
        Op::Add => Step::Add(of),
        Op::Sub => Step::Sub(of),
        Op::Mul => Step::Mul(of),
        Op::And => Step::And(of),
        Op::Or => Step::Or(of),
        Op::Xor => Step::Xor(of),
        Op::Shl => Step::Shl(by),
        Op::Shr => Step::Shr(by),
        Op::Rotl => Step::Rotl(by),
        Op::Below => Step::Below(of),
        Op::Same => Step::Same(of),
        Op::Pick => Step::Pick(of),
        Op::Load => Step::Load(cell()),
        Op::Store => Step::Store(cell()),
        Op::If => Step::If { a, past: to },
        Op::Else => Step::Else { end: to },
        Op::End => Step::End,
        Op::Repeat => Step::Repeat {
            a,
            most: k as u16,
            past: to,
        },
        Op::Again => Step::Again { body: to },
    }
}

struct Registers([u32; REGISTERS]);

impl Registers {
    // Registers are below 32, so the mask changes none; it spares the test.
    #[inline(always)]
    fn get(&self, register: u8) -> u32 {
        self.0[usize::from(register) & (REGISTERS - 1)]
    }

    #[inline(always)]
    fn set(&mut self, register: u8, word: u32) {
        self.0[usize::from(register) & (REGISTERS - 1)] = word;
    }

    #[inline(always)]
    fn one(&mut self, of: Of, result: impl Fn(u32) -> u32) {
        self.set(of.d, result(self.get(of.a)));
    }

    #[inline(always)]
    fn two(&mut self, of: Of, result: impl Fn(u32, u32) -> u32) {
        self.set(of.d, result(self.get(of.a), self.get(of.b)));
    }

    #[inline(always)]
    fn pick(&mut self, of: Of) {
        let from = if self.get(of.a) != 0 { of.b } else { of.d };
        self.set(of.d, self.get(from));
    }
}

/// The rounds left of the repeats around, innermost last, with the round that is being run.
#[derive(Default)]
struct Rounds {
    left: [u32; MOST_OPEN],
    depth: usize,
}

impl Rounds {
    /// Whether there is a round to be run; if not, the repeat is not opened.
    #[inline(always)]
    fn open(&mut self, rounds: u32) -> bool {
        self.left[self.depth & (MOST_OPEN - 1)] = rounds;
        self.depth += usize::from(rounds > 0);
        rounds > 0
    }

    /// Whether another round is to be run; if not, the repeat is no longer open.
    #[inline(always)]
    fn next(&mut self) -> bool {
        let left = &mut self.left[(self.depth - 1) & (MOST_OPEN - 1)];
        *left -= 1;
        let more = *left > 0;
        self.depth -= usize::from(!more);
        more
    }
}

impl Code {
    pub fn new(program: &Program) -> Code {
        let code = program.code();
        let tables = program.tables();
        let steps = code
            .iter()
            .zip(jumps(code))
            .map(|(step, to)| ready(step, to, tables));
        Code {
            code: steps.collect(),
            steps: most_steps(code),
            cells: program.header.cells(),
        }
    }

    pub fn most_steps(&self) -> usize {
        self.steps
    }

    pub fn cells(&self) -> usize {
        self.cells
    }

    /// Runs from the entry registers. The memory has to have the tables' cells and room for the
    /// most marks, and the list room for the most steps: nothing is tested on the way.
    pub fn run<M: Memory + ?Sized>(
        &self,
        memory: &mut M,
        entry: &[u32; ENTRY],
        visits: &mut [Visit],
    ) -> Ending {
        let before = memory.marks();
        let mut regs = Registers([0; REGISTERS]);
        regs.0[..ENTRY].copy_from_slice(entry);
        let steps = self.walk(memory, &mut regs, visits);
        let fault = |visit: &&Visit| visit.choice == Choice::Fault;
        let last = visits[..steps].last().filter(fault);
        Ending {
            registers: regs.0,
            steps,
            marks: memory.marks() - before,
            fault: last.map(|visit| usize::from(visit.place)),
        }
    }

    /// Steps until the end or a fault, and answers how many steps it took. A fault goes to the end.
    fn walk<M: Memory + ?Sized>(
        &self,
        memory: &mut M,
        regs: &mut Registers,
        visits: &mut [Visit],
    ) -> usize {
        let mut rounds = Rounds::default();
        let mut place = 0;
        let mut steps = 0;
        for visit in visits {
            let Some(step) = self.code.get(place) else {
                break;
            };
            let (choice, next) = step.perform(place + 1, memory, regs, &mut rounds);
            visit.place = place as u16;
            visit.choice = choice;
            steps += 1;
            place = next;
        }
        steps
    }
}

/// Behind every program, so that a run which goes there is over.
const OVER: usize = usize::MAX;

impl Step {
    /// Does one step, and answers the choice and the place to go on with.
    #[inline(always)]
    fn perform<M: Memory + ?Sized>(
        &self,
        next: usize,
        memory: &mut M,
        regs: &mut Registers,
        rounds: &mut Rounds,
    ) -> (Choice, usize) {
        match *self {
            Step::Const { d, k } => regs.set(d, k),
            Step::Move(of) => regs.one(of, |a| a),
            Step::Add(of) => regs.two(of, u32::wrapping_add),
            Step::Sub(of) => regs.two(of, u32::wrapping_sub),
            Step::Mul(of) => regs.two(of, u32::wrapping_mul),
            Step::And(of) => regs.two(of, |a, b| a & b),
            Step::Or(of) => regs.two(of, |a, b| a | b),
            Step::Xor(of) => regs.two(of, |a, b| a ^ b),
            Step::Shl(of) => regs.one(of, |a| a << (of.b & 31)),
            Step::Shr(of) => regs.one(of, |a| a >> (of.b & 31)),
            Step::Rotl(of) => regs.one(of, |a| a.rotate_left(u32::from(of.b))),
            Step::Below(of) => regs.two(of, |a, b| u32::from(a < b)),
            Step::Same(of) => regs.two(of, |a, b| u32::from(a == b)),
            Step::Pick(of) => regs.pick(of),
            Step::Load(cell) => return load(cell, next, memory, regs),
            Step::Store(cell) => return store(cell, next, memory, regs),
            Step::If { a, past } => return way(regs.get(a) != 0, next, past),
            Step::Else { end } => return (Choice::Onward, usize::from(end)),
            Step::End => {}
            Step::Repeat { a, most, past } => {
                let count = regs.get(a).min(u32::from(most));
                return way(rounds.open(count), next, past);
            }
            Step::Again { body } => return again(rounds.next(), next, body),
        }
        (Choice::Onward, next)
    }
}

#[inline(always)]
fn way(inward: bool, next: usize, past: u16) -> (Choice, usize) {
    if inward {
        (Choice::Inward, next)
    } else {
        (Choice::Past, usize::from(past))
    }
}

#[inline(always)]
fn again(more: bool, next: usize, body: u16) -> (Choice, usize) {
    if more {
        (Choice::Inward, usize::from(body))
    } else {
        (Choice::Past, next)
    }
}

impl Cell {
    #[inline(always)]
    fn window(self) -> Window {
        Window {
            first: usize::from(self.first),
            len: usize::from(self.len),
        }
    }

    /// The index, where it lies in the table.
    #[inline(always)]
    fn index(self, regs: &Registers) -> Option<usize> {
        let index = regs.get(self.a);
        (index < u32::from(self.len)).then_some(index as usize)
    }
}

#[inline(always)]
fn load<M: Memory + ?Sized>(
    cell: Cell,
    next: usize,
    memory: &mut M,
    regs: &mut Registers,
) -> (Choice, usize) {
    let Some(index) = cell.index(regs) else {
        return (Choice::Fault, OVER);
    };
    regs.set(cell.d, memory.get(cell.window(), index));
    (Choice::Onward, next)
}

#[inline(always)]
fn store<M: Memory + ?Sized>(
    cell: Cell,
    next: usize,
    memory: &mut M,
    regs: &mut Registers,
) -> (Choice, usize) {
    let Some(index) = cell.index(regs) else {
        return (Choice::Fault, OVER);
    };
    memory.set(cell.window(), index, regs.get(cell.d));
    (Choice::Onward, next)
}

/// Runs a program of either kind, if all that it may take is there.
pub fn run<M: Memory + ?Sized>(
    program: &Program,
    memory: &mut M,
    entry: &[u32; ENTRY],
    visits: &mut [Visit],
) -> Result<Ending, Refusal> {
    let steps = most_steps(program.code());
    Reason::TooManySteps.unless(steps <= MOST)?;
    Reason::MemoryTooSmall.unless(program.header.cells() <= memory.size())?;
    Reason::NoRoomForVisits.unless(steps <= visits.len())?;
    Reason::NoFreeMarks.unless(most_marks(program, memory) <= memory.free())?;
    Ok(Code::new(program).run(memory, entry, visits))
}
