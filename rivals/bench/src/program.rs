//! Instructions, tables and programs. A program is only ever made by reading an image or by
//! converting a source, so what an image must keep is kept by every program.

use crate::refusal::Refusal;

pub const MOST_OPEN: usize = 8;
pub const MOST_SOURCE: usize = 200;
pub const MOST_CONVERTED: usize = 3_000;
pub const MOST_TABLES: usize = 8;
pub const MOST_LENGTH: usize = 1_024;
pub const MOST_CELLS: usize = 4_096;
pub const MOST_ROUNDS: u32 = 1_024;

#[derive(Clone, Copy, Debug, Default, PartialEq, Eq, PartialOrd, Ord)]
#[repr(u8)]
pub enum Op {
    #[default]
    Const,
    Move,
    Add,
    Sub,
    Mul,
    And,
    Or,
    Xor,
    Shl,
    Shr,
    Rotl,
    Below,
    Same,
    Pick,
    Load,
    Store,
    If,
    Else,
    End,
    Repeat,
    Again,
}

/// Every op, at its number.
pub const OPS: [Op; 21] = [
    Op::Const,
    Op::Move,
    Op::Add,
    Op::Sub,
    Op::Mul,
    Op::And,
    Op::Or,
    Op::Xor,
    Op::Shl,
    Op::Shr,
    Op::Rotl,
    Op::Below,
    Op::Same,
    Op::Pick,
    Op::Load,
    Op::Store,
    Op::If,
    Op::Else,
    Op::End,
    Op::Repeat,
    Op::Again,
];

impl Op {
    pub fn numbered(number: u8) -> Option<Op> {
        OPS.get(usize::from(number)).copied()
    }
}

/// A field that the op does not use is zero.
#[derive(Clone, Copy, Debug, Default, PartialEq, Eq)]
pub struct Instruction {
    pub op: Op,
    pub d: u8,
    pub a: u8,
    pub b: u8,
    pub k: u32,
}

impl Instruction {
    pub fn new(op: Op, d: u8, a: u8, b: u8) -> Self {
        Instruction { op, d, a, b, k: 0 }
    }

    pub fn constant(d: u8, k: u32) -> Self {
        Instruction {
            op: Op::Const,
            d,
            a: 0,
            b: 0,
            k,
        }
    }

    pub fn bracket(op: Op) -> Self {
        Self::new(op, 0, 0, 0)
    }
}

#[derive(Clone, Copy, Debug, PartialEq, Eq)]
#[repr(u8)]
pub enum Kind {
    Source,
    Converted,
}

impl Kind {
    pub const fn registers(self) -> u8 {
        match self {
            Kind::Source => 16,
            Kind::Converted => 32,
        }
    }

    pub fn most_instructions(self) -> usize {
        match self {
            Kind::Source => MOST_SOURCE,
            Kind::Converted => MOST_CONVERTED,
        }
    }
}

#[derive(Clone, Copy, Debug, Default, PartialEq, Eq)]
pub struct Table {
    /// The first cell, which is the sum of the lengths before.
    pub first: u16,
    pub len: u16,
    pub secret: bool,
}

#[derive(Clone, Copy, Debug, PartialEq, Eq)]
pub struct Header {
    pub kind: Kind,
    /// Bit i is set where entry register i is secret.
    pub secret: u16,
    pub table_count: u8,
    pub tables: [Table; MOST_TABLES],
}

impl Header {
    pub fn tables(&self) -> &[Table] {
        &self.tables[..usize::from(self.table_count)]
    }

    /// How many cells all tables have together.
    pub fn cells(&self) -> usize {
        self.tables()
            .last()
            .map_or(0, |t| usize::from(t.first) + usize::from(t.len))
    }
}

#[derive(Clone, Debug, PartialEq, Eq)]
pub struct Program {
    pub(crate) header: Header,
    pub(crate) count: usize,
    pub(crate) list: Vec<Instruction>,
}

impl Program {
    pub fn header(&self) -> &Header {
        &self.header
    }

    pub fn kind(&self) -> Kind {
        self.header.kind
    }

    pub fn tables(&self) -> &[Table] {
        self.header.tables()
    }

    pub fn code(&self) -> &[Instruction] {
        &self.list[..self.count]
    }

    /// The whole list that the program was made in, later entries with it.
    pub fn into_list(self) -> Vec<Instruction> {
        self.list
    }
}

/// A refusal, with the instruction list as it was handed in.
#[derive(Clone, Debug, PartialEq, Eq)]
pub struct HandedBack {
    pub refusal: Refusal,
    pub list: Vec<Instruction>,
}
