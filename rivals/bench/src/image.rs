//! Images: reading, with every refusal, and writing.

use crate::program::{
    HandedBack, Header, Instruction, Kind, Op, Program, Table, MOST_CELLS, MOST_LENGTH, MOST_OPEN,
    MOST_ROUNDS, MOST_TABLES, OPS,
};
use crate::refusal::{Reason, Refusal};

pub const HEADER: usize = 64;
pub const STEP: usize = 8;
const EDITION: u16 = 1;
const TABLES_AT: usize = 8;
const TABLE_SIZE: usize = 4;
const REST_AT: usize = 40;

/// Reads an image into the list: its first entries become the program's, later ones stay.
pub fn read(image: &[u8], mut list: Vec<Instruction>) -> Result<Program, HandedBack> {
    let (header, body) = match checked(image, list.len()) {
        Ok(parts) => parts,
        Err(refusal) => return Err(HandedBack { refusal, list }),
    };
    for (entry, bytes) in list.iter_mut().zip(steps(body)) {
        *entry = instruction(bytes);
    }
    Ok(Program {
        header,
        count: body.len() / STEP,
        list,
    })
}

/// Reads an image into a list that is as long as it has to be.
pub fn read_fitting(image: &[u8]) -> Result<Program, Refusal> {
    let room = image.len().saturating_sub(HEADER) / STEP;
    let room = room.min(Kind::Converted.most_instructions());
    read(image, vec![Instruction::default(); room]).map_err(|back| back.refusal)
}

fn checked(image: &[u8], room: usize) -> Result<(Header, &[u8]), Refusal> {
    if image.len() < HEADER {
        return Err(Reason::NoHeader.at(0));
    }
    let (head, body) = image.split_at(HEADER);
    let (header, count) = parse_header(head).ok_or(Reason::BadHeader.at(0))?;
    if body.len() != STEP * count {
        return Err(Reason::BadLength.at(0));
    }
    check_fields(&header, body)?;
    check_brackets(body)?;
    if room < count {
        return Err(Reason::NoRoomForCode.at(count));
    }
    Ok((header, body))
}

fn half(bytes: &[u8], at: usize) -> u16 {
    u16::from_le_bytes([bytes[at], bytes[at + 1]])
}

/// The header and the number of instructions, or `None` where a value is out of range.
fn parse_header(head: &[u8]) -> Option<(Header, usize)> {
    let kind = match head[3] {
        0 => Kind::Source,
        1 => Kind::Converted,
        _ => return None,
    };
    let count = usize::from(half(head, 4));
    let tables = parse_tables(&head[TABLES_AT..REST_AT], usize::from(head[2]))?;
    let good = half(head, 0) == EDITION
        && count <= kind.most_instructions()
        && head[REST_AT..].iter().all(|&byte| byte == 0);
    let header = Header {
        kind,
        secret: half(head, 6),
        table_count: head[2],
        tables,
    };
    good.then_some((header, count))
}

fn parse_tables(bytes: &[u8], count: usize) -> Option<[Table; MOST_TABLES]> {
    let mut tables = [Table::default(); MOST_TABLES];
    if count > MOST_TABLES {
        return None;
    }
    let (used, unused) = bytes.split_at(TABLE_SIZE * count);
    let mut first = 0;
    for (table, entry) in tables.iter_mut().zip(used.chunks_exact(TABLE_SIZE)) {
        let len = half(entry, 0);
        if len == 0 || usize::from(len) > MOST_LENGTH || entry[2] > 1 || entry[3] != 0 {
            return None;
        }
        *table = Table {
            first,
            len,
            secret: entry[2] == 1,
        };
        first += len;
    }
    let good = usize::from(first) <= MOST_CELLS && unused.iter().all(|&byte| byte == 0);
    good.then_some(tables)
}

/// What the fields of an op must be below; a field that is not used must be below 1. `k` has a
/// lowest and a highest value.
#[derive(Clone, Copy)]
struct Limits {
    d: u8,
    a: u8,
    b: u8,
    k: (u32, u32),
}

const fn limits(op: Op, regs: u8, tables: u8) -> Limits {
    let zero = (0, 0);
    let (d, a, b, k) = match op {
        Op::Const => (regs, 1, 1, (0, u32::MAX)),
        Op::Move => (regs, regs, 1, zero),
        Op::Shl | Op::Shr | Op::Rotl => (regs, regs, 1, (0, 31)),
        Op::Load | Op::Store => (regs, regs, tables, zero),
        Op::If => (1, regs, 1, zero),
        Op::Repeat => (1, regs, 1, (1, MOST_ROUNDS)),
        Op::Else | Op::End | Op::Again => (1, 1, 1, zero),
        _ => (regs, regs, regs, zero),
    };
    Limits { d, a, b, k }
}

type AllLimits = [Limits; OPS.len()];

const fn all_limits(regs: u8) -> AllLimits {
    let mut all = [limits(Op::Const, regs, 0); OPS.len()];
    let mut number = 0;
    while number < OPS.len() {
        all[number] = limits(OPS[number], regs, 0);
        number += 1;
    }
    all
}

/// The limits of all ops but for the number of tables, so that a reading only has to fill that in.
static LIMITS: [AllLimits; 2] = [
    all_limits(Kind::Source.registers()),
    all_limits(Kind::Converted.registers()),
];

fn word(bytes: &[u8; STEP]) -> u32 {
    u32::from_le_bytes([bytes[4], bytes[5], bytes[6], bytes[7]])
}

fn steps(body: &[u8]) -> &[[u8; STEP]] {
    body.as_chunks().0
}

fn check_fields(header: &Header, body: &[u8]) -> Result<(), Refusal> {
    let mut all = LIMITS[header.kind as usize];
    for op in [Op::Load, Op::Store] {
        all[op as usize].b = header.table_count;
    }
    let good = |bytes: &[u8; STEP]| {
        all.get(usize::from(bytes[0])).is_some_and(|most| {
            let k = word(bytes);
            // Not cut short: each test is cheaper than a guess which of them fails.
            (bytes[1] < most.d)
                & (bytes[2] < most.a)
                & (bytes[3] < most.b)
                & (most.k.0 <= k)
                & (k <= most.k.1)
        })
    };
    match steps(body).iter().position(|bytes| !good(bytes)) {
        Some(place) => Err(Reason::BadField.at(place)),
        None => Ok(()),
    }
}

#[derive(Clone, Copy, PartialEq)]
enum Opening {
    If,
    IfElse,
    Repeat,
}

/// The openings around a place, each with its own place.
struct Around {
    open: [(Opening, usize); MOST_OPEN],
    depth: usize,
}

impl Around {
    fn top(&mut self) -> Option<&mut (Opening, usize)> {
        self.open[..self.depth].last_mut()
    }

    fn push(&mut self, opening: Opening, place: usize) -> Result<(), Refusal> {
        let slot = self
            .open
            .get_mut(self.depth)
            .ok_or(Reason::TooDeep.at(place))?;
        *slot = (opening, place);
        self.depth += 1;
        Ok(())
    }

    /// Passes a bracket.
    fn pass(&mut self, op: u8, place: usize) -> Result<(), Refusal> {
        const IF: u8 = Op::If as u8;
        const ELSE: u8 = Op::Else as u8;
        const END: u8 = Op::End as u8;
        const REPEAT: u8 = Op::Repeat as u8;
        const AGAIN: u8 = Op::Again as u8;
        match (op, self.top().map(|top| &mut top.0)) {
            (IF, _) => self.push(Opening::If, place)?,
            (REPEAT, _) => self.push(Opening::Repeat, place)?,
            (ELSE, Some(top @ Opening::If)) => *top = Opening::IfElse,
            (END, Some(Opening::If | Opening::IfElse)) => self.depth -= 1,
            (AGAIN, Some(Opening::Repeat)) => self.depth -= 1,
            _ => return Err(Reason::BadBracket.at(place)),
        }
        Ok(())
    }
}

fn check_brackets(body: &[u8]) -> Result<(), Refusal> {
    let mut around = Around {
        open: [(Opening::If, 0); MOST_OPEN],
        depth: 0,
    };
    for (place, bytes) in steps(body).iter().enumerate() {
        if bytes[0] >= Op::If as u8 {
            around.pass(bytes[0], place)?;
        }
    }
    match around.top() {
        Some(&mut (_, place)) => Err(Reason::BadBracket.at(place)),
        None => Ok(()),
    }
}

/// An instruction whose fields were checked.
fn instruction(bytes: &[u8; STEP]) -> Instruction {
    Instruction {
        op: Op::numbered(bytes[0]).unwrap_or_default(),
        d: bytes[1],
        a: bytes[2],
        b: bytes[3],
        k: word(bytes),
    }
}

/// Writes the image into the first bytes, and answers how many; later bytes stay.
pub fn write(program: &Program, bytes: &mut [u8]) -> Result<usize, Refusal> {
    let length = HEADER + STEP * program.code().len();
    let image = bytes
        .get_mut(..length)
        .ok_or(Reason::NoRoomForImage.at(length))?;
    let (head, body) = image.split_at_mut(HEADER);
    write_header(program, head);
    for (bytes, step) in body.chunks_exact_mut(STEP).zip(program.code()) {
        bytes[..4].copy_from_slice(&[step.op as u8, step.d, step.a, step.b]);
        bytes[4..].copy_from_slice(&step.k.to_le_bytes());
    }
    Ok(length)
}

fn write_header(program: &Program, head: &mut [u8]) {
    let header = program.header();
    let count = program.code().len() as u16;
    head.fill(0);
    head[..2].copy_from_slice(&EDITION.to_le_bytes());
    head[2] = header.table_count;
    head[3] = header.kind as u8;
    head[4..6].copy_from_slice(&count.to_le_bytes());
    head[6..8].copy_from_slice(&header.secret.to_le_bytes());
    let entries = head[TABLES_AT..REST_AT].chunks_exact_mut(TABLE_SIZE);
    for (entry, table) in entries.zip(header.tables()) {
        entry[..2].copy_from_slice(&table.len.to_le_bytes());
        entry[2] = u8::from(table.secret);
    }
}

/// The image in a list of its own.
pub fn written(program: &Program) -> Vec<u8> {
    let mut bytes = vec![0; HEADER + STEP * program.code().len()];
    let answer = write(program, &mut bytes);
    debug_assert_eq!(answer, Ok(bytes.len()));
    bytes
}
