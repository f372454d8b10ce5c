//! Converting a source into straight code: secret ifs are gone, both arms are done in turn, and a
//! mask keeps what the arm that was not taken would have changed.

use crate::labels::{self, has, Set};
use crate::most::{most, Shape, MOST};
use crate::program::{HandedBack, Header, Instruction, Kind, Op, Program, MOST_OPEN, MOST_SOURCE};
use crate::refusal::{Reason, Refusal};

/// The mask of s secret ifs around is the register 15 + s.
const MASKS: u8 = 15;
/// 0, or the place of the first fault and one added.
const FAULT: u8 = 24;
const VALUE: u8 = 25;
const INDEX: u8 = 26;
const FIRST: u8 = 27;
const OTHER: u8 = 28;

#[derive(Clone, Copy, PartialEq)]
enum Role {
    /// No bracket.
    Op,
    /// A bracket that stays.
    Kept,
    SecretIf,
    SecretElse,
    SecretEnd,
}

/// What a place is, and how many secret ifs are around it; for the else and the end of a secret if,
/// how many are around that if.
#[derive(Clone, Copy)]
struct Part {
    role: Role,
    secrets: u8,
}

type Parts = [Part; MOST_SOURCE];

impl Part {
    /// How many instructions the place becomes.
    fn size(self, op: Op) -> usize {
        let masked = usize::from(self.secrets > 0);
        match (self.role, op) {
            (Role::Kept, _) => 1,
            (Role::SecretIf, _) => 3 + masked,
            (Role::SecretElse, _) => 2 - masked,
            (Role::SecretEnd, _) => 0,
            (Role::Op, Op::Pick) => 1 + 2 * masked,
            (Role::Op, Op::Load) => 11 + 2 * masked,
            (Role::Op, Op::Store) => 13 + 2 * masked,
            (Role::Op, _) => 1 + masked,
        }
    }

    fn shape(self, step: &Instruction) -> Shape {
        match (self.role, step.op) {
            (Role::Kept, Op::If) => Shape::If,
            (Role::Kept, Op::Else) => Shape::Else,
            (Role::Kept, Op::End) => Shape::End,
            (Role::Kept, Op::Repeat) => Shape::Repeat(step.k),
            (Role::Kept, _) => Shape::Again,
            _ => Shape::Plain(self.size(step.op)),
        }
    }
}

/// Converts into the list, for a memory that hides which cell is accessed or does not. Entries
/// behind the result stay.
pub fn convert(
    source: &Program,
    hides: bool,
    mut list: Vec<Instruction>,
) -> Result<Program, HandedBack> {
    let (parts, count) = match checked(source, hides, list.len()) {
        Ok(checked) => checked,
        Err(refusal) => return Err(HandedBack { refusal, list }),
    };
    let mut out = Writer {
        list: &mut list,
        at: 0,
    };
    for (place, (step, &part)) in source.code().iter().zip(&parts).enumerate() {
        out.group(source, place, step, part);
    }
    debug_assert_eq!(out.at, count);
    let header = Header {
        kind: Kind::Converted,
        ..*source.header()
    };
    Ok(Program {
        header,
        count,
        list,
    })
}

/// Converts into a list that is as long as it has to be.
pub fn convert_fitting(source: &Program, hides: bool) -> Result<Program, Refusal> {
    let (_, count) = checked(source, hides, usize::MAX)?;
    let list = vec![Instruction::default(); count];
    convert(source, hides, list).map_err(|back| back.refusal)
}

/// The parts of a source that is not refused, and the length of the result.
fn checked(source: &Program, hides: bool, room: usize) -> Result<(Parts, usize), Refusal> {
    let labels = labels::of_source(source)?;
    let code = source.code();
    let mut parts = [Part {
        role: Role::Op,
        secrets: 0,
    }; MOST_SOURCE];
    let mut around = Around::default();
    let mut count = 0;
    for (place, (step, part)) in code.iter().zip(&mut parts).enumerate() {
        let set = labels.at(place);
        if step.op >= Op::Load {
            around
                .check(source, hides, step, set)
                .map_err(|reason| reason.at(place))?;
        }
        *part = around.pass(step, has(set, step.a));
        count += part.size(step.op);
    }
    let steps = most(
        1,
        code.iter().zip(&parts).map(|(step, part)| part.shape(step)),
    );
    Reason::TooManySteps.unless(steps <= MOST)?;
    if room < count {
        return Err(Reason::NoRoomForResult.at(count));
    }
    Ok((parts, count))
}

/// The openings around a place, whether each is a secret if, and how many are.
#[derive(Default)]
struct Around {
    open: [bool; MOST_OPEN],
    depth: usize,
    secrets: u8,
}

impl Around {
    /// Refuses what secrets must not decide.
    fn check(
        &self,
        source: &Program,
        hides: bool,
        step: &Instruction,
        set: Set,
    ) -> Result<(), Reason> {
        let public = || !source.tables()[usize::from(step.b)].secret;
        let secret = has(set, step.a);
        match step.op {
            Op::Repeat if secret => Err(Reason::SecretRepeat),
            Op::Load | Op::Store if secret && !hides => Err(Reason::SecretIndex),
            Op::Store if (secret || has(set, step.d) || self.secrets > 0) && public() => {
                Err(Reason::PublicStore)
            }
            _ => Ok(()),
        }
    }

    /// What the next place is, where `secret` tells of its register a.
    fn pass(&mut self, step: &Instruction, secret: bool) -> Part {
        let secrets = self.secrets;
        let role = |secret, role| if secret { role } else { Role::Kept };
        match step.op {
            Op::If | Op::Repeat => {
                let secret = secret && step.op == Op::If;
                self.open[self.depth] = secret;
                self.depth += 1;
                self.secrets += u8::from(secret);
                Part {
                    role: role(secret, Role::SecretIf),
                    secrets,
                }
            }
            Op::Else => {
                let secret = self.open[self.depth - 1];
                let secrets = secrets - u8::from(secret);
                Part {
                    role: role(secret, Role::SecretElse),
                    secrets,
                }
            }
            Op::End | Op::Again => {
                self.depth -= 1;
                let secret = self.open[self.depth];
                self.secrets -= u8::from(secret);
                Part {
                    role: role(secret, Role::SecretEnd),
                    secrets: self.secrets,
                }
            }
            _ => Part {
                role: Role::Op,
                secrets,
            },
        }
    }
}

struct Writer<'a> {
    list: &'a mut [Instruction],
    at: usize,
}

impl Writer<'_> {
    fn put(&mut self, step: Instruction) {
        self.list[self.at] = step;
        self.at += 1;
    }

    fn op(&mut self, op: Op, d: u8, a: u8, b: u8) {
        self.put(Instruction::new(op, d, a, b));
    }

    fn constant(&mut self, d: u8, k: u32) {
        self.put(Instruction::constant(d, k));
    }

    /// What the instruction at a place becomes.
    fn group(&mut self, source: &Program, place: usize, step: &Instruction, part: Part) {
        let mask = (part.secrets > 0).then_some(MASKS + part.secrets);
        let opened = MASKS + 1 + part.secrets;
        match (part.role, step.op) {
            (Role::SecretIf, _) => self.secret_if(step.a, opened, mask),
            (Role::SecretElse, _) => self.secret_else(opened, mask),
            (Role::SecretEnd, _) => {}
            (Role::Op, Op::Load | Op::Store) => {
                let len = source.tables()[usize::from(step.b)].len;
                self.guard(place, step.a, len, mask);
                if step.op == Op::Load {
                    self.load(step, mask);
                } else {
                    self.store(step, mask);
                }
            }
            (Role::Op, _) => match mask {
                Some(mask) => self.masked(step, mask),
                None => self.put(*step),
            },
            (Role::Kept, _) => self.put(*step),
        }
    }

    fn secret_if(&mut self, a: u8, opened: u8, mask: Option<u8>) {
        self.constant(VALUE, 0);
        self.op(Op::Same, INDEX, a, VALUE);
        self.op(Op::Same, opened, INDEX, VALUE);
        if let Some(mask) = mask {
            self.op(Op::And, opened, opened, mask);
        }
    }

    fn secret_else(&mut self, opened: u8, mask: Option<u8>) {
        if mask.is_none() {
            self.constant(VALUE, 1);
        }
        self.op(Op::Xor, opened, opened, mask.unwrap_or(VALUE));
    }

    fn masked(&mut self, step: &Instruction, mask: u8) {
        if step.op == Op::Pick {
            self.op(Op::Move, VALUE, step.d, 0);
        }
        self.put(Instruction { d: VALUE, ..*step });
        self.op(Op::Pick, step.d, mask, VALUE);
    }

    /// Sets the index to one that is within the table, and notes the first fault.
    fn guard(&mut self, place: usize, a: u8, len: u16, mask: Option<u8>) {
        self.constant(VALUE, u32::from(len));
        self.op(Op::Below, VALUE, a, VALUE);
        self.constant(INDEX, 0);
        self.op(Op::Pick, INDEX, VALUE, a);
        self.constant(FIRST, 0);
        self.op(Op::Same, OTHER, FAULT, FIRST);
        self.op(Op::Same, FIRST, VALUE, FIRST);
        self.op(Op::And, FIRST, FIRST, OTHER);
        if let Some(mask) = mask {
            self.op(Op::And, FIRST, FIRST, mask);
        }
        self.constant(OTHER, place as u32 + 1);
        self.op(Op::Pick, FAULT, FIRST, OTHER);
    }

    fn load(&mut self, step: &Instruction, mask: Option<u8>) {
        match mask {
            None => self.op(Op::Load, step.d, INDEX, step.b),
            Some(mask) => {
                self.op(Op::Load, VALUE, INDEX, step.b);
                self.op(Op::Pick, step.d, mask, VALUE);
            }
        }
    }

    /// Writes back what the cell had, where the index is bad or the place is not taken.
    fn store(&mut self, step: &Instruction, mask: Option<u8>) {
        if let Some(mask) = mask {
            self.op(Op::And, VALUE, VALUE, mask);
        }
        self.op(Op::Load, FIRST, INDEX, step.b);
        self.op(Op::Pick, FIRST, VALUE, step.d);
        self.op(Op::Store, FIRST, INDEX, step.b);
    }
}
