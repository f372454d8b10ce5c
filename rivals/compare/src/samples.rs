//! What is measured: images of one length, and programs that run for so many steps.

use rival::conversion::convert_fitting;
use rival::generator::{self, Draft, Random};
use rival::image;
use rival::program::{Instruction, Kind, Op};

/// Images of sources of so many instructions, all of which can be converted for a memory that hides accesses.
pub fn sources(random: &mut Random, length: usize, count: usize) -> Vec<Vec<u8>> {
    let mut images = Vec::new();
    while images.len() < count {
        let mut draft = generator::gentle(random);
        let near = length - length / 5..=length;
        if !near.contains(&draft.code.len()) {
            continue;
        }
        while draft.code.len() < length {
            draft.code.push(Instruction::constant(3, random.word()));
        }
        let image = draft.image();
        if image::read_fitting(&image).is_ok_and(|source| convert_fitting(&source, true).is_ok()) {
            images.push(image);
        }
    }
    images
}

/// A step of three registers.
fn three(op: Op, d: u8, a: u8, b: u8) -> Instruction {
    Instruction::new(op, d, a, b)
}

fn shifted(op: Op, d: u8, a: u8, k: u32) -> Instruction {
    Instruction {
        k,
        ..Instruction::new(op, d, a, 0)
    }
}

/// Nineteen instructions, of which one loads and one stores at a cell that moves on, and an if takes its two ways in
/// turn: how many steps a round makes does not hang on what is in the cells.
fn round() -> Vec<Instruction> {
    vec![
        three(Op::Add, 4, 4, 7),
        three(Op::And, 5, 4, 6),
        three(Op::Load, 1, 5, 0),
        three(Op::Add, 2, 2, 1),
        three(Op::Xor, 3, 3, 2),
        shifted(Op::Rotl, 3, 3, 7),
        three(Op::Mul, 8, 3, 2),
        three(Op::Below, 9, 8, 3),
        three(Op::Pick, 10, 9, 8),
        three(Op::And, 11, 4, 7),
        three(Op::If, 0, 11, 0),
        three(Op::Sub, 10, 10, 7),
        three(Op::Else, 0, 0, 0),
        three(Op::Or, 10, 10, 7),
        three(Op::End, 0, 0, 0),
        shifted(Op::Shr, 12, 10, 3),
        three(Op::Store, 12, 5, 0),
        shifted(Op::Shl, 13, 12, 2),
        three(Op::Move, 14, 13, 0),
    ]
}

fn repeat(register: u8, rounds: u32, body: Vec<Instruction>) -> Vec<Instruction> {
    let opening = Instruction {
        k: rounds,
        ..Instruction::new(Op::Repeat, 0, register, 0)
    };
    let mut code = vec![Instruction::constant(register, rounds), opening];
    code.extend(body);
    code.push(Instruction::bracket(Op::Again));
    code
}

/// The image of a program that makes about so many steps, at a table of `cells` cells, a power of 2.
pub fn looping(steps: usize, cells: usize) -> Vec<u8> {
    let rounds = steps / 20;
    let inner = rounds.min(500);
    let outer = (rounds / inner).max(1);
    let mut code = vec![
        Instruction::constant(6, cells as u32 - 1),
        Instruction::constant(7, 1),
    ];
    code.extend(repeat(15, outer as u32, repeat(0, inner as u32, round())));
    let draft = Draft {
        kind: Kind::Source,
        secret: 0,
        tables: vec![(cells, true)],
        code,
    };
    draft.image()
}
