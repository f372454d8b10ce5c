//! The sets by the letter of the rules, with all moves listed and passes until nothing changes.

use rival::generator::{self, Random};
use rival::image;
use rival::labels::{has, plan};
use rival::program::{Instruction, Kind, Op, Program};

/// The brackets of one block, in order: an if, its else if there is one, and its end; or a repeat
/// and its again.
fn blocks(code: &[Instruction]) -> Vec<Vec<usize>> {
    let (mut open, mut done) = (Vec::new(), Vec::new());
    for (place, step) in code.iter().enumerate() {
        match step.op {
            Op::If | Op::Repeat => open.push(vec![place]),
            Op::Else => open.last_mut().unwrap().push(place),
            Op::End | Op::Again => {
                let mut block: Vec<usize> = open.pop().unwrap();
                block.push(place);
                done.push(block);
            }
            _ => {}
        }
    }
    done
}

/// Rule 5, and rule 6 for the ifs that are secret.
fn moves(code: &[Instruction], sets: &[u16]) -> Vec<(usize, usize)> {
    let onward = |&place: &usize| code[place].op != Op::Else;
    let mut moves: Vec<_> = (0..code.len()).filter(onward).map(|p| (p, p + 1)).collect();
    for block in blocks(code) {
        match block[..] {
            [open, close] if code[open].op == Op::If => moves.push((open, close)),
            [open, close] => moves.extend([(open, close + 1), (close, open + 1)]),
            [open, other, close] => {
                moves.extend([(open, other + 1), (other, close)]);
                if has(sets[open], code[open].a) {
                    moves.push((other, other + 1));
                }
            }
            _ => unreachable!("a block has two or three brackets"),
        }
    }
    moves
}

/// Rules 2 and 3.
fn masked(code: &[Instruction], sets: &[u16], place: usize) -> bool {
    blocks(code).iter().any(|block| {
        let (open, close) = (block[0], block[block.len() - 1]);
        code[open].op == Op::If && has(sets[open], code[open].a) && open < place && place < close
    })
}

/// Rule 4.
fn leaves(program: &Program, sets: &[u16], place: usize) -> u16 {
    let step = &program.code()[place];
    let read = match step.op {
        Op::Const => vec![],
        Op::Move | Op::Shl | Op::Shr | Op::Rotl | Op::Load => vec![step.a],
        Op::Pick => vec![step.d, step.a, step.b],
        op if op >= Op::Store => return sets[place],
        _ => vec![step.a, step.b],
    };
    let table = step.op == Op::Load && program.tables()[usize::from(step.b)].secret;
    let secret = read.iter().any(|&register| has(sets[place], register));
    if table || secret || masked(program.code(), sets, place) {
        sets[place] | 1 << step.d
    } else {
        sets[place] & !(1 << step.d)
    }
}

fn by_the_rules(program: &Program) -> Vec<u16> {
    let code = program.code();
    let mut sets = vec![0; code.len() + 1];
    sets[0] = program.header().secret;
    loop {
        let before = sets.clone();
        for (from, to) in moves(code, &before) {
            sets[to] |= leaves(program, &before, from);
        }
        if sets == before {
            return sets;
        }
    }
}

#[test]
fn the_plan_is_what_the_rules_give() {
    let random = &mut Random::new(6);
    for _ in 0..1_000 {
        let draft = generator::draft(random, Kind::Source);
        if draft.code.len() > 100 {
            continue;
        }
        let source = image::read_fitting(&draft.image()).unwrap();
        let mut sets = vec![0; source.code().len() + 1];
        plan(&source, &mut sets).unwrap();
        assert_eq!(sets, by_the_rules(&source));
    }
}
