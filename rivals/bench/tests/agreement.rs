//! What the parts promise of each other, on random images.

use rival::conversion::convert_fitting;
use rival::generator::{self, Random};
use rival::image;
use rival::labels::{has, plan};
use rival::machine::{run, Ending, Visit, ENTRY};
use rival::make::Make;
use rival::memory::{Banked, Flat, FullScan, Line, Memory, Window};
use rival::most::MOST;
use rival::program::{Kind, Program};

const TRIES: usize = 2_000;
const FAULT: usize = 24;

fn program(random: &mut Random) -> (Vec<u8>, Program) {
    let kind = random.of(&[Kind::Source, Kind::Converted]);
    let bytes = generator::draft(random, kind).image();
    let program = image::read_fitting(&bytes).expect("a draft is well formed");
    (bytes, program)
}

#[test]
fn what_is_read_is_written_as_the_same_bytes() {
    let random = &mut Random::new(1);
    for _ in 0..TRIES {
        let (bytes, program) = program(random);
        assert_eq!(image::written(&program), bytes);
    }
}

#[test]
fn damaged_images_are_read_back_or_refused() {
    let random = &mut Random::new(2);
    for _ in 0..TRIES {
        let bytes = generator::damaged(random);
        if let Ok(program) = image::read_fitting(&bytes) {
            assert_eq!(image::written(&program), bytes);
        }
    }
}

#[test]
fn the_entry_set_is_at_place_0() {
    let random = &mut Random::new(3);
    for _ in 0..TRIES {
        let draft = generator::draft(random, Kind::Source);
        let source = image::read_fitting(&draft.image()).unwrap();
        let mut sets = [0xbeef; 203];
        plan(&source, &mut sets).unwrap();
        assert_eq!(sets[0], draft.secret);
        assert!(sets[source.code().len() + 1..]
            .iter()
            .all(|&set| set == 0xbeef));
    }
}

/// A run, with what it leaves in the cells.
struct Ran {
    ending: Ending,
    visits: Vec<Visit>,
    cells: Vec<u32>,
    seen: Vec<u32>,
}

fn ran(program: &Program, mut memory: Box<dyn Memory>, entry: &[u32; ENTRY]) -> Option<Ran> {
    let mut visits = vec![Visit::default(); MOST];
    let ending = run(program, &mut memory, entry, &mut visits).ok()?;
    visits.truncate(ending.steps);
    let seen = (0..memory.marks())
        .map_while(|number| memory.mark(number))
        .collect();
    let cells = memory.cells().to_vec();
    Some(Ran {
        ending,
        visits,
        cells,
        seen,
    })
}

fn entry(random: &mut Random) -> [u32; ENTRY] {
    std::array::from_fn(|_| random.word())
}

#[test]
fn straight_code_does_what_its_source_does() {
    let random = &mut Random::new(4);
    let mut compared = 0;
    for _ in 0..TRIES {
        let draft = generator::seatable(random, true);
        let source = image::read_fitting(&draft.image()).unwrap();
        let Ok(straight) = convert_fitting(&source, true) else {
            continue;
        };
        assert_eq!(
            image::read_fitting(&image::written(&straight)).as_ref(),
            Ok(&straight)
        );
        let make = Make::named(&format!("flat:{}:1000000", draft.cells())).unwrap();
        let cells = generator::words(random, draft.cells());
        let entry = entry(random);
        let Some(first) = ran(&source, make.build(cells.clone()), &entry) else {
            continue;
        };
        let Some(second) = ran(&straight, make.build(cells), &entry) else {
            continue;
        };
        let fault = second.ending.registers[FAULT];
        assert_eq!(second.ending.fault, None);
        assert_eq!(
            first.ending.fault.map_or(0, |place| place as u32 + 1),
            fault
        );
        if fault == 0 {
            assert_eq!(first.cells, second.cells);
            assert_eq!(
                first.ending.registers[..ENTRY],
                second.ending.registers[..ENTRY]
            );
        }
        compared += 1;
    }
    assert!(compared > TRIES / 2, "only {compared} runs were compared");
}

/// The same public registers and cells, and other secret ones.
fn other(random: &mut Random, draft: &generator::Draft, cells: &mut [u32], entry: &mut [u32]) {
    let mut rest = cells;
    for &(len, secret) in &draft.tables {
        let (table, behind) = rest.split_at_mut(len);
        if secret {
            table.copy_from_slice(&generator::words(random, len));
        }
        rest = behind;
    }
    for (register, word) in entry.iter_mut().enumerate() {
        if has(draft.secret, register as u8) {
            *word = random.word();
        }
    }
}

#[test]
fn runs_that_differ_in_secrets_look_alike() {
    let random = &mut Random::new(5);
    let mut compared = 0;
    for _ in 0..TRIES {
        let hides = random.chance(50);
        let draft = generator::seatable(random, hides);
        let source = image::read_fitting(&draft.image()).unwrap();
        let Ok(straight) = convert_fitting(&source, hides) else {
            continue;
        };
        let scan = if hides { "+scan" } else { "" };
        let make = Make::named(&format!("flat:{}:1000000{scan}", draft.cells())).unwrap();
        let mut cells = generator::words(random, draft.cells());
        let mut entry = entry(random);
        let Some(first) = ran(&straight, make.build(cells.clone()), &entry) else {
            continue;
        };
        other(random, &draft, &mut cells, &mut entry);
        let second = ran(&straight, make.build(cells), &entry).expect("refused by secrets");
        assert_eq!(first.visits, second.visits);
        assert_eq!(first.seen, second.seen);
        compared += 1;
    }
    assert!(compared > TRIES / 2, "only {compared} runs were compared");
}

/// Piles are built with their scans at the bottom and their lines as one.
#[test]
fn scans_and_lines_may_change_places() {
    let cells: Vec<u32> = (0..20).collect();
    let table = Window { first: 3, len: 9 };
    let line = |below: Flat| Line::new(FullScan::new(Line::new(below, 9)), 1);
    let scan = Make::named("flat:20:500+line9+scan+line1").unwrap();
    let mut piles: [Box<dyn Memory>; 2] = [
        Box::new(line(Flat::new(cells.clone(), 500))),
        scan.build(cells),
    ];
    let left = piles.each_mut().map(|pile| {
        let word = pile.read(table, 4);
        let done = pile.write(table, 8, 77);
        let seen: Vec<u32> = (0..pile.marks()).map_while(|j| pile.mark(j)).collect();
        (word, done, seen, pile.cells().to_vec(), pile.free())
    });
    assert_eq!(left[0], left[1]);
    assert_eq!(left[0].2.len(), 27);
}

/// The loop of single accesses, and the quick one of a leaf.
#[test]
fn a_leaf_scans_as_a_loop_does() {
    let table = Window { first: 5, len: 11 };
    let mut quick = Banked::with_cells((0..1_024).collect(), 100);
    let mut slow = Banked::with_cells((0..1_024).collect(), 100);
    let read = quick.scan_get(table, 6);
    quick.scan_set(table, 2, 9);
    let words: Vec<u32> = (0..table.len).map(|i| slow.get(table, i)).collect();
    for i in 0..table.len {
        let old = slow.get(table, i);
        slow.set(table, i, if i == 2 { 9 } else { old });
    }
    assert_eq!(read, words[6]);
    assert_eq!(quick.into_parts(), slow.into_parts());
}
