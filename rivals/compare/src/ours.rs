//! Safe Rust over the exports of the static library. The declarations are those of `crates/exports/src`, written by
//! hand: nothing compares the two.

/// A refusal by its number and its place.
#[derive(Clone, Copy, Debug, PartialEq, Eq)]
pub struct Refused {
    pub number: u8,
    pub place: usize,
}

#[repr(C)]
struct Came {
    number: u8,
    place: usize,
    length: usize,
}

/// A pile: each layer is 0 where there is none, 1 for a full scan, and for a line 2 more than its exponent.
#[repr(C)]
#[derive(Clone, Copy, Debug, Default)]
pub struct Shape {
    pub banked: bool,
    pub list: usize,
    pub first: u8,
    pub second: u8,
    pub third: u8,
    pub fourth: u8,
}

#[repr(C)]
struct Went {
    number: u8,
    place: usize,
    steps: usize,
    marks: usize,
    fault: u32,
}

#[repr(C)]
struct Agreed {
    number: u8,
    agree: usize,
    all: usize,
}

/// What a run made; `fault` is the place of the fault that it stopped at.
#[derive(Clone, Copy, Debug, PartialEq, Eq)]
pub struct Run {
    pub steps: usize,
    pub marks: usize,
    pub fault: Option<usize>,
}

/// How many cases agree, of how many.
#[derive(Clone, Copy, Debug, Default, PartialEq, Eq)]
pub struct Tally {
    pub agree: usize,
    pub all: usize,
}

// A slice crosses as a pointer and a length, and the handle of the heap as nothing.
extern "C" {
    fn exports_rewrite(
        image: *const u8,
        size: usize,
        out: *mut u8,
        room: usize,
        again: usize,
    ) -> Came;
    fn exports_plan(
        image: *const u8,
        size: usize,
        sets: *mut u16,
        room: usize,
        again: usize,
    ) -> Came;
    fn exports_convert(
        image: *const u8,
        size: usize,
        hides: bool,
        out: *mut u8,
        room: usize,
        again: usize,
    ) -> Came;
    fn exports_run(
        image: *const u8,
        size: usize,
        words: *const u32,
        count: usize,
        cells: *mut u32,
        long: usize,
        shape: Shape,
        room: usize,
        again: usize,
    ) -> Went;
    fn exports_case_file(text: *const u8, size: usize) -> Agreed;
}

// SAFETY of every call below: no export has a `requires`, each pointer and length are those of one slice that is
// borrowed for the call, and a slice that is written is no part of another one.

const OUT_OF_MEMORY: u8 = 255;

fn refused(number: u8, place: usize) -> Option<Refused> {
    assert!(number != OUT_OF_MEMORY, "out of memory");
    (number != 0).then_some(Refused { number, place })
}

impl Came {
    fn answer(self) -> Result<usize, Refused> {
        refused(self.number, self.place).map_or(Ok(self.length), Err)
    }
}

/// Reads an image and writes it back, having read it so many times before.
pub fn rewrite(image: &[u8], out: &mut [u8], again: usize) -> Result<usize, Refused> {
    let (at, room) = (out.as_mut_ptr(), out.len());
    unsafe { exports_rewrite(image.as_ptr(), image.len(), at, room, again) }.answer()
}

/// Writes the labels of an image, having planned so many times before.
pub fn plan(image: &[u8], sets: &mut [u16], again: usize) -> Result<usize, Refused> {
    let (at, room) = (sets.as_mut_ptr(), sets.len());
    unsafe { exports_plan(image.as_ptr(), image.len(), at, room, again) }.answer()
}

/// Writes the image of what an image becomes, having converted it so many times before.
pub fn convert(image: &[u8], hides: bool, out: &mut [u8], again: usize) -> Result<usize, Refused> {
    let (at, room) = (out.as_mut_ptr(), out.len());
    unsafe { exports_convert(image.as_ptr(), image.len(), hides, at, room, again) }.answer()
}

/// Runs an image on a pile over the cells, having run it so many times before on another. The cells are then those that
/// the run left.
pub fn run(
    image: &[u8],
    words: &[u32],
    cells: &mut [u32],
    shape: Shape,
    room: usize,
    again: usize,
) -> Result<Run, Refused> {
    let (first, count) = (words.as_ptr(), words.len());
    let (at, long) = (cells.as_mut_ptr(), cells.len());
    let (image, size) = (image.as_ptr(), image.len());
    let went = unsafe { exports_run(image, size, first, count, at, long, shape, room, again) };
    let ran = Run {
        steps: went.steps,
        marks: went.marks,
        fault: went.fault.checked_sub(1).map(|place| place as usize),
    };
    refused(went.number, went.place).map_or(Ok(ran), Err)
}

/// Runs the cases of a text.
pub fn case_file(text: &str) -> Tally {
    let Agreed { number, agree, all } = unsafe { exports_case_file(text.as_ptr(), text.len()) };
    assert_eq!(number, 0, "the cases were not run");
    Tally { agree, all }
}
