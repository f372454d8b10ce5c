//! The bench: a memory, a program once it is seated, entry registers, and eight calls.

use crate::conversion::convert;
use crate::image;
use crate::machine::{Code, Visit, ENTRY};
use crate::memory::{Access, Memory, Window};
use crate::most::most_marks;
use crate::program::{Instruction, Kind, Program, Table};
use crate::refusal::{Reason, Refusal};

/// The register of a converted program that holds its fault, one added.
const FAULT: usize = 24;
/// Registers 0 to 15, and 24.
pub type Outcome = [u32; ENTRY + 1];

struct Seated {
    program: Program,
    code: Code,
    most_marks: usize,
}

pub struct Bench<M> {
    memory: M,
    seated: Option<Seated>,
    entry: [u32; ENTRY],
    outcome: Option<Outcome>,
    /// What reading and converting are lent; empty while in use.
    source_list: Vec<Instruction>,
    result_list: Vec<Instruction>,
}

/// Two numbers: of a seat the most steps and most marks, of a go those that were made.
#[derive(Clone, Copy, Debug, PartialEq, Eq)]
pub struct Counts {
    pub steps: usize,
    pub marks: usize,
}

impl<M: Memory> Bench<M> {
    pub fn new(memory: M) -> Self {
        let list = |kind: Kind| vec![Instruction::default(); kind.most_instructions()];
        Bench {
            memory,
            seated: None,
            entry: [0; ENTRY],
            outcome: None,
            source_list: list(Kind::Converted),
            result_list: list(Kind::Converted),
        }
    }

    pub fn memory(&self) -> &M {
        &self.memory
    }

    pub fn into_memory(self) -> M {
        self.memory
    }

    pub fn seat(&mut self, bytes: &[u8]) -> Result<Counts, Refusal> {
        Reason::AlreadySeated.unless(self.seated.is_none())?;
        let program = self.converted(bytes)?;
        if program.header().cells() > self.memory.size() {
            self.result_list = program.into_list();
            return Err(Reason::MemoryTooSmall.at(0));
        }
        let code = Code::new(&program);
        let most_marks = most_marks(&program, &self.memory);
        let counts = Counts {
            steps: code.most_steps(),
            marks: most_marks,
        };
        self.seated = Some(Seated {
            program,
            code,
            most_marks,
        });
        Ok(counts)
    }

    fn converted(&mut self, bytes: &[u8]) -> Result<Program, Refusal> {
        let list = std::mem::take(&mut self.source_list);
        let source = image::read(bytes, list).map_err(|back| {
            self.source_list = back.list;
            back.refusal
        })?;
        let list = std::mem::take(&mut self.result_list);
        let result = convert(&source, self.memory.hides(), list);
        self.source_list = source.into_list();
        result.map_err(|back| {
            self.result_list = back.list;
            back.refusal
        })
    }

    fn seated(&self) -> Result<&Seated, Refusal> {
        self.seated.as_ref().ok_or(Reason::NoneSeated.at(0))
    }

    fn table(&self, table: usize) -> Result<Table, Refusal> {
        let tables = self.seated()?.program.tables();
        tables.get(table).copied().ok_or(Reason::NoSuchTable.at(0))
    }

    /// The table as a window, if the access is within it and its marks are free.
    fn window(&self, access: Access, table: Table, index: usize) -> Result<Window, Refusal> {
        let window = Window {
            first: usize::from(table.first),
            len: usize::from(table.len),
        };
        Reason::IndexTooLarge.unless(index < window.len)?;
        Reason::NoFreeMarks.unless(self.memory.cost(access, window.len) <= self.memory.free())?;
        Ok(window)
    }

    pub fn put(&mut self, table: usize, index: usize, word: u32) -> Result<(), Refusal> {
        let window = self.window(Access::Write, self.table(table)?, index)?;
        self.memory.set(window, index, word);
        Ok(())
    }

    pub fn open(&mut self, table: usize, index: usize) -> Result<u32, Refusal> {
        let window = self.window(Access::Read, self.table(table)?, index)?;
        Ok(self.memory.get(window, index))
    }

    pub fn look(&mut self, table: usize, index: usize) -> Result<u32, Refusal> {
        Reason::SecretTable.unless(!self.table(table)?.secret)?;
        self.open(table, index)
    }

    pub fn arg(&mut self, register: usize, word: u32) -> Result<(), Refusal> {
        self.seated()?;
        *self
            .entry
            .get_mut(register)
            .ok_or(Reason::NoSuchRegister.at(0))? = word;
        Ok(())
    }

    pub fn go(&mut self, visits: &mut [Visit]) -> Result<Counts, Refusal> {
        let seated = self.seated.as_ref().ok_or(Reason::NoneSeated.at(0))?;
        Reason::NoRoomForVisits.unless(seated.code.most_steps() <= visits.len())?;
        Reason::NoFreeMarks.unless(seated.most_marks <= self.memory.free())?;
        let ending = seated.code.run(&mut self.memory, &self.entry, visits);
        let mut outcome = [ending.registers[FAULT]; ENTRY + 1];
        outcome[..ENTRY].copy_from_slice(&ending.registers[..ENTRY]);
        self.outcome = Some(outcome);
        Ok(Counts {
            steps: ending.steps,
            marks: ending.marks,
        })
    }

    pub fn outcome(&self) -> Result<&Outcome, Refusal> {
        self.outcome.as_ref().ok_or(Reason::NoOutcome.at(0))
    }

    pub fn clear(&mut self) {
        self.memory.clear();
    }
}
