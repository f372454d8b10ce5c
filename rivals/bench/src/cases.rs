//! Case files: what each case answers, and whether that is what its file says.

use crate::bench::Bench;
use crate::conversion::convert;
use crate::image;
use crate::labels::plan;
use crate::machine::{run, Visit, ENTRY};
use crate::make::Make;
use crate::memory::{Access, Memory, Window};
use crate::most::{most_steps, MOST};
use crate::program::{HandedBack, Instruction};
use crate::refusal::Refusal;
use crate::text;

/// How many of the cases that differ are noted.
const NOTES: usize = 3;
/// Stands in the bytes that a writing is to leave as they are.
const FILLER: u8 = 0xa5;

/// The fields `NAME=VALUE` of a case.
struct Fields<'a>(Vec<(&'a str, &'a str)>);

impl<'a> Fields<'a> {
    fn of(parts: impl Iterator<Item = &'a str>) -> Option<Self> {
        parts
            .map(|part| part.split_once('='))
            .collect::<Option<_>>()
            .map(Fields)
    }

    fn get(&self, name: &str) -> Option<&'a str> {
        self.0
            .iter()
            .find(|field| field.0 == name)
            .map(|field| field.1)
    }

    fn number(&self, name: &str) -> Option<usize> {
        self.get(name)?.parse().ok()
    }

    fn words(&self, name: &str) -> Option<Vec<u32>> {
        text::parse_words(self.get(name)?)
    }

    fn image(&self) -> Option<Vec<u8>> {
        text::parse_bytes(self.get("img")?)
    }
}

fn room(length: usize) -> Vec<Instruction> {
    vec![Instruction::default(); length]
}

fn told(answer: Result<String, Refusal>) -> String {
    answer.unwrap_or_else(|refusal| refusal.to_string())
}

fn refusal(back: HandedBack) -> Refusal {
    back.refusal
}

/// What runs cases, with a visit list that is made once.
#[derive(Default)]
pub struct Runner {
    visits: Vec<Visit>,
}

impl Runner {
    /// The answer of the case `KIND ID NAME=VALUE ..`, or `None` where it is no case.
    pub fn answer(&mut self, given: &str) -> Option<String> {
        let mut parts = given.split(' ');
        let (kind, _id) = (parts.next()?, parts.next()?);
        let fields = Fields::of(parts)?;
        match kind {
            "read" => read_case(&fields),
            "write" => write_case(&fields),
            "plan" => plan_case(&fields),
            "convert" => convert_case(&fields),
            "run" => self.run_case(&fields),
            _ => None,
        }
    }

    fn visits(&mut self, length: usize) -> &mut [Visit] {
        if self.visits.len() < length {
            self.visits.resize(length, Visit::default());
        }
        &mut self.visits[..length]
    }

    fn run_case(&mut self, fields: &Fields) -> Option<String> {
        let image = fields.image()?;
        let mut memory = Make::named(fields.get("mem")?)?.build(fields.words("cells")?);
        let mut entry = [0; ENTRY];
        let words = fields.words("regs")?;
        entry.get_mut(..words.len())?.copy_from_slice(&words);
        let visits = self.visits(fields.number("vcap")?);
        Some(told(run_answer(&image, &mut memory, &entry, visits)))
    }
}

fn read_case(fields: &Fields) -> Option<String> {
    let answer = image::read(&fields.image()?, room(fields.number("cap")?)).map(|program| {
        let code = program.code();
        format!(
            "ok kind={} n={} most={}",
            program.kind() as u8,
            code.len(),
            most_steps(code)
        )
    });
    Some(told(answer.map_err(refusal)))
}

fn write_case(fields: &Fields) -> Option<String> {
    let image = fields.image()?;
    let program = image::read_fitting(&image).ok()?;
    let mut bytes = vec![FILLER; fields.number("cap")?];
    let answer = image::write(&program, &mut bytes);
    let written = *answer.as_ref().unwrap_or(&0);
    let (front, behind) = bytes.split_at(written);
    let word = if !behind.iter().all(|&byte| byte == FILLER) {
        "disturbed"
    } else if answer.is_ok() && front != image {
        "altered"
    } else {
        "ok"
    };
    Some(match answer {
        Err(refusal) if word == "ok" => refusal.to_string(),
        _ => format!("{word} {written}"),
    })
}

fn plan_case(fields: &Fields) -> Option<String> {
    let mut list = vec![0; fields.number("cap")?];
    let image = fields.image()?;
    let answer = image::read_fitting(&image).and_then(|program| {
        plan(&program, &mut list)?;
        let sets = list.iter().take(program.code().len() + 1);
        Ok(format!(
            "ok {}",
            text::listed(sets.map(|set| format!("{set:x}")))
        ))
    });
    Some(told(answer))
}

fn convert_case(fields: &Fields) -> Option<String> {
    let hides = match fields.get("hides")? {
        "0" => false,
        "1" => true,
        _ => return None,
    };
    let list = room(fields.number("cap")?);
    let answer = image::read_fitting(&fields.image()?).and_then(|source| {
        let result = convert(&source, hides, list).map_err(refusal)?;
        Ok(format!("ok {}", text::show_bytes(&image::written(&result))))
    });
    Some(told(answer))
}

fn run_answer(
    image: &[u8],
    memory: &mut Box<dyn Memory>,
    entry: &[u32; ENTRY],
    visits: &mut [Visit],
) -> Result<String, Refusal> {
    let program = image::read_fitting(image)?;
    let ending = run(&program, memory.as_mut(), entry, visits)?;
    Ok(format!(
        "ok regs={} steps={} marks={} fault={} visits={} seen={} cells={}",
        text::trimmed(&ending.registers),
        ending.steps,
        ending.marks,
        ending
            .fault
            .map_or("-".to_string(), |place| place.to_string()),
        text::visits(&visits[..ending.steps]),
        text::seen(memory),
        text::trimmed(memory.cells()),
    ))
}

fn access(letter: &str) -> Option<Access> {
    match letter {
        "r" => Some(Access::Read),
        "w" => Some(Access::Write),
        _ => None,
    }
}

fn window(first: &str, len: &str) -> Option<Window> {
    Some(Window {
        first: first.parse().ok()?,
        len: len.parse().ok()?,
    })
}

/// The answer of a call to a memory.
pub fn memory_call<M: Memory>(memory: &mut M, call: &str) -> Option<String> {
    let parts: Vec<&str> = call.split(' ').collect();
    Some(match parts[..] {
        ["read", first, len, off] => {
            let word = memory.read(window(first, len)?, off.parse().ok()?);
            told(word.map(|word| format!("{word:x}")))
        }
        ["write", first, len, off, word] => {
            let word = text::parse_word(word)?;
            let done = memory.write(window(first, len)?, off.parse().ok()?, word);
            told(done.map(|()| "ok".to_string()))
        }
        ["cost", letter, len] => memory.cost(access(letter)?, len.parse().ok()?).to_string(),
        ["free"] => memory.free().to_string(),
        ["size"] => memory.size().to_string(),
        ["hides"] => u8::from(memory.hides()).to_string(),
        ["marks"] => memory.marks().to_string(),
        ["mark", number] => {
            let mark = memory.mark(number.parse().ok()?);
            mark.map_or("none".to_string(), |mark| mark.to_string())
        }
        ["clear"] => {
            memory.clear();
            "ok".to_string()
        }
        _ => return None,
    })
}

impl Runner {
    /// The answer of a call to a bench.
    pub fn bench_call<M: Memory>(&mut self, bench: &mut Bench<M>, call: &str) -> Option<String> {
        let parts: Vec<&str> = call.split(' ').collect();
        let index = |text: &str| text.parse::<usize>().ok();
        let done = |()| "ok".to_string();
        let word = |word: u32| format!("ok {word:x}");
        Some(told(match parts[..] {
            ["seat", bytes] => {
                let counts = bench.seat(&text::parse_bytes(bytes)?);
                counts.map(|counts| format!("ok {} {}", counts.steps, counts.marks))
            }
            ["put", table, at, new] => bench
                .put(index(table)?, index(at)?, text::parse_word(new)?)
                .map(done),
            ["arg", register, new] => bench
                .arg(index(register)?, text::parse_word(new)?)
                .map(done),
            ["go", length] => self.go(bench, index(length).filter(|&length| length <= MOST)?),
            ["look", table, at] => bench.look(index(table)?, index(at)?).map(word),
            ["open", table, at] => bench.open(index(table)?, index(at)?).map(word),
            ["outcome"] => bench
                .outcome()
                .map(|words| format!("ok {}", text::hex(words))),
            ["clear"] => {
                bench.clear();
                Ok("ok".to_string())
            }
            _ => return None,
        }))
    }

    fn go<M: Memory>(&mut self, bench: &mut Bench<M>, length: usize) -> Result<String, Refusal> {
        let visits = self.visits(length);
        let counts = bench.go(visits)?;
        let shown = text::visits(&visits[..counts.steps]);
        Ok(format!(
            "ok {} {} visits={shown}",
            counts.steps, counts.marks
        ))
    }

    /// The answers of a block's calls, and what is seen and in the cells in the end: the block as
    /// it should read. The calls are those of the lines `CALL = ANSWER`; others are kept.
    pub fn block(&mut self, head: &str, lines: &[&str]) -> Option<String> {
        let parts: Vec<&str> = head.split(' ').collect();
        let [kind, _id, make, cells] = parts[..] else {
            return None;
        };
        let cells = text::parse_words(cells.strip_prefix("cells=")?)?;
        let memory = Make::named(make)?.build(cells);
        let calls = lines
            .iter()
            .filter_map(|line| line.split_once(" = "))
            .map(|parts| parts.0);
        match kind {
            "memory" => {
                let mut memory = memory;
                block_text(calls, |call| memory_call(&mut memory, call))
                    .map(|text| text + &ending(&memory))
            }
            "bench" => {
                let mut bench = Bench::new(memory);
                block_text(calls, |call| self.bench_call(&mut bench, call))
                    .map(|text| text + &ending(bench.memory()))
            }
            _ => None,
        }
    }
}

fn block_text<'a>(
    calls: impl Iterator<Item = &'a str>,
    mut answer: impl FnMut(&str) -> Option<String>,
) -> Option<String> {
    calls
        .map(|call| answer(call).map(|answer| format!("{call} = {answer}\n")))
        .collect()
}

fn ending<M: Memory>(memory: &M) -> String {
    format!(
        "seen {}\ncells {}\n",
        text::seen(memory),
        text::trimmed(memory.cells())
    )
}

/// How the cases of a file went.
#[derive(Debug, Default)]
pub struct Tally {
    pub agree: usize,
    pub all: usize,
    pub notes: Vec<String>,
}

impl Tally {
    fn count(&mut self, case: &str, expected: &str, came: Option<String>) {
        self.all += 1;
        if came.as_deref() == Some(expected) {
            self.agree += 1;
        } else if self.notes.len() < NOTES {
            let came = came.as_deref().unwrap_or("no case");
            self.notes
                .push(format!("{case}\n  expected {expected}\n  came     {came}"));
        }
    }
}

/// Runs all cases of a file's text.
pub fn judge(runner: &mut Runner, text: &str) -> Tally {
    let mut tally = Tally::default();
    let mut lines = text.lines().filter(|line| !line.trim().is_empty());
    while let Some(line) = lines.next() {
        if line.starts_with("memory ") || line.starts_with("bench ") {
            let mut ended = false;
            let goes_on = |&next: &&str| {
                ended = next == "end";
                !ended
            };
            let block: Vec<&str> = lines.by_ref().take_while(goes_on).collect();
            let expected: String = block.iter().map(|line| format!("{line}\n")).collect();
            tally.count(
                line,
                &expected,
                runner.block(line, &block).filter(|_| ended),
            );
        } else {
            let (given, expected) = line.split_once(" -> ").unwrap_or((line, ""));
            tally.count(given, expected, runner.answer(given));
        }
    }
    tally
}
