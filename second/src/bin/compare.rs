//! Holds the proved library against this program over random lists and records:
//!
//!     compare --lists N --seed S [--program PATH]
//!
//! A program given by its path is handed a few hundred of the texts.

#[path = "../proved.rs"]
mod proved;

use second::check::{first_fault, Fault};
use second::frames::{plan_text, problem_text};
use second::player::{Record, Shown};
use second::random::Random;
use second::tasks::{Problem, MOST_CORES};
use second::verdict::{Ending, Refusal};
use second::walk::search;
use second::{brute, lists, player};
use std::collections::BTreeMap;
use std::fmt::Debug;
use std::io::Write;
use std::process::{Command, ExitCode, Stdio};
use std::str::from_utf8;

/// About so many texts go to the program given by its path.
const PROGRAM_TEXTS: u64 = 300;

/// For one list in so many, a tiny one is searched by brute force too.
const TINY: u64 = 10;

/// So many steps follow each start.
const STEPS: usize = 5;

/// So many lists of the largest size come first, then those with numbers out of range.
const LARGE: usize = 12;

fn main() -> ExitCode {
    let options = options();
    let mut random = Random::new(options.seed);
    let mut tally = Tally::default();
    for _ in 0..LARGE {
        let problem = lists::large(&mut random);
        compare_search(&mut random, &mut tally, &problem);
    }
    for problem in lists::out_of_range() {
        compare_calls(&mut random, &mut tally, &problem);
    }
    for list in 0..options.lists {
        let problem = lists::problem(&mut random);
        compare_calls(&mut random, &mut tally, &problem);
        if list % TINY == 0 {
            compare_brute(&mut random, &mut tally);
        }
        let text = lists::text(&mut random, &problem);
        compare_text(&mut tally, "text", &text, proved::plan_text);
        if let Some(path) = &options.program {
            if list % options.lists.div_ceil(PROGRAM_TEXTS) == 0 {
                compare_text(&mut tally, "program", &text, |text| run_program(path, text));
            }
        }
    }
    tally.print();
    ExitCode::from(u8::from(tally.differences > 0))
}

struct Options {
    lists: u64,
    seed: u64,
    program: Option<String>,
}

fn options() -> Options {
    let mut options = Options {
        lists: 100_000,
        seed: 1,
        program: None,
    };
    let mut words = std::env::args().skip(1);
    while let Some(word) = words.next() {
        let value = words.next().unwrap_or_else(|| usage());
        match word.as_str() {
            "--lists" => options.lists = value.parse().unwrap_or_else(|_| usage()),
            "--seed" => options.seed = value.parse().unwrap_or_else(|_| usage()),
            "--program" => options.program = Some(value),
            _ => usage(),
        }
    }
    options
}

fn usage() -> ! {
    eprintln!("usage: compare --lists N --seed S [--program PATH]");
    std::process::exit(2)
}

/// How often each answer was seen, by what was asked and its number, and how many differ.
#[derive(Default)]
struct Tally {
    seen: BTreeMap<(&'static str, u32), u64>,
    differences: u64,
}

impl Tally {
    /// Counts an answer under its number, and whether the proved one differs. The first difference
    /// is shown, with what was asked.
    fn hold<Answer: PartialEq + Debug>(
        &mut self,
        (what, number): (&'static str, u32),
        ordinary: Answer,
        proved: Answer,
        asked: impl FnOnce() -> String,
    ) {
        *self.seen.entry((what, number)).or_default() += 1;
        if ordinary != proved {
            self.differences += 1;
            if self.differences == 1 {
                println!("first difference, {what}:\n{}", asked());
                println!("ordinary {ordinary:?}\nproved   {proved:?}");
            }
        }
    }

    fn print(&self) {
        for ((what, number), count) in &self.seen {
            println!("{what} {number:2}: {count}");
        }
        println!("differences: {}", self.differences);
    }
}

fn shown(problem: &Problem) -> String {
    let text = problem_text(problem);
    let text = String::from_utf8_lossy(&text);
    let (cores, engine) = (problem.cores, problem.engine);
    format!("{text}{cores} cores, engine {engine}\n")
}

/// Searches; then checks and starts a table, good or bad.
fn compare_calls(random: &mut Random, tally: &mut Tally, problem: &Problem) {
    compare_search(random, tally, problem);
    let table = lists::table(random, problem);
    compare_check(tally, problem, &table);
    compare_player(random, tally, problem, &table);
}

/// Searches, most often with a buffer that fits. What lies behind the table is compared too.
fn compare_search(random: &mut Random, tally: &mut Tally, problem: &Problem) {
    let cells = problem.h().map_or(9, |h| h * problem.cores());
    let length = match random.below(10) {
        0 => random.below(cells),
        1 => cells - 1,
        2 => cells + random.between(1, 9),
        _ => cells,
    };
    let mut table = vec![255; length];
    let mut proved_table = table.clone();
    let answer = match search(problem, &mut table) {
        Ok(outcome) => (outcome.ending as u32, outcome.tries),
        Err(refusal) => (refusal as u32, 0),
    };
    let proved = proved::search(problem, &mut proved_table);
    tally.hold(
        ("search, verdict", answer.0),
        (answer, table),
        (proved, proved_table),
        || format!("{}with {length} cells", shown(problem)),
    );
}

/// Searches a tiny list with both engines, and by brute force.
fn compare_brute(random: &mut Random, tally: &mut Tally) {
    let (mut problem, h) = lists::tiny(random);
    let first = brute::first(&problem, h);
    let ending = if first.is_some() {
        Ending::Found
    } else {
        Ending::None
    };
    for engine in [0, 1] {
        problem.engine = engine;
        let tries = brute::tries(&problem, h, first.as_deref());
        let mut proved_table = vec![255; h * problem.cores()];
        let proved = proved::search(&problem, &mut proved_table);
        tally.hold(
            ("search and brute force, verdict", ending as u32),
            (
                (ending as u32, tries as u32),
                first.clone().unwrap_or(vec![0; proved_table.len()]),
            ),
            (proved, proved_table),
            || shown(&problem),
        );
    }
}

/// Checks a table. Number 0 is a valid one, 1 to 6 are kinds of fault.
fn compare_check(tally: &mut Tally, problem: &Problem, table: &[u8]) {
    let (what, answer) = match first_fault(problem, table) {
        Ok(None) => ("check, kind", [0; 4]),
        Ok(Some(Fault::Cell { slot, core, kind })) => {
            ("check, kind", [1, slot as u16, core as u16, kind as u16])
        }
        Ok(Some(Fault::Job { task, job, kind })) => {
            ("check, kind", [2, task as u16, job as u16, kind as u16])
        }
        Err(refusal) => ("check, refusal", [3, 0, 0, refusal as u16]),
    };
    let proved = proved::check(problem, table);
    tally.hold((what, answer[3].into()), answer, proved, || {
        format!("{}table {table:?}", shown(problem))
    });
}

/// Starts a table on a record that holds anything, and goes on by steps of every size: from the
/// record that the start makes, or from the old one, spoilt or not. The whole record is compared.
fn compare_player(random: &mut Random, tally: &mut Tally, problem: &Problem, table: &[u8]) {
    let mut record = lists::record(random);
    let mut proved_player = proved::Player::from(&record);
    let tick = lists::tick(random);
    let answer = told(player::start(problem, table, tick, &mut record));
    let proved = proved::start(&mut proved_player, problem, table, tick);
    tally.hold(
        ("start, verdict", answer.0),
        (answer, &record),
        (proved, &Record::from(&proved_player)),
        || format!("{}table {table:?} at tick {tick}", shown(problem)),
    );
    for _ in 0..STEPS {
        let before = record.clone();
        let elapsed = lists::elapsed(random, record.h);
        let tick = record.last.wrapping_add(elapsed);
        let answer = told(player::step(&mut record, tick));
        let proved = proved::step(&mut proved_player, tick);
        tally.hold(
            ("step, verdict", answer.0),
            (answer, &record),
            (proved, &Record::from(&proved_player)),
            || format!("{before:?} at tick {tick}"),
        );
    }
}

/// The verdict of a start or a step, and what it shows: nothing where it is refused.
fn told(answer: Result<Shown, Refusal>) -> (u32, Shown) {
    let nothing = Shown {
        cells: [0; MOST_CORES],
        missed: 0,
    };
    answer.map_or_else(
        |refusal| (refusal as u32, nothing),
        |shown| (Ending::Found as u32, shown),
    )
}

/// Holds the answer to a text against that of the library or a program.
fn compare_text(
    tally: &mut Tally,
    what: &'static str,
    text: &[u8],
    proved: impl FnOnce(&[u8]) -> Vec<u8>,
) {
    let (answer, proved) = (plan_text(text), proved(text));
    let digits = from_utf8(&answer[2..4]).expect("a verdict in hexadecimal");
    let verdict = u32::from_str_radix(digits, 16).expect("a verdict in hexadecimal");
    tally.hold(
        (what, verdict),
        from_utf8(&answer),
        from_utf8(&proved),
        || text.escape_ascii().to_string(),
    );
}

/// What a program writes for a text.
fn run_program(path: &str, text: &[u8]) -> Vec<u8> {
    let mut child = Command::new(path)
        .stdin(Stdio::piped())
        .stdout(Stdio::piped())
        .spawn()
        .expect("the program starts");
    // A program need not read all of a text that is too long.
    let _ = child.stdin.take().expect("a pipe").write_all(text);
    child.wait_with_output().expect("the program ends").stdout
}
