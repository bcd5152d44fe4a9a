//! The proved library, by its C functions. Slices pass as pointer, then length.

use second::player::{Record, Shown};
use second::tasks::{Problem, Task, MOST_CELLS, MOST_CORES, MOST_TASKS};

extern "C" {
    fn xiphomera_search(
        tasks: *const Task,
        count: usize,
        cores: u32,
        engine: u32,
        limit: u32,
        table: *mut u8,
        table_length: usize,
    ) -> u64;

    fn xiphomera_check(
        tasks: *const Task,
        count: usize,
        cores: u32,
        table: *const u8,
        table_length: usize,
    ) -> u64;

    fn xiphomera_start(
        player: &mut Player,
        tasks: *const Task,
        count: usize,
        cores: u32,
        table: *const u8,
        table_length: usize,
        tick: u32,
        cells: &mut [u8; MOST_CORES],
    ) -> u64;

    fn xiphomera_step(player: &mut Player, tick: u32, cells: &mut [u8; MOST_CORES]) -> u64;

    fn xiphomera_plan_text(
        text: *const u8,
        text_length: usize,
        out: *mut u8,
        out_length: usize,
    ) -> usize;
}

/// Room for the longest answer: 05 in 13 bytes, 1024 slots of 15 bytes, 07 in 3.
const LONGEST_ANSWER: usize = 13 + 1024 * 15 + 3;

/// The verdict and the tries.
pub fn search(problem: &Problem, table: &mut [u8]) -> (u32, u32) {
    // SAFETY: each pointer is good for the length that follows it, and only `table` is written.
    let answer = unsafe {
        xiphomera_search(
            problem.tasks.as_ptr(),
            problem.tasks.len(),
            problem.cores,
            problem.engine,
            problem.limit,
            table.as_mut_ptr(),
            table.len(),
        )
    };
    ((answer >> 32) as u32, answer as u32)
}

/// A class and three numbers: 0 valid; 1 slot, core, kind; 2 task, job, kind; 3 0, 0, refusal.
pub fn check(problem: &Problem, table: &[u8]) -> [u16; 4] {
    // SAFETY: each pointer is good for the length that follows it, and nothing is written.
    let answer = unsafe {
        xiphomera_check(
            problem.tasks.as_ptr(),
            problem.tasks.len(),
            problem.cores,
            table.as_ptr(),
            table.len(),
        )
    };
    [48, 32, 16, 0].map(|shift| (answer >> shift) as u16)
}

/// The verdict of a start, and what it shows.
pub fn start(player: &mut Player, problem: &Problem, table: &[u8], tick: u32) -> (u32, Shown) {
    let mut cells = [255; MOST_CORES];
    // SAFETY: each pointer is good for the length that follows it, and only `player` and `cells` are written.
    let answer = unsafe {
        xiphomera_start(
            player,
            problem.tasks.as_ptr(),
            problem.tasks.len(),
            problem.cores,
            table.as_ptr(),
            table.len(),
            tick,
            &mut cells,
        )
    };
    told(answer, cells)
}

/// The verdict of a step, and what it shows.
pub fn step(player: &mut Player, tick: u32) -> (u32, Shown) {
    let mut cells = [255; MOST_CORES];
    // SAFETY: only `player` and `cells` are written.
    let answer = unsafe { xiphomera_step(player, tick, &mut cells) };
    told(answer, cells)
}

fn told(answer: u64, cells: [u8; MOST_CORES]) -> (u32, Shown) {
    let missed = answer as u32;
    ((answer >> 32) as u32, Shown { cells, missed })
}

/// The text of the answer to the text of a problem.
pub fn plan_text(text: &[u8]) -> Vec<u8> {
    let mut out = vec![0; LONGEST_ANSWER];
    // SAFETY: each pointer is good for the length that follows it, and only `out` is written.
    let written =
        unsafe { xiphomera_plan_text(text.as_ptr(), text.len(), out.as_mut_ptr(), out.len()) };
    out.truncate(written);
    out
}

/// The player's record as the library lays it out.
#[repr(C)]
pub struct Player {
    last: u32,
    h: u16,
    position: u16,
    age: u16,
    offsets: [u16; MOST_TASKS],
    m: u8,
    n: u8,
    table: [u8; MOST_CELLS],
}

impl From<&Record> for Player {
    fn from(record: &Record) -> Player {
        Player {
            last: record.last,
            h: record.h,
            position: record.position,
            age: record.age,
            offsets: record.offsets,
            m: record.cores,
            n: record.tasks,
            table: record.table,
        }
    }
}

impl From<&Player> for Record {
    fn from(player: &Player) -> Record {
        Record {
            h: player.h,
            cores: player.m,
            tasks: player.n,
            offsets: player.offsets,
            table: player.table,
            position: player.position,
            age: player.age,
            last: player.last,
        }
    }
}
