//! Random problems, tables, records, ticks and texts, good and bad.

use crate::brute;
use crate::frames::{problem_text, read_problem};
use crate::player::{Record, MOST_AGE};
use crate::random::Random;
use crate::tasks::{Problem, Task, MOST_CELLS, MOST_CORES, MOST_SLOTS, MOST_TASKS};
use crate::verdict::Ending;
use crate::walk::{search, Outcome};
use std::array::from_fn;

/// How many tries a list is given, usually and at most, so that many lists take little time. Only
/// a walk that needs fewer gets a higher limit.
const USUAL: u32 = 3000;
const MOST: u32 = 15_000;

/// A tiny problem without a limit, for brute force, and its H.
pub fn tiny(random: &mut Random) -> (Problem, usize) {
    loop {
        let slots = random.between(1, 6);
        let mut problem = sound(random, slots, 3, 3);
        problem.limit = u32::MAX;
        let h = problem.h().expect("the list is sound");
        if brute::count(&problem, h).is_some_and(|tables| tables <= 1000) {
            return (problem, h);
        }
    }
}

/// A problem of any size. One in four has numbers out of range.
pub fn problem(random: &mut Random) -> Problem {
    let slots = match random.below(10) {
        0..=5 => random.between(1, 12),
        6..=8 => random.pick(&[16, 18, 20, 24, 30, 36, 48, 60]),
        _ => random.pick(&[120, 210, 360, 720, 840, 960, 992, 1008, 1023, 1024]),
    };
    let most_tasks = random.pick(&[2, 4, 8, MOST_TASKS]);
    let mut problem = sound(random, slots, most_tasks, MOST_CORES);
    if random.once_in(4) {
        for _ in 0..random.between(1, 2) {
            spoil(random, &mut problem);
        }
    }
    set_limit(random, &mut problem);
    problem
}

/// A problem of the largest size: 16 tasks, 4 cores and 1024 slots; one in three has a table, which
/// fills every cell.
pub fn large(random: &mut Random) -> Problem {
    let slots = MOST_SLOTS as u16;
    let full = random.once_in(3);
    let task = |at: usize| {
        let period = if at == 0 {
            slots
        } else {
            random.pick(&[slots, slots / 2, slots / 4])
        };
        let mut rates = [1; MOST_CORES];
        if full {
            rates = from_fn(|core| u8::from(core == at % MOST_CORES));
        }
        let period = if full { slots } else { period };
        Task {
            offset: random.below(MOST_SLOTS) as u16,
            work: period / 4,
            deadline: period,
            period,
            rates,
        }
    };
    Problem {
        tasks: (0..MOST_TASKS).map(task).collect(),
        cores: MOST_CORES as u32,
        engine: random.below(2) as u32,
        limit: 300_000,
    }
}

/// A random list, its times in proportion to `slots`.
pub fn stretched(random: &mut Random, slots: usize) -> Problem {
    let count = random.between(3, MOST_TASKS);
    let cores = random.between(1, MOST_CORES);
    let (least_rate, most_rate) = random.pick(&[(1, 1), (0, 3)]);
    let engine = random.below(2) as u32;
    let task = |at| {
        let mut rates = [0; MOST_CORES];
        rates[..cores].fill_with(|| random.between(least_rate, most_rate) as u8);
        let jobs = if at == 0 {
            1
        } else {
            random.pick(&[1, 1, 2, 4])
        };
        let period = slots / jobs;
        let deadline = period * random.between(5, 12) / 12;
        let work = deadline * cores * random.between(6, 18) / (12 * count);
        Task {
            offset: (slots * random.below(12) / 12) as u16,
            work: work.max(1) as u16,
            deadline: deadline as u16,
            period: period as u16,
            rates,
        }
    };
    Problem {
        tasks: (0..count).map(task).collect(),
        cores: cores as u32,
        engine,
        limit: USUAL,
    }
}

/// A random list that has a table with at least six cells in ten taken, on cores of speeds up to
/// `most_rate`: each task gets a core and, for each of its jobs, as many of the slots in the job's
/// window that are still free there.
pub fn from_table(random: &mut Random, most_rate: usize) -> Problem {
    let slots = random.pick(&[24, 60, 120, 240]);
    let count = random.between(3, MOST_TASKS);
    let cores = random.between(1, MOST_CORES);
    let mut rates = [0; MOST_CORES];
    rates[..cores].fill_with(|| random.between(1, most_rate) as u8);
    let mut free = vec![[true; MOST_CORES]; slots];
    let mut cells = 0;
    let mut tasks = Vec::new();
    for at in 0..count {
        let core = random.below(cores);
        let jobs = if at == 0 {
            1
        } else {
            random.pick(&[1, 2, 3, 4, 6, 12])
        };
        let period = slots / jobs;
        let mut task = Task {
            offset: random.below(slots) as u16,
            work: 0,
            deadline: random.between(period / 2, period) as u16,
            period: period as u16,
            rates,
        };
        let mut windows = vec![Vec::new(); jobs];
        for slot in (0..slots).filter(|&slot| free[slot][core]) {
            if let Some(open) = task.open(slot, slots) {
                windows[open.job].push(slot);
            }
        }
        let share = (2 * period * cores / count).max(1);
        let room = windows.iter().map(Vec::len).fold(share, usize::min);
        if room > 0 {
            let taken = random.between(1, room);
            for mut window in windows {
                for _ in 0..taken {
                    free[window.swap_remove(random.below(window.len()))][core] = false;
                }
            }
            cells += taken * jobs;
            let rate = rates[core] as usize;
            task.work = (taken * rate - random.below(rate)) as u16;
            tasks.push(task);
        }
    }
    if tasks.len() < 3 || cells * 10 < slots * cores * 6 {
        return from_table(random, most_rate);
    }
    Problem {
        tasks,
        cores: cores as u32,
        engine: 1,
        limit: USUAL,
    }
}

/// Problems with every mix of good and bad counts, cores and engines; cut off to a byte, 256 and 257
/// would be 0 and 1.
pub fn out_of_range() -> Vec<Problem> {
    let task = Task {
        offset: 2,
        work: 2,
        deadline: 2,
        period: 3,
        rates: [1, 0, 0, 0],
    };
    let mut problems = Vec::new();
    for count in [0, 1, 16, 17, 256, 257] {
        for cores in [0, 1, 5, 256, 257] {
            for engine in [0, 1, 2, 256, 257] {
                problems.push(Problem {
                    tasks: vec![task; count],
                    cores,
                    engine,
                    limit: USUAL,
                });
            }
        }
    }
    problems
}

/// A sound problem whose periods divide `slots`.
fn sound(random: &mut Random, slots: usize, most_tasks: usize, most_cores: usize) -> Problem {
    let count = random.between(1, most_tasks);
    let cores = random.between(1, most_cores);
    let most_rate = random.pick(&[1, 1, 2, 3, 15]);
    let mut tasks: Vec<Task> = (0..count)
        .map(|_| task(random, slots, count, cores, most_rate))
        .collect();
    if random.once_in(3) {
        let (one, twin) = (random.below(cores), random.below(cores));
        for task in &mut tasks {
            task.rates[twin] = task.rates[one];
        }
    }
    Problem {
        tasks,
        cores: cores as u32,
        engine: random.below(2) as u32,
        limit: USUAL,
    }
}

/// A task that takes about its share of the cores; its last slot need not come out even.
fn task(random: &mut Random, slots: usize, count: usize, cores: usize, most_rate: usize) -> Task {
    let mut rates = [0; MOST_CORES];
    rates[..cores].fill(random.between(1, most_rate) as u8);
    if random.once_in(2) {
        rates[..cores].fill_with(|| random.between(0, most_rate) as u8);
    }
    if random.once_in(4) {
        rates[random.below(cores)] = 0;
    }
    let periods: Vec<usize> = (1..=slots).filter(|&period| slots % period == 0).collect();
    let period = random.pick(&periods);
    let deadline = if random.once_in(2) {
        period
    } else {
        random.between(1, period)
    };
    let share = deadline * cores * random.between(1, 4) / (2 * count);
    let units: usize = (0..random.between(1, share.clamp(1, deadline)))
        .map(|_| rates[random.below(cores)] as usize)
        .sum();
    let work = (units + usize::from(random.once_in(8))).saturating_sub(random.below(most_rate));
    let offset = match random.below(4) {
        0 => 0,
        1 | 2 => random.below(slots),
        _ => random.below(1024),
    };
    Task {
        offset: offset as u16,
        work: work.clamp(1, 4096) as u16,
        deadline: deadline as u16,
        period: period as u16,
        rates,
    }
}

/// Sets a limit: if the walk is short, most often the number of its tries or next to it.
fn set_limit(random: &mut Random, problem: &mut Problem) {
    problem.limit = random.pick(&[USUAL / 10, USUAL, USUAL, MOST]);
    if let Ok(Outcome { ending, tries }) = search(problem, &mut [0; MOST_CELLS]) {
        if ending != Ending::Stopped {
            let fewer = random.below(tries as usize) as u32;
            problem.limit = random.pick(&[
                fewer,
                tries - 1,
                tries,
                tries,
                tries + 1,
                1_000_000,
                1 << 24,
            ]);
        }
    }
}

/// Puts one number out of its range, for one of refusals 1 to 9.
fn spoil(random: &mut Random, problem: &mut Problem) {
    let core = random.between(0, problem.cores()).min(MOST_CORES - 1);
    let task = random.below(problem.tasks.len().max(1));
    match (random.between(1, 9), problem.tasks.get_mut(task)) {
        (1, _) => {
            let count = random.pick(&[0, 17, 18, 256, 257, 272]);
            problem.tasks = problem.tasks.iter().cycle().take(count).copied().collect();
        }
        (2, _) => problem.cores = random.pick(&[0, 5, 255, 256, 257, 260, 65537, u32::MAX]),
        (3, Some(task)) => task.period = random.pick(&[0, 1025, 1026, 65535]),
        (4, Some(task)) => {
            task.deadline = random.pick(&[0, task.period.saturating_add(1), 1025, 65535]);
        }
        (5, Some(task)) => task.work = random.pick(&[0, 4097, 65535]),
        (6, Some(task)) => task.offset = random.pick(&[1024, 1025, 65535]),
        (7, Some(task)) => task.rates[core] = random.pick(&[1, 16, 17, 255]),
        (8, Some(task)) => {
            (task.deadline, task.period) = (1, random.pick(&[7, 33, 127, 1021, 1023, 1024]));
        }
        (9, _) => problem.engine = random.pick(&[2, 3, 255, 256, 257, 65536, 1 << 31, u32::MAX]),
        _ => {}
    }
}

/// A table for the checker and the player: valid, with one cell changed, cleared or filled, of open
/// tasks, or junk; now and then too short, or longer than need be.
pub fn table(random: &mut Random, problem: &Problem) -> Vec<u8> {
    let cells = problem.h().map_or(9, |h| h * problem.cores());
    let mut table = vec![0; cells];
    match (random.below(8), problem.h()) {
        (0, _) | (_, Err(_)) => fill_with_junk(random, problem, &mut table),
        (1, Ok(h)) => fill_with_open_tasks(random, problem, h, &mut table),
        (choice, Ok(h)) => {
            let quick = Problem {
                engine: 1,
                limit: USUAL,
                ..problem.clone()
            };
            search(&quick, &mut table).expect("the list is sound");
            match choice {
                2 => {
                    let at = random.below(cells);
                    fill_with_junk(random, problem, &mut table[at..=at]);
                }
                3 => clear_a_cell(random, &mut table),
                4 => fill_a_cell(random, problem, h, &mut table),
                _ => {}
            }
        }
    }
    match random.below(12) {
        0 => table.truncate(random.below(cells)),
        1 => table.resize(cells + random.between(1, 9), 255),
        _ => {}
    }
    table
}

fn fill_with_junk(random: &mut Random, problem: &Problem, cells: &mut [u8]) {
    let most = random.pick(&[problem.tasks.len(), problem.tasks.len() + 1, 255]);
    cells.fill_with(|| random.between(0, most) as u8);
}

fn fill_with_open_tasks(random: &mut Random, problem: &Problem, h: usize, table: &mut [u8]) {
    for at in 0..table.len() {
        let number = random.between(1, problem.tasks.len()) as u8;
        if without_fault(problem, h, table, at, number) {
            table[at] = number;
        }
    }
}

/// Clears a cell with a task, if there is one: most often its job is left with too little work.
fn clear_a_cell(random: &mut Random, table: &mut [u8]) {
    let taken: Vec<usize> = (0..table.len()).filter(|&at| table[at] > 0).collect();
    if !taken.is_empty() {
        table[random.pick(&taken)] = 0;
    }
}

/// Puts a task into an idle cell, if it may stand in one: in a valid table its job most often gets
/// a cell after it was complete.
fn fill_a_cell(random: &mut Random, problem: &Problem, h: usize, table: &mut [u8]) {
    let number = random.between(1, problem.tasks.len()) as u8;
    let idle: Vec<usize> = (0..table.len())
        .filter(|&at| table[at] == 0 && without_fault(problem, h, table, at, number))
        .collect();
    if !idle.is_empty() {
        table[random.pick(&idle)] = number;
    }
}

/// Whether a task would stand in a cell without a fault of its own.
fn without_fault(problem: &Problem, h: usize, table: &[u8], at: usize, number: u8) -> bool {
    let (slot, core) = (at / problem.cores(), at % problem.cores());
    let task = &problem.tasks[number as usize - 1];
    task.open(slot, h).is_some()
        && task.rates[core] > 0
        && !table[slot * problem.cores()..][..problem.cores()].contains(&number)
}

/// A player's record; one in three is spoilt.
pub fn record(random: &mut Random) -> Record {
    let h = random.pick(&[1, 2, 12, 1000, MOST_SLOTS]);
    let most_cell = random.pick(&[1, 17, 255]);
    let mut record = Record {
        h: h as u16,
        cores: random.between(1, MOST_CORES) as u8,
        tasks: random.between(1, MOST_TASKS) as u8,
        offsets: std::array::from_fn(|_| random.pick(&[0, 1, 5, 1023, 1024, 1025, 65535])),
        table: std::array::from_fn(|_| random.between(0, most_cell) as u8),
        position: random.below(h) as u16,
        age: random.pick(&[0, 1, 5, 1022, 1023, MOST_AGE]),
        last: tick(random),
    };
    if random.once_in(3) {
        match random.below(5) {
            0 => record.h = random.pick(&[0, 1025, 65535]),
            1 => record.cores = random.pick(&[0, 5, 255]),
            2 => record.tasks = random.pick(&[0, 17, 255]),
            3 => record.position = random.pick(&[record.h, record.h + 1, 65535]),
            _ => record.age = random.pick(&[1025, 65535]),
        }
    }
    record
}

/// A tick, most often near the counter's wrap or its middle.
pub fn tick(random: &mut Random) -> u32 {
    let anywhere = random.draw() as u32;
    let near = random.pick(&[0, 0, 1 << 31, anywhere]);
    near.wrapping_add(random.between(0, 6) as u32)
        .wrapping_sub(3)
}

/// An elapsed number; from 2^31 up it lies in the past.
pub fn elapsed(random: &mut Random, h: u16) -> u32 {
    let anything = random.draw() as u32;
    let near = random.pick(&[1, 1, 1, h.into(), MOST_AGE.into(), 1 << 31, anything]);
    near.wrapping_add(random.between(0, 2) as u32)
        .wrapping_sub(1)
}

/// The text of a problem, more often damaged than not. Few texts need a long walk.
pub fn text(random: &mut Random, problem: &Problem) -> Vec<u8> {
    let mut text = problem_text(problem);
    for _ in 0..random.between(0, 2) {
        damage(random, &mut text);
    }
    let unwanted = |read: Problem| long(&read) && (read.limit > 1_000_000 || !random.once_in(20));
    if read_problem(&text).is_ok_and(unwanted) {
        problem_text(problem)
    } else {
        text
    }
}

/// Whether a search takes more tries than any that `set_limit` allows.
fn long(problem: &Problem) -> bool {
    let modest = Problem {
        limit: MOST,
        ..problem.clone()
    };
    let stopped = |outcome: Outcome| outcome.ending == Ending::Stopped;
    problem.limit > MOST && search(&modest, &mut [0; MOST_CELLS]).is_ok_and(stopped)
}

/// Damages a text in one place.
fn damage(random: &mut Random, text: &mut Vec<u8>) {
    let mut lines: Vec<Vec<u8>> = text
        .split_inclusive(|&byte| byte == b'\n')
        .map(<[u8]>::to_vec)
        .collect();
    if lines.is_empty() {
        return;
    }
    let (at, other) = (random.below(lines.len()), random.below(lines.len()));
    let line = &mut lines[at];
    let column = random.below(line.len());
    match random.below(14) {
        0 => line[column] = random.pick(b"0123456789ABCDEFaf:@G \r\n\0\xFF"),
        1 => drop(line.remove(column)),
        2 => line.insert(column, random.pick(b"0123456789ABCDEF\n")),
        3 => set_byte(line, 0, random.pick(&[0, 1, 2, 3, 4, 5, 6, 7, 8, 9, 255])),
        4 => set_byte(line, 1, random.pick(&[0, 1, 2, 15, 16, 17, 255])),
        5 => drop(line.splice(line.len() - 1..line.len() - 1, *b"00")),
        6 => drop(line.drain(line.len().min(2)..line.len().min(4))),
        7 => drop(lines.remove(at)),
        8 => lines.insert(other, lines[at].clone()),
        9 => lines.swap(at, other),
        10 => {
            let frames: [&[u8]; 5] = [
                b"\n",
                b"0101\n",
                b"05000000000C\n",
                b"06000001030000\n",
                b"07\n",
            ];
            lines.insert(at, random.pick(&frames).to_vec());
        }
        11 => drop(lines.last_mut().expect("a line").pop()),
        12 => lines.truncate(at),
        _ => {
            let missing = random
                .pick(&[1023, 1024, 1025, 2000usize])
                .saturating_sub(text.len());
            lines.push(b"07\n".iter().copied().cycle().take(missing).collect());
        }
    }
    *text = lines.concat();
}

/// Writes a byte of a frame into its line.
fn set_byte(line: &mut [u8], at: usize, byte: u8) {
    if let Some(digits) = line.get_mut(2 * at..2 * at + 2) {
        digits.copy_from_slice(format!("{byte:02X}").as_bytes());
    }
}
