//! The search: the plain and the quick walk, laid out for speed.
//!
//! Sets of values are bit sets, so that the lowest bit is the next value to try. What is permitted
//! is worked out once per slot for all its cells: a task put into one of them changes nothing for
//! the other tasks, and may not stand in the slot again.

use crate::tasks::{Open, Problem, Task, MOST_CORES, MOST_TASKS};
use crate::verdict::{Ending, Refusal};
use std::ops::Range;

/// How a search ended, and after how many tries.
#[derive(Clone, Copy, Debug, PartialEq, Eq)]
pub struct Outcome {
    pub ending: Ending,
    pub tries: u32,
}

/// Searches for the first valid table. The first H × m cells of `table` become the table found,
/// or 0; a refused search leaves them alone.
pub fn search(problem: &Problem, table: &mut [u8]) -> Result<Outcome, Refusal> {
    let h = problem.h()?;
    if problem.engine > 1 {
        return Err(Refusal::Engine);
    }
    let cells = h * problem.cores();
    let table = table.get_mut(..cells).ok_or(Refusal::Buffer)?;
    let mut walk = Walk::new(problem, h);
    let outcome = walk.run(problem.limit);
    if outcome.ending == Ending::Found {
        for (number, cell) in table.iter_mut().zip(&walk.cells) {
            *number = if cell.value < IDLE {
                cell.value as u8 + 1
            } else {
                0
            };
        }
    } else {
        table.fill(0);
    }
    Ok(outcome)
}

/// A value by its rank in the order of trying: task i has rank i - 1, idle comes last.
type Value = u32;
const IDLE: Value = MOST_TASKS as Value;
const VALUES: usize = MOST_TASKS + 1;

/// A set of values, one bit each.
type Values = u32;

/// Four sets of tasks, one a core, core 1 in the lowest 16 bits.
type Sets = u64;

struct Slot {
    open: Values,
    /// The job counter of each open task. Counter 0 is no job's; idle has it.
    counter: [u16; VALUES],
    /// The counters of the jobs whose highest-numbered slot this is.
    ending: Range<u16>,
}

/// What stands in a cell, what is still to try there, the values on earlier cores of its slot, and
/// the work that was left of its job.
#[derive(Clone, Copy, Default)]
struct Cell {
    value: Value,
    rest: Values,
    used: Values,
    left: u16,
}

struct Walk {
    cores: usize,
    rates: [[u16; VALUES]; MOST_CORES],
    /// By task: the task's bit, for each core whose rate is positive.
    able: [Sets; MOST_TASKS],
    /// Rule A: the tasks whose positive rates are all equal; none for the plain walk.
    even: Values,
    /// Rule B: the nearest earlier twin of each core; none for the plain walk.
    twin: [Option<usize>; MOST_CORES],
    slots: Vec<Slot>,
    /// By slot: the tasks permitted on each core when nothing stands in the slot.
    permitted: Vec<Sets>,
    cells: Vec<Cell>,
    /// By job counter: work left.
    left: Vec<u16>,
}

impl Walk {
    fn new(problem: &Problem, h: usize) -> Walk {
        let (tasks, cores) = (&problem.tasks, problem.cores());
        let (slots, left) = slots(tasks, h);
        let mut walk = Walk {
            cores,
            rates: [[0; VALUES]; MOST_CORES],
            able: [0; MOST_TASKS],
            even: 0,
            twin: [None; MOST_CORES],
            permitted: vec![0; slots.len()],
            cells: vec![Cell::default(); h * cores],
            slots,
            left,
        };
        for (i, task) in tasks.iter().enumerate() {
            for (core, &rate) in task.rates.iter().enumerate().filter(|(_, &rate)| rate > 0) {
                walk.rates[core][i] = rate.into();
                walk.able[i] |= 1 << (core * MOST_TASKS + i);
            }
        }
        if problem.engine == 1 {
            for (i, task) in tasks.iter().enumerate() {
                let mut positive = task.rates.iter().filter(|&&rate| rate > 0);
                let first = positive.next();
                walk.even |= Values::from(positive.all(|rate| Some(rate) == first)) << i;
            }
            for core in 0..cores {
                walk.twin[core] =
                    (0..core).rfind(|&earlier| walk.rates[earlier] == walk.rates[core]);
            }
        }
        walk
    }

    /// Walks until a table is found, none is left, or one more try than `limit` is needed.
    fn run(&mut self, limit: u32) -> Outcome {
        let mut tries = 0;
        let (mut slot, mut core, mut cell) = (0, 0, 0);
        let mut used = 0;
        let mut rest = self.enter(slot);
        let ending = loop {
            if rest == 0 {
                // Back to the cell before this one.
                if cell == 0 {
                    break Ending::None;
                }
                if core == 0 {
                    slot -= 1;
                    core = self.cores;
                }
                core -= 1;
                cell -= 1;
                let before = self.cells[cell];
                *self.work_left(slot, before.value) = before.left;
                (rest, used) = (before.rest, before.used);
                continue;
            }
            if tries == limit {
                break Ending::Stopped;
            }
            tries += 1;
            let value = rest.trailing_zeros();
            rest &= rest - 1;
            let rate = self.rates[core][value as usize];
            let work_left = self.work_left(slot, value);
            let left = *work_left;
            *work_left = left.saturating_sub(rate);
            let last = core + 1 == self.cores;
            if last && self.unfinished(slot) {
                // Back at once, to the next value of this cell.
                *self.work_left(slot, value) = left;
                continue;
            }
            self.cells[cell] = Cell {
                value,
                rest,
                used,
                left,
            };
            cell += 1;
            if last {
                slot += 1;
                if slot == self.slots.len() {
                    break Ending::Found;
                }
                core = 0;
                used = 0;
                rest = self.enter(slot);
            } else {
                core += 1;
                used |= 1 << value;
                rest = self.choice(slot, core, used);
            }
        };
        Outcome { ending, tries }
    }

    /// Works out what is permitted in an empty slot, and gives the values to try in its first cell.
    fn enter(&mut self, slot: usize) -> Values {
        let Slot { open, counter, .. } = &self.slots[slot];
        let mut rest = *open;
        let mut permitted = 0;
        while rest > 0 {
            let task = rest.trailing_zeros() as usize;
            rest &= rest - 1;
            if self.left[counter[task] as usize] > 0 {
                permitted |= self.able[task];
            }
        }
        self.permitted[slot] = permitted;
        self.choice(slot, 0, 0)
    }

    /// The values to try in a cell, those in `used` standing on earlier cores of its slot.
    fn choice(&self, slot: usize, core: usize, used: Values) -> Values {
        let permitted = (self.permitted[slot] >> (core * MOST_TASKS)) as u16;
        let tasks = Values::from(permitted) & !used;
        let all = if tasks & self.even == 0 {
            tasks | 1 << IDLE
        } else {
            tasks
        };
        match self.twin[core] {
            Some(earlier) => all & Values::MAX << self.cells[slot * self.cores + earlier].value,
            None => all,
        }
    }

    fn work_left(&mut self, slot: usize, value: Value) -> &mut u16 {
        &mut self.left[self.slots[slot].counter[value as usize] as usize]
    }

    /// Whether work is left of a job whose highest-numbered slot this is.
    fn unfinished(&self, slot: usize) -> bool {
        let Range { start, end } = self.slots[slot].ending;
        self.left[start.into()..end.into()]
            .iter()
            .any(|&left| left > 0)
    }
}

/// The slots, and by job counter the work. Slots are filled from the last to the first, so a job is
/// first met where nothing of it is to come, and the jobs that end in one slot are counted in a row.
fn slots(tasks: &[Task], h: usize) -> (Vec<Slot>, Vec<u16>) {
    let mut work = vec![0];
    let mut counters: Vec<Vec<u16>> = tasks
        .iter()
        .map(|task| vec![0; h / task.period as usize])
        .collect();
    let mut slots: Vec<Slot> = (0..h)
        .rev()
        .map(|slot| {
            let start = work.len() as u16;
            let mut open = 0;
            let mut counter = [0; VALUES];
            for (i, task) in tasks.iter().enumerate() {
                let Some(Open { job, to_come }) = task.open(slot, h) else {
                    continue;
                };
                open |= 1 << i;
                if to_come == 0 {
                    counters[i][job] = work.len() as u16;
                    work.push(task.work);
                }
                counter[i] = counters[i][job];
            }
            Slot {
                open,
                counter,
                ending: start..work.len() as u16,
            }
        })
        .collect();
    slots.reverse();
    (slots, work)
}

#[cfg(test)]
mod tests {
    use super::*;
    use crate::lists;
    use crate::random::Random;

    #[test]
    fn stopped_exactly_when_one_more_try_is_needed() {
        let mut random = Random::new(4);
        for _ in 0..300 {
            let (mut problem, h) = lists::tiny(&mut random);
            let mut table = vec![255; h * problem.cores()];
            let outcome = search(&problem, &mut table).unwrap();
            problem.limit = outcome.tries;
            assert_eq!(search(&problem, &mut table), Ok(outcome));
            for limit in 0..outcome.tries {
                problem.limit = limit;
                table.fill(255);
                let stopped = Outcome {
                    ending: Ending::Stopped,
                    tries: limit,
                };
                assert_eq!(search(&problem, &mut table), Ok(stopped));
                assert!(table.iter().all(|&cell| cell == 0));
            }
        }
    }

    #[test]
    fn writes_its_own_cells_only() {
        let mut random = Random::new(5);
        let (mut problem, h) = lists::tiny(&mut random);
        let cells = h * problem.cores();
        let mut table = vec![255; cells + 3];
        assert!(search(&problem, &mut table).is_ok());
        assert!(table[..cells].iter().all(|&cell| cell < 255));
        assert_eq!(table[cells..], [255; 3]);
        let mut short = vec![255; cells - 1];
        assert_eq!(search(&problem, &mut short), Err(Refusal::Buffer));
        problem.engine = 2;
        assert_eq!(search(&problem, &mut short), Err(Refusal::Engine));
        assert!(short.iter().all(|&cell| cell == 255));
    }
}
