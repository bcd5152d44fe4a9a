//! The player: it runs a table tick by tick, by a record in the caller's memory.

use crate::check::first_fault;
use crate::tasks::{Problem, MOST_CELLS, MOST_CORES, MOST_SLOTS, MOST_TASKS};
use crate::verdict::Refusal;

/// Age stops here: it exceeds every offset.
pub const MOST_AGE: u16 = 1024;

/// The elapsed numbers from here up are ticks from the past.
const PAST: u32 = 1 << 31;

#[derive(Clone, Debug, PartialEq, Eq)]
pub struct Record {
    pub h: u16,
    pub cores: u8,
    pub tasks: u8,
    pub offsets: [u16; MOST_TASKS],
    pub table: [u8; MOST_CELLS],
    pub position: u16,
    pub age: u16,
    pub last: u32,
}

/// What a start or a step answers, unless it is refused.
#[derive(Clone, Copy, Debug, PartialEq, Eq)]
pub struct Shown {
    pub cells: [u8; MOST_CORES],
    pub missed: u32,
}

/// Makes the record for a valid table and shows its slot 0.
pub fn start(
    problem: &Problem,
    table: &[u8],
    tick: u32,
    record: &mut Record,
) -> Result<Shown, Refusal> {
    if first_fault(problem, table)?.is_some() {
        return Err(Refusal::NotValid);
    }
    let h = problem.h()?;
    *record = Record {
        h: h as u16,
        cores: problem.cores as u8,
        tasks: problem.tasks.len() as u8,
        offsets: [0; MOST_TASKS],
        table: [0; MOST_CELLS],
        position: 0,
        age: 0,
        last: tick,
    };
    for (offset, task) in record.offsets.iter_mut().zip(&problem.tasks) {
        *offset = task.offset;
    }
    let cells = h * problem.cores();
    record.table[..cells].copy_from_slice(&table[..cells]);
    Ok(Shown {
        cells: record.cells(),
        missed: 0,
    })
}

/// Advances the record to a tick and shows the slot it has come to.
pub fn step(record: &mut Record, tick: u32) -> Result<Shown, Refusal> {
    if record.spoilt() {
        return Err(Refusal::Spoilt);
    }
    let elapsed = tick.wrapping_sub(record.last);
    if elapsed >= PAST {
        return Err(Refusal::PastTick);
    }
    record.position = ((u32::from(record.position) + elapsed) % u32::from(record.h)) as u16;
    record.age = (u32::from(record.age) + elapsed).min(MOST_AGE.into()) as u16;
    record.last = tick;
    Ok(Shown {
        cells: record.cells(),
        missed: elapsed.saturating_sub(1),
    })
}

impl Record {
    fn spoilt(&self) -> bool {
        !(1..=MOST_SLOTS as u16).contains(&self.h)
            || !(1..=MOST_CORES as u8).contains(&self.cores)
            || !(1..=MOST_TASKS as u8).contains(&self.tasks)
            || self.position >= self.h
            || self.age > MOST_AGE
    }

    /// The cells to show: a task that is unknown, or has not come to its offset yet, is shown as 0.
    fn cells(&self) -> [u8; MOST_CORES] {
        let cores = self.cores as usize;
        let mut cells = [0; MOST_CORES];
        for (shown, &cell) in cells
            .iter_mut()
            .zip(&self.table[self.position as usize * cores..][..cores])
        {
            if (1..=self.tasks).contains(&cell) && self.offsets[cell as usize - 1] <= self.age {
                *shown = cell;
            }
        }
        cells
    }
}

#[cfg(test)]
mod tests {
    use super::*;
    use crate::lists;
    use crate::random::Random;

    /// Steps of every size, over the counter's wrap, against time counted from the start.
    #[test]
    fn shows_what_the_time_since_the_start_says() {
        let mut random = Random::new(1);
        for _ in 0..2000 {
            let before = lists::record(&mut random);
            let mut record = before.clone();
            if record.spoilt() {
                assert_eq!(step(&mut record, 0), Err(Refusal::Spoilt));
                assert_eq!(record, before);
                continue;
            }
            let (mut slot, mut time) = (u64::from(record.position), u64::from(record.age));
            for _ in 0..20 {
                let elapsed = lists::elapsed(&mut random, record.h);
                let before = record.clone();
                let answer = step(&mut record, before.last.wrapping_add(elapsed));
                if elapsed >= PAST {
                    assert_eq!(answer, Err(Refusal::PastTick));
                    assert_eq!(record, before);
                    continue;
                }
                slot += u64::from(elapsed);
                time += u64::from(elapsed);
                let slot = (slot % u64::from(record.h)) as usize;
                let cells = std::array::from_fn(|core| {
                    if core >= record.cores as usize {
                        return 0;
                    }
                    let cell = record.table[slot * record.cores as usize + core];
                    let known = (1..=record.tasks).contains(&cell);
                    let begun =
                        known && u64::from(record.offsets[cell as usize - 1]) <= time.min(1024);
                    if begun {
                        cell
                    } else {
                        0
                    }
                });
                let missed = elapsed.max(1) - 1;
                assert_eq!(answer, Ok(Shown { cells, missed }));
            }
        }
    }

    #[test]
    fn the_slot_is_not_the_tick_modulo_h() {
        let mut record = Record {
            h: 12,
            cores: 1,
            tasks: 12,
            offsets: [0; MOST_TASKS],
            table: std::array::from_fn(|slot| (slot % 12) as u8 + 1),
            position: 3,
            age: 0,
            last: u32::MAX,
        };
        let shown = Shown {
            cells: [5, 0, 0, 0],
            missed: 0,
        };
        assert_eq!(step(&mut record, 0), Ok(shown));
        assert_eq!((record.position, record.age, record.last), (4, 1, 0));
    }
}
