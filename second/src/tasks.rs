//! Tasks, problems, and the refusals 1 to 8.

use crate::verdict::Refusal;

pub const MOST_TASKS: usize = 16;
pub const MOST_CORES: usize = 4;
pub const MOST_SLOTS: usize = 1024;
pub const MOST_CELLS: usize = MOST_SLOTS * MOST_CORES;
const MOST_OFFSET: u16 = 1023;
const MOST_WORK: u16 = 4096;
const MOST_RATE: u8 = 15;

/// A task, laid out as C has it; its rates are those of the four cores, 0 where it cannot run.
#[repr(C)]
#[derive(Clone, Copy, Debug, PartialEq, Eq)]
pub struct Task {
    pub offset: u16,
    pub work: u16,
    pub deadline: u16,
    pub period: u16,
    pub rates: [u8; MOST_CORES],
}

/// The number, from 0, of the job that a task is open for, and how many of the job's slots have a
/// higher number in the table.
#[derive(Clone, Copy, Debug, PartialEq, Eq)]
pub struct Open {
    pub job: usize,
    pub to_come: usize,
}

impl Task {
    /// The place p of a slot: how far it lies behind the offset, round a table of `h` slots.
    fn place(&self, slot: usize, h: usize) -> usize {
        (slot + h - self.offset as usize % h) % h
    }

    /// What the task is open for in a slot, or `None` where it is closed.
    pub fn open(&self, slot: usize, h: usize) -> Option<Open> {
        let (period, deadline) = (self.period as usize, self.deadline as usize);
        let place = self.place(slot, h);
        (place % period < deadline).then(|| {
            let job = place / period;
            let first = (self.offset as usize + job * period) % h;
            let end = first + deadline;
            // Above the slot: what the window has before the table's end, and what it has behind it.
            let before = end.min(h).saturating_sub(first.max(slot + 1));
            let behind = end.saturating_sub(h + slot + 1);
            Open {
                job,
                to_come: before + behind,
            }
        })
    }

    /// Refusals 3 to 7, on a board of `cores` cores.
    fn check(&self, cores: usize) -> Result<(), Refusal> {
        let (on_board, beyond) = self.rates.split_at(cores);
        if !(1..=MOST_SLOTS as u16).contains(&self.period) {
            Err(Refusal::Period)
        } else if !(1..=self.period).contains(&self.deadline) {
            Err(Refusal::Deadline)
        } else if !(1..=MOST_WORK).contains(&self.work) {
            Err(Refusal::Work)
        } else if self.offset > MOST_OFFSET {
            Err(Refusal::Offset)
        } else if on_board.iter().any(|&rate| rate > MOST_RATE)
            || beyond.iter().any(|&rate| rate > 0)
        {
            Err(Refusal::Rate)
        } else {
            Ok(())
        }
    }
}

/// A task list, the number of cores, and what the search is to do with them; cores and engine are as
/// wide as a caller's.
#[derive(Clone, Debug, PartialEq, Eq)]
pub struct Problem {
    pub tasks: Vec<Task>,
    pub cores: u32,
    pub engine: u32,
    pub limit: u32,
}

impl Problem {
    /// H of a sound list, else the first of refusals 1 to 8.
    pub fn h(&self) -> Result<usize, Refusal> {
        if !(1..=MOST_TASKS).contains(&self.tasks.len()) {
            return Err(Refusal::TaskCount);
        }
        if !(1..=MOST_CORES).contains(&self.cores()) {
            return Err(Refusal::Cores);
        }
        for task in &self.tasks {
            task.check(self.cores())?;
        }
        self.tasks.iter().try_fold(1, |h, task| {
            let h = least_common_multiple(h, task.period as usize);
            if h > MOST_SLOTS {
                Err(Refusal::TableLength)
            } else {
                Ok(h)
            }
        })
    }

    pub fn cores(&self) -> usize {
        self.cores as usize
    }
}

fn least_common_multiple(a: usize, b: usize) -> usize {
    let (mut divisor, mut rest) = (a, b);
    while rest > 0 {
        (divisor, rest) = (rest, divisor % rest);
    }
    a / divisor * b
}

#[cfg(test)]
mod tests {
    use super::*;

    const TASK: Task = Task {
        offset: 0,
        work: 1,
        deadline: 1,
        period: 32,
        rates: [1, 0, 0, 0],
    };

    fn refusal(tasks: &[Task], cores: u32) -> Option<u8> {
        let problem = Problem {
            tasks: tasks.to_vec(),
            cores,
            engine: 0,
            limit: 0,
        };
        problem.h().err().map(|refusal| refusal as u8)
    }

    #[test]
    fn ranges() {
        let most = Task {
            offset: 1023,
            work: 4096,
            deadline: 1024,
            period: 1024,
            rates: [15; 4],
        };
        assert_eq!(refusal(&[most; 16], 4), None);
        assert_eq!(
            refusal(
                &[Task {
                    rates: [0; 4],
                    ..TASK
                }],
                1
            ),
            None
        );
        assert_eq!(
            refusal(
                &[Task {
                    offset: 1024,
                    ..TASK
                }],
                1
            ),
            Some(6)
        );
        assert_eq!(refusal(&[Task { work: 4097, ..TASK }], 1), Some(5));
        assert_eq!(
            refusal(
                &[Task {
                    rates: [16, 0, 0, 0],
                    ..TASK
                }],
                1
            ),
            Some(7)
        );
        assert_eq!(
            refusal(
                &[Task {
                    rates: [1, 0, 0, 1],
                    ..TASK
                }],
                3
            ),
            Some(7)
        );
    }

    /// Of several faults the first in the order is named.
    #[test]
    fn order() {
        let bad = Task {
            offset: 1024,
            work: 0,
            deadline: 0,
            period: 0,
            rates: [16; 4],
        };
        let long = Task { period: 33, ..TASK };
        assert_eq!(refusal(&[bad; 17], 5), Some(1));
        assert_eq!(refusal(&[], 0), Some(1));
        let mut tasks = [TASK, bad, long, bad];
        assert_eq!(refusal(&tasks, 5), Some(2));
        assert_eq!(refusal(&tasks, 0), Some(2));
        assert_eq!(refusal(&tasks, 257), Some(2));
        assert_eq!(refusal(&tasks, 1), Some(3));
        tasks[1].period = 32;
        assert_eq!(refusal(&tasks, 1), Some(4));
        tasks[1].deadline = 32;
        assert_eq!(refusal(&tasks, 1), Some(5));
        tasks[1].work = 1;
        assert_eq!(refusal(&tasks, 1), Some(6));
        tasks[1].offset = 0;
        assert_eq!(refusal(&tasks, 1), Some(7));
        tasks[1].rates = [1, 0, 0, 0];
        assert_eq!(refusal(&tasks, 1), Some(3));
        tasks[3] = TASK;
        assert_eq!(refusal(&tasks, 1), Some(8));
    }

    #[test]
    fn windows_run_round_the_end() {
        let task = Task {
            offset: 1023,
            deadline: 3,
            period: 4,
            ..TASK
        };
        // 1023 is 3 past a multiple of 12.
        let open = |job, to_come| Some(Open { job, to_come });
        #[rustfmt::skip]
        let told = [
            open(2, 2), open(2, 1), None,
            open(0, 2), open(0, 1), open(0, 0), None,
            open(1, 2), open(1, 1), open(1, 0), None,
            open(2, 0),
        ];
        for (slot, told) in told.into_iter().enumerate() {
            assert_eq!(task.open(slot, 12), told);
        }
    }

    #[test]
    fn to_come_is_the_number_of_higher_slots() {
        for (period, jobs) in [(1, 3), (2, 1), (3, 1), (3, 2), (4, 3), (5, 2)] {
            let h = period as usize * jobs;
            for (deadline, offset) in (1..=period).flat_map(|d| (0..20).map(move |o| (d, o))) {
                let task = Task {
                    offset,
                    deadline,
                    period,
                    ..TASK
                };
                let job = |slot| task.open(slot, h).map(|open| open.job);
                for slot in (0..h).filter(|&slot| job(slot).is_some()) {
                    let higher = (slot + 1..h).filter(|&other| job(other) == job(slot));
                    assert_eq!(task.open(slot, h).unwrap().to_come, higher.count());
                }
            }
        }
    }
}
