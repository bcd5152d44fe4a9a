//! The checker of tables: it stops at the first fault and names it.

use crate::tasks::Problem;
use crate::verdict::Refusal;

#[derive(Clone, Copy, Debug, PartialEq, Eq)]
pub enum Kind {
    UnknownTask = 1,
    Closed = 2,
    RateZero = 3,
    Twice = 4,
    TooLittle = 5,
    AfterComplete = 6,
}

/// A fault in a cell or in a job. Slots and jobs are numbered from 0, cores and tasks from 1.
#[derive(Clone, Copy, Debug, PartialEq, Eq)]
pub enum Fault {
    Cell {
        slot: usize,
        core: usize,
        kind: Kind,
    },
    Job {
        task: usize,
        job: usize,
        kind: Kind,
    },
}

/// The first fault of a table, or `None` if it is valid.
pub fn first_fault(problem: &Problem, table: &[u8]) -> Result<Option<Fault>, Refusal> {
    let h = problem.h()?;
    let table = table.get(..h * problem.cores()).ok_or(Refusal::Buffer)?;
    Ok(cell_fault(problem, table, h).or_else(|| job_fault(problem, table, h)))
}

fn cell_fault(problem: &Problem, table: &[u8], h: usize) -> Option<Fault> {
    for (slot, cells) in table.chunks(problem.cores()).enumerate() {
        for (core, &cell) in cells.iter().enumerate().filter(|(_, &cell)| cell > 0) {
            let kind = match problem.tasks.get(cell as usize - 1) {
                None => Kind::UnknownTask,
                Some(task) if task.open(slot, h).is_none() => Kind::Closed,
                Some(task) if task.rates[core] == 0 => Kind::RateZero,
                Some(_) if cells[..core].contains(&cell) => Kind::Twice,
                Some(_) => continue,
            };
            return Some(Fault::Cell {
                slot,
                core: core + 1,
                kind,
            });
        }
    }
    None
}

/// The first fault of a job, in a table whose cells have none. If a cell stands where the job was
/// complete, so does the job's last.
fn job_fault(problem: &Problem, table: &[u8], h: usize) -> Option<Fault> {
    for (task, number) in problem.tasks.iter().zip(1..) {
        // By job: the units that its cells do, and those of the last cell.
        let mut jobs = vec![(0, 0); h / task.period as usize];
        for (slot, cells) in table.chunks(problem.cores()).enumerate() {
            if let Some(core) = cells.iter().position(|&cell| cell as usize == number) {
                let open = task.open(slot, h).expect("a cell without a fault");
                let (done, last) = &mut jobs[open.job];
                *last = u16::from(task.rates[core]);
                *done += *last;
            }
        }
        for (job, (done, last)) in jobs.into_iter().enumerate() {
            let kind = if done < task.work {
                Kind::TooLittle
            } else if done - last >= task.work {
                Kind::AfterComplete
            } else {
                continue;
            };
            return Some(Fault::Job {
                task: number,
                job,
                kind,
            });
        }
    }
    None
}

#[cfg(test)]
mod tests {
    use super::*;
    use crate::tasks::Task;

    /// A job whose window is slot 1, then slot 0.
    #[test]
    fn a_job_goes_in_table_order() {
        let problem = Problem {
            tasks: vec![Task {
                offset: 1,
                work: 2,
                deadline: 2,
                period: 2,
                rates: [1, 2, 0, 0],
            }],
            cores: 2,
            engine: 0,
            limit: 0,
        };
        let kinds = [
            ([1, 0, 0, 0], Some(Kind::TooLittle)),
            ([1, 0, 1, 0], None),
            ([0, 1, 0, 0], None),
            ([1, 0, 0, 1], None),
            ([0, 1, 1, 0], Some(Kind::AfterComplete)),
            ([0, 1, 0, 1], Some(Kind::AfterComplete)),
        ];
        for (table, kind) in kinds {
            let (task, job) = (1, 0);
            let fault = kind.map(|kind| Fault::Job { task, job, kind });
            assert_eq!(first_fault(&problem, &table), Ok(fault), "{table:?}");
        }
    }
}
