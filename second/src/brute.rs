//! Tiny problems by brute force: every table in the stated order, and every beginning of a table
//! that a walk tries. It is slow and plain, and takes nothing from the walk or the checker.

use crate::tasks::{Problem, Task};

/// The number of tables of `h` slots, if it can be told.
pub fn count(problem: &Problem, h: usize) -> Option<usize> {
    (problem.tasks.len() + 1).checked_pow((h * problem.cores()) as u32)
}

/// The first valid table in the order.
pub fn first(problem: &Problem, h: usize) -> Option<Vec<u8>> {
    every(problem, h * problem.cores()).find(|table| valid(problem, h, table))
}

/// How many tries the problem's engine takes: the beginnings of tables that it puts down, none of
/// them behind the `first` valid table.
pub fn tries(problem: &Problem, h: usize, first: Option<&[u8]>) -> usize {
    let ranks = |cells: &[u8]| cells.iter().map(|&value| rank(value)).collect::<Vec<_>>();
    (1..=h * problem.cores())
        .flat_map(|length| every(problem, length))
        .filter(|cells| first.is_none_or(|first| ranks(cells) <= ranks(&first[..cells.len()])))
        .filter(|cells| tried(problem, h, cells))
        .count()
}

/// Every row of so many cells, in the order.
fn every(problem: &Problem, length: usize) -> impl Iterator<Item = Vec<u8>> {
    let values = problem.tasks.len() + 1;
    (0..values.pow(length as u32)).map(move |mut number| {
        let mut cells = vec![0; length];
        for cell in cells.iter_mut().rev() {
            *cell = ((number + 1) % values) as u8;
            number /= values;
        }
        cells
    })
}

/// A value's rank in the order: 1, 2, .., n, idle.
fn rank(value: u8) -> u8 {
    value.wrapping_sub(1)
}

/// The slots of a job, from its release to its deadline.
fn window(task: &Task, h: usize, job: usize) -> impl Iterator<Item = usize> + '_ {
    let release = task.offset as usize + job * task.period as usize;
    (release..release + task.deadline as usize).map(move |slot| slot % h)
}

fn jobs(task: &Task, h: usize) -> std::ops::Range<usize> {
    0..h / task.period as usize
}

/// The job whose window holds a slot.
fn job_at(task: &Task, h: usize, slot: usize) -> Option<usize> {
    jobs(task, h).find(|&job| window(task, h, job).any(|open| open == slot))
}

/// The work that the cells do for a job of task `number`.
fn done(problem: &Problem, h: usize, cells: &[u8], number: u8, job: usize) -> u16 {
    let task = &problem.tasks[number as usize - 1];
    window(task, h, job)
        .filter_map(|slot| cells.chunks(problem.cores()).nth(slot))
        .flat_map(|in_slot| in_slot.iter().zip(task.rates))
        .filter(|(&cell, _)| cell == number)
        .map(|(_, rate)| u16::from(rate))
        .sum()
}

/// Whether the cells do at least the work of a job of task `number`.
fn complete(problem: &Problem, h: usize, cells: &[u8], number: u8, job: usize) -> bool {
    done(problem, h, cells, number, job) >= problem.tasks[number as usize - 1].work
}

/// Condition C4 for a job of task `number`: its cells do at least its work, and none of them stands
/// where the earlier ones have done it.
fn met(problem: &Problem, h: usize, table: &[u8], number: u8, job: usize) -> bool {
    let task = &problem.tasks[number as usize - 1];
    let of_job =
        |&at: &usize| table[at] == number && job_at(task, h, at / problem.cores()) == Some(job);
    complete(problem, h, table, number, job)
        && (0..table.len())
            .filter(of_job)
            .all(|at| !complete(problem, h, &table[..at], number, job))
}

/// Conditions C1, C3 and C4.
fn valid(problem: &Problem, h: usize, table: &[u8]) -> bool {
    let numbered = || (1..).zip(&problem.tasks);
    let open_and_able = table
        .chunks(problem.cores())
        .enumerate()
        .all(|(slot, in_slot)| {
            in_slot
                .iter()
                .enumerate()
                .filter(|(_, &cell)| cell > 0)
                .all(|(core, &cell)| {
                    let task = &problem.tasks[cell as usize - 1];
                    job_at(task, h, slot).is_some() && task.rates[core] > 0
                })
        });
    let at_most_once = table.chunks(problem.cores()).all(|in_slot| {
        numbered().all(|(number, _)| in_slot.iter().filter(|&&cell| cell == number).count() <= 1)
    });
    let all_met = || {
        numbered()
            .all(|(number, task)| jobs(task, h).all(|job| met(problem, h, table, number, job)))
    };
    open_and_able && at_most_once && all_met()
}

/// Whether the engine puts down these cells, if it does not end before.
fn tried(problem: &Problem, h: usize, cells: &[u8]) -> bool {
    (0..cells.len()).all(|at| {
        let (before, value) = (&cells[..at], cells[at]);
        settled(problem, h, before)
            && permitted(problem, h, before, value)
            && !(problem.engine == 1 && left_out(problem, h, before, value))
    })
}

/// Whether the slot that these cells end, if they end one, leaves no work behind.
fn settled(problem: &Problem, h: usize, before: &[u8]) -> bool {
    let (slots, core) = (
        before.len() / problem.cores(),
        before.len() % problem.cores(),
    );
    core > 0
        || (1..).zip(&problem.tasks).all(|(number, task)| {
            jobs(task, h)
                .filter(|&job| {
                    window(task, h, job)
                        .max()
                        .is_some_and(|last| last + 1 == slots)
                })
                .all(|job| complete(problem, h, before, number, job))
        })
}

fn permitted(problem: &Problem, h: usize, before: &[u8], value: u8) -> bool {
    if value == 0 {
        return true;
    }
    let task = &problem.tasks[value as usize - 1];
    let (slot, core) = (
        before.len() / problem.cores(),
        before.len() % problem.cores(),
    );
    job_at(task, h, slot).is_some_and(|job| {
        task.rates[core] > 0
            && !before[before.len() - core..].contains(&value)
            && !complete(problem, h, before, value, job)
    })
}

/// Whether all positive rates of a task are equal.
fn even(task: &Task) -> bool {
    let positive = || task.rates.iter().filter(|&&rate| rate > 0);
    positive().min() == positive().max()
}

/// Rules A and B of the quick walk.
fn left_out(problem: &Problem, h: usize, before: &[u8], value: u8) -> bool {
    let core = before.len() % problem.cores();
    let in_slot = &before[before.len() - core..];
    let rule_a = value == 0
        && (1..)
            .zip(&problem.tasks)
            .any(|(number, task)| even(task) && permitted(problem, h, before, number));
    let rule_b = (0..core).any(|earlier| {
        let twins = problem
            .tasks
            .iter()
            .all(|task| task.rates[earlier] == task.rates[core]);
        twins && rank(value) < rank(in_slot[earlier])
    });
    rule_a || rule_b
}

#[cfg(test)]
mod tests {
    use super::*;
    use crate::check::{first_fault, Fault, Kind};
    use crate::lists;
    use crate::random::Random;
    use crate::verdict::Ending;
    use crate::walk::search;

    #[test]
    fn both_walks_agree_with_brute_force() {
        let mut random = Random::new(2);
        let mut found = 0;
        // Jobs that do more than their work: by unequal rates, and by windows round the end.
        let mut uneven = [[0; 2]; 2];
        for _ in 0..10_000 {
            let (mut problem, h) = lists::tiny(&mut random);
            let first = first(&problem, h);
            if let Some(first) = &first {
                found += 1;
                for (number, task) in (1..).zip(&problem.tasks) {
                    for job in jobs(task, h) {
                        if done(&problem, h, first, number, job) > task.work {
                            let round = !window(task, h, job).is_sorted();
                            uneven[usize::from(!even(task))][usize::from(round)] += 1;
                        }
                    }
                }
            }
            for engine in [0, 1] {
                problem.engine = engine;
                let mut table = vec![0; h * problem.cores()];
                let outcome = search(&problem, &mut table).unwrap();
                let ending = if first.is_some() {
                    Ending::Found
                } else {
                    Ending::None
                };
                assert_eq!(outcome.ending, ending, "{problem:?}");
                assert_eq!(
                    table,
                    first.clone().unwrap_or(vec![0; table.len()]),
                    "{problem:?}"
                );
                let tries = tries(&problem, h, first.as_deref());
                assert_eq!(outcome.tries as usize, tries, "{problem:?}");
            }
        }
        assert!((2000..8000).contains(&found), "{found}");
        assert!(
            uneven.as_flattened().iter().all(|&jobs| jobs > 30),
            "{uneven:?}"
        );
    }

    #[test]
    fn the_checker_agrees_with_the_conditions() {
        let mut random = Random::new(3);
        for _ in 0..300 {
            let (problem, h) = lists::tiny(&mut random);
            for table in every(&problem, h * problem.cores()) {
                let fault = first_fault(&problem, &table).unwrap();
                let told = || format!("{problem:?} {table:?} {fault:?}");
                assert_eq!(fault.is_none(), valid(&problem, h, &table), "{}", told());
                if let Some(Fault::Job { task, job, kind }) = fault {
                    let too_little = !complete(&problem, h, &table, task as u8, job);
                    assert_eq!(kind == Kind::TooLittle, too_little, "{}", told());
                    let unmet = (1..)
                        .zip(&problem.tasks)
                        .flat_map(|(number, task)| jobs(task, h).map(move |job| (number, job)))
                        .find(|&(number, job)| !met(&problem, h, &table, number, job));
                    assert_eq!(unmet, Some((task as u8, job)), "{}", told());
                }
            }
        }
    }
}
