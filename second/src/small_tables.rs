//! The small tables worked by hand, P1 to P12.

use crate::check::{first_fault, Fault, Kind};
use crate::player::{start, step, Record};
use crate::tasks::{Problem, Task, MOST_CELLS, MOST_TASKS};
use crate::verdict::{Ending, Refusal};
use crate::walk::{search, Outcome};

const PLAIN: u32 = 0;
const QUICK: u32 = 1;

/// A task of offset, work, deadline and period, with rate 1 on so many cores.
fn task(numbers: [u16; 4], cores: usize) -> Task {
    let mut rates = [0; 4];
    rates[..cores].fill(1);
    let [offset, work, deadline, period] = numbers;
    Task {
        offset,
        work,
        deadline,
        period,
        rates,
    }
}

fn problem(tasks: &[Task], cores: u32, engine: u32, limit: u32) -> Problem {
    Problem {
        tasks: tasks.to_vec(),
        cores,
        engine,
        limit,
    }
}

fn unlimited(tasks: &[Task], cores: u32, engine: u32) -> Problem {
    problem(tasks, cores, engine, u32::MAX)
}

/// The ending, the tries and the cells of a search that is not refused.
fn searched(problem: &Problem) -> (Ending, u32, Vec<u8>) {
    let mut table = vec![255; problem.h().unwrap() * problem.cores()];
    let Outcome { ending, tries } = search(problem, &mut table).unwrap();
    (ending, tries, table)
}

#[test]
fn p1() {
    let tasks = [task([0, 1, 1, 1], 1)];
    for engine in [PLAIN, QUICK] {
        assert_eq!(
            searched(&unlimited(&tasks, 1, engine)),
            (Ending::Found, 1, vec![1])
        );
        assert_eq!(
            searched(&problem(&tasks, 1, engine, 0)),
            (Ending::Stopped, 0, vec![0])
        );
    }
}

#[test]
fn p2() {
    let tasks = [task([2, 2, 2, 3], 1)];
    for engine in [PLAIN, QUICK] {
        assert_eq!(
            searched(&unlimited(&tasks, 1, engine)),
            (Ending::Found, 3, vec![1, 0, 1])
        );
    }
    let mut record = Record {
        h: 0,
        cores: 0,
        tasks: 0,
        offsets: [9; MOST_TASKS],
        table: [9; MOST_CELLS],
        position: 0,
        age: 0,
        last: 0,
    };
    let problem = unlimited(&tasks, 1, PLAIN);
    let mut played = vec![start(&problem, &[1, 0, 1], u32::MAX, &mut record).unwrap()];
    for tick in 0..5 {
        played.push(step(&mut record, tick).unwrap());
    }
    let cells: Vec<u8> = played.iter().map(|shown| shown.cells[0]).collect();
    assert_eq!(cells, [0, 0, 1, 1, 0, 1]);
    assert!(played
        .iter()
        .all(|shown| shown.cells[1..] == [0; 3] && shown.missed == 0));
    assert!(record.offsets[1..] == [0; 15] && record.table[3..].iter().all(|&cell| cell == 0));
}

#[test]
fn p3() {
    let tasks = [task([0, 1, 1, 1], 1); 2];
    assert_eq!(
        searched(&unlimited(&tasks, 1, PLAIN)),
        (Ending::None, 3, vec![0])
    );
    assert_eq!(
        searched(&unlimited(&tasks, 1, QUICK)),
        (Ending::None, 2, vec![0])
    );
}

#[test]
fn p4() {
    let tasks = [task([0, 1, 1, 1], 2); 3];
    assert_eq!(
        searched(&unlimited(&tasks, 2, PLAIN)),
        (Ending::None, 17, vec![0; 2])
    );
    assert_eq!(
        searched(&unlimited(&tasks, 2, QUICK)),
        (Ending::None, 6, vec![0; 2])
    );
}

#[test]
fn p5() {
    let mut tasks = [task([0, 4, 2, 2], 2), task([1, 1, 1, 2], 1)];
    tasks[0].rates = [1, 2, 0, 0];
    for engine in [PLAIN, QUICK] {
        let (ending, _, table) = searched(&unlimited(&tasks, 2, engine));
        assert_eq!((ending, table), (Ending::Found, vec![0, 1, 2, 1]));
    }
}

#[test]
fn p6() {
    let tasks = [Task {
        rates: [2, 0, 0, 0],
        ..task([0, 3, 2, 2], 1)
    }];
    for engine in [PLAIN, QUICK] {
        assert_eq!(
            searched(&unlimited(&tasks, 1, engine)),
            (Ending::Found, 2, vec![1, 1])
        );
    }
}

#[test]
fn p7() {
    let tasks = [task([0, 1, 1, 1], 1); 2];
    assert_eq!(
        searched(&problem(&tasks, 1, PLAIN, 2)),
        (Ending::Stopped, 2, vec![0])
    );
    assert_eq!(
        searched(&problem(&tasks, 1, PLAIN, 3)),
        (Ending::None, 3, vec![0])
    );
}

#[test]
fn p8() {
    for deadline in [0, 4, 65535] {
        let tasks = [task([0, 1, deadline, 3], 1)];
        assert_eq!(unlimited(&tasks, 1, PLAIN).h(), Err(Refusal::Deadline));
    }
}

#[test]
fn p9() {
    let periods = |one, other| {
        unlimited(
            &[task([0, 1, 1, one], 1), task([0, 1, 1, other], 1)],
            1,
            PLAIN,
        )
    };
    assert_eq!(periods(31, 32).h(), Ok(992));
    assert_eq!(periods(32, 33).h(), Err(Refusal::TableLength));
}

#[test]
fn p10() {
    let period = |period| unlimited(&[task([0, 1, 1, period], 1)], 1, PLAIN);
    assert_eq!(period(1024).h(), Ok(1024));
    assert_eq!(period(1025).h(), Err(Refusal::Period));
}

#[test]
fn p11() {
    let problem = unlimited(&[task([2, 2, 2, 3], 1)], 1, PLAIN);
    let fault = Fault::Cell {
        slot: 1,
        core: 1,
        kind: Kind::Closed,
    };
    assert_eq!(first_fault(&problem, &[1, 1, 1]), Ok(Some(fault)));
}

#[test]
fn p12() {
    let problem = unlimited(&[task([2, 2, 2, 3], 1)], 1, PLAIN);
    let fault = Fault::Job {
        task: 1,
        job: 0,
        kind: Kind::TooLittle,
    };
    assert_eq!(first_fault(&problem, &[1, 0, 0]), Ok(Some(fault)));
}
