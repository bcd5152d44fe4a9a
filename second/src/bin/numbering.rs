//! Numbers the tasks of random lists in several ways, and counts how the proved quick search ends:
//!
//!     numbering [SEED]

#[path = "../proved.rs"]
#[allow(dead_code)] // the search alone is called
mod proved;

use second::lists::{from_table, stretched};
use second::random::Random;
use second::tasks::{Problem, Task, MOST_CELLS};
use second::verdict::Ending;

const LISTS: usize = 360;
const LIMIT: u32 = 1_000_000;

/// Makes a list.
type Maker = fn(&mut Random) -> Problem;

const SORTS: [(&str, Maker); 3] = [
    ("with a table, equal cores", |random| from_table(random, 1)),
    ("with a table, unequal cores", |random| {
        from_table(random, 3)
    }),
    ("at random", |random| {
        let slots = random.pick(&[12, 24, 60, 120]);
        stretched(random, slots)
    }),
];

/// The tasks are numbered by a key, lowest first.
type Key = fn(&Task) -> i64;

const NUMBERINGS: [(&str, Key); 7] = [
    ("in any order", |_| 0),
    ("offset, smallest first", |task| task.offset.into()),
    ("deadline, shortest first", |task| task.deadline.into()),
    ("deadline, longest first", |task| -i64::from(task.deadline)),
    ("period, shortest first", |task| task.period.into()),
    ("slack, least first", |task| {
        i64::from(task.deadline) - least_slots(task)
    }),
    ("load, largest first", |task| {
        -1000 * least_slots(task) / i64::from(task.period)
    }),
];

/// The slots that a job takes at the task's best rate.
fn least_slots(task: &Task) -> i64 {
    let best = task.rates.into_iter().fold(1, u8::max);
    task.work.div_ceil(best.into()).into()
}

fn main() {
    let seed = std::env::args().nth(1);
    let seed = seed.map_or(1, |seed| seed.parse().expect("a seed is a number"));
    println!("Quick search, limit {LIMIT} tries, {LISTS} lists of a sort, seed {seed}.");
    println!("Decided: of the lists that are stopped in any order.");
    for (sort, make) in SORTS {
        println!("lists {sort}: found, none, stopped, tries, decided");
        let mut random = Random::new(seed);
        try_numberings(&[(); LISTS].map(|()| shuffled(make(&mut random), &mut random)));
    }
}

/// A list for the quick search, numbered in any order.
fn shuffled(mut list: Problem, random: &mut Random) -> Problem {
    list.tasks.sort_by_cached_key(|_| random.draw());
    list.engine = 1;
    list.limit = LIMIT;
    list
}

fn try_numberings(lists: &[Problem]) {
    let stopped = Ending::Stopped as u32;
    let mut first = None;
    let mut known = vec![stopped; lists.len()];
    for (name, key) in NUMBERINGS {
        let (verdicts, tries): (Vec<u32>, Vec<u32>) =
            lists.iter().map(|list| search(list, key)).unzip();
        for (known, &verdict) in known.iter_mut().zip(&verdicts) {
            if *known == stopped {
                *known = verdict;
            }
            assert!([stopped, *known].contains(&verdict), "numberings differ");
        }
        let count = |ending: Ending| {
            let so = |verdict: &&u32| **verdict == ending as u32;
            verdicts.iter().filter(so).count()
        };
        let [found, none, left] = [Ending::Found, Ending::None, Ending::Stopped].map(count);
        let tries: u64 = tries.into_iter().map(u64::from).sum();
        let first = first.get_or_insert_with(|| verdicts.clone());
        let pairs = first.iter().zip(&verdicts);
        let decided = pairs.filter(|(&first, &now)| first == stopped && now != stopped);
        let decided = decided.count();
        println!("  {name:25}{found:5}{none:5}{left:5}{tries:11}{decided:5}");
    }
    let never = known.iter().filter(|&&verdict| verdict == stopped).count();
    println!("  stopped by each numbering: {never}");
}

/// The verdict and the tries of a list that is numbered by a key.
fn search(list: &Problem, key: Key) -> (u32, u32) {
    let mut list = list.clone();
    list.tasks.sort_by_key(key);
    proved::search(&list, &mut [0; MOST_CELLS])
}
