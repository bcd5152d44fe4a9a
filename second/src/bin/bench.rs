//! Times the proved walk and the same walk in ordinary Rust over the same lists in one process; then
//! the checkers and the players. Last, the stack that each proved call takes.

#[path = "../proved.rs"]
#[allow(dead_code)] // no record is read back
mod proved;

use second::check::first_fault;
use second::frames::problem_text;
use second::lists;
use second::player::{self, Record};
use second::random::Random;
use second::tasks::{Problem, Task, MOST_CELLS, MOST_CORES, MOST_SLOTS, MOST_TASKS};
use second::verdict::Ending;
use second::walk;
use std::array::from_fn;
use std::hint::black_box;
use std::thread;
use std::time::{Duration, Instant};

const LIMIT: u32 = 1_000_000;
const ROUNDS: usize = 7;

/// How many lists of a sort are timed.
const LISTS: usize = 12;

/// A walk of fewer tries is not timed.
const LEAST_TRIES: u32 = 10_000;

/// How many steps of the player are timed at a time.
const STEPS: u32 = 10_000;

/// The stack of a thread, how much of it is painted, and how much may be in use above the paint.
const STACK: usize = 8 << 20;
const PAINTED: usize = 4 << 20;
const FRAME: usize = 1024;

/// The slots of a short table and of a long one.
const SHORT: usize = 12;
const LONG: usize = MOST_SLOTS;

/// Searches, and gives the verdict and the tries.
type Walk = fn(&Problem, &mut [u8]) -> (u32, u32);

const WALKS: [Walk; 2] = [ordinary, proved::search];
const NAMES: [&str; 2] = ["ordinary Rust", "proved"];

/// Makes a list by its number, with H as given.
type Maker = fn(u64, usize) -> Problem;

fn main() {
    println!("Limit {LIMIT} tries. Least time of {ROUNDS} rounds after a warm-up, walks in turn.");
    println!("The table buffer is set to 255 before each run, outside the time.");
    println!("What a search itself allocates, sets up or clears is inside the time.");

    let endings = [Ending::Found, Ending::None, Ending::Stopped];
    let all = cost(&timed(&endings.map(mixed_lists).concat()));
    println!("ns per try, 3 to 16 tasks, 1 to 4 cores, both engines,");
    println!("{LISTS} lists with a table, {LISTS} without, {LISTS} stopped:");
    for (name, cost) in NAMES.into_iter().zip(all) {
        println!("  {name} {cost:.2}");
    }
    println!("  ratio {:.2}", all[1] / all[0]);

    let makers = [
        ("stretched", stretched as Maker),
        ("lengthened", lengthened),
    ];
    for (how, make) in makers {
        let lists = [SHORT, LONG]
            .map(|slots| stopped_lists(make, slots))
            .concat();
        let all = timed(&lists);
        let (short, long) = (cost(&all[..LISTS]), cost(&all[LISTS..]));
        println!("ns per try, {LISTS} lists at H = {SHORT} and {how} to H = {LONG}, all stopped:");
        for (walk, name) in NAMES.into_iter().enumerate() {
            let (short, long) = (short[walk], long[walk]);
            println!(
                "  {name} {short:.2} and {long:.2}, ratio {:.2}",
                long / short
            );
        }
    }

    let [ordinary, proved] = cells_checked();
    println!("millions of cells checked per second, a valid table of {MOST_CELLS} cells:");
    println!("  ordinary Rust {ordinary:.1}, proved {proved:.1}");

    let [short, long] = step_costs([timed_record(1, 1), timed_record(MOST_SLOTS, MOST_CORES)]);
    println!("ns per step of the player, H = 1 on one core and H = {MOST_SLOTS} on {MOST_CORES}:");
    for (player, name) in ["ordinary Rust", "proved"].into_iter().enumerate() {
        let (short, long) = (short[player], long[player]);
        println!(
            "  {name} {short:.2} and {long:.2}, ratio {:.2}",
            long / short
        );
    }

    println!("bytes of stack, proved; full is a table of {MOST_CELLS} cells without an idle one:");
    let thread = thread::Builder::new().stack_size(STACK).spawn(print_stacks);
    let ended = thread.expect("a thread can be started").join();
    ended.expect("the calls end");
}

fn ordinary(problem: &Problem, table: &mut [u8]) -> (u32, u32) {
    let outcome = walk::search(problem, table).expect("the list is sound");
    (outcome.ending as u32, outcome.tries)
}

/// The tries of a list, and the least time of each walk.
struct Timed {
    tries: u32,
    least: [Duration; 2],
}

/// Times the walks over lists. Each round goes over all of them, so that they share good times and
/// bad.
fn timed(lists: &[Problem]) -> Vec<Timed> {
    let mut table = vec![0; MOST_CELLS];
    let warm_up = |problem| {
        let [ordinary, proved] = WALKS.map(|walk| walk(problem, &mut table));
        assert_eq!(ordinary, proved, "the walks end alike");
        Timed {
            tries: ordinary.1,
            least: [Duration::MAX; 2],
        }
    };
    let mut all: Vec<Timed> = lists.iter().map(warm_up).collect();
    for _ in 0..ROUNDS {
        for (problem, timed) in lists.iter().zip(&mut all) {
            for (walk, least) in WALKS.into_iter().zip(&mut timed.least) {
                table.fill(255);
                let start = Instant::now();
                black_box(walk(problem, &mut table));
                *least = start.elapsed().min(*least);
            }
        }
    }
    all
}

/// Nanoseconds per try of each walk, over all these lists together.
fn cost(all: &[Timed]) -> [f64; 2] {
    let tries: u32 = all.iter().map(|timed| timed.tries).sum();
    from_fn(|walk| {
        let time: Duration = all.iter().map(|timed| timed.least[walk]).sum();
        time.as_nanos() as f64 / f64::from(tries)
    })
}

/// Millions of cells that the ordinary and the proved checker check per second.
fn cells_checked() -> [f64; 2] {
    let problem = full_list(MOST_SLOTS, MOST_CORES);
    let mut table = vec![0; MOST_CELLS];
    ordinary(&problem, &mut table);
    let checkers: [fn(&Problem, &[u8]) -> bool; 2] = [
        |problem, table| first_fault(problem, table) == Ok(None),
        |problem, table| proved::check(problem, table) == [0; 4],
    ];
    checkers.map(|valid| {
        let least = (0..100 * ROUNDS).map(|_| {
            let start = Instant::now();
            assert!(valid(&problem, black_box(&table)));
            start.elapsed()
        });
        let least = least.min().expect("some rounds");
        MOST_CELLS as f64 / least.as_secs_f64() / 1e6
    })
}

/// Nanoseconds per step, tick by tick, of the ordinary and the proved player over each record.
fn step_costs(records: [Record; 2]) -> [[f64; 2]; 2] {
    let mut players = records.map(|record| (proved::Player::from(&record), record));
    let mut least = [[Duration::MAX; 2]; 2];
    for round in 0..100 * ROUNDS as u32 {
        let ticks = || (1..=STEPS).map(|step| round * STEPS + step);
        for ((proved, ordinary), least) in players.iter_mut().zip(&mut least) {
            let start = Instant::now();
            for tick in ticks() {
                let _ = black_box(player::step(ordinary, tick));
            }
            let between = Instant::now();
            for tick in ticks() {
                black_box(proved::step(proved, tick));
            }
            least[0] = (between - start).min(least[0]);
            least[1] = between.elapsed().min(least[1]);
        }
    }
    least.map(|both| both.map(|time| time.as_nanos() as f64 / f64::from(STEPS)))
}

/// A player's record at slot 0, with a table of so many slots that has no idle cell.
fn timed_record(slots: usize, cores: usize) -> Record {
    let mut record = Record {
        h: slots as u16,
        cores: cores as u8,
        tasks: cores as u8,
        offsets: [0; MOST_TASKS],
        table: [0; MOST_CELLS],
        position: 0,
        age: 0,
        last: 0,
    };
    for (at, cell) in record.table[..slots * cores].iter_mut().enumerate() {
        *cell = (at % cores) as u8 + 1;
    }
    record
}

/// Lists of several H whose walk ends as asked.
fn mixed_lists(ending: Ending) -> Vec<Problem> {
    (0..)
        .map(|number| stretched(number, [12, 24, 60, 120][number as usize % 4]))
        .filter(|problem| ends(problem, ending))
        .take(LISTS)
        .collect()
}

/// Lists of so many slots; only those that the limit stops at either H.
fn stopped_lists(make: Maker, slots: usize) -> Vec<Problem> {
    (0..)
        .filter(|&number| {
            [SHORT, LONG]
                .iter()
                .all(|&h| ends(&make(number, h), Ending::Stopped))
        })
        .map(|number| make(number, slots))
        .take(LISTS)
        .collect()
}

fn ends(problem: &Problem, ending: Ending) -> bool {
    let (verdict, tries) = ordinary(problem, &mut [0; MOST_CELLS]);
    verdict == ending as u32 && tries >= LEAST_TRIES
}

/// A random list, its times in proportion to `slots`.
fn stretched(number: u64, slots: usize) -> Problem {
    Problem {
        limit: LIMIT,
        ..lists::stretched(&mut Random::new(number), slots)
    }
}

/// A list that is alike in every slot, whatever H. Two tasks a core can always be served; the last
/// task spans the table and cannot, which the walk learns in the last slot only.
fn lengthened(number: u64, slots: usize) -> Problem {
    let mut random = Random::new(number);
    let cores = random.between(1, MOST_CORES);
    let engine = random.below(2) as u32;
    let rates = from_fn(|core| u8::from(core < cores));
    let task = |_| {
        let period = random.pick(&[2, 4]);
        Task {
            offset: random.below(4) as u16,
            work: 1,
            deadline: period,
            period,
            rates,
        }
    };
    let mut tasks: Vec<Task> = (0..2 * cores).map(task).collect();
    tasks.push(Task {
        offset: 0,
        work: 4096,
        deadline: slots as u16,
        period: slots as u16,
        rates,
    });
    Problem {
        tasks,
        cores: cores as u32,
        engine,
        limit: LIMIT,
    }
}

/// Prints the stack of each call, and of the ordinary search. No search takes more than one that
/// puts a task into each of the most cells.
fn print_stacks() {
    let small = full_list(1, 1);
    let full = full_list(MOST_SLOTS, MOST_CORES);
    let mut no_period = full.clone();
    no_period.tasks[0].period = 0;
    let mut no_engine = full.clone();
    no_engine.engine = 2;
    let text = problem_text(&full);
    let table = &mut vec![0; MOST_CELLS];
    let player = &mut proved::Player::from(&timed_record(1, 1));
    let mut search = |problem| proved::search(problem, table).0;
    let length = |text| proved::plan_text(text).len() as u32;
    print_stack("search, refused by 3", 3, || search(&no_period));
    print_stack("search, refused by 9", 9, || search(&no_engine));
    print_stack("search, H = 1 on one core", 0, || search(&small));
    print_stack("search, full", 0, || search(&full));
    print_stack("ordinary search, full", 0, || ordinary(&full, table).0);
    print_stack("plan_text, refused by 24", 16, || length(b""));
    print_stack("plan_text, full", 15_376, || length(&text));
    print_stack("check, full", 0, || proved::check(&full, table)[0].into());
    print_stack("start, full", 0, || {
        proved::start(player, &full, table, 0).0
    });
    print_stack("step", 0, || proved::step(player, 1).0);
}

/// Prints the bytes of stack that a call takes, which is to tell a number: the thread's stack is
/// painted, and after the call the deepest place without paint is looked for. A few bytes of the
/// caller's frame are counted too.
#[inline(never)]
fn print_stack(name: &str, told: u32, call: impl FnOnce() -> u32) {
    const PAINT: u64 = 0xA5A5_A5A5_A5A5_A5A5;
    let here = (&raw const told).addr() & !7;
    let words = || (here - PAINTED..here - FRAME).step_by(8);
    for word in words() {
        // SAFETY: the word lies in this thread's stack, below the frame in use.
        unsafe { (word as *mut u64).write_volatile(PAINT) };
    }
    let (place, answer) = called_below(call);
    let deepest = words().find(|&word| {
        // SAFETY: as above.
        unsafe { (word as *const u64).read_volatile() != PAINT }
    });
    assert_eq!(answer, told, "{name}");
    let stack = place - deepest.expect("a call takes some stack");
    println!("  {name} {stack}");
}

/// Calls from a place among the paint, and gives that place and the answer.
#[inline(never)]
fn called_below(call: impl FnOnce() -> u32) -> (usize, u32) {
    let room = [0u8; 2 * FRAME];
    let answer = call();
    (black_box(&room).as_ptr().addr(), answer)
}

/// A list whose only table has no idle cell.
fn full_list(slots: usize, cores: usize) -> Problem {
    let slots = slots as u16;
    let task = |at| Task {
        offset: 0,
        work: slots,
        deadline: slots,
        period: slots,
        rates: from_fn(|core| u8::from(core == at)),
    };
    Problem {
        tasks: (0..cores).map(task).collect(),
        cores: cores as u32,
        engine: 1,
        limit: LIMIT,
    }
}
