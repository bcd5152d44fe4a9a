//! Frames: the reader of problems, the writer of answers, and the planning program between them.

use crate::tasks::{Problem, Task, MOST_CELLS, MOST_CORES, MOST_TASKS};
use crate::verdict::{Ending, Refusal};
use crate::walk::search;

const CORES: u8 = 1;
const TASK: u8 = 2;
const RATES: u8 = 3;
const ENGINE: u8 = 4;
const VERDICT: u8 = 5;
const SLOT: u8 = 6;
const END: u8 = 7;

/// The length in bytes of each kind of frame. There is no kind 0.
const LENGTHS: [usize; 8] = [0, 2, 10, 6, 6, 6, 7, 1];

const LONGEST_FILE: usize = 1024;

/// The planning program: the text of a problem in, the text of the answer out.
pub fn plan_text(text: &[u8]) -> Vec<u8> {
    let mut answer = Vec::new();
    if let Err(refusal) = plan(text, &mut answer) {
        write_verdict(&mut answer, refusal as u8, 0);
    }
    write_frame(&mut answer, &[END]);
    answer
}

/// Writes the verdict of a search and the slots of a table that it found.
fn plan(text: &[u8], answer: &mut Vec<u8>) -> Result<(), Refusal> {
    let problem = read_problem(text)?;
    let mut table = [0; MOST_CELLS];
    let outcome = search(&problem, &mut table)?;
    write_verdict(answer, outcome.ending as u8, outcome.tries);
    if outcome.ending == Ending::Found {
        let cores = problem.cores();
        let slots = table.chunks(cores).take(problem.h()?);
        for (slot, cells) in (0u16..).zip(slots) {
            let beyond = &[0; MOST_CORES][cores..];
            write_frame(
                answer,
                &[&[SLOT], &slot.to_be_bytes()[..], cells, beyond].concat(),
            );
        }
    }
    Ok(())
}

/// The text of a problem that `read_problem` reads; a number that no byte holds is written as 255.
pub fn problem_text(problem: &Problem) -> Vec<u8> {
    let mut text = Vec::new();
    let byte = |number: u32| number.try_into().unwrap_or(255);
    write_frame(&mut text, &[CORES, byte(problem.cores)]);
    for (at, task) in problem.tasks.iter().enumerate() {
        let number = (at + 1) as u8;
        let numbers = [task.offset, task.work, task.deadline, task.period].map(u16::to_be_bytes);
        write_frame(
            &mut text,
            &[&[TASK, number], numbers.as_flattened()].concat(),
        );
        write_frame(&mut text, &[&[RATES, number], &task.rates[..]].concat());
    }
    let limit = problem.limit.to_be_bytes();
    write_frame(
        &mut text,
        &[&[ENGINE, byte(problem.engine)], &limit[..]].concat(),
    );
    write_frame(&mut text, &[END]);
    text
}

fn write_verdict(text: &mut Vec<u8>, verdict: u8, tries: u32) {
    write_frame(
        text,
        &[&[VERDICT, verdict], &tries.to_be_bytes()[..]].concat(),
    );
}

fn write_frame(text: &mut Vec<u8>, frame: &[u8]) {
    debug_assert_eq!(frame.len(), LENGTHS[frame[0] as usize]);
    for byte in frame {
        text.extend([byte >> 4, byte & 15].map(|digit| b"0123456789ABCDEF"[digit as usize]));
    }
    text.push(b'\n');
}

/// What may come next in the text of a problem.
enum Due {
    Cores,
    TaskOrEngineOrEnd,
    Rates,
    End,
    Nothing,
}

/// Reads a problem; the first faulty line decides which of 20 to 24 refuses it.
pub fn read_problem(text: &[u8]) -> Result<Problem, Refusal> {
    if text.len() > LONGEST_FILE {
        return Err(Refusal::FileLength);
    }
    let mut problem = Problem {
        tasks: Vec::new(),
        cores: 0,
        engine: 1,
        limit: 1_000_000,
    };
    let mut due = Due::Cores;
    for line in text.split_inclusive(|&byte| byte == b'\n') {
        due = read_frame(&read_line(line)?, due, &mut problem)?;
    }
    match due {
        Due::Nothing => Ok(problem),
        _ => Err(Refusal::OutOfPlace),
    }
}

fn read_line(line: &[u8]) -> Result<Vec<u8>, Refusal> {
    let digits = line.strip_suffix(b"\n").ok_or(Refusal::Digits)?;
    if digits.is_empty() || digits.len() % 2 == 1 {
        return Err(Refusal::Digits);
    }
    digits
        .chunks(2)
        .map(|pair| Ok(value(pair[0])? << 4 | value(pair[1])?))
        .collect()
}

fn value(digit: u8) -> Result<u8, Refusal> {
    match digit {
        b'0'..=b'9' => Ok(digit - b'0'),
        b'A'..=b'F' => Ok(digit - b'A' + 10),
        _ => Err(Refusal::Digits),
    }
}

/// Takes a frame into the problem and tells what is due after it.
fn read_frame(frame: &[u8], due: Due, problem: &mut Problem) -> Result<Due, Refusal> {
    let kind = frame[0];
    if !(CORES..=END).contains(&kind) {
        return Err(Refusal::UnknownKind);
    }
    if frame.len() != LENGTHS[kind as usize] {
        return Err(Refusal::FrameLength);
    }
    match (kind, due) {
        (CORES, Due::Cores) => {
            problem.cores = frame[1].into();
            Ok(Due::TaskOrEngineOrEnd)
        }
        (TASK, Due::TaskOrEngineOrEnd)
            if frame[1] as usize == problem.tasks.len() + 1 && problem.tasks.len() < MOST_TASKS =>
        {
            let number = |at: usize| u16::from_be_bytes([frame[at], frame[at + 1]]);
            problem.tasks.push(Task {
                offset: number(2),
                work: number(4),
                deadline: number(6),
                period: number(8),
                rates: [0; MOST_CORES],
            });
            Ok(Due::Rates)
        }
        (RATES, Due::Rates) if frame[1] as usize == problem.tasks.len() => {
            let rates = &mut problem
                .tasks
                .last_mut()
                .expect("rates are due after a task")
                .rates;
            rates.copy_from_slice(&frame[2..]);
            Ok(Due::TaskOrEngineOrEnd)
        }
        (ENGINE, Due::TaskOrEngineOrEnd) => {
            problem.engine = frame[1].into();
            problem.limit = u32::from_be_bytes([frame[2], frame[3], frame[4], frame[5]]);
            Ok(Due::End)
        }
        (END, Due::TaskOrEngineOrEnd | Due::End) => Ok(Due::Nothing),
        _ => Err(Refusal::OutOfPlace),
    }
}

#[cfg(test)]
mod tests {
    use super::*;

    const PROBLEM: &str = "0102
02010000000100030003
030101010000
02020000000200030003
030201010000
02030000000300030003
030301010000
0401000003E8
07
";

    fn refusal(text: &str) -> Option<u8> {
        read_problem(text.as_bytes())
            .err()
            .map(|refusal| refusal as u8)
    }

    #[test]
    fn the_worked_example() {
        let answer = "05000000000C
06000001030000
06000102030000
06000202030000
07
";
        assert_eq!(plan_text(PROBLEM.as_bytes()), answer.as_bytes());
        let problem = read_problem(PROBLEM.as_bytes()).unwrap();
        assert_eq!(problem_text(&problem), PROBLEM.as_bytes());
    }

    #[test]
    fn the_usual_engine_and_limit() {
        let problem = read_problem(PROBLEM.replace("0401000003E8\n", "").as_bytes()).unwrap();
        assert_eq!((problem.engine, problem.limit), (1, 1_000_000));
    }

    #[test]
    fn a_refusal_stands_as_the_verdict() {
        assert_eq!(plan_text(b""), b"051800000000\n07\n");
        assert_eq!(plan_text(b"0101\n07\n"), b"050100000000\n07\n");
        assert_eq!(
            plan_text(b"0101\n04020000000A\n07\n"),
            b"050100000000\n07\n"
        );
    }

    #[test]
    fn file_length() {
        let mut text = "07\n".repeat(342);
        text.truncate(1024);
        assert_eq!(refusal(&text), Some(24));
        text.push('\n');
        assert_eq!(refusal(&text), Some(20));
    }

    #[test]
    fn digits() {
        let texts = [
            "\n", "0102", "01 02\n", "0102\r\n", "01020\n", "010a\n", "010G\n", "010:\n",
        ];
        for text in texts {
            assert_eq!(refusal(text), Some(21), "{text:?}");
        }
        assert_eq!(refusal(PROBLEM.trim_end()), Some(21));
        assert_eq!(refusal(&format!("{PROBLEM}\n")), Some(21));
        assert_eq!(refusal(&format!("{PROBLEM}07")), Some(21));
    }

    #[test]
    fn kinds_and_lengths() {
        for text in ["00\n", "0802\n", "FF\n"] {
            assert_eq!(refusal(text), Some(22), "{text:?}");
            assert_eq!(refusal(&format!("{PROBLEM}{text}")), Some(22), "{text:?}");
        }
        for text in ["01\n", "010200\n", "05\n", "0600\n", "0700\n"] {
            assert_eq!(refusal(text), Some(23), "{text:?}");
            assert_eq!(refusal(&format!("{PROBLEM}{text}")), Some(23), "{text:?}");
        }
    }

    #[test]
    fn places() {
        let task = "02010000000100030003\n";
        let rates = "030101010000\n";
        let texts = [
            "07\n".to_string(),
            format!("{task}{rates}07\n"),
            format!("0102\n{rates}07\n"),
            format!("0102\n{task}07\n"),
            format!("0102\n{task}{task}07\n"),
            format!("0102\n{task}{rates}{rates}07\n"),
            format!("0102\n{task}{rates}{task}{rates}07\n"),
            format!("0102\n{task}030201010000\n07\n"),
            format!("0102\n02000000000100030003\n{rates}07\n"),
            "0102\n0102\n07\n".to_string(),
            "0102\n0401000003E8\n0401000003E8\n07\n".to_string(),
            format!("0102\n0401000003E8\n{task}{rates}07\n"),
            "0102\n05000000000C\n07\n".to_string(),
            "0102\n06000001030000\n07\n".to_string(),
            format!("0102\n{task}{rates}"),
            format!("{PROBLEM}07\n"),
            format!("{PROBLEM}0102\n"),
        ];
        for text in texts {
            assert_eq!(refusal(&text), Some(24), "{text}");
        }
    }

    #[test]
    fn sixteen_tasks_and_no_more() {
        let text = |count: u8| {
            let mut text = "0101\n".to_string();
            for number in 1..=count {
                text += &format!("02{number:02X}0000000100010001\n03{number:02X}01000000\n");
            }
            text + "07\n"
        };
        assert_eq!(refusal(&text(16)), None);
        assert_eq!(refusal(&text(17)), Some(24));
    }

    #[test]
    fn the_first_faulty_line_decides() {
        assert_eq!(refusal("0102\n07\n0102\n00\n"), Some(24));
        assert_eq!(refusal("0102\n07\n00\n0102\n"), Some(22));
        assert_eq!(refusal("0000\nxx\n"), Some(22));
    }
}
