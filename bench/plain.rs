//! The plain program that `bench/run` measures `desk` against: no proofs, the standard library only. It reads task sets
//! as `bench/sets.rs` writes them, carries demands forward and keeps no chains (but for `certify`, which prints them).
//!
//! `plain admit SET`, `plain certify SET`, `plain check SET CERTIFICATE`, `plain read FILE..`

use std::collections::HashMap;
use std::io::Write;
use std::{env, fs, process};

struct Section {
    len: u64,
    users: u32,
}

#[derive(Default)]
struct Task<'a> {
    name: &'a str,
    weight: u64,
    period: u64,
    deadline: u64,
    cost: u64,
    sections: Vec<(u64, Vec<&'a str>)>,
    prepared: Vec<Section>,
}

fn number(text: &str) -> u64 {
    text.bytes().fold(0, |n, b| n * 10 + u64::from(b - b'0'))
}

fn quoted(text: &str) -> &str {
    text.trim().trim_matches('"')
}

// The tasks of a document, by rank.
fn read_set(text: &str) -> Vec<Task<'_>> {
    let mut tasks: Vec<Task> = Vec::new();
    let mut in_section = false;
    for line in text.lines() {
        if line.is_empty() || line.starts_with('#') {
            continue;
        }
        if line.starts_with('[') {
            in_section = line == "[[task.section]]";
            if in_section {
                tasks.last_mut().unwrap().sections.push((0, Vec::new()));
            } else {
                tasks.push(Task::default());
            }
            continue;
        }
        let (key, value) = line.split_once(" = ").unwrap();
        let task = tasks.last_mut().unwrap();
        if in_section {
            let section = task.sections.last_mut().unwrap();
            match key {
                "len" => section.0 = number(value),
                "locks" => section.1 = value[1..value.len() - 1].split(',').map(quoted).collect(),
                _ => {}
            }
        } else {
            match key {
                "name" => task.name = quoted(value),
                "weight" => task.weight = number(value),
                "period" => task.period = number(value),
                "deadline" => task.deadline = number(value),
                "cost" => task.cost = number(value),
                _ => {}
            }
        }
    }
    tasks.sort_by_key(|task| (task.weight, task.name));
    prepare(&mut tasks);
    tasks
}

// Gives each section the users of its locks, as bits.
fn prepare(tasks: &mut [Task<'_>]) {
    let mut users: HashMap<&str, u32> = HashMap::new();
    for (index, task) in tasks.iter().enumerate() {
        for lock in task.sections.iter().flat_map(|section| &section.1) {
            *users.entry(lock).or_default() |= 1 << index;
        }
    }
    for task in tasks {
        let held = |locks: &[&str]| locks.iter().map(|lock| users[lock]).fold(0, |a, b| a | b);
        task.prepared = task
            .sections
            .iter()
            .map(|s| Section {
                len: s.0,
                users: held(&s.1),
            })
            .collect();
    }
}

#[derive(Clone, Copy, Default)]
struct Share {
    end: u64,
    period: u64,
    cost: u64,
}

// The demand of a task below others, carried forward.
struct Demand {
    shares: [Share; 32],
    count: usize,
    total: u64,
}

impl Demand {
    fn new(tasks: &[Task<'_>], task: usize, above: u32) -> Demand {
        let members = above | 1 << task;
        let outside = tasks
            .iter()
            .enumerate()
            .filter(|(index, _)| members >> index & 1 == 0);
        let reached = outside
            .flat_map(|(_, t)| &t.prepared)
            .filter(|s| s.users & members != 0);
        let blocking = reached.map(|s| s.len).max().unwrap_or(0);
        let mut shares = [Share::default(); 32];
        let mut count = 0;
        for (index, t) in tasks.iter().enumerate() {
            if above >> index & 1 == 1 {
                shares[count] = Share {
                    end: 0,
                    period: t.period,
                    cost: t.cost,
                };
                count += 1;
            }
        }
        Demand {
            shares,
            count,
            total: tasks[task].cost + blocking,
        }
    }

    #[inline(always)]
    fn at(&mut self, time: u64) -> u64 {
        for share in &mut self.shares[..self.count] {
            if time > share.end {
                if time <= share.end + share.period {
                    share.end += share.period;
                    self.total += share.cost;
                } else {
                    let jobs = (time - share.end).div_ceil(share.period);
                    share.end += jobs * share.period;
                    self.total += jobs * share.cost;
                }
            }
        }
        self.total
    }
}

// The response within the deadline, each number of the chain being told.
fn respond(tasks: &[Task<'_>], task: usize, above: u32, mut tell: impl FnMut(u64)) -> Option<u64> {
    let mut demand = Demand::new(tasks, task, above);
    let limit = tasks[task].deadline;
    let mut time = 1;
    while time <= limit {
        tell(time);
        let next = demand.at(time);
        if next == time {
            return Some(time);
        }
        time = next;
    }
    tell(time);
    None
}

fn all_of(tasks: &[Task<'_>]) -> u32 {
    ((1u64 << tasks.len()) - 1) as u32
}

fn admit(tasks: &[Task<'_>]) -> String {
    let mut left = all_of(tasks);
    let mut lines = format!("admitted {}\n", tasks.len());
    for level in 1..=tasks.len() {
        let candidates = (0..tasks.len()).filter(|task| left >> task & 1 == 1);
        let mut passing = candidates.filter_map(|task| {
            respond(tasks, task, left & !(1 << task), |_| {}).map(|r| (task, r))
        });
        match passing.next() {
            Some((task, response)) => {
                lines += &format!("{level} {} {response}\n", tasks[task].name);
                left &= !(1 << task);
            }
            None => return obstruction(tasks, left),
        }
    }
    lines
}

fn obstruction(tasks: &[Task<'_>], left: u32) -> String {
    let mut line = String::from("infeasible");
    for task in (0..tasks.len()).filter(|task| left >> task & 1 == 1) {
        line += " ";
        line += tasks[task].name;
    }
    line + "\n"
}

const PAIRS: [[u8; 2]; 100] = {
    let mut pairs = [[0; 2]; 100];
    let mut n = 0;
    while n < 100 {
        pairs[n] = [b'0' + n as u8 / 10, b'0' + n as u8 % 10];
        n += 1;
    }
    pairs
};

// Writes a space and a number.
fn write_number(out: &mut Vec<u8>, mut n: u64) {
    let mut digits = [b' '; 21];
    let mut start = 21;
    while n >= 10 {
        start -= 2;
        digits[start..start + 2].copy_from_slice(&PAIRS[(n % 100) as usize]);
        n /= 100;
    }
    if n > 0 || start == 21 {
        start -= 1;
        digits[start] = b'0' + n as u8;
    }
    digits[start - 1] = b' ';
    out.extend_from_slice(&digits[start - 1..]);
}

fn certify(tasks: &[Task<'_>]) -> Vec<u8> {
    let mut left = all_of(tasks);
    let mut out = format!("desk-certificate 1\nbest {}\n", tasks.len()).into_bytes();
    for level in 1..=tasks.len() {
        let mut fails = Vec::new();
        let mut chosen = None;
        for task in (0..tasks.len()).filter(|task| left >> task & 1 == 1) {
            let start = fails.len();
            fails.extend_from_slice(format!("fails {}", tasks[task].name).as_bytes());
            let tell = |n| write_number(&mut fails, n);
            if let Some(response) = respond(tasks, task, left & !(1 << task), tell) {
                fails.truncate(start);
                chosen = Some((task, response));
                break;
            }
            fails.push(b'\n');
        }
        match chosen {
            Some((task, response)) => {
                let line = format!("level {level} {} {response}\n", tasks[task].name);
                out.extend_from_slice(line.as_bytes());
                out.extend_from_slice(&fails);
                left &= !(1 << task);
            }
            None => return certify_none(tasks, left),
        }
    }
    out.extend_from_slice(b"end\n");
    out
}

fn certify_none(tasks: &[Task<'_>], left: u32) -> Vec<u8> {
    let mut out = format!("desk-certificate 1\nnone {}\n", left.count_ones()).into_bytes();
    for task in (0..tasks.len()).filter(|task| left >> task & 1 == 1) {
        out.extend_from_slice(format!("member {}", tasks[task].name).as_bytes());
        respond(tasks, task, left & !(1 << task), |n| {
            write_number(&mut out, n)
        });
        out.push(b'\n');
    }
    out.extend_from_slice(b"end\n");
    out
}

// Whether the rest of a line is a chain of the task.
fn is_chain(
    tasks: &[Task<'_>],
    task: usize,
    above: u32,
    mut numbers: impl Iterator<Item = u64>,
) -> bool {
    let mut demand = Demand::new(tasks, task, above);
    let limit = tasks[task].deadline;
    let Some(mut time) = numbers.next() else {
        return false;
    };
    if time != 1 {
        return false;
    }
    for next in numbers {
        if time > limit || next <= time || next > demand.at(time) {
            return false;
        }
        time = next;
    }
    time > limit
}

fn check(tasks: &[Task<'_>], text: &str) -> Option<&'static str> {
    let place: HashMap<&str, usize> = tasks.iter().enumerate().map(|(i, t)| (t.name, i)).collect();
    let mut lines = text.lines();
    if lines.next()? != "desk-certificate 1" {
        return None;
    }
    let first = lines.next()?;
    let is_best = first.starts_with("best ");
    let rest: Vec<&str> = lines.collect();
    let mut above = all_of(tasks);
    if !is_best {
        above = rest
            .iter()
            .filter_map(|l| place.get(l.split(' ').nth(1)?))
            .fold(0, |a, i| a | 1 << i);
    }
    let mut placed = 0;
    let mut failed = 0u32;
    for (at, line) in rest.iter().enumerate() {
        let mut words = line.split(' ');
        match words.next()? {
            "level" => {
                above &= !placed;
                let task = place[words.nth(1)?];
                let time = number(words.next()?);
                placed = 1 << task;
                failed = above & (placed - 1);
                let demand = Demand::new(tasks, task, above & !placed).at(time);
                if above & placed == 0 || time > tasks[task].deadline || demand > time {
                    return None;
                }
            }
            "fails" => {
                let task = place[words.next()?];
                if failed >> task & 1 == 0
                    || !is_chain(tasks, task, above & !(1 << task), words.map(number))
                {
                    return None;
                }
                failed &= !(1 << task);
            }
            "member" => {
                let task = place[words.next()?];
                if !is_chain(tasks, task, above & !(1 << task), words.map(number)) {
                    return None;
                }
            }
            _ if at + 1 == rest.len() => {}
            _ => return None,
        }
        let last = rest
            .get(at + 1)
            .is_none_or(|next| !next.starts_with("fails"));
        if last && failed != 0 {
            return None;
        }
    }
    Some(if is_best { "best\n" } else { "no order\n" })
}

fn main() {
    let words: Vec<String> = env::args().skip(1).collect();
    let texts: Vec<Vec<u8>> = words[1..]
        .iter()
        .map(|path| fs::read(path).unwrap())
        .collect();
    let text = |n: usize| std::str::from_utf8(&texts[n]).unwrap();
    let out = match words[0].as_str() {
        "admit" => admit(&read_set(text(0))).into_bytes(),
        "certify" => certify(&read_set(text(0))),
        "check" => check(&read_set(text(0)), text(1))
            .unwrap_or("refused\n")
            .into(),
        _ => format!("{}\n", texts.iter().map(Vec::len).sum::<usize>()).into_bytes(),
    };
    std::io::stdout().write_all(&out).unwrap();
    process::exit(if out.starts_with(b"infeasible") { 3 } else { 0 });
}
