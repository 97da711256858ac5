//! Writes the inputs of `bench/run` into a folder, by a seed: `sets FOLDER SEED`.

use std::fmt::Write as _;
use std::{env, fs};

// A small generator of numbers (Marsaglia 2003, xorshift).
struct Random(u64);

impl Random {
    // A number from `low` to `high`.
    fn within(&mut self, low: u64, high: u64) -> u64 {
        self.0 ^= self.0 << 13;
        self.0 ^= self.0 >> 7;
        self.0 ^= self.0 << 17;
        low + self.0 % (high - low + 1)
    }
}

#[derive(Clone, Default)]
struct Task {
    name: String,
    weight: u64,
    period: u64,
    deadline: u64,
    cost: u64,
    sections: Vec<(u64, u64, Vec<String>)>,
}

fn task(place: usize, period: u64, deadline: u64, cost: u64) -> Task {
    let name = format!("task{place:02}");
    Task {
        name,
        weight: place as u64,
        period,
        deadline,
        cost,
        sections: Vec::new(),
    }
}

fn document(tasks: &[Task]) -> String {
    let mut text = String::new();
    for t in tasks {
        let (name, weight, period, deadline, cost) =
            (&t.name, t.weight, t.period, t.deadline, t.cost);
        writeln!(
            text,
            "[[task]]\nname = \"{name}\"\nweight = {weight}\nperiod = {period}"
        )
        .unwrap();
        writeln!(text, "deadline = {deadline}\ncost = {cost}").unwrap();
        for (at, len, locks) in &t.sections {
            let locks: Vec<String> = locks.iter().map(|lock| format!("\"{lock}\"")).collect();
            writeln!(text, "[[task.section]]\nlocks = [{}]", locks.join(", ")).unwrap();
            writeln!(text, "at = {at}\nlen = {len}").unwrap();
        }
    }
    text
}

// The least window that covers the demand of all these tasks, and one microsecond of blocking; past the longest deadline
// the first demand that is there, since there may be no such window.
// A script in which one team puts all tasks into one draft and commits it.
fn script(tasks: &[Task]) -> String {
    let mut text = String::from("open 1\n");
    for t in tasks {
        let (name, weight, period, deadline, cost) =
            (&t.name, t.weight, t.period, t.deadline, t.cost);
        write!(text, "put 1 {name} {weight} {period} {deadline} {cost}").unwrap();
        for (at, len, locks) in &t.sections {
            write!(text, " {}@{at}:{len}", locks.join("+")).unwrap();
        }
        text.push('\n');
    }
    text + "commit 1\n"
}

fn busy(tasks: &[Task]) -> u64 {
    let mut time = 1;
    loop {
        let next = tasks
            .iter()
            .map(|t| u64::div_ceil(time, t.period) * t.cost)
            .sum::<u64>()
            + 1;
        if next == time || next > 10_000_000 {
            return next;
        }
        time = next;
    }
}

// Tasks that repeat at these periods (each divides the next) and fill all but a small part of the time, and slow ones
// below them. Of these the last by rank alone passes at each level, so that each of the others is asked before.
fn staircase(
    random: &mut Random,
    periods: &[(u64, u64)],
    slow: usize,
    base: u64,
    cost: u64,
) -> Vec<Task> {
    let mut tasks: Vec<Task> = Vec::new();
    for (place, (period, cost)) in periods.iter().enumerate() {
        tasks.push(task(place, *period, *period, *cost));
    }
    for place in tasks.len()..tasks.len() + slow {
        let cost = if place == periods.len() { base } else { cost };
        tasks.push(task(
            place,
            10_000_000,
            10_000_000,
            cost + random.within(0, cost / 8),
        ));
    }
    for place in (periods.len()..tasks.len()).rev() {
        tasks[place].deadline = busy(&tasks[..=place]).min(10_000_000);
    }
    tasks
}

// Names of one to four locks out of so many.
fn names(random: &mut Random, locks: u64) -> Vec<String> {
    let count = random.within(1, 4) as usize;
    let mut names: Vec<String> = Vec::new();
    while names.len() < count {
        let name = format!("lock{:03}", random.within(0, locks - 1));
        if !names.contains(&name) {
            names.push(name);
        }
    }
    names
}

// The tasks with seven short sections each.
fn with_sections(random: &mut Random, mut tasks: Vec<Task>, locks: u64) -> Vec<Task> {
    for t in &mut tasks {
        t.sections = (0..7).map(|k| (k * 2, 1, names(random, locks))).collect();
    }
    tasks
}

// Tasks of ordinary periods, which take few demands.
fn ordinary(random: &mut Random) -> Vec<Task> {
    (0..32)
        .map(|place| {
            let period = random.within(1 + place as u64 / 2, 2 + place as u64) * 10_000;
            task(place, period, period, period / 48)
        })
        .collect()
}

// So many releases, round by round, each task a period or more after its last.
fn releases(tasks: &[Task], count: usize) -> String {
    let mut times: Vec<(u64, usize)> = Vec::new();
    let mut round = 0;
    while times.len() < count {
        times.extend((0..tasks.len()).map(|place| (round * 190_000 + place as u64 * 10, place)));
        round += 1;
    }
    times.truncate(count);
    let mut text = format!("until {}\n", 60_000_000);
    for (time, place) in times {
        writeln!(text, "{time} {}", tasks[place].name).unwrap();
    }
    text
}

// Eight teams with 200 commits each of one task, on a node of at most 32.
fn teams() -> String {
    let mut text = String::new();
    for count in 0..1600 {
        let (round, team, draft) = (count / 8, count % 8 + 1, count + 1);
        let (kind, cost) = (round % 4, 100 + (round * 7 + team) % 150);
        let period = 10_000 << kind;
        writeln!(
            text,
            "open {team}\nput {draft} t{team}_{kind} {kind} {period} {period} {cost}\ncommit {draft}"
        )
        .unwrap();
    }
    text
}

// So many commits of one team that change nothing.
fn commits(count: usize) -> String {
    (1..=count)
        .map(|draft| format!("open 1\ncommit {draft}\n"))
        .collect()
}

fn hostile(folder: &str) {
    let size = 16_000_000;
    let save = |name: &str, text: String| fs::write(format!("{folder}/{name}.toml"), text).unwrap();
    save("comment", format!("#{}\n", "x".repeat(size)));
    save("string", format!("a = \"{}\"\n", "x".repeat(size)));
    save(
        "headers",
        (0..16_000).map(|k| format!("[header{k}]\n")).collect(),
    );
    save(
        "keys",
        (0..16_000).map(|k| format!("key{k} = 1\n")).collect(),
    );
    let tasks: Vec<Task> = (0..16_000).map(|k| task(k, 1000, 1000, 1)).collect();
    save("tasks", document(&tasks));
}

fn main() {
    let words: Vec<String> = env::args().collect();
    let folder = &words[1];
    let mut random = Random(words[2].parse::<u64>().unwrap() | 1);
    let save = |name: &str, tasks: Vec<Task>| {
        fs::write(format!("{folder}/{name}.toml"), document(&tasks)).unwrap();
    };
    let many: Vec<(u64, u64)> = (0..12)
        .map(|k| (1000, 83 - k / 11))
        .chain([(10_000, 40)])
        .collect();
    save("chains", staircase(&mut random, &many, 19, 6000, 40));
    let powers: Vec<(u64, u64)> = (0..12).map(|k| (1000 << (k / 2), 253)).collect();
    save("harmonic", staircase(&mut random, &powers, 20, 8000, 300));
    let longest = staircase(
        &mut random,
        &[(1000, 600), (2000, 600), (4000, 399)],
        29,
        2100,
        8,
    );
    fs::write(format!("{folder}/longest.script"), script(&longest)).unwrap();
    save("longest", longest);
    let mut late = staircase(&mut random, &[(1000, 700), (2000, 598)], 28, 3000, 60);
    late[0].cost = 701;
    save("late-no", late);
    let held = staircase(
        &mut random,
        &[(1000, 600), (2000, 400), (4000, 796)],
        29,
        4000,
        80,
    );
    save("sections", with_sections(&mut random, held, 200));
    let tasks = ordinary(&mut random);
    let tasks = with_sections(&mut random, tasks, 200);
    fs::write(format!("{folder}/document.script"), script(&tasks)).unwrap();
    save("document", tasks);
    let short: Vec<Task> = (0..32)
        .map(|k| task(k, 180_000 + k as u64, 180_000, 5000))
        .collect();
    let mut held = short;
    for (place, t) in held.iter_mut().enumerate() {
        for k in 0..4u64 {
            t.sections.push((
                k * 1000,
                400,
                vec![format!("lock{:03}", (place as u64 * 3 + k) % 40)],
            ));
        }
    }
    fs::write(format!("{folder}/first.releases"), releases(&held, 5_000)).unwrap();
    fs::write(format!("{folder}/both.releases"), releases(&held, 10_000)).unwrap();
    save("held", held);
    fs::write(format!("{folder}/teams.script"), teams()).unwrap();
    for count in [40_000, 80_000] {
        fs::write(format!("{folder}/one-{count}.script"), commits(count)).unwrap();
    }
    hostile(folder);
}
