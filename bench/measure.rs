//! Runs `desk` and the plain program as whole processes in turn and prints a table of the least times:
//! `measure DESK PLAIN FOLDER RUNS`.

use std::process::{Command, Stdio};
use std::time::{Duration, Instant};
use std::{env, fs};

struct Bench {
    desk: String,
    plain: String,
    folder: String,
    runs: usize,
}

// How long a process takes, and what it wrote.
fn run(program: &str, words: &[String]) -> (Duration, Vec<u8>) {
    let begin = Instant::now();
    let output = Command::new(program)
        .args(words)
        .stdin(Stdio::null())
        .output()
        .unwrap();
    (begin.elapsed(), output.stdout)
}

impl Bench {
    fn words(&self, command: &str, files: &[&str]) -> Vec<String> {
        let paths = files.iter().map(|file| format!("{}/{file}", self.folder));
        [command.to_string()].into_iter().chain(paths).collect()
    }

    // The least times of the plain program and of `desk`, in turn, in milliseconds. The answers have to agree where both
    // answer the same.
    fn pair(&self, plain: &[String], desk: &[String], agree: bool) -> (f64, f64) {
        let mut least = [Duration::MAX; 2];
        for _ in 0..self.runs {
            let (one, said) = run(&self.plain, plain);
            let (other, answered) = run(&self.desk, desk);
            assert!(!agree || said == answered, "the answers differ: {desk:?}");
            least = [least[0].min(one), least[1].min(other)];
        }
        (least[0].as_secs_f64() * 1e3, least[1].as_secs_f64() * 1e3)
    }

    fn row(&self, name: &str, plain: (&str, &[&str]), desk: (&str, &[&str])) -> (f64, f64) {
        let agree = plain.0 != "read";
        let times = self.pair(
            &self.words(plain.0, plain.1),
            &self.words(desk.0, desk.1),
            agree,
        );
        self.print(name, times);
        times
    }

    fn print(&self, name: &str, times: (f64, f64)) {
        println!(
            "| {name} | {:.1} | {:.1} | {:.2} |",
            times.0,
            times.1,
            times.1 / times.0
        );
    }

    fn admit(&self) {
        let sets = [
            "chains", "harmonic", "late-no", "longest", "sections", "document",
        ];
        let mut sums = (0.0, 0.0);
        for set in sets {
            let file = format!("{set}.toml");
            let times = self.row(
                &format!("admit {set}"),
                ("admit", &[&file]),
                ("admit", &[&file]),
            );
            sums = (sums.0 + times.0, sums.1 + times.1);
        }
        self.print("admit, sum", sums);
    }

    fn certificates(&self) {
        let set = ["longest.toml"];
        self.row("certify longest", ("certify", &set), ("certify", &set));
        let (_, text) = run(&self.desk, &self.words("certify", &set));
        fs::write(format!("{}/longest.certificate", self.folder), &text).unwrap();
        let both = ["longest.toml", "longest.certificate"];
        self.row(
            &format!("check longest ({} bytes)", text.len()),
            ("check", &both),
            ("check", &both),
        );
    }

    // A set committed by one team, with so many workers, beside the plain program that admits it with one thread.
    fn workers(&self) {
        for set in ["longest", "document"] {
            for workers in ["1", "2", "4"] {
                let mut words = self.words("rush", &[&format!("{set}.script")]);
                words.push(workers.to_string());
                let plain = self.words("admit", &[&format!("{set}.toml")]);
                let times = self.pair(&plain, &words, false);
                self.print(&format!("rush {set}, workers: {workers}"), times);
            }
        }
    }

    // Commands of `desk` beside others of it, in turn.
    fn beside(&self, name: &str, first: &[String], second: &[String]) {
        let desk = Bench {
            desk: self.desk.clone(),
            plain: self.desk.clone(),
            folder: self.folder.clone(),
            runs: self.runs,
        };
        self.print(name, desk.pair(first, second, false));
    }

    // `explain`, `judge` and `limits` beside `admit`. Of a set without an order `judge` reads no settings.
    fn beside_admit(&self) {
        for set in [
            "chains", "harmonic", "late-no", "longest", "sections", "document",
        ] {
            let (file, settings) = (format!("{set}.toml"), format!("{set}.settings"));
            let (_, text) = run(&self.desk, &self.words("settings", &[&file]));
            fs::write(format!("{}/{settings}", self.folder), text).unwrap();
            let admit = self.words("admit", &[&file]);
            let judge = self.words("judge", &[&file, &settings]);
            for (command, words) in [
                ("explain", self.words("explain", &[&file])),
                ("judge", judge),
                ("limits", self.words("limits", &[&file])),
            ] {
                self.beside(&format!("{command} {set}, beside admit"), &admit, &words);
            }
        }
    }

    // A script's run by more workers beside that by one, and of twice as many commits.
    fn scripts(&self) {
        let rush = |script: &str, workers: &str| {
            let mut words = self.words("rush", &[script]);
            words.push(workers.to_string());
            words
        };
        for script in ["longest.script", "teams.script"] {
            for workers in ["2", "4", "8"] {
                let (one, more) = (rush(script, "1"), rush(script, workers));
                let name = format!("rush {script}, workers: {workers}, beside 1");
                self.beside(&name, &one, &more);
            }
        }
        let (half, whole) = (rush("one-40000.script", "1"), rush("one-80000.script", "1"));
        self.beside("rush 80,000 commits, beside 40,000", &half, &whole);
        let play = self.words("play", &["one-80000.script"]);
        self.beside("rush 80,000 commits, beside play", &play, &whole);
    }

    fn against_reading(&self) {
        for name in ["first", "both"] {
            let files = ["held.toml", &format!("{name}.releases")];
            let count = fs::read_to_string(format!("{}/{}", self.folder, files[1]))
                .unwrap()
                .lines()
                .count()
                - 1;
            self.row(
                &format!("simulate {count} releases, beside reading"),
                ("read", &files),
                ("simulate", &files),
            );
        }
        let documents = [
            ("comment", "a comment of 16 MB"),
            ("string", "a string of 16 MB"),
            ("headers", "16,000 headers"),
            ("keys", "16,000 keys"),
            ("tasks", "16,000 tasks"),
        ];
        for (name, what) in documents {
            let file = [&*format!("{name}.toml")];
            self.row(
                &format!("admit {what}, beside reading"),
                ("read", &file),
                ("admit", &file),
            );
        }
    }
}

fn main() {
    let words: Vec<String> = env::args().collect();
    let bench = Bench {
        desk: words[1].clone(),
        plain: words[2].clone(),
        folder: words[3].clone(),
        runs: words[4].parse().unwrap(),
    };
    println!("| Work | plain, ms | desk, ms | ratio |\n|---|---|---|---|");
    bench.admit();
    bench.certificates();
    bench.workers();
    bench.against_reading();
    println!("\n| Work | first, ms | second, ms | ratio |\n|---|---|---|---|");
    bench.beside_admit();
    bench.scripts();
}
