//! Times reports in the process and runs of the program `report --json`, for each line of a file, and for files:
//! `cargo run --release --example time -- PROGRAM MODULES.jsonl [MODULE.json ..]`

use pethuvazh::{report_json, Options};
use std::hint::black_box;
use std::io::Write;
use std::process::{Command, Stdio};
use std::time::Instant;

/// Returns the shortest of some runs, in microseconds.
fn shortest(runs: usize, mut work: impl FnMut()) -> f64 {
    let times = (0..runs).map(|_| {
        let start = Instant::now();
        work();
        start.elapsed().as_secs_f64() * 1e6
    });
    times.fold(f64::MAX, f64::min)
}

fn by_program(program: &str, module: &[u8]) -> Vec<u8> {
    let mut command = Command::new(program);
    command
        .arg("--json")
        .stdin(Stdio::piped())
        .stdout(Stdio::piped());
    let mut child = command.spawn().expect("the program is built");
    let mut input = child.stdin.take().expect("it is piped");
    std::thread::scope(|scope| {
        scope.spawn(move || input.write_all(module));
        child.wait_with_output().expect("it ends").stdout
    })
}

/// Times a module in the process and by the program, after a comparison of both answers.
fn times(program: &str, module: &[u8], runs: usize) -> (f64, f64) {
    let report = report_json(module, Options::default()).expect("it is a module");
    assert_eq!(report.text.as_bytes(), by_program(program, module));
    let inside = shortest(runs, || {
        drop(black_box(report_json(module, Options::default())))
    });
    let outside = shortest(runs.div_ceil(10).max(3), || {
        drop(by_program(program, module))
    });
    (inside, outside)
}

fn main() {
    let words: Vec<String> = std::env::args().skip(1).collect();
    let [program, lines, files @ ..] = &words[..] else {
        eprintln!("usage: time PROGRAM MODULES.jsonl [MODULE.json ..]");
        std::process::exit(2);
    };
    let lines = std::fs::read_to_string(lines).expect("MODULES.jsonl");
    let (mut inside, mut outside, mut bytes, mut count) = (0.0, 0.0, 0, 0);
    for line in lines.lines() {
        let from = line.find("\"module\":").expect("a module") + 9;
        let module = line.trim_end()[from..]
            .strip_suffix('}')
            .expect("an object");
        let found = times(program, module.as_bytes(), 200);
        (inside, outside) = (inside + found.0, outside + found.1);
        (bytes, count) = (bytes + module.len(), count + 1);
    }
    let mean = |all: f64| all / f64::from(count);
    println!(
        "{count} modules, {bytes} bytes: {:.1} us each here, {:.1} us by the program",
        mean(inside),
        mean(outside)
    );
    for path in files {
        let module = std::fs::read(path).expect("MODULE.json");
        let (inside, outside) = times(program, &module, 5);
        println!(
            "{path}, {} bytes: {inside:.0} us here, {outside:.0} us by the program",
            module.len()
        );
    }
}
