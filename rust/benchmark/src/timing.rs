//! Taking times.
use std::hint::black_box;
use std::time::{Duration, Instant};

/// The best times of calls that do the same with the same input, in seconds: of the proved code, as a rule, and of what it runs beside.
pub struct Row<const N: usize = 2> {
    name: String,
    times: [f64; N],
}

/// In what the times of a table are given.
pub struct Unit {
    name: &'static str,
    in_a_second: f64,
}

pub const MICROSECONDS: Unit = Unit { name: "µs", in_a_second: 1e6 };
pub const NANOSECONDS: Unit = Unit { name: "ns", in_a_second: 1e9 };

/// Prints a table, row by row as they are measured: the time in the first column, and in each other the time and its ratio to the first.
pub fn print<const N: usize>(title: &str, unit: Unit, columns: [&str; N], rows: impl Iterator<Item = Row<N>>) {
    let title = format!("{title}, {}", unit.name);
    print!("{title:<52} {:>12}", columns[0]);
    columns[1..].iter().for_each(|column| print!(" {column:>12} {:>8}", "ratio"));
    println!();
    for Row { name, times } in rows {
        print!("{name:<52} {:>12.1}", times[0] * unit.in_a_second);
        times[1..].iter().for_each(|time| print!(" {:>12.1} {:>8.2}", time * unit.in_a_second, time / times[0]));
        println!();
    }
}

/// Does so many calls, and gives the seconds that one takes.
type Timed<'a> = &'a mut dyn FnMut(u32) -> f64;

pub fn timed<T>(mut run: impl FnMut() -> T) -> impl FnMut(u32) -> f64 {
    move |calls| {
        let start = Instant::now();
        (0..calls).for_each(|_| {
            black_box(run());
        });
        start.elapsed().as_secs_f64() / f64::from(calls)
    }
}

/// As many calls as take longer than the clock is coarse.
fn calls_a_round(run: Timed) -> u32 {
    (0..).map(|power| 1 << power).find(|&calls| run(calls) * f64::from(calls) > 50e-6).expect("some number")
}

/// Lets all take turns for some seconds, and keeps the best time of each.
pub fn race_all<const N: usize>(name: &str, mut runs: [Timed; N]) -> Row<N> {
    let calls = calls_a_round(runs[0]);
    let mut times = [f64::MAX; N];
    let start = Instant::now();
    for round in 0.. {
        times.iter_mut().zip(&mut runs).for_each(|(best, run)| *best = best.min(run(calls)));
        if round >= 5 && start.elapsed() > Duration::from_secs(2) {
            break;
        }
    }
    Row { name: name.to_string(), times }
}

/// The proved code beside one other, which gives back the same.
pub fn race<T: PartialEq + std::fmt::Debug>(name: &str, mut proved: impl FnMut() -> T, mut plain: impl FnMut() -> T) -> Row {
    assert_eq!(proved(), plain(), "{name}");
    race_all(name, [&mut timed(proved), &mut timed(plain)])
}

/// What is measured on.
pub fn machine() -> String {
    let cpu = std::fs::read_to_string("/proc/cpuinfo").unwrap_or_default();
    let model = cpu.lines().find(|line| line.starts_with("model name") || line.starts_with("CPU part")).unwrap_or("processor unknown");
    format!("{} ({})", std::env::consts::ARCH, model.replace('\t', ""))
}
