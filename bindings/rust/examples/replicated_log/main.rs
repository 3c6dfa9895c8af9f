//! A deterministic simulator of a replicated log: five nodes in three zones, a leader by majority,
//! and random kills that a guard decides, or nobody.
//!
//! The property: an acknowledged write is never lost.

mod random;
mod store;
mod world;

use std::process::ExitCode;
use std::sync::atomic::{AtomicU64, Ordering::Relaxed};
use std::time::Instant;
use std::{env, fs, thread};
use world::{Outcome, Verdict, World};

const USAGE: &str =
    "usage: replicated_log [--unguarded] [--bug BUG] [--first SEED] [--seeds COUNT] \
[--threads COUNT] [--audit FILE]

--bug is vote-blank, ack-unsynced or heal-early; --audit writes that of the first seed.";

/// A fault that is planted in the store or in the simulator.
#[derive(Clone, Copy, Debug, PartialEq, Eq)]
pub enum Bug {
    None,
    /// A node whose disk was emptied votes and counts at once.
    VoteBlank,
    /// A node vouches for what it hasn't synced.
    AckUnsynced,
    /// The simulator reports a node healed before it has caught up.
    HealEarly,
}

struct Options {
    is_guarded: bool,
    bug: Bug,
    first: u64,
    seeds: u64,
    threads: u64,
    audit: Option<String>,
}

fn main() -> ExitCode {
    let options = match options(env::args().skip(1)) {
        Some(options) => options,
        None => {
            eprintln!("{USAGE}");
            return ExitCode::from(2);
        }
    };
    let began = Instant::now();
    let outcomes = run(&options);
    let seconds = began.elapsed().as_secs_f64();
    print_summary(&options, &outcomes);
    let rate = options.seeds as f64 / seconds;
    eprintln!("{seconds:.1} s, {rate:.0} seeds a second");
    if let Some(file) = &options.audit {
        let audit = outcomes[0].audit.as_deref().unwrap_or("");
        if let Err(why) = fs::write(file, audit) {
            eprintln!("{file}: {why}");
            return ExitCode::from(3);
        }
    }
    let is_sound = outcomes.iter().all(|it| it.verdict == Verdict::Sound);
    ExitCode::from(u8::from(!is_sound))
}

fn options(mut words: impl Iterator<Item = String>) -> Option<Options> {
    let threads = thread::available_parallelism().map_or(1, |count| count.get() as u64);
    let mut options = Options {
        is_guarded: true,
        bug: Bug::None,
        first: 1,
        seeds: 1000,
        threads,
        audit: None,
    };
    while let Some(word) = words.next() {
        match word.as_str() {
            "--unguarded" => options.is_guarded = false,
            "--bug" => options.bug = bug(&words.next()?)?,
            "--first" => options.first = words.next()?.parse().ok()?,
            "--seeds" => options.seeds = words.next()?.parse().ok().filter(|it| *it > 0)?,
            "--threads" => options.threads = words.next()?.parse().ok().filter(|it| *it > 0)?,
            "--audit" => options.audit = Some(words.next()?),
            _ => return None,
        }
    }
    options.first.checked_add(options.seeds)?;
    Some(options)
}

fn bug(name: &str) -> Option<Bug> {
    match name {
        "vote-blank" => Some(Bug::VoteBlank),
        "ack-unsynced" => Some(Bug::AckUnsynced),
        "heal-early" => Some(Bug::HealEarly),
        _ => None,
    }
}

/// Runs all seeds; each thread takes the next one.
fn run(options: &Options) -> Vec<Outcome> {
    let next = AtomicU64::new(options.first);
    let end = options.first + options.seeds;
    let some = || {
        let seeds = std::iter::from_fn(|| Some(next.fetch_add(1, Relaxed)).filter(|it| *it < end));
        let run = |seed| {
            let keeps_audit = options.audit.is_some() && seed == options.first;
            World::new(seed, options.is_guarded, options.bug).run(keeps_audit)
        };
        seeds.map(run).collect::<Vec<Outcome>>()
    };
    let mut outcomes = Vec::new();
    thread::scope(|scope| {
        let mut threads = Vec::new();
        for _ in 0..options.threads {
            threads.push(scope.spawn(some));
        }
        for thread in threads {
            outcomes.extend(thread.join().expect("no panic"));
        }
    });
    outcomes.sort_by_key(|outcome| outcome.seed);
    outcomes
}

fn print_summary(options: &Options, outcomes: &[Outcome]) {
    let sum = |of: fn(&Outcome) -> u64| outcomes.iter().map(of).sum::<u64>();
    let guarded = match options.is_guarded {
        true => "guarded",
        false => "unguarded",
    };
    let (bug, seeds, first) = (options.bug, options.seeds, options.first);
    println!("{guarded}, bug {bug:?}, {seeds} seeds from {first}");
    print_seeds("lost acknowledged writes", Verdict::Lost, outcomes);
    print_seeds("without a leader", Verdict::NoLeader, outcomes);
    let (acknowledged, lost) = (sum(|it| it.acknowledged), sum(|it| it.lost));
    println!("{acknowledged} writes acknowledged, {lost} lost");
    let (orders, lessened) = (sum(|it| it.orders), sum(|it| it.lessened));
    println!("{orders} kills ordered, {lessened} lessened");
    let (rejoined, elected) = (sum(|it| it.rejoined), sum(|it| it.elected));
    println!("{rejoined} nodes rejoined, {elected} leaders elected");
    let events = sum(|it| it.events);
    let traces = outcomes.iter().map(|it| it.trace);
    let trace = traces.fold(0, |all: u64, trace| all.rotate_left(5) ^ trace);
    println!("{events} events, trace {trace:016x}");
}

/// How many seeds ended so, and the first few of them.
fn print_seeds(name: &str, verdict: Verdict, outcomes: &[Outcome]) {
    let those = outcomes.iter().filter(|it| it.verdict == verdict);
    let seeds: Vec<u64> = those.map(|it| it.seed).collect();
    match seeds.len() {
        0 => println!("{name}: 0 seeds"),
        count => println!("{name}: {count} seeds {:?}", &seeds[..count.min(8)]),
    }
}
