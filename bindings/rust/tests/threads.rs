//! Guards that move between threads, and that threads share.

use faultyard::{Error, Guard, Key, Kind, Verdict};
use std::sync::{Arc, Barrier, Mutex};
use std::thread;

const CONFIG: &str = include_str!("cluster.toml");
const THREADS: u32 = 8;
const ROUNDS: u32 = 250;

/// A round of one thread: a process is emptied or rebooted, runs again and is healed. Answers what
/// the guard answered.
fn round(guard: &mut Guard, process: u32) -> (Verdict, Result<(), Error>, Result<(), Error>) {
    let value = format!("p{process}");
    let (kind, floor) = (Kind::RebootAndDelete, Kind::RebootProcess);
    let verdict = guard.kill(1, Key::Process, &value, kind, floor, 0);
    (
        verdict.expect("a verdict"),
        guard.up(0, process),
        guard.heal(0, process),
    )
}

fn rounds_alone(process: u32) -> String {
    let mut guard = Guard::open(CONFIG).unwrap();
    for _ in 0..ROUNDS {
        let _ = round(&mut guard, process);
    }
    guard.audit().unwrap()
}

#[test]
fn eight_guards_in_eight_threads_have_nothing_in_common() {
    let alone: Vec<String> = (0..6).map(rounds_alone).collect();
    let together = Arc::new(Barrier::new(THREADS as usize));
    let mut threads = Vec::new();
    for number in 0..THREADS {
        let together = Arc::clone(&together);
        threads.push(thread::spawn(move || {
            together.wait();
            rounds_alone(number % 6)
        }));
    }
    for (number, thread) in threads.into_iter().enumerate() {
        assert!(thread.join().unwrap() == alone[number % 6], "{number}");
    }
}

#[test]
fn one_guard_behind_a_mutex_is_shared_by_eight_threads() {
    let shared = Mutex::new(Guard::open(CONFIG).unwrap());
    thread::scope(|scope| {
        for number in 0..THREADS {
            let shared = &shared;
            scope.spawn(move || {
                for _ in 0..ROUNDS {
                    own_entries(&mut shared.lock().unwrap(), number % 6);
                }
            });
        }
    });
    let guard = shared.into_inner().unwrap();
    assert_eq!(guard.journal_len(), (THREADS * ROUNDS * 3) as usize);
}

/// Makes a round, and holds its answers against the entries that it left.
fn own_entries(guard: &mut Guard, process: u32) {
    let at = guard.journal_len();
    let (verdict, up, heal) = round(guard, process);
    // Each round heals what it destroyed, so that nothing bars the next.
    let struck = Some(Kind::RebootAndDelete);
    assert_eq!((verdict.struck, verdict.rule), (struck, None));
    assert_eq!((up, heal), (Ok(()), Ok(())));
    let entries: Vec<String> = (at..at + 3).map(|at| guard.entry(at).unwrap()).collect();
    for (entry, name) in entries.iter().zip(["kill", "up", "heal"]) {
        assert!(
            entry.starts_with(&format!("{{\"act\":{{\"{name}\":")),
            "{entry}"
        );
    }
    assert!(entries[0].contains(&format!("\"value\":\"p{process}\"")));
    assert!(entries[1].contains(&format!("{{\"process\":{process}}}")));
}

#[test]
fn a_guard_is_opened_used_and_closed_in_three_threads() {
    let opened = thread::spawn(|| Guard::open(CONFIG).unwrap());
    let mut guard = opened.join().unwrap();
    assert!(guard.up(0, 0).is_err());
    let closed = thread::spawn(move || {
        assert_eq!(guard.journal_len(), 1);
        drop(guard);
    });
    closed.join().unwrap();
}

#[test]
fn eight_threads_ask_at_once() {
    let mut guard = Guard::open(CONFIG).unwrap();
    let (kind, floor) = (Kind::KillInstantly, Kind::RebootProcess);
    let verdict = guard.kill(1, Key::Zone, "z0", kind, floor, 0).unwrap();
    assert_eq!(verdict.struck, Some(kind));
    let line = guard.entry(0).unwrap();
    let together = Barrier::new(THREADS as usize);
    let ask = || {
        together.wait();
        for _ in 0..ROUNDS {
            assert!(guard.is_destroyed(1) && !guard.is_destroyed(2));
            assert!(guard.left().iter().eq(2..6));
            assert!(guard.gone().iter().eq(0..2) && guard.destroyed() == guard.gone());
            assert!(guard.targets(Key::Zone, "z1").unwrap().iter().eq(2..4));
            assert_eq!((guard.process("p5"), guard.process_count()), (Some(5), 6));
            assert_eq!((guard.keeper(0), guard.sight().now), (None, 0));
            assert_eq!(guard.entry(0).as_ref(), Ok(&line));
        }
    };
    thread::scope(|scope| {
        for _ in 0..THREADS {
            scope.spawn(ask);
        }
    });
    assert_eq!(guard.journal_len(), 1);
}
