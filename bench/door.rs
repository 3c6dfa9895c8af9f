//! Whether it pays to look longer at a closed door before a thread sleeps: a model in plain Rust of
//! the door of a shared cluster, which is the standard library's mutex.
//!
//!     rustc --edition 2024 -C opt-level=3 -o bin/door bench/door.rs && bin/door
//!
//! Threads take turns of some 300 ns each behind one mutex. Before it locks, a thread looks so many
//! times whether the mutex is free, which adds to the hundred looks that the mutex itself takes. A
//! row is the best of 5 rounds in turn, in nanoseconds a turn of 512,000 turns in all.

use std::hint::{black_box, spin_loop};
use std::sync::Mutex;
use std::thread;
use std::time::Instant;

const TURNS: usize = 512_000;
const LOOKS: [usize; 4] = [0, 100, 1_000, 10_000];

/// The work of a turn.
fn turn(state: &mut u64) {
    for _ in 0..150 {
        *state = black_box(*state)
            .wrapping_mul(6_364_136_223_846_793_005)
            .rotate_left(17);
    }
}

/// Takes a turn, after so many looks at most.
fn enter(door: &Mutex<u64>, looks: usize) {
    for _ in 0..looks {
        if let Ok(mut state) = door.try_lock() {
            return turn(&mut state);
        }
        spin_loop();
    }
    turn(&mut door.lock().expect("nobody panics"));
}

/// Nanoseconds a turn.
fn timed(threads: usize, looks: usize) -> u128 {
    let door = Mutex::new(1);
    let begun = Instant::now();
    thread::scope(|scope| {
        for _ in 0..threads {
            scope.spawn(|| (0..TURNS / threads).for_each(|_| enter(&door, looks)));
        }
    });
    begun.elapsed().as_nanos() / TURNS as u128
}

fn main() {
    println!("threads   looks: {LOOKS:?}");
    for threads in [1, 2, 8, 64] {
        let mut best = [u128::MAX; LOOKS.len()];
        for _ in 0..5 {
            for (best, looks) in best.iter_mut().zip(LOOKS) {
                *best = (*best).min(timed(threads, looks));
            }
        }
        println!("{threads:>7}   ns a turn: {best:?}");
    }
}
