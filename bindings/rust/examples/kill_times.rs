//! Times guards and kills, in nanoseconds a call: the best of seven rounds.

use faultyard::{Error, Guard, Key, Kind};
use std::time::Instant;

const CLUSTER: &str = include_str!("replicated_log/cluster.toml");
const ROUNDS: u32 = 7;
const CALLS: u32 = 100_000;

/// Each order of a round: reboots of one process after the other, which nothing bars.
fn time(guard: &mut Guard) -> Result<u128, Error> {
    let names = ["p0", "p1", "p2", "p3", "p4"];
    let (key, kind) = (Key::Process, Kind::Reboot);
    let began = Instant::now();
    for name in names.iter().cycle().take(CALLS as usize) {
        let verdict = guard.kill(1, key, name, kind, kind, 0)?;
        assert_eq!(verdict.struck, Some(Kind::Reboot));
    }
    Ok(began.elapsed().as_nanos() / u128::from(CALLS))
}

fn main() -> Result<(), Error> {
    let config = CLUSTER.replace("10000", "1000000");
    let (mut opened, mut killed) = (Vec::new(), Vec::new());
    for _ in 0..ROUNDS {
        let began = Instant::now();
        let mut guard = Guard::open(&config)?;
        opened.push(began.elapsed().as_nanos());
        killed.push(time(&mut guard)?);
    }
    for (name, times) in [("Guard::open", opened), ("Guard::kill", killed)] {
        println!("{name} {:>6}", times.iter().min().expect("seven rounds"));
    }
    Ok(())
}
