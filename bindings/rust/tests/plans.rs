//! Words of a seed, and plans that are drawn from them by the rules of docs/FORMATS.md.

use faultyard::{words, Attrition, Error, Guard, Key, Kind, Order, Plan};

const CONFIG: &str = include_str!("cluster.toml");

/// From the last place down to the second, each is swapped with the one that the next word gives.
fn shuffled(mut list: Vec<u32>, words: &[u32]) -> Vec<u32> {
    for (last, word) in (1..list.len()).rev().zip(words) {
        list.swap(last, *word as usize % (last + 1));
    }
    list
}

fn clog(process: u32, ticks: u64) -> Order {
    let value = format!("p{process}");
    let key = Key::Process;
    Order::Clog { key, value, ticks }
}

fn unclog(process: u32) -> Order {
    let value = format!("p{process}");
    let key = Key::Process;
    Order::Unclog { key, value }
}

fn kill(machine: u32, asked: Attrition) -> Order {
    Order::Kill {
        key: Key::Machine,
        value: format!("m{machine}"),
        kind: asked.kind,
        floor: asked.floor,
        tear: asked.tear,
    }
}

#[test]
fn the_words_are_those_of_the_published_vectors() {
    let zeros = [0x2fef003e, 0xd6405f89, 0xe8b85b7f, 0xa1a5091f];
    assert_eq!(words(0, 0, 4).unwrap(), zeros);
    let keyed = [0xa0e95ecf, 0x61a94a49, 0xedd5053e, 0x4b805b72];
    assert_eq!(words(1, 0, 4).unwrap(), keyed);
    let streamed = [0xb34b8f2b, 0xca068379, 0x7cd43051, 0xd14e8d4f];
    assert_eq!(words(0, 1, 4).unwrap(), streamed);
    assert_eq!(words(0, 1, 0), Ok(Vec::new()));
}

#[test]
fn plans_are_drawn_from_the_words() {
    let guard = Guard::open(CONFIG).unwrap();
    let asked = Attrition {
        to_kill: 9,
        to_leave: 0,
        kind: Kind::RebootAndDelete,
        floor: Kind::RebootProcess,
        tear: 5,
    };
    for seed in 0..50 {
        let drawn = words(seed, 2, 12).unwrap();
        let chosen: Vec<u32> = (0..6).filter(|p| drawn[*p as usize] % 2 == 1).collect();
        let clogs = chosen.iter().map(|process| clog(*process, 7));
        let freed = shuffled(chosen.clone(), &drawn[6..]);
        let wanted: Vec<Order> = clogs.chain(freed.into_iter().map(unclog)).collect();
        assert_eq!(guard.swizzle_plan(seed, 2, 7).unwrap(), wanted);
        // Machine m4 has two processes.
        let machines = shuffled((0..5).collect(), &drawn);
        let all = machines.iter().map(|machine| kill(*machine, asked));
        assert!(guard
            .attrition_plan(seed, 2, asked)
            .unwrap()
            .into_iter()
            .eq(all));
        let two = guard.attrition_plan(seed, 2, Attrition::default()).unwrap();
        let of_a_swarm = Attrition {
            kind: Kind::KillInstantly,
            floor: Kind::Reboot,
            tear: 0,
            ..asked
        };
        let wanted = machines[..2]
            .iter()
            .map(|machine| kill(*machine, of_a_swarm));
        assert!(two.into_iter().eq(wanted));
    }
    assert_eq!(guard.journal_len(), 0);
}

#[test]
fn the_orders_of_a_simulation_go_by_its_rules() {
    let guard = Guard::open(CONFIG).unwrap();
    let rolled = guard.plan_orders(Plan::Rolling, 7, 1, 13).unwrap();
    let kinds = [Kind::RebootProcess, Kind::Reboot, Kind::RebootAndDelete];
    let wanted = (0..13).map(|turn| {
        Some(Order::Kill {
            key: Key::Process,
            value: format!("p{}", turn % 6),
            kind: kinds[turn / 6],
            floor: Kind::RebootProcess,
            tear: 0,
        })
    });
    assert!(rolled.into_iter().eq(wanted));
    let mut rests = 0;
    for seed in 0..64 {
        let drawn = words(seed, 3, 8).unwrap();
        let stream = u64::from(drawn[7]) << 32 | u64::from(drawn[6]);
        let all = Attrition {
            to_kill: 5,
            to_leave: 0,
            kind: Kind::RebootAndDelete,
            floor: Kind::Reboot,
            tear: stream,
        };
        let wanted = guard.attrition_plan(seed, stream, all).unwrap();
        let made = guard.plan_orders(Plan::Attrition, seed, 3, 5).unwrap();
        assert!(made.into_iter().eq(wanted.into_iter().map(Some)));
        let mixed = guard.plan_orders(Plan::Mixed, seed, 3, 1).unwrap();
        assert_eq!(mixed[0].is_none(), drawn[0] % 64 == 63);
        rests += usize::from(mixed[0].is_none());
    }
    assert!(rests > 0);
    assert_eq!(guard.plan_orders(Plan::Mixed, 0, 0, 0), Ok(Vec::new()));
    assert_eq!(guard.journal_len(), 0);
}

#[test]
fn a_floor_above_its_kind_is_no_plan() {
    let guard = Guard::open(CONFIG).unwrap();
    let above = Attrition {
        kind: Kind::RebootProcess,
        ..Attrition::default()
    };
    assert_eq!(guard.attrition_plan(0, 0, above), Err(Error::Floor));
}

#[test]
fn a_plan_is_read_whole() {
    let processes: String = (0..200)
        .map(|p| format!("{{processid = \"p{p}\", machineid = \"m{p}\", zoneid = \"z\"}},"))
        .collect();
    let config = format!(
        "journal_limit = 9\npolicies = [\"One()\"]\nprocess = [{processes}]\n\
         actor = [{{role = \"fault\"}}]\n"
    );
    let guard = Guard::open(config).unwrap();
    let asked = Attrition {
        to_kill: 150,
        ..Attrition::default()
    };
    assert_eq!(guard.attrition_plan(1, 0, asked).unwrap().len(), 150);
}
