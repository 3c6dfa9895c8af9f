//! Time, the network, the disks' delays, the client and the kills, all from one seed.

use crate::random::Random;
use crate::store::{Data, Effect, Entry, Message, Node, Role, NODES};
use crate::Bug;
use faultyard::{Error, Guard, Key, Kind};
use std::collections::BTreeMap;

const CLUSTER: &str = include_str!("cluster.toml");
/// Actors of the cluster file.
const STORAGE: u32 = 0;
const FAULT: u32 = 1;
/// That of all processes.
const DATA_CENTER: &str = "d0";

/// Times are in microseconds.
const MS: u64 = 1000;
const LAST_KILL: u64 = 10_000 * MS;
/// By then the store has to have recovered.
const END: u64 = 14_000 * MS;

const FNV_BASIS: u64 = 0xCBF2_9CE4_8422_2325;
const FNV_PRIME: u64 = 0x100_0000_01B3;

enum Event {
    Tick {
        node: usize,
        life: u32,
    },
    Deliver {
        to: usize,
        from: usize,
        message: Message,
    },
    Synced {
        node: usize,
        life: u32,
        cuts: u32,
        upto: usize,
    },
    Restart {
        node: usize,
        life: u32,
    },
    Order,
    Client,
}

/// Where a process lies, by the cluster file.
#[derive(Clone, Copy)]
struct Place {
    name: &'static str,
    zone: &'static str,
}

/// A kill that was drawn.
struct Order {
    key: Key,
    value: &'static str,
    targets: Vec<usize>,
    kind: Kind,
    tear: u64,
    /// How long the processes stay down.
    down: u64,
}

#[derive(Clone, Copy, Debug, Default, PartialEq, Eq)]
pub enum Verdict {
    #[default]
    Sound,
    /// An acknowledged write isn't served, or on no disk where nobody leads.
    Lost,
    /// Nobody leads, though the disks have every acknowledged write.
    NoLeader,
}

/// What came of a seed.
#[derive(Default)]
pub struct Outcome {
    pub seed: u64,
    pub verdict: Verdict,
    pub acknowledged: u64,
    pub lost: u64,
    pub orders: u64,
    /// How many orders struck with less than was ordered, or not at all.
    pub lessened: u64,
    pub rejoined: u64,
    pub elected: u64,
    pub events: u64,
    /// A hash of all that happened: two runs of a seed have one.
    pub trace: u64,
    pub audit: Option<String>,
}

pub struct World {
    now: u64,
    /// What is to happen, by its time and the order in which it was scheduled.
    queue: BTreeMap<(u64, u64), Event>,
    scheduled: u64,
    weather: Random,
    faults: Random,
    nodes: Vec<Node>,
    places: Vec<Place>,
    /// How many disks there were beside the first five.
    disks: u64,
    /// Whether each write of the client is acknowledged.
    writes: Vec<bool>,
    guard: Option<Guard>,
    bug: Bug,
    outcome: Outcome,
}

impl World {
    pub fn new(seed: u64, is_guarded: bool, bug: Bug) -> World {
        let guard = is_guarded.then(|| Guard::open(CLUSTER).expect("a cluster file"));
        let mut world = World {
            now: 0,
            queue: BTreeMap::new(),
            scheduled: 0,
            weather: Random::new(seed),
            faults: Random::new(!seed),
            nodes: (0..NODES).map(|me| Node::new(me, bug)).collect(),
            places: places(),
            disks: 0,
            writes: Vec::new(),
            guard,
            bug,
            outcome: Outcome {
                seed,
                trace: FNV_BASIS,
                ..Outcome::default()
            },
        };
        (0..NODES).for_each(|node| world.start(node));
        world.after(200 * MS, Event::Client);
        world.after(500 * MS, Event::Order);
        world
    }

    pub fn run(mut self, keeps_audit: bool) -> Outcome {
        while let Some(&(at, number)) = self.queue.keys().next() {
            if at > END {
                break;
            }
            let event = self.queue.remove(&(at, number)).expect("it is the first");
            self.now = at;
            self.outcome.events += 1;
            self.note(at ^ number << 32);
            self.happen(event);
        }
        self.judge();
        if keeps_audit {
            let audit = self.guard.as_ref().map(Guard::audit);
            self.outcome.audit = audit.map(|it| it.expect("memory for the audit"));
        }
        self.outcome
    }

    fn after(&mut self, delay: u64, event: Event) {
        self.scheduled += 1;
        self.queue.insert((self.now + delay, self.scheduled), event);
    }

    /// Takes a number into the hash: FNV-1a, by words.
    fn note(&mut self, word: u64) {
        self.outcome.trace = (self.outcome.trace ^ word).wrapping_mul(FNV_PRIME);
    }

    fn happen(&mut self, event: Event) {
        match event {
            Event::Tick { node, life } => {
                if self.nodes[node].life == life {
                    self.tick(node);
                }
            }
            Event::Deliver { to, from, message } => {
                if self.nodes[to].is_up {
                    self.nodes[to].receive(from, message);
                    self.carry_out(to);
                }
            }
            Event::Synced {
                node,
                life,
                cuts,
                upto,
            } => {
                let it = &mut self.nodes[node];
                if (it.life, it.cuts) == (life, cuts) {
                    it.synced(upto);
                    self.carry_out(node);
                }
            }
            Event::Restart { node, life } => {
                if self.nodes[node].life == life {
                    self.restart(node);
                }
            }
            Event::Client => self.client(),
            Event::Order => self.order(),
        }
    }

    fn tick(&mut self, node: usize) {
        let deadline = self.now + self.weather.between(100 * MS, 200 * MS);
        let now = self.now;
        let it = &mut self.nodes[node];
        match it.election_at {
            _ if it.role == Role::Leader => it.replicate(),
            None => it.election_at = Some(deadline),
            Some(at) if now >= at => {
                it.election_at = Some(deadline);
                it.campaign();
            }
            Some(_) => {}
        }
        let life = it.life;
        self.carry_out(node);
        self.after(10 * MS, Event::Tick { node, life });
    }

    fn start(&mut self, node: usize) {
        let it = &mut self.nodes[node];
        it.is_up = true;
        it.election_at = None;
        let life = it.life;
        let delay = self.weather.between(0, 10 * MS);
        self.after(delay, Event::Tick { node, life });
    }

    fn restart(&mut self, node: usize) {
        let process = node as u32;
        self.report(|guard| guard.up(STORAGE, process));
        if self.bug == Bug::HealEarly {
            self.report(|guard| match guard.is_destroyed(process) {
                true => guard.heal(STORAGE, process),
                false => Ok(()),
            });
        }
        self.start(node);
    }

    /// The client writes to the newest leader.
    fn client(&mut self) {
        let leaders = self.nodes.iter_mut();
        let leaders = leaders.filter(|node| node.is_up && node.role == Role::Leader);
        if let Some(leader) = leaders.max_by_key(|node| node.disk.term) {
            let node = leader.me;
            leader.write(Data::Write(self.writes.len() as u64));
            self.writes.push(false);
            self.carry_out(node);
        }
        let delay = self.weather.between(4 * MS, 16 * MS);
        if self.now < LAST_KILL {
            self.after(delay, Event::Client);
        }
    }

    /// Does what a node wants.
    fn carry_out(&mut self, node: usize) {
        for effect in self.nodes[node].take_effects() {
            match effect {
                Effect::Send { to, message } => self.send(node, to, message),
                Effect::Sync => self.sync(node),
                Effect::Acknowledge { write } => {
                    self.writes[write as usize] = true;
                    self.note(write);
                }
                Effect::Rejoined => {
                    self.outcome.rejoined += 1;
                    if self.bug != Bug::HealEarly {
                        self.report(|guard| guard.heal(STORAGE, node as u32));
                    }
                }
                Effect::Elected => self.outcome.elected += 1,
            }
        }
    }

    /// Of a hundred messages one is lost, and they overtake each other.
    fn send(&mut self, from: usize, to: usize, message: Message) {
        let is_lost = self.weather.between(0, 100) == 0;
        let delay = self.weather.between(200, 3 * MS);
        if !is_lost {
            self.after(delay, Event::Deliver { to, from, message });
        }
    }

    fn sync(&mut self, node: usize) {
        let it = &mut self.nodes[node];
        if !it.is_syncing {
            it.is_syncing = true;
            let (life, cuts, upto) = (it.life, it.cuts, it.disk.log.len());
            let delay = self.weather.between(200, 20 * MS);
            self.after(
                delay,
                Event::Synced {
                    node,
                    life,
                    cuts,
                    upto,
                },
            );
        }
    }

    /// Tells the guard what became of a process. A refusal says that guard and simulator disagree.
    fn report(&mut self, tell: impl FnOnce(&mut Guard) -> Result<(), Error>) {
        if let Some(guard) = &mut self.guard {
            tell(guard).expect("guard and simulator agree");
        }
    }

    fn draw_order(&mut self) -> Order {
        let faults = &mut self.faults;
        let node = faults.between(0, NODES as u64) as usize;
        let Place { name, zone } = self.places[node];
        let is_neighbor = |it: &usize| self.places[*it].zone == zone;
        let (key, value, targets) = match faults.between(0, 100) {
            0..=4 => (Key::DataCenter, DATA_CENTER, (0..NODES).collect()),
            5..=34 => (Key::Zone, zone, (0..NODES).filter(is_neighbor).collect()),
            _ => (Key::Process, name, vec![node]),
        };
        let kind = match faults.between(0, 100) {
            0..=14 => Kind::RebootProcess,
            15..=54 => Kind::Reboot,
            55..=95 => Kind::RebootAndDelete,
            _ => Kind::KillInstantly,
        };
        let tear = faults.word();
        let down = faults.between(30 * MS, 300 * MS);
        Order {
            key,
            value,
            targets,
            kind,
            tear,
            down,
        }
    }

    /// Orders a kill, and does what the guard answers; without one, what was ordered.
    fn order(&mut self) {
        let order = self.draw_order();
        self.outcome.orders += 1;
        let struck = match &mut self.guard {
            None => Some(order.kind),
            Some(guard) => {
                let floor = Kind::RebootProcess;
                let answer =
                    guard.kill(FAULT, order.key, order.value, order.kind, floor, order.tear);
                answer.expect("a verdict").struck
            }
        };
        self.outcome.lessened += u64::from(struck < Some(order.kind));
        self.note(struck.map_or(0, |kind| u64::from(u32::from(kind))));
        if let Some(kind) = struck {
            for node in &order.targets {
                self.strike(*node, kind, &order);
            }
        }
        let delay = self.faults.between(50 * MS, 400 * MS);
        if self.now + delay < LAST_KILL {
            self.after(delay, Event::Order);
        }
    }

    fn strike(&mut self, node: usize, kind: Kind, order: &Order) {
        let it = &mut self.nodes[node];
        if it.is_gone {
            return;
        }
        it.end();
        match kind {
            Kind::RebootProcess => it.keep_all(),
            Kind::Reboot => it.tear(order.tear),
            Kind::RebootAndDelete | Kind::KillInstantly => {
                self.disks += 1;
                it.empty(self.disks);
                it.is_gone = kind.is_final();
            }
        }
        if !it.is_gone {
            let life = it.life;
            self.after(order.down, Event::Restart { node, life });
        }
    }

    /// Each acknowledged write has to be served by the last leader; where nobody leads, it has to
    /// be synced on a disk.
    fn judge(&mut self) {
        let serves = |node: &&Node| {
            let committed = node.commit.checked_sub(1).map(|at| node.disk.log[at].term);
            node.is_up && node.role == Role::Leader && committed == Some(node.disk.term)
        };
        let leader = self
            .nodes
            .iter()
            .filter(serves)
            .max_by_key(|node| node.disk.term);
        let mut is_kept = vec![false; self.writes.len()];
        let mut keep = |log: &[Entry]| {
            for entry in log {
                if let Data::Write(write) = entry.data {
                    is_kept[write as usize] = true;
                }
            }
        };
        match leader {
            Some(leader) => keep(&leader.disk.log[..leader.commit]),
            None => self
                .nodes
                .iter()
                .for_each(|node| keep(&node.disk.log[..node.disk.synced])),
        }
        let writes = || self.writes.iter().zip(&is_kept);
        self.outcome.acknowledged = writes().filter(|it| *it.0).count() as u64;
        self.outcome.lost = writes().filter(|it| *it.0 && !it.1).count() as u64;
        self.outcome.verdict = match (self.outcome.lost, leader) {
            (0, Some(_)) => Verdict::Sound,
            (0, None) => Verdict::NoLeader,
            _ => Verdict::Lost,
        };
    }
}

/// The places of all processes, read from the cluster file: the guard names a target by text, and
/// the simulator strikes nodes by number, so both have to mean the same.
fn places() -> Vec<Place> {
    let lines = CLUSTER
        .lines()
        .map(|line| line.split('"').collect::<Vec<&str>>());
    let processes = lines.filter(|words| words[0].trim() == "{processid =");
    let places = processes.map(|words| Place {
        name: words[1],
        zone: words[5],
    });
    places.collect()
}
