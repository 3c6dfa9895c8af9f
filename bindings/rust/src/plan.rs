//! Plans that are drawn from a seed.

use crate::error::done;
use crate::sys::{self, FyOrder};
use crate::words::by_number;
use crate::{Error, Guard, Key, Kind};

/// How many orders are read at the first try.
const USUAL_PLAN: usize = 64;

/// The first words of a stream of a seed: pseudo-random words of ChaCha with eight rounds. A
/// swarm's actor draws from the stream of its number.
///
/// # Errors
///
/// [`Error::NoMemory`].
pub fn words(seed: u64, stream: u64, count: usize) -> Result<Vec<u32>, Error> {
    let mut words = vec![0; count];
    // SAFETY: the pointer of a vector isn't null, and `count` words behind it may be written.
    done(unsafe { sys::fy_words(seed, stream, words.as_mut_ptr(), count) })?;
    Ok(words)
}

/// An order of a plan.
#[derive(Clone, Debug, PartialEq, Eq, Hash)]
#[non_exhaustive]
pub enum Order {
    /// Kill the processes of a target, as [`Guard::kill`] does.
    Kill {
        /// By which part of their place.
        key: Key,
        /// Its value.
        value: String,
        /// What is ordered.
        kind: Kind,
        /// The mildest kind that may take its place.
        floor: Kind,
        /// Bit i is 1 where a reboot keeps the unsynced write i.
        tear: u64,
    },
    /// Clog the processes of a target: the act `clog`.
    Clog {
        /// By which part of their place.
        key: Key,
        /// Its value.
        value: String,
        /// For how many ticks.
        ticks: u64,
    },
    /// End the clogs of a target's processes: the act `unclog`.
    Unclog {
        /// By which part of their place.
        key: Key,
        /// Its value.
        value: String,
    },
}

impl Order {
    fn of(order: &FyOrder) -> Result<Order, Error> {
        let key = by_number(Key::ALL, order.key).ok_or(Error::Protocol("a key"))?;
        let bytes = order.value.iter().take_while(|byte| **byte != 0);
        let value = String::from_utf8(bytes.copied().collect())
            .map_err(|_| Error::Protocol("a name that is no text"))?;
        let kind = |number| by_number(Kind::ALL, number).ok_or(Error::Protocol("a kind"));
        match order.act {
            1 => Ok(Order::Kill {
                key,
                value,
                kind: kind(order.kind)?,
                floor: kind(order.floor)?,
                tear: order.tear,
            }),
            2 => Ok(Order::Clog {
                key,
                value,
                ticks: order.ticks,
            }),
            3 => Ok(Order::Unclog { key, value }),
            _ => Err(Error::Protocol("an order")),
        }
    }
}

/// How a fault actor of a simulation draws its orders.
#[derive(Clone, Copy, Debug, PartialEq, Eq, Hash)]
#[repr(u32)]
pub enum Plan {
    /// Kills of each kind and clogs, of processes, machines, zones, halls and data centres.
    Mixed = 1,
    /// Machines are destroyed one after another.
    Attrition = 2,
    /// Processes are clogged one after another, and freed in another order.
    Swizzle = 3,
    /// Each process in turn, each round by a harder kind.
    Rolling = 4,
}

/// The machines that an attrition kills, and how. The default is that of a swarm.
#[derive(Clone, Copy, Debug, PartialEq, Eq, Hash)]
pub struct Attrition {
    /// How many are killed at most.
    pub to_kill: u32,
    /// How many are spared at least.
    pub to_leave: u32,
    /// What is ordered.
    pub kind: Kind,
    /// The mildest kind that may take its place.
    pub floor: Kind,
    /// Bit i is 1 where a reboot keeps the unsynced write i.
    pub tear: u64,
}

impl Default for Attrition {
    fn default() -> Attrition {
        Attrition {
            to_kill: 2,
            to_leave: 1,
            kind: Kind::KillInstantly,
            floor: Kind::Reboot,
            tear: 0,
        }
    }
}

// Each SAFETY comment below means what stands at `Guard::process`.
impl Guard {
    /// The swizzle that is drawn from a stream of a seed: clogs for so many ticks, and then the end
    /// of each, in another order. A swarm's first, third, .. fault actor makes it, for 10 ticks;
    /// the stream is its number. Nothing is entered.
    ///
    /// # Errors
    ///
    /// [`Error::NoMemory`].
    pub fn swizzle_plan(&self, seed: u64, stream: u64, ticks: u64) -> Result<Vec<Order>, Error> {
        plan(|orders, room, told| {
            // SAFETY: as in `process`. The orders have this length.
            unsafe { sys::fy_swizzle_plan(self.raw(), seed, stream, ticks, orders, room, told) }
        })
    }

    /// The orders of the first turns of the fault actor with this number in `faultyard simulate`,
    /// one a turn: `None` for a turn that orders nothing. The target may be one that no process
    /// has, and the ticks more than the clock has. Nothing is entered.
    ///
    /// # Errors
    ///
    /// [`Error::NoMemory`].
    pub fn plan_orders(
        &self,
        plan: Plan,
        seed: u64,
        actor: u32,
        count: usize,
    ) -> Result<Vec<Option<Order>>, Error> {
        let mut orders = vec![FyOrder::default(); count];
        // SAFETY: as in `process`. The orders have this length, and a vector's pointer isn't null.
        done(unsafe {
            sys::fy_plan_orders(
                self.raw(),
                plan as u32,
                seed,
                actor,
                orders.as_mut_ptr(),
                count,
            )
        })?;
        let one = |order: &FyOrder| (order.act != 0).then(|| Order::of(order)).transpose();
        orders.iter().map(one).collect()
    }

    /// The attrition that is drawn from a stream of a seed: a kill of each machine. A swarm's
    /// second, fourth, .. fault actor makes that of the default; the stream is its number. Nothing
    /// is entered.
    ///
    /// # Errors
    ///
    /// In this order: [`Error::Floor`], [`Error::NoMemory`].
    pub fn attrition_plan(
        &self,
        seed: u64,
        stream: u64,
        asked: Attrition,
    ) -> Result<Vec<Order>, Error> {
        plan(|orders, room, told| {
            // SAFETY: as in `process`. The orders have this length.
            unsafe {
                sys::fy_attrition_plan(
                    self.raw(),
                    seed,
                    stream,
                    asked.to_kill,
                    asked.to_leave,
                    asked.kind.into(),
                    asked.floor.into(),
                    asked.tear,
                    orders,
                    room,
                    told,
                )
            }
        })
    }
}

/// The orders that a call of the library writes.
fn plan(mut call: impl FnMut(*mut FyOrder, usize, &mut usize) -> u32) -> Result<Vec<Order>, Error> {
    let mut orders = vec![FyOrder::default(); USUAL_PLAN];
    let mut told = 0;
    let mut status = call(orders.as_mut_ptr(), orders.len(), &mut told);
    if status == sys::SHORT {
        orders.resize(told, FyOrder::default());
        status = call(orders.as_mut_ptr(), orders.len(), &mut told);
    }
    done(status)?;
    let drawn = orders.get(..told).ok_or(Error::Protocol("a length"))?;
    drawn.iter().map(Order::of).collect()
}

#[cfg(test)]
mod tests {
    use super::*;

    fn order(act: u32, key: u32, kind: u32) -> FyOrder {
        let value = [b'a'; sys::VALUE_BYTES];
        FyOrder {
            act,
            key,
            kind,
            floor: kind,
            value,
            ..FyOrder::default()
        }
    }

    #[test]
    fn orders_that_no_library_of_this_version_answers() {
        for (act, key, kind, what) in [
            (0, 1, 1, "an order"),
            (4, 1, 1, "an order"),
            (2, 0, 0, "a key"),
            (3, 6, 0, "a key"),
            (1, 2, 0, "a kind"),
            (1, 2, 5, "a kind"),
        ] {
            assert_eq!(
                Order::of(&order(act, key, kind)),
                Err(Error::Protocol(what))
            );
        }
        let mut garbled = order(3, 1, 0);
        garbled.value[0] = 0xff;
        let what = "a name that is no text";
        assert_eq!(Order::of(&garbled), Err(Error::Protocol(what)));
    }

    #[test]
    fn a_plan_that_grows_between_two_calls() {
        let grows = plan(|_, room, told| {
            *told = room + 1;
            sys::SHORT
        });
        assert_eq!(grows, Err(Error::Protocol("a status")));
        let lies = plan(|_, room, told| {
            *told = room + 1;
            0
        });
        assert_eq!(lies, Err(Error::Protocol("a length")));
    }
}
