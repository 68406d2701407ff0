//! A drawn load on the plant of the papers, to be counted and timed: all of that plant is known when it is compiled.

use core::pin::pin;
use std::io::{self, Write};

use crate::plants::{handler, Numbers, Row, TABLE};
use crate::record::{Call, Readings, Settings};
use crate::standins::decl::thermostat::{ClusterHandler, SystemModeEnum};
use crate::standins::dm::{Cluster, Served};
use crate::thermostat::{inside, OutOfBandMessage};
use crate::world::World;

const CALLS_PER_SWEEP: u64 = 16;

struct PapersPlant;

impl Numbers for PapersPlant {
    const ROW: Row = TABLE[0];
    const DEFAULTS: Settings = SETTINGS;
    const CLUSTER: Cluster<'static> =
        Cluster::fixed(Served { revision: 11, features: 547, attributes: 1972525402030201, events: 59, commands: 1 });
}

const SETTINGS: Settings = Settings {
    heating: 2000,
    cooling: 2250,
    min_heat: 700,
    max_heat: 2900,
    min_cool: 1600,
    max_cool: 3200,
    mode: SystemModeEnum::Auto,
};

struct Draw(u32);

impl Draw {
    fn below(&mut self, bound: u32) -> u32 {
        self.0 = self.0.wrapping_mul(1664525).wrapping_add(1013904223);
        (self.0 >> 16) % bound
    }

    fn hundredths(&mut self) -> i16 {
        500 + self.below(3000) as i16
    }

    /// `None` is a mode number that the Rust's type cannot hold.
    fn call(&mut self) -> Option<Call> {
        Some(match self.below(5) {
            0 => Call::Heat(self.hundredths()),
            1 => Call::Cool(self.hundredths()),
            2 => Call::Mode(SystemModeEnum::from_code(self.below(10) as u8)?),
            3 => Call::Raise(self.below(4) as u8, self.below(41) as i8 - 20),
            _ => Call::Message(OutOfBandMessage::SetpointLimits {
                min_heat: self.hundredths(),
                max_heat: self.hundredths(),
                min_cool: self.hundredths(),
                max_cool: self.hundredths(),
            }),
        })
    }
}

#[derive(Default)]
struct Totals {
    accepted: u64,
    notices: u64,
    orders: u64,
    events: u64,
}

impl Totals {
    fn count(&mut self, world: &World) {
        self.notices += world.notices.len() as u64;
        self.orders += u64::from(world.order.get().is_some());
        self.events += world.events.len() as u64;
        world.clear();
    }
}

pub fn run(count: u64, seed: u32, mut out: impl Write) -> io::Result<()> {
    let world = World::new(Readings::default());
    let handler = handler::<PapersPlant>(&world);
    inside::open(&handler, &SETTINGS);
    world.clear();

    let mut sweeps = pin!(handler.run(&world));
    inside::begin(&handler, sweeps.as_mut());

    let mut draw = Draw(seed);
    let mut totals = Totals::default();
    for done in 1..=count {
        if let Some(call) = draw.call() {
            let answer = inside::call(&handler, &world, &call);
            totals.accepted += u64::from(answer.number == 0);
            totals.count(&world);
        }
        if done % CALLS_PER_SWEEP == 0 {
            inside::sweep(sweeps.as_mut());
            totals.count(&world);
        }
    }

    let Settings { heating, cooling, min_heat, max_heat, min_cool, max_cool, mode } =
        inside::take_back(&handler).settings;
    writeln!(out, "settings {heating} {cooling} {min_heat} {max_heat} {min_cool} {max_cool} {}", mode as u8)?;
    let Totals { accepted, notices, orders, events } = totals;
    writeln!(out, "accepted {accepted}\nnotices {notices}\norders {orders}\nevents {events}")
}
