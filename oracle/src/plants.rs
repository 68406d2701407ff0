//! The plants that can be asked: the table of numbers made by build.rs, a hooks type for each row, and the way from a row to
//! the code compiled for it.

use core::marker::PhantomData;
use std::io::{self, Write};

use crate::record::{Answer, Call, Order, Record, Settings};
use crate::standins::decl::thermostat::{ControlSequenceOfOperationEnum, RelayStateBitmap, SystemModeEnum};
use crate::standins::dm::{Cluster, Dataver};
use crate::thermostat::{inside, ThermostatHandler, ThermostatHooks};
use crate::world::World;

/// The configuration's numbers. The hooks give them as constants, so each row that is asked must be compiled.
#[derive(Clone, Copy, Default, Eq, PartialEq)]
pub struct Row {
    pub abs_min_heat: i16,
    pub abs_max_heat: i16,
    pub abs_min_cool: i16,
    pub abs_max_cool: i16,
    pub dead_band: i8,
    pub sequence: u8,
    pub delta: i16,
}

impl Row {
    const fn of(limits: [i16; 4], dead_band: i8, sequence: u8, delta: i16) -> Self {
        let [abs_min_heat, abs_max_heat, abs_min_cool, abs_max_cool] = limits;
        Self { abs_min_heat, abs_max_heat, abs_min_cool, abs_max_cool, dead_band, sequence, delta }
    }
}

// `TABLE`, in `DEFAULTS` the settings that a reset puts in, and in `PLANTS` a `Plant::of`, for each row.
include!(concat!(env!("OUT_DIR"), "/table.rs"));

pub trait Numbers {
    const ROW: Row;
    const DEFAULTS: Settings;
    const CLUSTER: Cluster<'static>;
}

/// Row `I` of the table, with whatever the last `config` serves.
struct Listed<const I: usize>;

impl<const I: usize> Numbers for Listed<I> {
    const ROW: Row = TABLE[I];
    const DEFAULTS: Settings = DEFAULTS[I];
    const CLUSTER: Cluster<'static> = Cluster::CURRENT;
}

pub struct Hooks<'a, N> {
    world: &'a World,
    numbers: PhantomData<N>,
}

impl<N: Numbers> ThermostatHooks for Hooks<'_, N> {
    const CLUSTER: Cluster<'static> = N::CLUSTER;
    const ABS_MIN_HEAT_SETPOINT: i16 = N::ROW.abs_min_heat;
    const ABS_MAX_HEAT_SETPOINT: i16 = N::ROW.abs_max_heat;
    const ABS_MIN_COOL_SETPOINT: i16 = N::ROW.abs_min_cool;
    const ABS_MAX_COOL_SETPOINT: i16 = N::ROW.abs_max_cool;
    const MIN_SETPOINT_DEAD_BAND: i8 = N::ROW.dead_band;
    const CONTROL_SEQUENCE_OF_OPERATION: ControlSequenceOfOperationEnum =
        ControlSequenceOfOperationEnum::from_code(N::ROW.sequence).unwrap();
    const LOCAL_TEMPERATURE_EVENT_DELTA: i16 = N::ROW.delta;
    const OCCUPIED_HEATING_SETPOINT: i16 = N::DEFAULTS.heating;
    const OCCUPIED_COOLING_SETPOINT: i16 = N::DEFAULTS.cooling;
    const MIN_HEAT_SETPOINT_LIMIT: i16 = N::DEFAULTS.min_heat;
    const MAX_HEAT_SETPOINT_LIMIT: i16 = N::DEFAULTS.max_heat;
    const MIN_COOL_SETPOINT_LIMIT: i16 = N::DEFAULTS.min_cool;
    const MAX_COOL_SETPOINT_LIMIT: i16 = N::DEFAULTS.max_cool;
    const SYSTEM_MODE: SystemModeEnum = N::DEFAULTS.mode;

    fn local_temperature(&self) -> Option<i16> {
        self.world.readings.temperature
    }

    fn running_state(&self) -> RelayStateBitmap {
        match self.world.order.get() {
            None => self.world.readings.relays_before,
            Some(_) => self.world.readings.relays_after,
        }
    }

    fn apply(&self, mode: SystemModeEnum, heating: i16, cooling: i16) {
        self.world.order.set(Some(Order { mode, heating, cooling }));
    }

    fn utc_now_secs(&self) -> Option<u32> {
        self.world.readings.hook_utc
    }
}

pub fn handler<N: Numbers>(world: &World) -> ThermostatHandler<Hooks<'_, N>> {
    ThermostatHandler::new(Dataver, 1, 0, Hooks { world, numbers: PhantomData })
}

/// One row's code. An opening and a call each get a handler of their own, which is lent the record and gives it back.
pub struct Plant {
    pub defaults: Settings,
    pub open: fn(&World, &Settings) -> Record,
    pub call: fn(&World, &mut Record, &Call) -> Answer,
}

impl Plant {
    const fn of<N: Numbers>() -> Self {
        Self { defaults: N::DEFAULTS, open: open::<N>, call: call::<N> }
    }

    pub fn find(row: &Row) -> Option<&'static Self> {
        TABLE.iter().position(|listed| listed == row).map(|index| &PLANTS[index])
    }
}

pub fn print_table(mut out: impl Write) -> io::Result<()> {
    for (row, defaults) in TABLE.iter().zip(&DEFAULTS) {
        let Row { abs_min_heat, abs_max_heat, abs_min_cool, abs_max_cool, dead_band, sequence, delta } = row;
        let Settings { heating, cooling, min_heat, max_heat, min_cool, max_cool, mode } = defaults;
        write!(out, "{abs_min_heat} {abs_max_heat} {abs_min_cool} {abs_max_cool} {dead_band} {sequence} {delta} ")?;
        writeln!(out, "{heating} {cooling} {min_heat} {max_heat} {min_cool} {max_cool} {}", *mode as u8)?;
    }
    out.flush()
}

fn open<N: Numbers>(world: &World, settings: &Settings) -> Record {
    let handler = handler::<N>(world);
    inside::open(&handler, settings);
    inside::take_back(&handler)
}

fn call<N: Numbers>(world: &World, record: &mut Record, call: &Call) -> Answer {
    let handler = handler::<N>(world);
    inside::lend(&handler, record);
    let answer = inside::call(&handler, world, call);
    *record = inside::take_back(&handler);
    answer
}
