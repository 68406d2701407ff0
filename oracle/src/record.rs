//! The console's values: settings, record, readings, calls.

use crate::standins::decl::thermostat::{
    ControlSequenceOfOperationEnum, RelayStateBitmap, SetpointChangeSourceEnum, SystemModeEnum,
    ThermostatRunningModeEnum,
};
use crate::thermostat::OutOfBandMessage;

#[derive(Clone, Copy, PartialEq)]
pub struct Settings {
    pub heating: i16,
    pub cooling: i16,
    pub min_heat: i16,
    pub max_heat: i16,
    pub min_cool: i16,
    pub max_cool: i16,
    pub mode: SystemModeEnum,
}

impl Settings {
    pub const fn of(hundredths: [i16; 6], mode: u8) -> Self {
        let [heating, cooling, min_heat, max_heat, min_cool, max_cool] = hundredths;
        let mode = SystemModeEnum::from_code(mode).unwrap();
        Self { heating, cooling, min_heat, max_heat, min_cool, max_cool, mode }
    }
}

#[derive(Clone, Copy)]
pub struct Shadow {
    pub temperature: Option<i16>,
    pub heating: i16,
    pub cooling: i16,
    pub mode: SystemModeEnum,
    pub relays: RelayStateBitmap,
    pub running_mode: ThermostatRunningModeEnum,
}

/// All that the handler remembers between two calls.
#[derive(Clone, Copy)]
pub struct Record {
    pub settings: Settings,
    pub dirty: bool,
    pub pending: u16,
    pub shadow: Option<Shadow>,
    pub last: Option<u64>,
    pub source: SetpointChangeSourceEnum,
    pub amount: Option<i16>,
    pub timestamp: u32,
    pub attributed: Option<(i16, i16)>,
    pub armed: Option<u32>,
}

impl Record {
    pub const BLANK: Self = Self {
        settings: Settings::of([0; 6], 0),
        dirty: false,
        pending: 0,
        shadow: None,
        last: None,
        source: SetpointChangeSourceEnum::Manual,
        amount: None,
        timestamp: 0,
        attributed: None,
        armed: None,
    };
}

#[derive(Clone, Copy, Default)]
pub struct Readings {
    pub relays_before: RelayStateBitmap,
    pub relays_after: RelayStateBitmap,
    pub temperature: Option<i16>,
    pub hook_utc: Option<u32>,
    pub node_utc: Option<u32>,
    pub clock: u64,
}

#[derive(Clone, Copy)]
pub struct Order {
    pub mode: SystemModeEnum,
    pub heating: i16,
    pub cooling: i16,
}

#[derive(Clone, Copy)]
pub enum Call {
    Heat(i16),
    Cool(i16),
    MinHeat(i16),
    MaxHeat(i16),
    MinCool(i16),
    MaxCool(i16),
    Mode(SystemModeEnum),
    Sequence(ControlSequenceOfOperationEnum),
    Raise(u8, i8),
    Arm,
    Message(OutOfBandMessage),
    Start,
    Sweep,
    Timer,
    Deadline,
    Reset,
}

/// A call's answer number, and what `deadline` adds to it.
pub struct Answer {
    pub number: u8,
    pub deadline: Option<u64>,
}
