//! The console's lines, read into values. A number of the line that no value of the Rust's types stands for gives a `None`.

use core::slice::Split;

use crate::plants::Row;
use crate::record::{Call, Readings, Record, Settings, Shadow};
use crate::standins::decl::thermostat::{
    ControlSequenceOfOperationEnum, RelayStateBitmap, SetpointChangeSourceEnum, SystemModeEnum,
    ThermostatRunningModeEnum,
};
use crate::standins::dm::Served;
use crate::thermostat::OutOfBandMessage;

const LONGEST: usize = 250;

pub enum Line {
    Config(Served, Row, Option<Settings>),
    Open(Option<Settings>, Readings),
    Record(Option<Record>),
    Call(Option<Call>, Readings),
}

/// The line cannot be read.
pub struct Unreadable;

type Read<T> = Result<T, Unreadable>;

/// What a line says; `None` for a line that is passed over.
pub fn read(line: &[u8]) -> Read<Option<Line>> {
    if line.is_empty() || line[0] == b'#' {
        return Ok(None);
    }
    if line.len() > LONGEST {
        return Err(Unreadable);
    }
    let mut words = Words(line.split(is_blank));
    let line = match words.next()? {
        b"config" => words.config()?,
        b"open" => Line::Open(words.settings()?, words.readings()?),
        b"record" => Line::Record(words.record()?),
        word => Line::Call(words.call(word)?, words.readings()?),
    };
    if words.more() {
        return Err(Unreadable);
    }
    Ok(Some(line))
}

fn is_blank(byte: &u8) -> bool {
    *byte == b' '
}

struct Words<'a>(Split<'a, u8, fn(&u8) -> bool>);

impl<'a> Words<'a> {
    fn next(&mut self) -> Read<&'a [u8]> {
        self.0.next().ok_or(Unreadable)
    }

    fn more(&self) -> bool {
        self.0.clone().next().is_some()
    }

    fn number<T: TryFrom<i128>>(&mut self) -> Read<T> {
        number(self.next()?)
    }

    fn nullable<T: TryFrom<i128>>(&mut self) -> Read<Option<T>> {
        match self.next()? {
            b"-" => Ok(None),
            word => number(word).map(Some),
        }
    }

    fn config(&mut self) -> Read<Line> {
        let served = Served {
            revision: self.number()?,
            features: self.number()?,
            attributes: self.number()?,
            events: self.number()?,
            commands: self.number()?,
        };
        let row = Row {
            abs_min_heat: self.number()?,
            abs_max_heat: self.number()?,
            abs_min_cool: self.number()?,
            abs_max_cool: self.number()?,
            dead_band: self.number()?,
            sequence: self.number()?,
            delta: self.number()?,
        };
        let defaults = if self.more() { self.settings()? } else { Some(Record::BLANK.settings) };
        Ok(Line::Config(served, row, defaults))
    }

    fn settings(&mut self) -> Read<Option<Settings>> {
        let heating = self.number()?;
        let cooling = self.number()?;
        let min_heat = self.number()?;
        let max_heat = self.number()?;
        let min_cool = self.number()?;
        let max_cool = self.number()?;
        let mode = SystemModeEnum::from_code(self.number()?);
        Ok(mode.map(|mode| Settings { heating, cooling, min_heat, max_heat, min_cool, max_cool, mode }))
    }

    fn record(&mut self) -> Read<Option<Record>> {
        let settings = self.settings()?;
        let dirty = match self.number()? {
            0 => false,
            1 => true,
            2u8.. => return Err(Unreadable),
        };
        let pending = self.number()?;
        let source = SetpointChangeSourceEnum::from_code(self.number()?);
        let amount = self.nullable()?;
        let timestamp = self.number()?;
        let attributed = match (self.nullable()?, self.nullable()?) {
            (Some(heating), Some(cooling)) => Some((heating, cooling)),
            (None, None) => None,
            _ => return Err(Unreadable),
        };
        let armed = self.nullable()?;
        let last = self.nullable()?;
        let shadow = if self.more() { self.shadow()?.map(Some) } else { Some(None) };

        let (Some(settings), Some(source), Some(shadow)) = (settings, source, shadow) else {
            return Ok(None);
        };
        Ok(Some(Record { settings, dirty, pending, shadow, last, source, amount, timestamp, attributed, armed }))
    }

    fn shadow(&mut self) -> Read<Option<Shadow>> {
        let temperature = self.nullable()?;
        let heating = self.number()?;
        let cooling = self.number()?;
        let mode = SystemModeEnum::from_code(self.number()?);
        let relays = RelayStateBitmap(self.number()?);
        let running_mode = ThermostatRunningModeEnum::from_code(self.number()?);
        let (Some(mode), Some(running_mode)) = (mode, running_mode) else {
            return Ok(None);
        };
        Ok(Some(Shadow { temperature, heating, cooling, mode, relays, running_mode }))
    }

    fn call(&mut self, word: &[u8]) -> Read<Option<Call>> {
        Ok(Some(match word {
            b"heat" => Call::Heat(self.number()?),
            b"cool" => Call::Cool(self.number()?),
            b"minheat" => Call::MinHeat(self.number()?),
            b"maxheat" => Call::MaxHeat(self.number()?),
            b"mincool" => Call::MinCool(self.number()?),
            b"maxcool" => Call::MaxCool(self.number()?),
            b"mode" => return Ok(SystemModeEnum::from_code(self.number()?).map(Call::Mode)),
            b"sequence" => return Ok(ControlSequenceOfOperationEnum::from_code(self.number()?).map(Call::Sequence)),
            b"raise" => Call::Raise(self.number()?, self.number()?),
            b"arm" => Call::Arm,
            b"start" => Call::Start,
            b"sweep" => Call::Sweep,
            b"timer" => Call::Timer,
            b"deadline" => Call::Deadline,
            b"reset" => Call::Reset,
            _ => return Ok(self.message(word)?.map(Call::Message)),
        }))
    }

    fn message(&mut self, word: &[u8]) -> Read<Option<OutOfBandMessage>> {
        Ok(Some(match word {
            b"oobheat" => OutOfBandMessage::OccupiedHeatingSetpoint(self.number()?),
            b"oobcool" => OutOfBandMessage::OccupiedCoolingSetpoint(self.number()?),
            b"oobmode" => return Ok(SystemModeEnum::from_code(self.number()?).map(OutOfBandMessage::SystemMode)),
            b"ooblimits" => OutOfBandMessage::SetpointLimits {
                min_heat: self.number()?,
                max_heat: self.number()?,
                min_cool: self.number()?,
                max_cool: self.number()?,
            },
            b"oobtemp" => OutOfBandMessage::LocalTemperature,
            b"oobrunning" => OutOfBandMessage::RunningState,
            b"oobupdate" => OutOfBandMessage::Update,
            _ => return Err(Unreadable),
        }))
    }

    fn readings(&mut self) -> Read<Readings> {
        if !self.more() {
            return Ok(Readings::default());
        }
        if self.next()? != b"@" {
            return Err(Unreadable);
        }
        Ok(Readings {
            relays_before: RelayStateBitmap(self.number()?),
            relays_after: RelayStateBitmap(self.number()?),
            temperature: self.nullable()?,
            hook_utc: self.nullable()?,
            node_utc: self.nullable()?,
            clock: self.number()?,
        })
    }
}

/// Decimal, with an optional `-`.
fn number<T: TryFrom<i128>>(word: &[u8]) -> Read<T> {
    let (digits, negative) = match word.strip_prefix(b"-") {
        Some(digits) => (digits, true),
        None => (word, false),
    };
    if digits.is_empty() {
        return Err(Unreadable);
    }
    let mut size: u64 = 0;
    for digit in digits {
        if !digit.is_ascii_digit() {
            return Err(Unreadable);
        }
        size = size.checked_mul(10).and_then(|size| size.checked_add((digit - b'0').into())).ok_or(Unreadable)?;
    }
    let value = i128::from(size);
    T::try_from(if negative { -value } else { value }).map_err(|_| Unreadable)
}
