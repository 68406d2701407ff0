//! One answer a line: the handler is asked, its panics are caught, and what came of it is printed.

use core::any::Any;
use core::fmt::{self, Display};
use std::io::{self, BufRead, Write};
use std::panic::{catch_unwind, AssertUnwindSafe};

use crate::lines::{self, Line, Unreadable};
use crate::plants::{Plant, Row};
use crate::record::{Answer, Call, Order, Readings, Record, Settings};
use crate::standins::dm::{self, Event};
use crate::world::World;

/// Rows 1 to 21 of document 01, in order, by a piece of the message with which `validate` panics. The first that fits counts.
const REFUSALS: [&str; 21] = [
    "incorrect revision number",
    "unsupported features in the feature map",
    "at least one of the HEAT and COOL features",
    "the AUTO feature requires both",
    "missing attribute",
    "attribute ",
    "setpoint limit attributes must either all be present or all be absent",
    "setpoint limits are served without",
    "with AUTO the heating and cooling setpoint limits",
    "ThermostatRunningMode is served without",
    "event requires the",
    "event is served without the TEVT feature",
    "event is served but the feature it is conditional on",
    "the TEVT feature is enabled but",
    "LOCAL_TEMPERATURE_EVENT_DELTA must not be negative",
    "missing required command",
    "ABS_MIN_HEAT_SETPOINT (",
    "ABS_MIN_COOL_SETPOINT (",
    "MIN_SETPOINT_DEAD_BAND (",
    "with AUTO, ABS_MIN_HEAT_SETPOINT must be",
    "CONTROL_SEQUENCE_OF_OPERATION does not match",
];

/// The plant is none where the table lacks the configuration's numbers, the record and the defaults where the Rust's types cannot hold them.
struct Console {
    plant: Option<&'static Plant>,
    defaults: Option<Settings>,
    record: Option<Record>,
}

pub fn run(mut input: impl BufRead, mut out: impl Write) -> io::Result<()> {
    std::panic::set_hook(Box::new(|_| ()));
    let blank = Record::BLANK;
    let mut console =
        Console { plant: Plant::find(&Row::default()), defaults: Some(blank.settings), record: Some(blank) };

    let mut line = Vec::new();
    let mut number = 0;
    while input.read_until(b'\n', &mut line)? > 0 {
        number += 1;
        match lines::read(line.strip_suffix(b"\n").unwrap_or(&line)) {
            Ok(Some(read)) => console.answer(read, &mut out)?,
            Ok(None) => (),
            Err(Unreadable) => writeln!(out, "error {number}")?,
        }
        line.clear();
    }
    out.flush()
}

impl Console {
    fn answer(&mut self, line: Line, out: &mut impl Write) -> io::Result<()> {
        match line {
            Line::Config(served, row, defaults) => {
                dm::serve(served);
                self.plant = Plant::find(&row);
                self.defaults = defaults;
                writeln!(out, "ok")
            }
            Line::Record(record) => {
                self.record = record;
                writeln!(out, "ok")
            }
            Line::Open(settings, readings) => match self.plant {
                None => writeln!(out, "? table"),
                Some(plant) => self.open(plant, settings, readings, out),
            },
            Line::Call(call, readings) => match self.plant {
                None => writeln!(out, "? table"),
                Some(plant) if matches!(call, Some(Call::Reset)) && self.defaults != Some(plant.defaults) => {
                    writeln!(out, "? table")
                }
                Some(plant) => self.call(plant, call, readings, out),
            },
        }
    }

    fn open(
        &mut self,
        plant: &Plant,
        settings: Option<Settings>,
        readings: Readings,
        out: &mut impl Write,
    ) -> io::Result<()> {
        let Some(settings) = settings else {
            self.record = None;
            return writeln!(out, "? type");
        };
        let world = World::new(readings);
        let (number, record) = match caught(|| (plant.open)(&world, &settings)) {
            Ok(record) => (0, record),
            Err(message) => match refusal(&message) {
                Some(row) => (row, Record::BLANK),
                None => return writeln!(out, "? panic {message}"),
            },
        };
        self.record = Some(record);
        print(out, number, &record, &world)?;
        writeln!(out)
    }

    fn call(&mut self, plant: &Plant, call: Option<Call>, readings: Readings, out: &mut impl Write) -> io::Result<()> {
        let (Some(call), Some(mut record)) = (call, self.record) else {
            return writeln!(out, "? type");
        };
        let world = World::new(readings);
        let Answer { number, deadline } = match caught(|| (plant.call)(&world, &mut record, &call)) {
            Ok(answer) => answer,
            Err(message) => return writeln!(out, "? panic {message}"),
        };
        self.record = Some(record);
        print(out, number, &record, &world)?;
        if let Call::Deadline = call {
            write!(out, " deadline={}", OrDash(deadline))?;
        }
        writeln!(out)
    }
}

fn refusal(message: &str) -> Option<u8> {
    let reason = message.strip_prefix("Thermostat validation: ")?;
    (1..).zip(REFUSALS).find(|(_, piece)| reason.contains(piece)).map(|(row, _)| row)
}

/// The value, or the first line of the message of a panic.
fn caught<T>(f: impl FnOnce() -> T) -> Result<T, String> {
    catch_unwind(AssertUnwindSafe(f)).map_err(|panic: Box<dyn Any + Send>| {
        let message = match (panic.downcast_ref::<String>(), panic.downcast_ref::<&str>()) {
            (Some(message), _) => message,
            (_, Some(message)) => *message,
            _ => "",
        };
        message.lines().next().unwrap_or_default().to_owned()
    })
}

struct OrDash<T>(Option<T>);

impl<T: Display> Display for OrDash<T> {
    fn fmt(&self, f: &mut fmt::Formatter<'_>) -> fmt::Result {
        match &self.0 {
            Some(value) => value.fmt(f),
            None => f.write_str("-"),
        }
    }
}

fn print(out: &mut impl Write, number: u8, record: &Record, world: &World) -> io::Result<()> {
    let Settings { heating, cooling, min_heat, max_heat, min_cool, max_cool, mode } = record.settings;
    write!(
        out,
        "{number} h={heating} c={cooling} minh={min_heat} maxh={max_heat} minc={min_cool} maxc={max_cool} mode={} dirty={} pend={} shadow=",
        mode as u8, record.dirty as u8, record.pending
    )?;
    match record.shadow {
        Some(shadow) => write!(
            out,
            "{}/{}/{}/{}/{}/{}",
            OrDash(shadow.temperature),
            shadow.heating,
            shadow.cooling,
            shadow.mode as u8,
            shadow.relays.0,
            shadow.running_mode as u8
        )?,
        None => write!(out, "-")?,
    }
    write!(
        out,
        " last={} src={} amt={} ts={} att=",
        OrDash(record.last),
        record.source as u8,
        OrDash(record.amount),
        record.timestamp
    )?;
    match record.attributed {
        Some((heating, cooling)) => write!(out, "{heating}/{cooling}")?,
        None => write!(out, "-")?,
    }
    write!(out, " armed={} order=", OrDash(record.armed))?;
    match world.order.get() {
        Some(Order { mode, heating, cooling }) => write!(out, "{}/{heating}/{cooling}", mode as u8)?,
        None => write!(out, "-")?,
    }
    write!(out, " notices=")?;
    list(out, ",", world.notices.iter(), |out, notice| write!(out, "{notice:02x}"))?;
    write!(out, " events=")?;
    list(out, ";", world.events.iter(), |out, Event { id, values, count }| {
        write!(out, "{id}(")?;
        list(out, ",", values.into_iter().take(count), |out, value| write!(out, "{}", OrDash(value)))?;
        write!(out, ")")
    })
}

fn list<W: Write, T>(
    out: &mut W,
    between: &str,
    items: impl Iterator<Item = T>,
    item: impl Fn(&mut W, T) -> io::Result<()>,
) -> io::Result<()> {
    let mut any = false;
    for value in items {
        if any {
            write!(out, "{between}")?;
        }
        any = true;
        item(out, value)?;
    }
    if !any {
        write!(out, "-")?;
    }
    Ok(())
}
