// A child module of thermostat.rs (see derive/src/lib.rs), so its private items are in reach. It lends the handler a record,
// makes the call that the console names, and takes the record back; no rule stands here.

use core::pin::Pin;
use core::task::{Context, Poll, Waker};

use super::*;
use crate::record::{Answer, Call, Record, Settings, Shadow};

/// Puts every remembered value in place, untested.
pub fn lend<H: ThermostatHooks>(to: &ThermostatHandler<H>, record: &Record) {
    to.attrs.lock(|attrs| attrs.set(stored(&record.settings)));
    if record.dirty {
        to.persist.mark_dirty();
    } else {
        to.persist.clear();
    }
    to.pending.modify(|pending| {
        *pending = record.pending;
        (false, ())
    });
    to.event_state.lock(|state| {
        *state.borrow_mut() = EventState {
            shadow: record.shadow.map(|shadow| Snapshot {
                local_temperature: shadow.temperature,
                heating_setpoint: shadow.heating,
                cooling_setpoint: shadow.cooling,
                system_mode: shadow.mode,
                running_state: shadow.relays,
                running_mode: shadow.running_mode,
            }),
            last_local_temperature: record.last.map(Instant),
        }
    });
    to.setpoint_change.0.lock(|state| {
        *state.borrow_mut() = SetpointChangeState {
            source: record.source,
            amount: record.amount,
            timestamp: record.timestamp,
            attributed: record.attributed,
            armed: record.armed,
        }
    });
}

pub fn take_back<H: ThermostatHooks>(from: &ThermostatHandler<H>) -> Record {
    let attrs = from.attrs();
    let change = from.setpoint_change.get();
    let (shadow, last) = from.event_state.lock(|state| {
        let state = state.borrow();
        (state.shadow, state.last_local_temperature)
    });
    Record {
        settings: Settings {
            heating: attrs.occupied_heating_setpoint,
            cooling: attrs.occupied_cooling_setpoint,
            min_heat: attrs.min_heat_setpoint_limit,
            max_heat: attrs.max_heat_setpoint_limit,
            min_cool: attrs.min_cool_setpoint_limit,
            max_cool: attrs.max_cool_setpoint_limit,
            mode: attrs.system_mode,
        },
        dirty: from.persist.is_dirty(),
        pending: from.pending.modify(|pending| (false, *pending)),
        shadow: shadow.map(|shadow| Shadow {
            temperature: shadow.local_temperature,
            heating: shadow.heating_setpoint,
            cooling: shadow.cooling_setpoint,
            mode: shadow.system_mode,
            relays: shadow.running_state,
            running_mode: shadow.running_mode,
        }),
        last: last.map(|last| last.0),
        source: change.source,
        amount: change.amount,
        timestamp: change.timestamp,
        attributed: change.attributed,
        armed: change.armed,
    }
}

/// Start-up as in `lifecycle`, but with the settings handed over instead of loaded, and without its notice of the whole cluster.
pub fn open<H: ThermostatHooks>(handler: &ThermostatHandler<H>, settings: &Settings) {
    handler.validate();
    handler.attrs.lock(|attrs| attrs.set(stored(settings)));
    handler.repair().expect("repair has no refusal");
}

fn stored(settings: &Settings) -> PersistedAttrs {
    PersistedAttrs {
        occupied_heating_setpoint: settings.heating,
        occupied_cooling_setpoint: settings.cooling,
        min_heat_setpoint_limit: settings.min_heat,
        max_heat_setpoint_limit: settings.max_heat,
        min_cool_setpoint_limit: settings.min_cool,
        max_cool_setpoint_limit: settings.max_cool,
        system_mode: settings.mode,
    }
}

pub fn call<H, C>(handler: &ThermostatHandler<H>, ctx: &C, call: &Call) -> Answer
where
    H: ThermostatHooks,
    C: HandlerContext + WriteContext + InvokeContext,
{
    let mut deadline = None;
    let result = match *call {
        Call::Heat(value) => handler.write_occupied_heating_setpoint(ctx, value),
        Call::Cool(value) => handler.write_occupied_cooling_setpoint(ctx, value),
        Call::MinHeat(value) => handler.write_min_heat_setpoint_limit(ctx, value),
        Call::MaxHeat(value) => handler.write_max_heat_setpoint_limit(ctx, value),
        Call::MinCool(value) => handler.write_min_cool_setpoint_limit(ctx, value),
        Call::MaxCool(value) => handler.write_max_cool_setpoint_limit(ctx, value),
        Call::Mode(value) => handler.write_system_mode(ctx, value),
        Call::Sequence(value) => handler.set_control_sequence_of_operation(ctx, value),
        Call::Raise(mode, amount) => {
            handler.handle_setpoint_raise_lower(ctx, SetpointRaiseLowerRequest::new(mode, amount))
        }
        Call::Arm => {
            handler.arm_clock(ctx);
            Ok(())
        }
        Call::Message(message) => {
            handler.out_of_band_message(message);
            Ok(())
        }
        Call::Start => {
            handler.seed_events();
            Ok(())
        }
        Call::Sweep => {
            let mut run = pin!(handler.run(ctx));
            begin(handler, run.as_mut());
            sweep(run);
            Ok(())
        }
        // The two lines of the timer's arm in `run`. That arm waits for a deadline; a `timer` may come without one.
        Call::Timer => {
            let events = handler.take_events(Instant::now());
            handler.emit_pending(ctx, &events);
            Ok(())
        }
        Call::Deadline => {
            deadline = handler.deferred_local_temperature_deadline().map(|at| at.0);
            Ok(())
        }
        Call::Reset => handler.lifecycle(ctx, LifecycleOp::FactoryReset),
    };
    Answer { number: number(result), deadline }
}

fn number(result: Result<(), Error>) -> u8 {
    match result.map_err(Error::code) {
        Ok(()) => 0,
        Err(ErrorCode::ConstraintError) => 22,
        Err(ErrorCode::InvalidCommand) => 23,
        Err(ErrorCode::InvalidRequest) => 25,
        Err(ErrorCode::CommandNotFound) => unreachable!("no such command is sent"),
    }
}

/// Takes `run` to its wait. It starts by seeding the events, which is a call of its own here: so it is lent a blank record
/// for that, and has its own again afterwards.
pub fn begin<H, F>(handler: &ThermostatHandler<H>, run: Pin<&mut F>)
where
    H: ThermostatHooks,
    F: Future<Output = Result<(), Error>>,
{
    let record = take_back(handler);
    lend(handler, &Record::BLANK);
    sweep(run);
    lend(handler, &record);
}

/// One turn of `run`: it drains what is pending and waits again. Nothing else it waits for is ever ready.
pub fn sweep<F: Future<Output = Result<(), Error>>>(run: Pin<&mut F>) {
    match run.poll(&mut Context::from_waker(Waker::noop())) {
        Poll::Pending => (),
        Poll::Ready(_) => unreachable!("run never returns"),
    }
}
