//! What the cluster's description declares: codes, bit sets, requests, events, the handler's trait.

pub mod thermostat {
    use core::future::Future;
    use core::marker::PhantomData;
    use core::ops::{BitOr, BitOrAssign};

    use crate::standins::dm::{
        Cluster, EndptId, Event, EventEmitter, HandlerContext, InvokeContext, LifecycleOp, ReadContext, WriteContext,
    };
    use crate::standins::error::{Error, ErrorCode};
    use crate::standins::tlv::{Nullable, TLVBuilderParent};

    pub const FULL_CLUSTER: Cluster<'static> = Cluster::CURRENT;

    /// Enumerations with their codes; `from_code` gives `None` for a number that is none of them.
    macro_rules! codes {
        ($($name:ident: $number:ty { $($value:ident = $code:literal),* $(,)? })*) => { $(
            #[derive(Clone, Copy, Debug, Eq, Hash, PartialEq)]
            #[repr($number)]
            pub enum $name { $($value = $code),* }

            impl $name {
                pub const fn from_code(code: $number) -> Option<Self> {
                    match code {
                        $($code => Some(Self::$value),)*
                        _ => None,
                    }
                }
            }
        )* };
    }

    codes! {
        AttributeId: u32 {
            LocalTemperature = 0x00,
            AbsMinHeatSetpointLimit = 0x03,
            AbsMaxHeatSetpointLimit = 0x04,
            AbsMinCoolSetpointLimit = 0x05,
            AbsMaxCoolSetpointLimit = 0x06,
            OccupiedCoolingSetpoint = 0x11,
            OccupiedHeatingSetpoint = 0x12,
            MinHeatSetpointLimit = 0x15,
            MaxHeatSetpointLimit = 0x16,
            MinCoolSetpointLimit = 0x17,
            MaxCoolSetpointLimit = 0x18,
            MinSetpointDeadBand = 0x19,
            ControlSequenceOfOperation = 0x1b,
            SystemMode = 0x1c,
            ThermostatRunningMode = 0x1e,
            ThermostatRunningState = 0x29,
            SetpointChangeSource = 0x30,
            SetpointChangeAmount = 0x31,
            SetpointChangeSourceTimestamp = 0x32,
        }

        EventId: u32 {
            SystemModeChange = 0,
            LocalTemperatureChange = 1,
            OccupancyChange = 2,
            SetpointChange = 3,
            RunningStateChange = 4,
            RunningModeChange = 5,
            ActiveScheduleChange = 6,
            ActivePresetChange = 7,
        }

        CommandId: u32 {
            SetpointRaiseLower = 0,
        }

        SystemModeEnum: u8 {
            Off = 0,
            Auto = 1,
            Cool = 3,
            Heat = 4,
            EmergencyHeat = 5,
            Precooling = 6,
            FanOnly = 7,
            Dry = 8,
            Sleep = 9,
        }

        ControlSequenceOfOperationEnum: u8 {
            CoolingOnly = 0,
            CoolingWithReheat = 1,
            HeatingOnly = 2,
            HeatingWithReheat = 3,
            CoolingAndHeating = 4,
            CoolingAndHeatingWithReheat = 5,
        }

        ThermostatRunningModeEnum: u8 {
            Off = 0,
            Cool = 3,
            Heat = 4,
        }

        SetpointRaiseLowerModeEnum: u8 {
            Heat = 0,
            Cool = 1,
            Both = 2,
        }

        SetpointChangeSourceEnum: u8 {
            Manual = 0,
            Schedule = 1,
            External = 2,
        }
    }

    pub struct Feature(u32);

    impl Feature {
        pub const HEATING: Self = Self(0x01);
        pub const COOLING: Self = Self(0x02);
        pub const AUTO_MODE: Self = Self(0x20);
        pub const LOCAL_TEMPERATURE_NOT_EXPOSED: Self = Self(0x40);
        pub const EVENTS: Self = Self(0x200);

        pub const fn bits(&self) -> u32 {
            self.0
        }
    }

    /// All 16 bits are kept, named or not.
    #[derive(Clone, Copy, Debug, Default, Eq, PartialEq)]
    pub struct RelayStateBitmap(pub u16);

    impl RelayStateBitmap {
        pub const HEAT: Self = Self(0x01);
        pub const COOL: Self = Self(0x02);
        pub const FAN: Self = Self(0x04);
        pub const HEAT_STAGE_2: Self = Self(0x08);
        pub const COOL_STAGE_2: Self = Self(0x10);
        pub const FAN_STAGE_2: Self = Self(0x20);
        pub const FAN_STAGE_3: Self = Self(0x40);

        pub const fn empty() -> Self {
            Self(0)
        }

        pub const fn intersection(self, other: Self) -> Self {
            Self(self.0 & other.0)
        }

        pub const fn intersects(self, other: Self) -> bool {
            self.0 & other.0 != 0
        }
    }

    impl BitOr for RelayStateBitmap {
        type Output = Self;

        fn bitor(self, other: Self) -> Self {
            Self(self.0 | other.0)
        }
    }

    impl BitOrAssign for RelayStateBitmap {
        fn bitor_assign(&mut self, other: Self) {
            self.0 |= other.0;
        }
    }

    /// The one request that is decoded: an unknown mode is the decoder's refusal.
    pub struct SetpointRaiseLowerRequest<'a> {
        mode: u8,
        amount: i8,
        lifetime: PhantomData<&'a ()>,
    }

    impl SetpointRaiseLowerRequest<'_> {
        pub fn new(mode: u8, amount: i8) -> Self {
            Self { mode, amount, lifetime: PhantomData }
        }

        pub fn mode(&self) -> Result<SetpointRaiseLowerModeEnum, Error> {
            SetpointRaiseLowerModeEnum::from_code(self.mode).ok_or(ErrorCode::InvalidRequest.into())
        }

        pub fn amount(&self) -> Result<i8, Error> {
            Ok(self.amount)
        }
    }

    /// Requests and responses of commands that thermostat.rs only turns away.
    macro_rules! unused {
        ($($request:ident)* ; $($builder:ident)*) => {
            $( pub struct $request<'a>(PhantomData<&'a ()>); )*
            $( pub struct $builder<P>(PhantomData<P>); )*
        };
    }

    unused! {
        SetWeeklyScheduleRequest GetWeeklyScheduleRequest SetActiveScheduleRequestRequest SetActivePresetRequestRequest
        AddThermostatSuggestionRequest RemoveThermostatSuggestionRequest AtomicRequestRequest;
        GetWeeklyScheduleResponseBuilder AddThermostatSuggestionResponseBuilder AtomicResponseBuilder
    }

    /// Events: each is filled field by field, then handed to the emitter.
    macro_rules! events {
        ($($name:ident)*) => { $(
            pub struct $name;

            impl $name {
                pub fn emit_for<F>(emitter: &impl EventEmitter, _endpoint: EndptId, fill: F) -> Result<(), Error>
                where
                    F: FnOnce(EventBuilder) -> Result<Event, Error>,
                {
                    let id = EventId::$name as _;
                    emitter.emit(fill(EventBuilder(Event { id, ..Event::default() }))?);
                    Ok(())
                }
            }
        )* };
    }

    events! { SystemModeChange LocalTemperatureChange SetpointChange RunningStateChange RunningModeChange }

    pub struct EventBuilder(Event);

    macro_rules! fields {
        ($($field:ident($value:ident: $kind:ty) = $number:expr;)*) => { $(
            pub fn $field(self, $value: $kind) -> Result<Self, Error> {
                self.with($number)
            }
        )* };
    }

    impl EventBuilder {
        fields! {
            previous_system_mode(mode: Option<SystemModeEnum>) = mode.map(|mode| mode as i32);
            current_system_mode(mode: SystemModeEnum) = Some(mode as i32);
            current_local_temperature(value: Nullable<i16>) = value.0.map(i32::from);
            system_mode(mode: SystemModeEnum) = Some(mode as i32);
            previous_setpoint(value: Option<i16>) = value.map(i32::from);
            current_setpoint(value: i16) = Some(value.into());
            previous_running_state(relays: Option<RelayStateBitmap>) = relays.map(|relays| relays.0.into());
            current_running_state(relays: RelayStateBitmap) = Some(relays.0.into());
            previous_running_mode(mode: Option<ThermostatRunningModeEnum>) = mode.map(|mode| mode as i32);
            current_running_mode(mode: ThermostatRunningModeEnum) = Some(mode as i32);
        }

        /// Not printed: it is always none.
        pub fn occupancy(self, _occupancy: Option<u8>) -> Result<Self, Error> {
            Ok(self)
        }

        pub fn end(self) -> Result<Event, Error> {
            Ok(self.0)
        }

        fn with(mut self, value: Option<i32>) -> Result<Self, Error> {
            self.0.values[self.0.count] = value;
            self.0.count += 1;
            Ok(self)
        }
    }

    pub struct HandlerAdaptor<T>(pub T);

    macro_rules! readers {
        ($($name:ident: $kind:ty;)*) => { $(
            fn $name(&self, ctx: impl ReadContext) -> Result<$kind, Error>;
        )* };
    }

    macro_rules! writers {
        ($($name:ident: $kind:ty;)*) => { $(
            fn $name(&self, ctx: impl WriteContext, value: $kind) -> Result<(), Error>;
        )* };
    }

    macro_rules! commands {
        ($($name:ident($($request:ident)?);)*) => { $(
            fn $name(&self, ctx: impl InvokeContext $(, request: $request<'_>)?) -> Result<(), Error>;
        )* };
    }

    macro_rules! commands_with_response {
        ($($name:ident($request:ident) -> $builder:ident;)*) => { $(
            fn $name<P: TLVBuilderParent>(
                &self, ctx: impl InvokeContext, request: $request<'_>, response: $builder<P>,
            ) -> Result<P, Error>;
        )* };
    }

    pub trait ClusterHandler {
        const CLUSTER: Cluster<'static>;

        fn dataver(&self) -> u32;
        fn dataver_changed(&self);
        fn lifecycle(&self, ctx: impl HandlerContext, op: LifecycleOp) -> Result<(), Error>;
        fn run(&self, ctx: impl HandlerContext) -> impl Future<Output = Result<(), Error>>;

        readers! {
            local_temperature: Nullable<i16>;
            abs_min_heat_setpoint_limit: i16;
            abs_max_heat_setpoint_limit: i16;
            abs_min_cool_setpoint_limit: i16;
            abs_max_cool_setpoint_limit: i16;
            occupied_heating_setpoint: i16;
            occupied_cooling_setpoint: i16;
            min_heat_setpoint_limit: i16;
            max_heat_setpoint_limit: i16;
            min_cool_setpoint_limit: i16;
            max_cool_setpoint_limit: i16;
            min_setpoint_dead_band: i8;
            control_sequence_of_operation: ControlSequenceOfOperationEnum;
            system_mode: SystemModeEnum;
            thermostat_running_mode: ThermostatRunningModeEnum;
            thermostat_running_state: RelayStateBitmap;
            setpoint_change_source: SetpointChangeSourceEnum;
            setpoint_change_amount: Nullable<i16>;
            setpoint_change_source_timestamp: u32;
        }

        writers! {
            set_occupied_heating_setpoint: i16;
            set_occupied_cooling_setpoint: i16;
            set_min_heat_setpoint_limit: i16;
            set_max_heat_setpoint_limit: i16;
            set_min_cool_setpoint_limit: i16;
            set_max_cool_setpoint_limit: i16;
            set_min_setpoint_dead_band: i8;
            set_control_sequence_of_operation: ControlSequenceOfOperationEnum;
            set_system_mode: SystemModeEnum;
        }

        commands! {
            handle_setpoint_raise_lower(SetpointRaiseLowerRequest);
            handle_set_weekly_schedule(SetWeeklyScheduleRequest);
            handle_clear_weekly_schedule();
            handle_set_active_schedule_request(SetActiveScheduleRequestRequest);
            handle_set_active_preset_request(SetActivePresetRequestRequest);
            handle_remove_thermostat_suggestion(RemoveThermostatSuggestionRequest);
        }

        commands_with_response! {
            handle_get_weekly_schedule(GetWeeklyScheduleRequest) -> GetWeeklyScheduleResponseBuilder;
            handle_add_thermostat_suggestion(AddThermostatSuggestionRequest) -> AddThermostatSuggestionResponseBuilder;
            handle_atomic_request(AtomicRequestRequest) -> AtomicResponseBuilder;
        }
    }
}
