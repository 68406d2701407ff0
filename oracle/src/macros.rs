//! The macros that thermostat.rs uses without an import: its project's log, which stays silent here, and `unwrap!`.

macro_rules! warn {
    ($($message:tt)*) => {{
        let _ = format_args!($($message)*);
    }};
}

macro_rules! info {
    ($($message:tt)*) => {{
        let _ = format_args!($($message)*);
    }};
}

macro_rules! unwrap {
    ($result:expr) => {
        $result.unwrap()
    };
}
