//! C-18: what the library makes of a probe's degrees, beside a computation of another kind. The library works on the bits of a 32-bit float;
//! here 100 times the value is exact in 64 bits (24 binary digits and 7 more of 53), and the processor rounds it, a half to the even one.
//!
//!     probe_degrees all                      every one of the 4,294,967,296 patterns, on two threads
//!     probe_degrees sample COUNT SEED DIR    lines for the console and their answers: DIR/stdin, DIR/stdout
//!     probe_degrees load ours|rust|none COUNT [any]   COUNT conversions: readings of a room, or any pattern
use std::fmt::Write;
use std::time::Instant;

#[repr(C)]
struct NullableTemperature {
    hundredths: i16,
    given: u16,
}

#[link(name = "embedding_c", kind = "static")]
extern "C" {
    fn thermostat_probe_degrees(degrees: f32) -> NullableTemperature;
}

/// The library's answer: null, or hundredths. A null has no number, and a flag is 0 or 1.
fn ours(x: f32) -> Result<Option<i16>, String> {
    // Sound: the function takes a float by value, is total and touches nothing else.
    let t = unsafe { thermostat_probe_degrees(x) };
    match (t.given, t.hundredths) {
        (0, 0) => Ok(None),
        (1, v) => Ok(Some(v)),
        (given, v) => Err(format!("given {given}, hundredths {v}")),
    }
}

fn rust(x: f32) -> Option<i16> {
    let hundredths = (f64::from(x) * 100.0).round_ties_even();
    if (-27315.0..=32767.0).contains(&hundredths) {
        Some(hundredths as i16)
    } else {
        None
    }
}

#[derive(Default)]
struct Counts {
    patterns: u64,
    nulls: u64,
    zeros: u64,
    halves: u64,
    differences: u64,
}

fn compare(from: u64, to: u64) -> Counts {
    let mut c = Counts::default();
    for bits in from..to {
        let x = f32::from_bits(bits as u32);
        let want = rust(x);
        let got = ours(x);
        c.patterns += 1;
        c.nulls += u64::from(want.is_none());
        c.zeros += u64::from(want == Some(0));
        c.halves += u64::from(want.is_some() && (f64::from(x) * 100.0).fract().abs() == 0.5);
        if got != Ok(want) {
            c.differences += 1;
            if c.differences <= 10 {
                println!("{bits:#010x} {x}: {got:?}, not {want:?}");
            }
        }
    }
    c
}

fn all() {
    let half = 1u64 << 31;
    let upper = std::thread::spawn(move || compare(half, 2 * half));
    let a = compare(0, half);
    let b = upper.join().expect("no panic");
    println!(
        "patterns {}, null {}, zero {}, halves in range {}, differences {}",
        a.patterns + b.patterns,
        a.nulls + b.nulls,
        a.zeros + b.zeros,
        a.halves + b.halves,
        a.differences + b.differences
    );
}

struct Draw(u64);

impl Draw {
    fn next(&mut self) -> u32 {
        self.0 = self.0.wrapping_mul(6364136223846793005).wrapping_add(1442695040888963407);
        (self.0 >> 32) as u32
    }

    /// -40 to 60 degrees, in steps of 2^-16.
    fn room(&mut self) -> f32 {
        (self.next() % 6_553_600) as f32 / 65536.0 - 40.0
    }
}

/// Patterns at which answers change: a float nearest to a hundredth, or to the middle of two, and its neighbours; the ends of each
/// exponent; halves; and any pattern.
fn drawn(d: &mut Draw) -> u32 {
    let near = d.next() % 3;
    let sign = d.next() << 31;
    match d.next() % 8 {
        0 | 1 => ((d.next() % 40_000) as f32 / 100.0).to_bits().wrapping_add(near) | sign,
        2 | 3 => ((2 * (d.next() % 40_000) + 1) as f32 / 200.0).to_bits().wrapping_add(near) | sign,
        4 => ((2 * (d.next() % 1500) + 1) as f32 / 8.0).to_bits() | sign,
        5 => ((d.next() % 256) << 23).wrapping_sub(1).wrapping_add(near) & 0x7fff_ffff | sign,
        6 => d.room().to_bits(),
        _ => d.next(),
    }
}

fn sample(count: usize, seed: u64, dir: &str) {
    let mut d = Draw(seed);
    let mut lines = String::new();
    let mut answers = String::new();
    for _ in 0..count {
        let bits = drawn(&mut d);
        writeln!(lines, "degrees {bits}").expect("a string takes it");
        match rust(f32::from_bits(bits)) {
            Some(v) => writeln!(answers, "temperature={v}"),
            None => writeln!(answers, "temperature=-"),
        }
        .expect("a string takes it");
    }
    std::fs::write(format!("{dir}/stdin"), lines).expect("a file to write");
    std::fs::write(format!("{dir}/stdout"), answers).expect("a file to write");
}

fn load(which: &str, count: u64, any: bool) {
    let mut d = Draw(1);
    let mut sum = 0i64;
    let start = Instant::now();
    for _ in 0..count {
        let x = if any { f32::from_bits(d.next()) } else { d.room() };
        sum += match which {
            "ours" => {
                let t = unsafe { thermostat_probe_degrees(x) };
                i64::from(t.hundredths) + i64::from(t.given)
            }
            "rust" => rust(x).map_or(0, |v| i64::from(v) + 1),
            _ => i64::from(x.to_bits()),
        };
    }
    println!("{sum} {:.2} ns a conversion with its drawing", start.elapsed().as_nanos() as f64 / count as f64);
}

fn main() {
    let words: Vec<String> = std::env::args().skip(1).collect();
    let words: Vec<&str> = words.iter().map(String::as_str).collect();
    match words[..] {
        ["all"] => all(),
        ["sample", count, seed, dir] => sample(count.parse().expect("a count"), seed.parse().expect("a seed"), dir),
        ["load", which, count] => load(which, count.parse().expect("a count"), false),
        ["load", which, count, "any"] => load(which, count.parse().expect("a count"), true),
        _ => println!("usage: probe_degrees all | sample COUNT SEED DIR | load ours|rust|none COUNT [any]"),
    }
}
