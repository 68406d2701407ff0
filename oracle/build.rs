//! Writes what cannot stand in a source file: the way to the original, and the table of numbers with the code for each row.

use std::path::{Path, PathBuf};
use std::{env, fs};

type Row = ([i32; 4], i32, i32, i32);
type Settings = ([i32; 6], i32);

/// Rows that are always there: the plant of the papers first, then nothing configured, then the ends of the ranges.
const FIXED: [Row; 17] = [
    ([700, 2900, 1600, 3200], 25, 4, 50),
    ([0, 0, 0, 0], 0, 0, 0),
    // The same plant with other sequences, dead bands and deltas.
    ([700, 2900, 1600, 3200], 25, 0, 50),
    ([700, 2900, 1600, 3200], 25, 2, 50),
    ([700, 2900, 1600, 3200], 0, 5, 0),
    ([700, 2900, 1600, 3200], -1, 4, 1),
    ([700, 2900, 1600, 3200], 25, 4, -1),
    // The whole range, with the widest dead band and with none.
    ([-32768, 31497, -31498, 32767], 127, 4, 50),
    ([-32768, 32767, -32768, 32767], 0, 4, 32767),
    ([-32768, 32767, -32768, 32767], 0, 1, 0),
    ([-32768, 32767, -32768, 32767], 0, 3, 1),
    // No room for the dead band below the least cooling number: the Rust's subtraction overflows.
    ([-32768, 0, -32768, 2900], 25, 4, 50),
    ([-32768, -32768, -32768, -32768], 127, 4, 0),
    // Too near each other, inverted, without any room.
    ([700, 2900, 1600, 3100], 25, 4, 50),
    ([2900, 700, 1600, 3200], 25, 4, 50),
    ([700, 2900, 3200, 1600], 25, 4, 50),
    ([2000, 2000, 2250, 2250], 25, 5, 0),
];

/// Defaults of three of these rows: the papers' settings, which need no repair; nothing; and limits the wrong way round, with both
/// setpoints outside. Those of the others are drawn.
const FIXED_DEFAULTS: [(usize, Settings); 3] =
    [(0, ([2000, 2250, 700, 2900, 1600, 3200], 1)), (1, ([0; 6], 0)), (4, ([3000, 1500, 2900, 700, 1600, 3300], 1))];

fn main() {
    let out = PathBuf::from(env::var_os("OUT_DIR").expect("OUT_DIR"));

    // Cargo runs this in the package's own folder, so a relative path starts there.
    println!("cargo::rerun-if-env-changed=THERMOSTAT_RS");
    let original = env::var("THERMOSTAT_RS").expect("THERMOSTAT_RS must name the original thermostat.rs, from oracle/");
    let original = Path::new(&original).canonicalize().expect("THERMOSTAT_RS names no file");
    println!("cargo::rerun-if-changed={}", original.display());
    let module = format!("#[allow(dead_code, refining_impl_trait)]\n#[path = {original:?}]\nmod thermostat;\n");
    fs::write(out.join("original.rs"), module).expect("OUT_DIR takes files");

    let seed = setting("ORACLE_SEED", 1);
    let rows = table(setting("ORACLE_ROWS", 256), seed);
    let mut table = format!("pub static TABLE: [Row; {}] = [\n", rows.len());
    for (limits, dead_band, sequence, delta) in &rows {
        table += &format!("    Row::of({limits:?}, {dead_band}, {sequence}, {delta}),\n");
    }
    table += &format!("];\n\nstatic DEFAULTS: [Settings; {}] = [\n", rows.len());
    for (hundredths, mode) in defaults(&rows, seed) {
        table += &format!("    Settings::of({hundredths:?}, {mode}),\n");
    }
    table += &format!("];\n\nstatic PLANTS: [Plant; {}] = [\n", rows.len());
    for index in 0..rows.len() {
        table += &format!("    Plant::of::<Listed<{index}>>(),\n");
    }
    table += "];\n";
    fs::write(out.join("table.rs"), table).expect("OUT_DIR takes files");
}

fn setting(name: &str, default: u64) -> u64 {
    println!("cargo::rerun-if-env-changed={name}");
    env::var(name).map_or(default, |value| value.parse().expect("a number"))
}

fn table(count: u64, seed: u64) -> Vec<Row> {
    let mut rows = FIXED.to_vec();
    let mut draw = Draw(seed);
    while (rows.len() as u64) < count {
        let row = draw.row();
        let fits = row.0.iter().all(|limit| (-32768..=32767).contains(limit));
        if fits && !rows.contains(&row) {
            rows.push(row);
        }
    }
    rows
}

/// Drawn apart from the rows, which are the same without them.
fn defaults(rows: &[Row], seed: u64) -> Vec<Settings> {
    let mut draw = Draw(!seed);
    let mut all: Vec<Settings> = rows.iter().map(|row| draw.defaults(row)).collect();
    for (index, fixed) in FIXED_DEFAULTS {
        all[index] = fixed;
    }
    all
}

struct Draw(u64);

impl Draw {
    fn below(&mut self, bound: u64) -> i32 {
        self.0 = self.0.wrapping_mul(6364136223846793005).wrapping_add(1442695040888963407);
        ((self.0 >> 33) % bound) as i32
    }

    fn pick<const N: usize>(&mut self, from: [i32; N]) -> i32 {
        from[self.below(N as u64) as usize]
    }

    fn any(&mut self) -> i32 {
        self.below(65536) - 32768
    }

    /// How far one limit lies above another: often not at all, or just.
    fn step(&mut self) -> i32 {
        let wide = self.below(30000);
        let near = self.below(60);
        self.pick([0, 0, 1, 10, near, near, 300, 2000, wide])
    }

    fn row(&mut self) -> Row {
        let band = self.below(128);
        let dead_band = self.pick([0, 1, 25, 127, 0, 1, 25, 127, band, band, -1, -128]);
        let sequence = self.pick([4, 5, 4, 5, 4, 5, 0, 1, 2, 3]);
        let delta = self.below(32768);
        let delta = self.pick([0, 1, 50, 0, 1, 50, 32767, delta, delta, -1]);
        let gap = 10 * dead_band.max(0);

        let low = self.any();
        let min_heat = self.pick([-32768, -32767, -1, 0, 700, 700, low, low]);
        let max_heat = min_heat + self.step();
        let min_cool = min_heat + gap + self.step();
        let max_cool = min_cool.max(max_heat + gap) + self.step();
        let mut limits = [min_heat, max_heat, min_cool, max_cool];
        match self.below(12) {
            // Up to the end of the range.
            0 | 1 if limits[3] <= 32767 => limits[3] = 32767,
            2 => {
                let shift = 32767 - limits[3];
                limits = limits.map(|limit| limit + shift);
            }
            // One beside what was meant.
            3 | 4 => limits[self.below(4) as usize] += self.pick([-1, 1]),
            // No thought for the gap.
            5 | 6 => limits = [min_heat, max_heat, low, low + self.step()],
            // Anything.
            7 => limits = limits.map(|_| self.pick_edge()),
            _ => (),
        }
        (limits, dead_band, sequence, delta)
    }

    /// Half of them sound, if the row is: limits within ABS and a gap apart, setpoints within them, a mode that the sequence has. The
    /// others lie at or beside the row's limits, a gap from them or anywhere, or have one number or the mode of that kind.
    fn defaults(&mut self, row: &Row) -> Settings {
        let (limits, dead_band, sequence, _) = *row;
        let [abs_min_heat, abs_max_heat, abs_min_cool, abs_max_cool] = limits;
        let gap = 10 * dead_band.max(0);

        let whole = self.below(3) == 0;
        let min_cool = if whole { abs_min_cool } else { self.between(abs_min_cool, abs_max_cool) };
        let max_cool = if whole { abs_max_cool } else { self.between(min_cool, abs_max_cool) };
        let min_heat = if whole { abs_min_heat } else { self.between(abs_min_heat, abs_max_heat.min(min_cool - gap)) };
        let max_heat = if whole { abs_max_heat } else { self.between(min_heat, abs_max_heat.min(max_cool - gap)) };
        let heating = self.between(min_heat, max_heat);
        let cooling = self.between(min_cool.max((heating + gap).min(max_cool)), max_cool);
        let mut hundredths = [heating, cooling, min_heat, max_heat, min_cool, max_cool];
        let mut mode = match sequence {
            0 | 1 => self.pick([0, 3]),
            2 | 3 => self.pick([0, 4]),
            _ => self.pick([0, 3, 4]),
        };
        match self.below(12) {
            0 | 1 => hundredths = hundredths.map(|_| self.beside(limits, gap)),
            2 => hundredths[self.below(2) as usize] = self.beside(limits, gap),
            3 => hundredths[2 + self.below(4) as usize] = self.beside(limits, gap),
            4 => mode = self.pick([0, 1, 3, 4, 5, 6, 7, 8, 9]),
            5 => {
                hundredths = hundredths.map(|_| self.any());
                mode = self.pick([0, 1, 3, 4, 5, 6, 7, 8, 9]);
            }
            _ => (),
        }
        (hundredths.map(|value| value.clamp(-32768, 32767)), mode)
    }

    /// A number from low to high, often at an end; low, where high is below it.
    fn between(&mut self, low: i32, high: i32) -> i32 {
        let some = low + self.below((high - low).max(0) as u64 + 1);
        self.pick([low, high.max(low), some, some])
    }

    /// At one of the limits, one from it, or a gap from it, or anywhere.
    fn beside(&mut self, limits: [i32; 4], gap: i32) -> i32 {
        let limit = self.pick(limits);
        let any = self.any();
        let step = self.pick([0, 0, 1, -1, gap, -gap, gap + 1, -gap - 1]);
        self.pick([limit + step, limit + step, limit + step, any])
    }

    fn pick_edge(&mut self) -> i32 {
        let any = self.any();
        self.pick([-32768, -32767, -1270, -1, 0, 1, 1270, 32766, 32767, any])
    }
}
