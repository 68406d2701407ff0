//! The worked cases of the papers, asked of the built program.

use std::io::Write;
use std::process::{Command, Stdio};

const FEATURES: u32 = 547;
const ATTRIBUTES: u64 = 1972525402030201;
const EVENTS: u64 = 59;
const NUMBERS: &str = "700 2900 1600 3200 25 4 50";
const OPEN: &str = "open 2000 2250 700 2900 1600 3200 1";

fn config(features: u32, attributes: u64, events: u64, numbers: &str) -> String {
    format!("config 11 {features} {attributes} {events} 1 {numbers}")
}

fn plant() -> String {
    config(FEATURES, ATTRIBUTES, EVENTS, NUMBERS)
}

fn without(attributes: &[u8]) -> u64 {
    attributes.iter().fold(ATTRIBUTES, |left, code| left & !(1 << code))
}

fn run(args: &[&str], input: &str) -> String {
    let mut oracle = Command::new(env!("CARGO_BIN_EXE_oracle"))
        .args(args)
        .stdin(Stdio::piped())
        .stdout(Stdio::piped())
        .spawn()
        .expect("oracle starts");
    oracle.stdin.take().expect("a pipe").write_all(input.as_bytes()).expect("oracle reads");
    let output = oracle.wait_with_output().expect("oracle ends");
    assert!(output.status.success());
    String::from_utf8(output.stdout).expect("plain text")
}

fn ask(lines: &[&str]) -> Vec<String> {
    run(&[], &lines.join("\n")).lines().map(str::to_owned).collect()
}

#[test]
fn ten_calls() {
    let answers = ask(&[
        &plant(),
        OPEN,
        "heat 2100",
        "heat 2901",
        "raise 2 10",
        "oobcool 2300",
        "maxcool 3100",
        "cool 2300",
        "ooblimits 2000 1000 1600 1600",
        "raise 3 0",
        "raise 1 -128",
    ]);
    // Line 4 is document 01's: the Rust keeps its rule of Both, where C-14 has 2450.
    let expected = [
        "0 h=2000 c=2250 ",
        "0 h=2100 c=2350 ",
        "22 h=2100 c=2350 ",
        "0 h=2200 c=2550 ",
        "0 h=2200 c=2300 ",
        "22 h=2200 c=2300 ",
        "0 h=2050 c=2300 ",
        "0 h=1350 c=1600 ",
        "25 h=1350 c=1600 ",
        "0 h=1350 c=1600 ",
    ];
    assert_eq!(answers.len(), 11);
    for (answer, start) in answers[1..].iter().zip(expected) {
        assert!(answer.starts_with(start), "{answer}");
    }
}

#[test]
fn refused_openings() {
    let heat_limits_alone = without(&[0x12, 0x19, 0x1e, 0x05, 0x06, 0x17, 0x18]);
    let configs = [
        format!("config 10 {FEATURES} {ATTRIBUTES} {EVENTS} 1 {NUMBERS}"),
        config(FEATURES | 0x04, ATTRIBUTES, EVENTS, NUMBERS),
        config(0x220, ATTRIBUTES, EVENTS, NUMBERS),
        config(0x221, ATTRIBUTES, EVENTS, NUMBERS),
        config(FEATURES, without(&[0x1c]), EVENTS, NUMBERS),
        config(0x203, ATTRIBUTES, EVENTS, NUMBERS),
        config(FEATURES, without(&[0x18]), EVENTS, NUMBERS),
        config(0x202, heat_limits_alone, EVENTS, NUMBERS),
        config(FEATURES, without(&[0x05, 0x06, 0x17, 0x18]), EVENTS, NUMBERS),
        config(0x203, without(&[0x19]), EVENTS, NUMBERS),
        config(FEATURES, ATTRIBUTES, EVENTS | 0x04, NUMBERS),
        config(0x23, ATTRIBUTES, EVENTS, NUMBERS),
        config(FEATURES | 0x40, ATTRIBUTES, EVENTS, NUMBERS),
        config(FEATURES, ATTRIBUTES, EVENTS & !0x08, NUMBERS),
        config(FEATURES, ATTRIBUTES, EVENTS, "700 2900 1600 3200 25 4 -1"),
        format!("config 11 {FEATURES} {ATTRIBUTES} {EVENTS} 0 {NUMBERS}"),
        config(FEATURES, ATTRIBUTES, EVENTS, "2900 700 1600 3200 25 4 50"),
        config(FEATURES, ATTRIBUTES, EVENTS, "700 2900 3200 1600 25 4 50"),
        config(FEATURES, ATTRIBUTES, EVENTS, "700 2900 1600 3200 -1 4 1"),
        config(FEATURES, ATTRIBUTES, EVENTS, "700 2900 1600 3100 25 4 50"),
        config(FEATURES, ATTRIBUTES, EVENTS, "700 2900 1600 3200 25 0 50"),
    ];
    for (row, config) in (1..).zip(configs) {
        let blank = "h=0 c=0 minh=0 maxh=0 minc=0 maxc=0 mode=0 dirty=0 pend=0 shadow=- last=- src=0 amt=- ts=0 att=- \
                     armed=- order=- notices=- events=-";
        assert_eq!(ask(&[&config, OPEN]), ["ok".to_owned(), format!("{row} {blank}")]);
    }
}

#[test]
fn marked_cases() {
    let events = |lines: [&str; 2]| {
        let answers = ask(&[&plant(), OPEN, lines[0], lines[1]]);
        answers[3].split("events=").nth(1).map(str::to_owned)
    };
    let told = |value: &str| Some(value.to_owned());
    assert_eq!(events(["start @ 0 0 2000 - - 0", "timer @ 0 0 2049 - - 0"]), told("-"));
    assert_eq!(events(["start @ 0 0 2000 - - 0", "timer @ 0 0 2050 - - 0"]), told("1(2050)"));
    assert_eq!(events(["start @ 0 0 - - - 0", "timer @ 0 0 - - - 0"]), told("-"));

    let record = "record 2000 2250 700 2900 1600 3200 1 0 0 0 - 0 - - - 1000 2000 2000 2250 1 0 0";
    assert_eq!(events([record, "timer @ 0 0 2050 - - 60999"]), told("-"));
    assert_eq!(events([record, "timer @ 0 0 2050 - - 61000"]), told("1(2050)"));
}

#[test]
fn a_sweep_goes_through_run() {
    let answers = ask(&[
        &plant(),
        "record 2000 2300 700 2900 1600 3200 4 1 1023 2 -5 7 2000 2250 - - - 2000 2250 1 0 0",
        "sweep @ 1 1 2100 - 99 5",
    ]);
    assert_eq!(
        answers[2],
        "0 h=2000 c=2300 minh=700 maxh=2900 minc=1600 maxc=3200 mode=4 dirty=1 pend=0 shadow=2100/2000/2300/4/1/4 last=5 \
         src=0 amt=50 ts=99 att=2000/2300 armed=- order=- notices=00,11,12,15,16,17,18,1c,1e,29,30,31,32 \
         events=0(1,4);1(2100);3(3,2250,2300);4(0,1);5(0,4)"
    );
}

#[test]
fn a_reset_puts_the_defaults_in() {
    let plant = plant();
    let record = "record 2300 2550 800 2900 1600 3200 4 1 5 2 -5 7 2000 2250 9 70 2050 2000 2250 1 1 4";
    let rest = "dirty=0 pend=5 shadow=2050/2000/2250/1/1/4 last=70 src=2 amt=-5 ts=7 att=2000/2250 armed=9 order=- \
                notices=ffff events=-";
    let answers = ask(&[
        &format!("{plant} 2000 2250 700 2900 1600 3200 1"),
        record,
        "reset @ 0 1 2000 3 4 5",
        &plant,
        "reset",
        &config(0x203, without(&[0x19, 0x1e]), 27, "700 2900 1600 3200 0 5 0 3000 1500 2900 700 1600 3300 1"),
        record,
        "reset",
        "open 3000 1500 2900 700 1600 3300 1",
    ]);
    let ok = "ok".to_owned();
    let papers = format!("0 h=2000 c=2250 minh=700 maxh=2900 minc=1600 maxc=3200 mode=1 {rest}");
    let unrepaired = format!("0 h=3000 c=1500 minh=2900 maxh=700 minc=1600 maxc=3300 mode=1 {rest}");
    assert_eq!(answers[..5], [ok.clone(), ok.clone(), papers, ok.clone(), "? table".to_owned()]);
    assert_eq!(answers[5..8], [ok.clone(), ok, unrepaired]);
    assert!(
        answers[8].starts_with("0 h=2900 c=1600 minh=2900 maxh=2900 minc=1600 maxc=3200 mode=0 "),
        "{}",
        answers[8]
    );
}

#[test]
fn what_has_no_answer() {
    let overflowing = config(FEATURES, ATTRIBUTES, EVENTS, "-32768 0 -32768 2900 25 4 50");
    let answers = ask(&[
        &plant(),
        "open 2000 2250 700 2900 1600 3200 2",
        "heat 2100",
        OPEN,
        "mode 2",
        "oobmode 10",
        "sequence 6",
        "record 2000 2250 700 2900 1600 3200 1 0 0 3 - 0 - - - -",
        "heat 2100",
        "config 11 547 1972525402030201 59 1 701 2900 1600 3200 25 4 50",
        OPEN,
        "arm",
        &overflowing,
        OPEN,
    ]);
    let marked: Vec<&str> = answers.iter().map(|answer| if answer.starts_with("0 ") { "0" } else { answer }).collect();
    assert_eq!(
        marked,
        [
            "ok",
            "? type",
            "? type",
            "0",
            "? type",
            "? type",
            "? type",
            "ok",
            "? type",
            "ok",
            "? table",
            "? table",
            "ok",
            "? panic attempt to subtract with overflow",
        ]
    );
}

#[test]
fn unreadable_lines() {
    let long = format!("heat {}2000", "0".repeat(242));
    let answers = ask(&[
        "# passed over",
        "",
        "warm 5",
        "heat",
        "heat 5 6",
        "heat  5",
        "heat 5 ",
        " heat 5",
        "heat 32768",
        "heat +5",
        "heat -",
        "raise 0 128",
        "arm @ 0 0 - - -",
        "arm @ 65536 0 - - - 0",
        "deadline @ 0 0 - - - 18446744073709551616",
        "record 0 0 0 0 0 0 0 2 0 0 - 0 - - - -",
        "record 0 0 0 0 0 0 0 0 0 0 - 0 - 5 - -",
        "record 0 0 0 0 0 0 0 0 0 0 - 0 - - - - 5",
        "config 11 547",
        &long,
    ]);
    let expected: Vec<String> = (3..=20).map(|line| format!("error {line}")).collect();
    assert_eq!(answers, expected);
}

#[test]
fn drawn_load() {
    let totals = run(&["load", "100000", "1"], "");
    let expected =
        "settings 1516 2147 1490 1516 1740 2501 0\naccepted 48310\nnotices 94678\norders 48310\nevents 15215\n";
    assert_eq!(totals, expected);
}
