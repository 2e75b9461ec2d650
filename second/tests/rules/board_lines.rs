//! The lines that document 02's request A9 adds to the protocol, to the byte.

use second::protocol::Console;

const FRESH: &str = "000000000000000000000000000000000000000000000000000000000000000000000000\
                     0000000f0000000300000000";
const OPEN: &str = "000000000000000000000000000000000000000000000000000000000000000000000000\
                    0000000f0000000301000000";

/// Lines with a fault of form.
const FAULTY: [&str; 39] = [
    "b.fresh 0",
    "b.fresh 0 2",
    "b.fresh 2 0",
    "b.fresh 0 0 0",
    "b.fresh 256 0",
    "b.fresh 0 4294967296",
    "b.fresh - -",
    "b.state -",
    "b.state 00",
    "b.write 0",
    "b.write 0 256",
    "b.write 4294967296 0",
    "b.read",
    "b.read 0x100000000",
    "b.pins",
    "b.pins 4294967296",
    "b.reset 0",
    "b.grant 0",
    "b.run 1",
    "b.run 4294967296 0",
    "b.round",
    "b.round 4294967296",
    "b.waits 5",
    "b.waits 2 5",
    "b.waits 4294967297 5",
    "b.waits 1 256",
    "b.waits 0 0 0",
    "b.sheet 0 1",
    "b.sheet 2 1 56",
    "b.sheet 0 0 56",
    "b.sheet 0 3 58",
    "b.sheet 0 257 58",
    "b.sheet 0 1 70001",
    "b.load 0 1",
    "b.judge -",
    "b.full",
    "B.reset",
    "b. reset",
    "b.",
];

/// Registers, pins, grants, runs and rounds of both chips over one memory, queue and room.
const PROGRAM: [(&str, &str); 37] = [
    ("b.write 0xB 0x44", "ok"),
    ("b.write 0x1B 0x48", "ok"),
    ("b.write 1 9", "ok"),
    ("b.write 1 0", "ok"),
    ("b.write 0x11 9", "ok"),
    ("b.write 0x11 0", "ok"),
    ("b.write 15 14", "ok"),
    ("b.write 31 14", "ok"),
    ("b.waits 1 5", "ok"),
    ("b.grant", "refused 6"),
    ("b.pins 0x11", "ok"),
    ("b.pins 256", "refused 2"),
    ("b.run 1 0", "refused 8"),
    ("feed 5a5b5c", "ok"),
    ("room 2 0", "ok"),
    ("b.grant", "channel 0"),
    ("b.grant", "refused 3"),
    ("b.read 0x18", "refused 3"),
    ("b.write 32 0", "refused 2"),
    ("b.waits 1 0", "refused 3"),
    ("b.round 1", "refused 3"),
    ("b.round 4097", "refused 2"),
    ("memory 65535", "ok"),
    ("b.run 1 0", "refused 7"),
    ("memory 65536", "ok"),
    ("b.run 1 0", "ended transfers=1 used=1 written=0 states=4"),
    ("b.grant", "channel 4"),
    ("b.run 9 0", "ended transfers=1 used=0 written=1 states=9"),
    ("out 0 2", "bytes 5a00"),
    ("b.round 3", "done services=2,0,0,0,1,0,0,0 transfers=3 used=2 written=1 states=17"),
    ("b.round 3", "short services=0,0,0,0,1,0,0,0 transfers=0 used=0 written=0 states=0"),
    ("peek 0 4", "bytes 5a5b5c00"),
    ("out 0 2", "bytes 5a5b"),
    ("b.reset", "ok"),
    ("b.read 0x18", "byte 0x10"),
    ("b.read 0x1E", "refused 4"),
    ("b.write 0x1B 0x4C", "refused 5"),
];

fn one(console: &mut Console, line: &str) -> String {
    console.answer(line.as_bytes()).unwrap()
}

fn play(console: &mut Console, lines: &[(&str, &str)]) {
    for (line, answer) in lines {
        assert_eq!(one(console, line), *answer, "{line}");
    }
}

/// The arbiter, then edition, waits and body of each chip.
fn board(last: &str, first: &str, second: &str) -> String {
    format!("{last}{first}{second}")
}

fn fresh(last: &str, editions: [&str; 2]) -> String {
    board(last, &format!("{}00{FRESH}", editions[0]), &format!("{}00{FRESH}", editions[1]))
}

#[test]
fn fresh_and_state() {
    let mut console = Console::new();
    assert_eq!(one(&mut console, "b.state"), format!("b.state {}", fresh("01", ["00", "00"])));
    for (line, editions) in [
        ("b.fresh 0 1", ["00", "01"]),
        ("b.fresh 1 0x0 # of both", ["01", "00"]),
        ("b.fresh 1 1", ["01", "01"]),
        ("b.fresh", ["00", "00"]),
    ] {
        let other = format!("b.state 00{}{}", "ab".repeat(50), "cd".repeat(50));
        assert_eq!(one(&mut console, &other.to_uppercase().replace("B.STATE", "b.state")), "ok");
        assert_eq!(one(&mut console, "b.state"), other);
        assert_eq!(one(&mut console, line), "ok");
        assert_eq!(one(&mut console, "b.state"), format!("b.state {}", fresh("01", editions)));
    }
}

/// Any 101 bytes are taken; those that are no board are refused from then on (1).
#[test]
fn broken_boards() {
    let mut console = Console::new();
    let idle = format!("0000{FRESH}");
    let open = format!("0000{OPEN}");
    for state in [
        board("02", &idle, &idle),
        board("ff", &open, &idle),
        board("00", &open, &open),
        board("01", &format!("0200{FRESH}"), &idle),
        board("01", &idle, &format!("0200{FRESH}")),
    ] {
        assert_eq!(one(&mut console, &format!("b.state {state}")), "ok");
        for line in [
            "b.write 32 0",
            "b.write 0 0",
            "b.write 16 0",
            "b.read 8",
            "b.read 24",
            "b.pins 256",
            "b.reset",
            "b.waits 0 0",
            "b.waits 1 0",
            "b.grant",
            "b.run 1 0",
            "b.round 4097",
        ] {
            assert_eq!(one(&mut console, line), "refused 1", "{line}");
        }
        assert_eq!(one(&mut console, "b.state"), format!("b.state {state}"));
    }
}

#[test]
fn faulty_lines() {
    let mut console = Console::new();
    assert_eq!(one(&mut console, "b.waits 1 3"), "ok");
    let before = one(&mut console, "b.state");
    let sheet = format!("{FRESH}010030001200444d");
    let lengths = [100, 102, 50, 0x1000].map(|length| format!("b.state {}", "00".repeat(length)));
    let sheets =
        ["2 1", "0 0", "0 3", "0", "0 1 00"].map(|words| format!("b.load {words} {sheet}"));
    let odd = [format!("b.load 0 1 {sheet}0"), format!("b.state {}0", "00".repeat(100))];
    let made = [&lengths[..], &sheets[..], &odd[..]].concat();
    for line in FAULTY.into_iter().chain(made.iter().map(String::as_str)) {
        assert_eq!(one(&mut console, line), "error", "{line}");
        assert_eq!(one(&mut console, "b.state"), before, "{line}");
    }
}

/// Faults of form come before every refusal.
#[test]
fn form_comes_first() {
    let mut console = Console::new();
    assert_eq!(one(&mut console, &format!("b.state {}", "ff".repeat(101))), "ok");
    for line in ["b.waits 2 0", "b.waits 0 256", "b.sheet 0 3 56", "b.sheet 1 1 70001"] {
        assert_eq!(one(&mut console, line), "error", "{line}");
    }
}

#[test]
fn a_rack_program() {
    play(&mut Console::new(), &PROGRAM);
}

/// The board is apart from the controller, but for memory, queue and room.
#[test]
fn the_controller_is_another() {
    let mut console = Console::new();
    play(&mut console, &[("b.pins 0xFF", "ok"), ("b.write 8 0x10", "ok"), ("b.fresh 1 1", "ok")]);
    assert_eq!(one(&mut console, "full"), format!("full 0000{FRESH}"));
    play(
        &mut console,
        &[("b.pins 0x5A", "ok"), ("pins 3", "ok"), ("fresh", "ok"), ("reset", "ok")],
    );
    let [first, second] =
        ["0a", "05"].map(|pins| format!("0100{}{pins}{}", &FRESH[..84], &FRESH[86..]));
    let wanted = format!("b.state {}", board("01", &first, &second));
    assert_eq!(one(&mut console, "b.state"), wanted);
}

/// One sheet for each chip, of either form.
#[test]
fn sheets() {
    let mut console = Console::new();
    let form_one = format!("{FRESH}010030001200444d");
    let form_two = format!("0107{FRESH}020032001a00444d");
    let state = board("00", &format!("0000{FRESH}"), &format!("0107{FRESH}"));
    assert_eq!(one(&mut console, &format!("b.state {state}")), "ok");
    for (line, answer) in [
        ("b.sheet 0 1 56", format!("bytes {form_one}")),
        ("b.sheet 0 1 55", "refused 9".to_string()),
        ("b.sheet 0 2 57", "refused 9".to_string()),
        ("b.sheet 1 1 55", "refused 9".to_string()),
        ("b.sheet 1 1 56", "refused 15".to_string()),
        ("b.sheet 1 2 60", format!("bytes eeee{form_two}")),
    ] {
        assert_eq!(one(&mut console, line), answer, "{line}");
    }
    assert_eq!(one(&mut console, &format!("b.load 0 2 {form_two}")), "ok");
    let loaded = board("00", &format!("0107{FRESH}"), &format!("0107{FRESH}"));
    assert_eq!(one(&mut console, "b.state"), format!("b.state {loaded}"));
    assert_eq!(one(&mut console, &format!("b.load 1 1 ff{form_one}")), "ok");
    let loaded = board("00", &format!("0107{FRESH}"), &format!("0000{FRESH}"));
    assert_eq!(one(&mut console, "b.state"), format!("b.state {loaded}"));
    for (line, number) in [
        (format!("b.load 1 2 {form_one}"), 9),
        (format!("b.load 1 1 {form_two}"), 11),
        (format!("b.load 0 1 {}", form_one.replace("1200444d", "1300444d")), 13),
        ("b.load 0 2 -".to_string(), 9),
    ] {
        assert_eq!(one(&mut console, &line), format!("refused {number}"), "{line}");
        assert_eq!(one(&mut console, "b.state"), format!("b.state {loaded}"));
    }
}

/// A sheet is loaded without a look at the pair; both in service is refusal 1 in the next call.
#[test]
fn a_loaded_pair() {
    let mut console = Console::new();
    let open = format!("{OPEN}010030001300444d");
    play(
        &mut console,
        &[
            (&format!("b.load 0 1 {open}"), "ok"),
            ("b.waits 1 1", "refused 3"),
            (&format!("b.load 1 1 {open}"), "ok"),
            ("b.reset", "refused 1"),
            ("b.sheet 0 1 56", &format!("bytes {open}")),
            ("b.sheet 1 1 55", "refused 9"),
            (&format!("b.load 0 1 {FRESH}010030001200444d"), "ok"),
            ("b.reset", "ok"),
        ],
    );
    assert_eq!(one(&mut console, "b.state"), format!("b.state {}", fresh("01", ["00", "00"])));
}
