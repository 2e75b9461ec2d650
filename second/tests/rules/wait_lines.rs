//! The line that document 02's request A3 adds to the protocol, and those it changes, to the byte.

use second::protocol::Console;

const FRESH: &str = "000000000000000000000000000000000000000000000000000000000000000000000000\
                     0000000f0000000300000000";

fn one(console: &mut Console, line: &str) -> String {
    console.answer(line.as_bytes()).unwrap()
}

fn play(lines: &[(&str, &str)]) {
    let mut console = Console::new();
    for (line, answer) in lines {
        assert_eq!(one(&mut console, line), *answer, "{line}");
    }
}

/// The answer to `full` for a fresh body.
fn fresh(edition_and_waits: &str) -> String {
    format!("full {edition_and_waits}{FRESH}")
}

#[test]
fn waits_are_set_and_shown() {
    let mut console = Console::new();
    assert_eq!(one(&mut console, "full"), fresh("0000"));
    for (line, shown) in [
        ("waits 1", "0001"),
        ("waits 0", "0000"),
        ("waits 255", "00ff"),
        ("waits 0xfe", "00fe"),
        ("waits 0xFF # the most", "00ff"),
        ("\twaits \t 007\r", "0007"),
        ("waits 0x0000000000000000000010", "0010"),
        ("waits 0000000000000000000000000000128", "0080"),
    ] {
        assert_eq!(one(&mut console, line), "ok", "{line}");
        assert_eq!(one(&mut console, "full"), fresh(shown), "{line}");
        assert_eq!(one(&mut console, "state"), format!("state {FRESH}"), "{line}");
    }
}

#[test]
fn faulty_waits_lines() {
    let mut console = Console::new();
    assert_eq!(one(&mut console, "waits 3"), "ok");
    for line in [
        "waits",
        "waits 1 2",
        "waits 256",
        "waits 0x100",
        "waits 257",
        "waits 65536",
        "waits 4294967295",
        "waits 4294967296",
        "waits 4294967297",
        "waits 18446744073709551615",
        "waits 18446744073709551616",
        "waits 0x10000000000000001",
        "waits -",
        "waits -1",
        "waits +1",
        "waits 1.0",
        "waits x",
        "waits FF",
        "waits 0x",
        "waits 0X1",
        "waits 1h",
        "Waits 1",
        "wait 1",
    ] {
        assert_eq!(one(&mut console, line), "error", "{line}");
        assert_eq!(one(&mut console, "full"), fresh("0003"), "{line}");
    }
}

/// Refusals 1 and 3, in this order; a fault of form comes before both.
#[test]
fn refused_waits() {
    let mut console = Console::new();
    let open = format!("{}01000000", &FRESH[..88]);
    for (body, answer) in [(open.as_str(), "refused 3"), (&"ff".repeat(48), "refused 1")] {
        assert_eq!(one(&mut console, &format!("full 0103{body}")), "ok");
        for line in ["waits 0", "waits 3", "waits 255"] {
            assert_eq!(one(&mut console, line), answer, "{line}");
            assert_eq!(one(&mut console, "full"), format!("full 0103{body}"));
        }
        assert_eq!(one(&mut console, "waits 256"), "error");
    }
    for edition in ["02", "ff"] {
        for body in [FRESH, &open] {
            assert_eq!(one(&mut console, &format!("full {edition}03{body}")), "ok");
            assert_eq!(one(&mut console, "waits 0"), "refused 1");
            assert_eq!(one(&mut console, "full"), format!("full {edition}03{body}"));
        }
    }
}

/// The second byte of `full HEX` are the waits, whatever they are; `state HEX` leaves them.
#[test]
fn full_and_state() {
    let mut console = Console::new();
    let body = format!("3412{}", &FRESH[4..]);
    for edition in ["00", "01", "02"] {
        for waits in ["00", "01", "80", "ff"] {
            assert_eq!(one(&mut console, &format!("full {edition}{waits}{FRESH}")), "ok");
            assert_eq!(one(&mut console, "full"), fresh(&format!("{edition}{waits}")));
            assert_eq!(one(&mut console, &format!("state {body}")), "ok");
            assert_eq!(one(&mut console, "full"), format!("full {edition}{waits}{body}"));
        }
    }
}

/// `fresh` and `fresh E` give waits 0; `reset` and master clear leave them.
#[test]
fn fresh_and_reset() {
    let mut console = Console::new();
    for (line, edition) in [("fresh", "00"), ("fresh 0", "00"), ("fresh 1", "01")] {
        assert_eq!(one(&mut console, "waits 9"), "ok");
        assert_eq!(one(&mut console, line), "ok");
        assert_eq!(one(&mut console, "full"), fresh(&format!("{edition}00")));
        for line in ["waits 8", "reset", "write 13 0"] {
            assert_eq!(one(&mut console, line), "ok", "{line}");
            assert_eq!(one(&mut console, "full"), fresh(&format!("{edition}08")));
        }
    }
    assert_eq!(one(&mut console, "fresh 2"), "error");
    assert_eq!(one(&mut console, "full"), fresh("0108"));
}

#[test]
fn sheets() {
    let mut console = Console::new();
    let sheet = format!("{FRESH}010030001200444d");
    for made in ["0001", "00ff", "0101", "02ff"] {
        let full = format!("full {made}{FRESH}");
        assert_eq!(one(&mut console, &full), "ok");
        let wanted = if made.starts_with("02") { [1, 1, 1] } else { [9, 15, 15] };
        for (line, number) in ["sheet 55", "sheet 56", "sheet 70000"].iter().zip(wanted) {
            assert_eq!(one(&mut console, line), format!("refused {number}"), "{made} {line}");
        }
        assert_eq!(one(&mut console, &format!("load {}", &sheet[2..])), "refused 9");
        assert_eq!(one(&mut console, &format!("load {}ff", &sheet[..110])), "refused 10");
        assert_eq!(one(&mut console, "full"), fresh(made));
        assert_eq!(one(&mut console, &format!("load 00{sheet}")), "ok");
        assert_eq!(one(&mut console, "full"), fresh("0000"));
        assert_eq!(one(&mut console, "sheet 56"), format!("bytes {sheet}"));
    }
}

#[test]
fn runs_and_rounds() {
    play(&[
        ("waits 10", "ok"),
        ("write 0xB 0x82", "ok"),
        ("write 5 2", "ok"),
        ("write 5 0", "ok"),
        ("write 9 6", "ok"),
        ("grant", "channel 2"),
        ("waits 0", "refused 3"),
        ("run 1 0", "limit transfers=1 used=0 written=0 states=14"),
        ("run 9 0", "ended transfers=2 used=0 written=0 states=26"),
        ("waits 255", "ok"),
        ("write 3 1", "ok"),
        ("write 3 0", "ok"),
        ("write 0xB 0x91", "ok"),
        ("write 0xF 0xE", "ok"),
        ("write 8 1", "ok"),
        ("pins 1", "ok"),
        ("round 3", "done services=3,0,0,0 transfers=6 used=0 written=0 states=3108"),
        ("grant", "channel 0"),
        ("run 99 1", "ended transfers=1 used=0 written=0 states=518"),
    ]);
}
