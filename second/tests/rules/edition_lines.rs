//! The lines that document 02's request A2 adds to the protocol, to the byte.

use second::protocol::Console;

const FRESH: &str = "000000000000000000000000000000000000000000000000000000000000000000000000\
                     0000000f0000000300000000";

fn one(console: &mut Console, line: &str) -> String {
    console.answer(line.as_bytes()).unwrap()
}

fn play(lines: &[(&str, &str)]) {
    let mut console = Console::new();
    for (line, answer) in lines {
        assert_eq!(one(&mut console, line), *answer, "{line}");
    }
}

/// The answer to `full` for this edition and these 96 digits.
fn full(edition: &str, body: &str) -> String {
    format!("full {edition}00{body}")
}

#[test]
fn fresh_of_an_edition() {
    let mut console = Console::new();
    assert_eq!(one(&mut console, "full"), full("00", FRESH));
    for (line, edition) in [
        ("fresh 1", "01"),
        ("fresh", "00"),
        ("fresh 0x1", "01"),
        ("fresh 0", "00"),
        ("fresh 0x000000000000000000001 # Intel", "01"),
        ("fresh 00", "00"),
    ] {
        assert_eq!(one(&mut console, line), "ok", "{line}");
        assert_eq!(one(&mut console, "full"), full(edition, FRESH), "{line}");
    }
}

#[test]
fn fresh_of_no_edition() {
    let mut console = Console::new();
    assert_eq!(one(&mut console, "fresh 1"), "ok");
    assert_eq!(one(&mut console, "pins 5"), "ok");
    let before = one(&mut console, "full");
    for line in [
        "fresh 2",
        "fresh 255",
        "fresh 256",
        "fresh 257",
        "fresh 65536",
        "fresh 4294967295",
        "fresh 4294967296",
        "fresh 4294967297",
        "fresh 18446744073709551616",
        "fresh 18446744073709551617",
        "fresh 0x10000000000000001",
        "fresh 0 0",
        "fresh 1 1",
        "fresh -",
        "fresh -1",
        "fresh +1",
        "fresh x",
        "fresh 0x",
        "fresh 1.0",
        "Fresh 1",
    ] {
        assert_eq!(one(&mut console, line), "error", "{line}");
        assert_eq!(one(&mut console, "full"), before, "{line}");
    }
}

#[test]
fn full_takes_any_edition_and_any_body() {
    let mut console = Console::new();
    for edition in ["00", "01", "02", "80", "ff"] {
        for body in [FRESH.to_string(), "ff".repeat(48), "5a".repeat(48)] {
            assert_eq!(one(&mut console, &format!("full {edition}00{body}")), "ok");
            assert_eq!(one(&mut console, "full"), full(edition, &body));
            assert_eq!(one(&mut console, "state"), format!("state {body}"));
        }
    }
    let upper = format!("full 0100{}", "AB".repeat(48));
    assert_eq!(one(&mut console, &upper), "ok");
    assert_eq!(one(&mut console, "full"), full("01", &"ab".repeat(48)));
}

#[test]
fn faulty_full_lines() {
    let mut console = Console::new();
    assert_eq!(one(&mut console, &format!("full 0100{FRESH}")), "ok");
    let before = one(&mut console, "full");
    let mut lines: Vec<String> = vec!["full -".into(), "full 0".into(), "full 00".into()];
    for length in [1, 2, 47, 48, 49, 51, 52, 96, 100] {
        lines.push(format!("full {}", "00".repeat(length)));
    }
    lines.push(format!("full 0000{FRESH} 0"));
    lines.push(format!("full 0000{FRESH}0"));
    lines.push(format!("full 0x0000{FRESH}"));
    lines.push(format!("full 0000 {FRESH}"));
    lines.push(format!("full 000g{FRESH}"));
    lines.push(format!("Full 0000{FRESH}"));
    for line in lines {
        assert_eq!(one(&mut console, &line), "error", "{line}");
        assert_eq!(one(&mut console, "full"), before, "{line}");
    }
}

/// "`state HEX` sets the 48 and leaves edition and waits": a broken edition, too.
#[test]
fn state_leaves_the_edition() {
    let mut console = Console::new();
    let body = format!("3412{}", &FRESH[4..]);
    for edition in ["00", "01", "02", "ff"] {
        assert_eq!(one(&mut console, &format!("full {edition}00{FRESH}")), "ok");
        assert_eq!(one(&mut console, &format!("state {body}")), "ok");
        assert_eq!(one(&mut console, "full"), full(edition, &body));
        assert_eq!(one(&mut console, &format!("state {}", "00".repeat(50))), "error");
        assert_eq!(one(&mut console, "full"), full(edition, &body));
    }
}

#[test]
fn the_write_of_e() {
    play(&[
        ("write 14 0", "refused 4"),
        ("fresh 1", "ok"),
        ("pins 4", "ok"),
        ("grant", "refused 6"),
        ("write 0xE 255", "ok"),
        ("read 0xE", "refused 4"),
        ("write 0xB 0x82", "ok"),
        ("grant", "channel 2"),
        ("write 0xE 0", "refused 3"),
        ("run 9 1", "ended transfers=1 used=0 written=0 states=4"),
        ("read 8", "byte 0x44"),
        ("write 30 0", "refused 2"),
        ("reset", "ok"),
        ("write 14 0", "ok"),
        ("write 13 0", "ok"),
        ("write 14 0", "ok"),
        ("fresh", "ok"),
        ("write 14 0", "refused 4"),
    ]);
}

#[test]
fn a_broken_edition_is_shown_and_refused() {
    let mut console = Console::new();
    for edition in ["02", "03", "80", "ff"] {
        assert_eq!(one(&mut console, &format!("full {edition}00{FRESH}")), "ok");
        for line in [
            "write 14 0",
            "write 99 0",
            "read 8",
            "pins 1",
            "reset",
            "grant",
            "run 0 0",
            "round 0",
            "round 9999",
            "sheet 5",
            "sheet 56",
        ] {
            assert_eq!(one(&mut console, line), "refused 1", "{line}");
        }
        assert_eq!(one(&mut console, "full"), full(edition, FRESH));
    }
    assert_eq!(one(&mut console, "fresh"), "ok");
    assert_eq!(one(&mut console, "full"), full("00", FRESH));
}

/// A sheet of an Intel state is refused; one read gives edition 0 over any edition.
#[test]
fn sheets() {
    let mut console = Console::new();
    let sheet = format!("{FRESH}010030001200444d");
    assert_eq!(one(&mut console, "sheet 56"), format!("bytes {sheet}"));
    for edition in ["00", "01", "02", "ff"] {
        let made = format!("full {edition}00{FRESH}");
        assert_eq!(one(&mut console, &made), "ok");
        assert_eq!(one(&mut console, &format!("load 00{sheet}")), "ok");
        assert_eq!(one(&mut console, "full"), full("00", FRESH));
        assert_eq!(one(&mut console, &made), "ok");
        assert_eq!(one(&mut console, &format!("load {}", &sheet[2..])), "refused 9");
        assert_eq!(one(&mut console, &format!("load {}ff", &sheet[..110])), "refused 10");
        assert_eq!(one(&mut console, "full"), full(edition, FRESH));
    }
    assert_eq!(one(&mut console, "fresh 1"), "ok");
    for (line, answer) in
        [("sheet 0", 9), ("sheet 55", 9), ("sheet 56", 15), ("sheet 57", 15), ("sheet 70000", 15)]
    {
        assert_eq!(one(&mut console, line), format!("refused {answer}"), "{line}");
    }
    assert_eq!(one(&mut console, "sheet 70001"), "error");
    assert_eq!(one(&mut console, "full"), full("01", FRESH));
}
