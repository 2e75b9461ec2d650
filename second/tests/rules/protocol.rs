//! The line protocol, to the byte.

use second::protocol::{converse, Console};

fn answers(script: &str) -> String {
    let mut output = Vec::new();
    converse(&mut script.as_bytes(), &mut output, false).unwrap();
    String::from_utf8(output).unwrap()
}

fn one(console: &mut Console, line: &str) -> String {
    console.answer(line.as_bytes()).unwrap()
}

#[test]
fn a_whole_service() {
    let script = "write 0 0x34\nwrite 0 18\nwrite 1 0\nwrite 1 0\nwrite 0xB 0x84\nwrite 9 4\n\
                  feed 5A\ngrant\nrun 1 0\nread 8\npeek 0x1233 3\nstate\n";
    let state = format!("341235120000ffff84{}0f0000000300000000", "00".repeat(30));
    let wanted = "ok\nok\nok\nok\nok\nok\nok\nchannel 0\n\
                  ended transfers=1 used=1 written=0 states=4\nbyte 0x01\nbytes 005a00\n";
    assert_eq!(answers(script), format!("{wanted}state {state}\n"));
}

#[test]
fn blank_lines_comments_and_line_ends() {
    let script =
        "\n  \t \n# nothing\n   # nothing\r\n\r\nfresh\r\n\tread \t 0xd  # why\nfresh#x\nreset";
    assert_eq!(answers(script), "ok\nbyte 0x00\nok\nok\n");
}

#[test]
fn errors_of_form() {
    let mut console = Console::new();
    for line in [
        "nothing",
        "Fresh",
        "fresh 2",
        "full 00",
        "write 1",
        "write 1 2 3",
        "write 1 256",
        "write x 1",
        "write 0x 1",
        "write 4294967296 1",
        "read",
        "read -1",
        "read +1",
        "read 1.5",
        "read 0X1",
        "pins 0x100000000",
        "state 00",
        "state -",
        "poke 0 0",
        "poke 0 0g",
        "poke 65537 00",
        "peek 0 65538",
        "peek 4294967295 1",
        "peek 18446744073709551615 1",
        "memory 65538",
        "fill 70001 0",
        "room 70001 0",
        "sheet 70001",
        "out 0 1",
        "feed",
        "feed 0x00",
        "run 1",
        "run 1 2 3",
        "round 4294967296",
        "load 0",
        "grant now",
    ] {
        assert_eq!(one(&mut console, line), "error", "{line}");
    }
}

#[test]
fn places_and_lengths() {
    let mut console = Console::new();
    for (line, answer) in [
        ("peek 65537 0", "bytes -"),
        ("poke 65536 Aa", "ok"),
        ("peek 65536 1", "bytes aa"),
        ("poke 65537 -", "ok"),
        ("poke 65538 -", "error"),
        ("out 0 0", "bytes -"),
        ("out 1 0", "error"),
        ("room 3 0x0F", "ok"),
        ("out 1 2", "bytes 0f0f"),
        ("feed -", "ok"),
        ("fill 70000 1", "ok"),
        ("feed 00", "error"),
        ("feed -", "ok"),
        ("fill 1 0", "error"),
        ("fill 0 0", "ok"),
        ("memory 0x10001", "ok"),
        ("run 1 0", "refused 7"),
        ("memory 65536", "ok"),
        ("run 1 0", "refused 8"),
        ("round 0", "done services=0,0,0,0 transfers=0 used=0 written=0 states=0"),
        ("round 4096", "quiet services=0,0,0,0 transfers=0 used=0 written=0 states=0"),
        ("round 4097", "refused 2"),
        ("sheet 55", "refused 9"),
        ("load -", "refused 9"),
        ("write 16 0", "refused 2"),
        ("grant", "refused 6"),
        ("pins 4294967295", "refused 2"),
        ("read 00000000000000000000000008", "byte 0x00"),
    ] {
        assert_eq!(one(&mut console, line), answer, "{line}");
    }
}

#[test]
fn queue_and_room_over_runs() {
    let mut console = Console::new();
    let mut body = [0; 48];
    body[..9].copy_from_slice(&[0x10, 0, 0x10, 0, 9, 0, 9, 0, 0x84]);
    body[39] = 15;
    body[44] = 1;
    let hex = |body: &[u8]| body.iter().map(|byte| format!("{byte:02X}")).collect::<String>();
    assert_eq!(one(&mut console, &format!("state {}", hex(&body))), "ok");
    assert_eq!(one(&mut console, "feed 010203"), "ok");
    assert_eq!(one(&mut console, "run 2 0"), "limit transfers=2 used=2 written=0 states=7");
    assert_eq!(one(&mut console, "run 9 0"), "short transfers=1 used=1 written=0 states=3");
    assert_eq!(one(&mut console, "peek 0x10 4"), "bytes 01020300");
    body[8] = 0x88;
    assert_eq!(one(&mut console, &format!("state {}", hex(&body))), "ok");
    assert_eq!(one(&mut console, "room 4 0xee"), "ok");
    assert_eq!(one(&mut console, "run 2 0"), "limit transfers=2 used=0 written=2 states=7");
    assert_eq!(one(&mut console, "out 0 4"), "bytes 0102eeee");
    assert_eq!(one(&mut console, "run 1 0"), "limit transfers=1 used=0 written=1 states=3");
    assert_eq!(one(&mut console, "out 0 4"), "bytes 010203ee");
}

#[test]
fn a_broken_state_is_shown_and_refused() {
    let mut console = Console::new();
    let hex = "ff".repeat(48);
    assert_eq!(one(&mut console, &format!("state {hex}")), "ok");
    assert_eq!(one(&mut console, "state"), format!("state {hex}"));
    for line in ["write 99 0", "read 99", "pins 99", "reset", "grant", "run 0 0", "round 9999"] {
        assert_eq!(one(&mut console, line), "refused 1", "{line}");
    }
    assert_eq!(one(&mut console, "sheet 5"), "refused 1");
    assert_eq!(one(&mut console, "load 00"), "refused 9");
    assert_eq!(one(&mut console, "fresh"), "ok");
}
