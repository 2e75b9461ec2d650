//! The line that document 02's request A8 adds to the protocol, to the byte.

use second::protocol::{to_hex, Console};
use second::record::Record;
use second::state::Controller;

fn one(console: &mut Console, line: &str) -> String {
    console.answer(line.as_bytes()).unwrap()
}

fn play(lines: &[(&str, &str)]) {
    let mut console = Console::new();
    for (line, answer) in lines {
        assert_eq!(one(&mut console, line), *answer, "{line}");
    }
}

/// Channel 1 in service: a block of verify from 2000h on.
fn verify_from_2000(count: u16) -> Controller {
    let mut open = Controller::fresh();
    open.channels[1].current_address = 0x2000;
    open.channels[1].current_count = count;
    open.channels[1].mode = 0x80;
    Controller { in_service: 1, serving: 1, ..open }
}

fn open(console: &mut Console, open: Controller) {
    assert_eq!(one(console, &format!("full {}", to_hex(&open.full()))), "ok");
}

/// So many records of that service, with these flags in the last.
fn log(records: u16, last_flags: u8) -> String {
    let mut log = Vec::new();
    for number in 0..records {
        let flags = if number + 1 == records { last_flags } else { 0 };
        let first = 0x2000 + number;
        log.extend(Record { channel: 1, kind: 0, first, second: 0, data: 0, flags }.to_bytes());
    }
    to_hex(&log)
}

/// A count of 11 read as eleven transfers, the eleventh flagged as the last; then without flags.
#[test]
fn a_count_of_11_read_as_eleven_transfers() {
    let mut console = Console::new();
    open(&mut console, verify_from_2000(11));
    assert_eq!(one(&mut console, &format!("judge {}", log(11, 5))), "wrong at=80 error=0");
    open(&mut console, verify_from_2000(11));
    assert_eq!(one(&mut console, &format!("judge {}", log(11, 0))), "accepted records=11");
    open(&mut console, verify_from_2000(11));
    assert_eq!(one(&mut console, &format!("judge {}", log(12, 5))), "accepted records=12");
    assert_eq!(one(&mut console, "judge -"), "refused 8");
}

/// A service programmed, granted and judged; the queue isn't used, and a run goes on behind the log.
#[test]
fn a_whole_service() {
    play(&[
        ("write 4 0xfe", "ok"),
        ("write 4 0xff", "ok"),
        ("write 5 3", "ok"),
        ("write 5 0", "ok"),
        ("write 0xB 0x86", "ok"),
        ("write 9 6", "ok"),
        ("feed 77", "ok"),
        ("room 2 0xee", "ok"),
        ("judge -", "refused 8"),
        ("grant", "channel 2"),
        ("judge -", "accepted records=0"),
        ("judge 0201FEFF00005a00", "accepted records=1"),
        ("judge 0201FFff00005b000201feff00005c00", "wrong at=8 error=-2"),
        ("peek 65534 2", "bytes 5a5b"),
        ("peek 0 2", "bytes 0000"),
        ("judge 0201000000005c01 # TC it isn't", "wrong at=0 error=0"),
        ("run 1 0", "limit transfers=1 used=1 written=0 states=4"),
        ("peek 0 2", "bytes 7700"),
        ("\tjudge  0201010000005d05\r", "accepted records=1"),
        ("judge 0201020000005e00", "refused 8"),
        ("peek 0 2", "bytes 775d"),
        ("read 8", "byte 0x04"),
        ("out 0 2", "bytes eeee"),
    ]);
}

/// The log has the device's bytes: a write uses none of the queue, a read puts none in the room.
#[test]
fn queue_and_room_are_left() {
    let mut console = Console::new();
    for line in ["feed 7788", "room 3 0xee", "poke 0x2000 5a5b"] {
        assert_eq!(one(&mut console, line), "ok");
    }
    let mut read = verify_from_2000(9);
    read.channels[1].mode = 0x88;
    open(&mut console, read);
    let line = "judge 0102002000005a000102012000005b00";
    assert_eq!(one(&mut console, line), "accepted records=2");
    assert_eq!(one(&mut console, "out 0 3"), "bytes eeeeee");
    assert_eq!(one(&mut console, "run 9 0"), "short transfers=3 used=0 written=3 states=9");
    let mut write = verify_from_2000(9);
    write.channels[1].mode = 0x84;
    open(&mut console, write);
    assert_eq!(one(&mut console, "judge 0101002000001100"), "accepted records=1");
    assert_eq!(one(&mut console, "run 9 0"), "short transfers=2 used=2 written=0 states=6");
    assert_eq!(one(&mut console, "peek 0x2000 4"), "bytes 11778800");
}

/// "E in decimal, `-` before a negative one".
#[test]
fn errors_are_decimal_and_signed() {
    for (address, error) in
        [("0120", "1"), ("ff1f", "-1"), ("ff9f", "32767"), ("00a0", "-32768"), ("01a0", "-32767")]
    {
        let mut console = Console::new();
        open(&mut console, verify_from_2000(11));
        let line = format!("judge 0100{address}00000000");
        assert_eq!(one(&mut console, &line), format!("wrong at=0 error={error}"));
    }
}

/// "refused N", 1 before 7 before 8, and nothing changes.
#[test]
fn refused_logs() {
    let mut console = Console::new();
    let idle = to_hex(&Controller::fresh().full());
    let open = to_hex(&verify_from_2000(11).full());
    let broken = format!("02{}", &open[2..]);
    for (memory, full, answer) in [
        (65_536, &idle, "refused 8"),
        (65_535, &idle, "refused 7"),
        (65_537, &idle, "refused 7"),
        (0, &open, "refused 7"),
        (65_537, &open, "refused 7"),
        (65_537, &broken, "refused 1"),
        (65_536, &broken, "refused 1"),
    ] {
        assert_eq!(one(&mut console, &format!("memory {memory}")), "ok");
        assert_eq!(one(&mut console, &format!("full {full}")), "ok");
        for hex in ["-", "00", "0100002000000000", "ffffffffffffffff"] {
            assert_eq!(one(&mut console, &format!("judge {hex}")), answer);
            assert_eq!(one(&mut console, "full"), format!("full {full}"));
        }
    }
}

/// Faults of form come before every refusal, and nothing changes.
#[test]
fn faulty_lines() {
    let mut console = Console::new();
    let open = to_hex(&verify_from_2000(11).full());
    for full in [&open, &"ff".repeat(50)] {
        assert_eq!(one(&mut console, &format!("full {full}")), "ok");
        for line in [
            "judge",
            "judge 0",
            "judge 010000200000000",
            "judge 01000020000000000",
            "judge 0100002000000000 00",
            "judge 0100002000000000 -",
            "judge - -",
            "judge --",
            "judge 0x00",
            "judge 0g",
            "judge 01 00",
            "Judge -",
            "judges -",
            "judg -",
        ] {
            assert_eq!(one(&mut console, line), "error", "{line}");
            assert_eq!(one(&mut console, "full"), format!("full {full}"));
        }
    }
}

/// "A line may be as long as 200,000 characters": 12,499 records, and 5 bytes of another.
#[test]
fn the_longest_line() {
    let mut console = Console::new();
    open(&mut console, verify_from_2000(0xFFFF));
    let longest = format!("judge {}0100d35000", log(12_499, 0));
    assert_eq!(longest.len(), 200_000);
    assert_eq!(one(&mut console, &longest), "wrong at=99992 error=0");
    assert_eq!(one(&mut console, "run 0 0"), "limit transfers=0 used=0 written=0 states=0");
    assert_eq!(one(&mut console, "judge 0100d35000000000"), "accepted records=1");
    open(&mut console, verify_from_2000(0xFFFF));
    let line = format!("judge {}", log(12_499, 0));
    assert_eq!(one(&mut console, &line), "accepted records=12499");
}
