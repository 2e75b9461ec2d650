//! The lines that document 02's request A5 adds to the protocol, to the byte.

use second::protocol::Console;

const FRESH: &str = "000000000000000000000000000000000000000000000000000000000000000000000000\
                     0000000f0000000300000000";
const TRAILER_ONE: &str = "010030001200444d";
const TRAILER_TWO: &str = "020032001200444d";

fn one(console: &mut Console, line: &str) -> String {
    console.answer(line.as_bytes()).unwrap()
}

/// Fresh sheets of form 1 and form 2.
fn sheets() -> [String; 2] {
    [format!("{FRESH}{TRAILER_ONE}"), format!("0000{FRESH}{TRAILER_TWO}")]
}

#[test]
fn sheet2_and_load2() {
    let mut console = Console::new();
    let [_, two] = sheets();
    assert_eq!(one(&mut console, "sheet2 58"), format!("bytes {two}"));
    assert_eq!(one(&mut console, "sheet2 0x3b # one more"), format!("bytes ee{two}"));
    for length in ["0", "1", "55", "56", "57"] {
        assert_eq!(one(&mut console, &format!("sheet2 {length}")), "refused 9");
    }
    let slow = format!("0105{FRESH}020032001800444d");
    assert_eq!(one(&mut console, &format!("full 0105{FRESH}")), "ok");
    assert_eq!(one(&mut console, "sheet 56"), "refused 15");
    assert_eq!(one(&mut console, "sheet2 58"), format!("bytes {slow}"));
    assert_eq!(one(&mut console, &format!("load2 {two}")), "ok");
    assert_eq!(one(&mut console, "full"), format!("full 0000{FRESH}"));
    assert_eq!(one(&mut console, &format!("load2 FF{}", slow.to_uppercase())), "ok");
    assert_eq!(one(&mut console, "full"), format!("full 0105{FRESH}"));
    let most = one(&mut console, "sheet2 70000");
    assert_eq!(most, format!("bytes {}{slow}", "ee".repeat(70_000 - 58)));
}

/// Refused, `load2` leaves the state, whatever it is; read, it replaces a broken one.
#[test]
fn refused_load2() {
    let mut console = Console::new();
    let [first, second] = sheets();
    for made in ["0000", "0107", "02ff"] {
        let full = format!("full {made}{FRESH}");
        assert_eq!(one(&mut console, &full), "ok");
        for (hex, number) in [
            ("-".to_string(), 9),
            (second[2..].to_string(), 9),
            (first.clone(), 9),
            (format!("00{first}"), 9),
            (format!("0000{first}"), 11),
            (format!("{}00", &second[..114]), 10),
            (second.replace("32001200444d", "30001200444d"), 12),
            (second.replace("1200444d", "1300444d"), 13),
            (format!("01{}", &second[2..]), 13),
            (format!("02{}", &second[2..]).replace("1200444d", "1400444d"), 14),
        ] {
            assert_eq!(one(&mut console, &format!("load2 {hex}")), format!("refused {number}"));
            assert_eq!(one(&mut console, "full"), full);
        }
        assert_eq!(one(&mut console, &format!("load2 {second}")), "ok");
        assert_eq!(one(&mut console, "full"), format!("full 0000{FRESH}"));
    }
    assert_eq!(one(&mut console, &format!("load {second}")), "refused 11");
}

/// In any state, a broken one too, which stays as it is.
#[test]
fn forward_and_back() {
    let mut console = Console::new();
    let [first, second] = sheets();
    let slow = format!("0001{FRESH}020032001300444d");
    for state in [format!("0000{FRESH}"), format!("0109{FRESH}"), "ff".repeat(50)] {
        assert_eq!(one(&mut console, &format!("full {state}")), "ok");
        for (line, answer) in [
            (format!("forward {first} 58"), format!("bytes {second}")),
            (format!("forward eeff{first} 0x3C"), format!("bytes eeee{second}")),
            (format!("forward {first} 57"), "refused 9".to_string()),
            (format!("forward {first} 0"), "refused 9".to_string()),
            (format!("forward {} 58", &first[2..]), "refused 9".to_string()),
            ("forward - 70000".to_string(), "refused 9".to_string()),
            (format!("forward {second} 58"), "refused 11".to_string()),
            (format!("back {second} 56"), format!("bytes {first}")),
            (format!("back 12{second} 58"), format!("bytes eeee{first}")),
            (format!("back {second} 55"), "refused 9".to_string()),
            (format!("back {} 56", &second[2..]), "refused 9".to_string()),
            (format!("back {first} 56"), "refused 9".to_string()),
            (format!("back 0000{first} 56"), "refused 11".to_string()),
            (format!("back {slow} 55"), "refused 9".to_string()),
            (format!("back {slow} 56"), "refused 15".to_string()),
        ] {
            assert_eq!(one(&mut console, &line), answer, "{line}");
            assert_eq!(one(&mut console, "full"), format!("full {state}"));
        }
    }
}

/// Faults of form come before every refusal.
#[test]
fn faulty_lines() {
    let mut console = Console::new();
    let [first, second] = sheets();
    assert_eq!(one(&mut console, &format!("full 0203{FRESH}")), "ok");
    let mut lines: Vec<String> = [
        "sheet2",
        "sheet2 58 58",
        "sheet2 70001",
        "sheet2 4294967354",
        "sheet2 -",
        "sheet2 x",
        "Sheet2 58",
        "sheet1 58",
        "sheet 2 58",
        "load2",
        "load2 0",
        "load2 0g",
        "load2 0x00",
        "load1 -",
        "forward",
        "forward -",
        "forward 58",
        "forward - 70001",
        "forward - -",
        "forward - 1 1",
        "forward 0 58",
        "back",
        "back -",
        "back - 70001",
        "back - 18446744073709551616",
        "back zz 56",
    ]
    .map(str::to_string)
    .to_vec();
    lines.push(format!("load2 {second}0"));
    lines.push(format!("load2 {second} 58"));
    lines.push(format!("forward {first}"));
    lines.push(format!("forward 58 {first}"));
    lines.push(format!("back {second} 70001"));
    lines.push(format!("back {second} 56 0"));
    for line in lines {
        assert_eq!(one(&mut console, &line), "error", "{line}");
        assert_eq!(one(&mut console, "full"), format!("full 0203{FRESH}"));
    }
    assert_eq!(one(&mut console, "sheet2 70000"), "refused 1");
}
