//! The longest round there is, and its greatest run, as a script: document 02, A3, "a long round now
//! passes 32 bits". It makes 268,500,992 transfers.

use second::protocol::converse;

/// 8 states of a transfer, and 255 waits twice.
const EACH: u64 = 8 + 2 * 255;

#[test]
#[cfg_attr(debug_assertions, ignore = "some seconds with --release, minutes without")]
fn the_longest_round() {
    let script = include_bytes!("longest-round.rack");
    let mut output = Vec::new();
    converse(&mut script.as_slice(), &mut output, false).unwrap();
    let answers = String::from_utf8(output).unwrap();
    assert_eq!(answers, include_str!("longest-round.out"));
    let run = format!("ended transfers=65536 used=0 written=0 states={}\n", 65_536 * EACH);
    assert!(answers.contains(&run));
    assert!(answers.contains(&format!(" states={}\n", 4_096 * 65_536 * EACH)));
    assert_eq!((65_536 * EACH, 4_096 * 65_536 * EACH), (33_947_648, 139_049_566_208));
}
