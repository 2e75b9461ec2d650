//! Lines whose form is the point: blank, faulty, very long, or left open by the protocol.

use super::sheets::{converts, reads};
use super::values;
use super::writer::{Hex, Name, Number, Raw, Word, Writer};
use crate::protocol::to_hex;

/// "A line may be as long as 200,000 characters."
const LONGEST_LINE: usize = 200_000;

impl Writer {
    pub fn blank_line(&mut self) {
        let lines: [&[u8]; 8] =
            [b"", b" ", b"\t", b" \t  ", b"#", b"# read 8", b"   # fresh", b"\r"];
        let line = self.random.pick(&lines);
        self.say_exactly(line.to_vec());
    }

    /// A command with one thing wrong in its form.
    pub fn faulty_line(&mut self) {
        let mut words = self.some_command();
        match self.random.below(6) {
            0 => {
                words.pop();
            }
            1 => words.push(self.random_extra()),
            2 => words[0] = Raw(self.misspelled(&words[0].clone())),
            _ => self.spoil_a_word(&mut words),
        }
        self.say(&words);
    }

    fn some_command(&mut self) -> Vec<Word> {
        let small = Number(self.random.below(16));
        let byte = Number(u64::from(self.random.byte()));
        let bytes = Hex(self.random.bytes(2));
        match self.random.below(28) {
            0 => vec![Name("write"), small, byte],
            1 => vec![Name("read"), small],
            2 => vec![Name("pins"), small],
            3 => vec![Name("reset")],
            4 => vec![Name("grant")],
            5 => vec![Name("memory"), small],
            6 => vec![Name("poke"), small, bytes],
            7 => vec![Name("peek"), small.clone(), small],
            8 => vec![Name("feed"), bytes],
            9 => vec![Name("fill"), small, byte],
            10 => vec![Name("room"), small, byte],
            11 => vec![Name("out"), small, Number(0)],
            12 => vec![Name("run"), small.clone(), small],
            13 => vec![Name("round"), Number(0)],
            14 => vec![Name("sheet"), small],
            15 => vec![Name("load"), bytes],
            16 => vec![Name("full"), Hex(self.controller().full().to_vec())],
            17 => vec![Name("full")],
            18 => vec![Name("fresh"), Number(self.random.below(2))],
            19..=20 => vec![Name("waits"), byte],
            21 => vec![Name("sheet2"), small],
            22 => vec![Name("load2"), bytes],
            23 => vec![Name("forward"), bytes, small],
            24 => vec![Name("back"), bytes, small],
            25..=26 => vec![Name("judge"), bytes],
            _ => vec![Name("state"), bytes],
        }
    }

    fn random_extra(&mut self) -> Word {
        Raw(self.random.pick(&["0", "1", "-", "00", "x", "fresh", "0x0"]).to_string())
    }

    fn misspelled(&mut self, word: &Word) -> String {
        let Name(name) = word else {
            return "nothing".to_string();
        };
        match self.random.below(5) {
            0 => name.to_uppercase(),
            1 => name[1..].to_string(),
            2 => format!("{name}s"),
            3 => format!("{}{}", name[..1].to_uppercase(), &name[1..]),
            _ => {
                let names = ["nop", "0", "-", "state,", "réset", "write:", "sheet1", "load3"];
                self.random.pick(&names).to_string()
            }
        }
    }

    fn spoil_a_word(&mut self, words: &mut [Word]) {
        if words.len() < 2 {
            return;
        }
        let index = self.random.between(1, words.len() as u64 - 1) as usize;
        let choices: &[&str] = match words[index] {
            Hex(_) => &["0", "abc", "0x00", "0g", "zz", "--", "00-", "0 0", "é", "+0", "12345"],
            _ => &[
                "256",
                "0x100",
                "0x",
                "x",
                "0xg",
                "-1",
                "-",
                "+1",
                "1.0",
                "1e1",
                "1_0",
                "0b1",
                "ten",
                "4294967296",
                "0x100000000",
                "4294967297",
                "18446744073709551616",
                "0x-1",
                "0x+1",
                "99999999999999999999999999999999999999999",
                "0x10000000000000000",
                "1h",
                "FF",
                "0X1",
                "$10",
                "1,0",
                "00x1",
            ],
        };
        words[index] = Raw(self.random.pick(choices).to_string());
    }

    /// Lines on which the protocol leaves room; only when asked for.
    pub fn odd_line(&mut self) {
        let lines: [&[u8]; 9] = [
            b"read\r8",
            b"read 8\r\r",
            b"read 8\r#",
            b"read\x0b8",
            b"read\x0c8",
            b"read 8\x00",
            b"\xff\xfe",
            b"read\xc2\xa08",
            b"\x00",
        ];
        let line = self.random.pick(&lines);
        self.say_exactly(line.to_vec());
    }

    pub fn long_line(&mut self) {
        match self.random.below(8) {
            0 => self.say_padded("reset", b" ", ""),
            1 => self.say_padded("read 0x", b"0", "8"),
            2 => self.say_padded("read 8 #", b"x", ""),
            3 => self.say_padded("", b"a", ""),
            4 => self.long_bytes("feed ", 69_990, 70_003),
            5 => self.long_bytes("poke 0 ", 65_530, 65_540),
            6 => self.long_sheet(),
            _ => self.say_padded("load ", b"0", "1"),
        }
    }

    /// A line of (nearly) the longest length.
    fn say_padded(&mut self, front: &str, middle: &[u8], back: &str) {
        let less = self.random.below(3) as usize;
        let length = LONGEST_LINE - front.len() - back.len() - less;
        let line = [front.as_bytes(), &middle.repeat(length), back.as_bytes()].concat();
        self.say_exactly(line);
    }

    fn long_bytes(&mut self, command: &str, fewest: u64, most: u64) {
        let length = self.random.between(fewest, most) as usize;
        let bytes = self.random.bytes(length);
        self.say_plainly(&format!("{command}{}", to_hex(&bytes)));
    }

    /// A sheet behind many bytes, read or converted.
    fn long_sheet(&mut self) {
        let length = self.random.between(99_000, 99_990) as usize;
        let form = self.some_form();
        let state = values::state(&mut self.random, false);
        let bytes = [self.random.bytes(length - form.length()), form.sheet(&state.full())].concat();
        let hex = to_hex(&bytes);
        if self.random.chance(50) {
            return self.say_plainly(&format!("{} {hex}", reads(form)));
        }
        self.say_plainly(&format!("{} {hex} 60", converts(form)));
    }
}
