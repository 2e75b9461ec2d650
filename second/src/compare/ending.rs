//! The end of every script, which looks at everything the console holds and empties the queue; and
//! the lines between two scripts of one process, which bring the console back to its start.

use super::writer::{Line, Writer};
use crate::protocol::{to_hex, ARRAY_LENGTH};
use crate::state::Controller;

const WRITE_BLOCK: u8 = 0x84;
const READ_BLOCK: u8 = 0x88;
/// Memory is cleared in pieces of so many bytes.
const PIECE: usize = 64;

impl Writer {
    /// State with its edition and waits, board, memory, room, write position and queue.
    pub fn write_end(&mut self) {
        self.say_plainly("full");
        self.say_plainly("b.state");
        self.say_plainly(&format!("peek 0 {ARRAY_LENGTH}"));
        let room = self.console.room.len();
        self.say_plainly(&format!("out 0 {room}"));
        self.say_plainly(&format!("out 0 {}", room + 1));
        self.say_plainly("memory 65536");
        self.show_write_position();
        self.empty_queue();
    }

    /// A read of many bytes stops "short" where the room ends.
    fn show_write_position(&mut self) {
        let left = self.console.room.len() - self.console.position;
        if left < 500 || self.random.chance(10) {
            self.open_long_service(READ_BLOCK);
            self.say_plainly("run 70000 0");
        }
    }

    /// Writes of many bytes use the queue up. One service takes 65,536 of at most 70,000.
    fn empty_queue(&mut self) {
        loop {
            let length = self.console.queue.len();
            self.open_long_service(WRITE_BLOCK);
            self.say_plainly("run 70000 0");
            let used = length - self.console.queue.len();
            if used > 0 {
                self.say_plainly(&format!("peek 0 {used}"));
            }
            if self.console.queue.is_empty() {
                return;
            }
        }
    }

    /// A service of channel 0 from address 0, count FFFFh, whatever edition and waits were there
    /// before.
    fn open_long_service(&mut self, mode: u8) {
        let mut open = Controller::fresh();
        open.in_service = 1;
        open.channels[0].current_count = 0xFFFF;
        open.channels[0].mode = mode;
        self.say_plainly(&format!("full {}", to_hex(&open.full())));
    }
}

/// Lines that bring a console whose queue is empty and whose memory is `memory` to its start.
/// `fresh` brings edition 0 and waits 0 back, `b.fresh` the board.
pub fn lines_between(memory: &[u8]) -> Vec<Line> {
    let mut lines = ["fresh", "b.fresh", "memory 65536", "room 0 0"].map(plain).to_vec();
    let mut start = 0;
    while start < memory.len() {
        let end = end_of_used(memory, start);
        if end > start {
            let zeros = to_hex(&vec![0; end - start]);
            lines.push(plain(&format!("poke {start} {zeros}")));
        }
        start = end.max(start + PIECE);
    }
    lines
}

/// Where the pieces with a byte that is not 0 end, from `start` on.
fn end_of_used(memory: &[u8], start: usize) -> usize {
    let mut end = start;
    while end < memory.len() {
        let next = (end + PIECE).min(memory.len());
        if memory[end..next].iter().all(|&byte| byte == 0) {
            return end;
        }
        end = next;
    }
    end
}

fn plain(text: &str) -> Line {
    Line { text: text.as_bytes().to_vec(), answer: Some("ok".to_string()) }
}
