//! Find a short script that still differs: drop lines, then make words smaller.

use super::sheets::form_read_by;
use super::sides::Text;
use crate::protocol::to_hex;
use crate::record::RECORD_LENGTH;
use std::time::Instant;

/// Does this script still differ?
pub type Test<'a> = dyn FnMut(&[Text]) -> bool + 'a;

pub fn shrink(texts: Vec<Text>, until: Instant, differs: &mut Test) -> Vec<Text> {
    let mut best = texts;
    loop {
        let before = best.clone();
        best = drop_lines(best, until, differs);
        for index in 0..best.len() {
            best = shrink_line(best, index, until, differs);
        }
        if best == before || Instant::now() > until {
            return best;
        }
    }
}

/// Drop pieces, half of the script at first, single lines at last.
fn drop_lines(mut best: Vec<Text>, until: Instant, differs: &mut Test) -> Vec<Text> {
    let mut piece = best.len().div_ceil(2);
    while piece > 0 {
        let mut end = best.len();
        while end > 0 && Instant::now() < until {
            let start = end.saturating_sub(piece);
            let shorter = [&best[..start], &best[end..]].concat();
            if !shorter.is_empty() && differs(&shorter) {
                best = shorter;
            }
            end = start;
        }
        piece /= 2;
    }
    best
}

fn shrink_line(mut best: Vec<Text>, index: usize, until: Instant, differs: &mut Test) -> Vec<Text> {
    let mut goes_on = true;
    while goes_on {
        goes_on = false;
        for smaller in smaller_lines(&best[index]) {
            if Instant::now() > until {
                return best;
            }
            let mut changed = best.clone();
            changed[index] = smaller;
            if differs(&changed) {
                best = changed;
                goes_on = true;
                break;
            }
        }
    }
    best
}

/// Lines to try in place of this one, the boldest first.
fn smaller_lines(line: &[u8]) -> Vec<Text> {
    let Ok(text) = std::str::from_utf8(line) else {
        return Vec::new();
    };
    let code = text.split('#').next().unwrap_or("");
    let words: Vec<&str> = code.split_whitespace().collect();
    let mut lines = Vec::new();
    let plain = words.join(" ");
    if !plain.is_empty() && plain != text {
        lines.push(plain.into_bytes());
    }
    for index in 1..words.len() {
        for smaller in smaller_words(words[0], index, words[index]) {
            let mut changed = words.clone();
            changed[index] = &smaller;
            lines.push(changed.join(" ").into_bytes());
        }
    }
    lines
}

fn smaller_words(command: &str, index: usize, word: &str) -> Vec<String> {
    let sheet = form_read_by(command);
    let is_hex = match command {
        "state" | "full" | "b.state" | "feed" | "judge" => index == 1,
        "poke" => index == 2,
        "b.load" => index == 3,
        _ => sheet.is_some() && index == 1,
    };
    if !is_hex {
        return smaller_numbers(word);
    }
    match (bytes_of(word), sheet) {
        (Some(bytes), Some(form)) => without_front(&bytes, word, form.length()),
        (Some(bytes), None) if command.ends_with("state") || command == "full" => {
            with_a_zero(&bytes)
        }
        // A sheet of either form.
        (Some(bytes), None) if command == "b.load" => {
            [58, 56].iter().flat_map(|&length| without_front(&bytes, word, length)).collect()
        }
        (Some(bytes), None) if command == "judge" => fewer_records(&bytes),
        (Some(bytes), None) => fewer_bytes(&bytes),
        (None, _) => Vec::new(),
    }
}

fn smaller_numbers(word: &str) -> Vec<String> {
    let value = match word.strip_prefix("0x") {
        Some(digits) => u64::from_str_radix(digits, 16),
        None => word.parse(),
    };
    let Ok(value) = value else {
        return Vec::new();
    };
    let mut smaller: Vec<u64> = vec![0, 1, 2, value / 2, value.saturating_sub(1)];
    smaller.retain(|&number| number < value);
    smaller.dedup();
    let mut words: Vec<String> = smaller.iter().map(u64::to_string).collect();
    if word != value.to_string() {
        words.push(value.to_string());
    }
    words
}

fn bytes_of(word: &str) -> Option<Vec<u8>> {
    if word.len() & 1 == 1 || !word.is_ascii() {
        return None;
    }
    (0..word.len()).step_by(2).map(|at| u8::from_str_radix(&word[at..at + 2], 16).ok()).collect()
}

fn with_a_zero(bytes: &[u8]) -> Vec<String> {
    let used = (0..bytes.len()).filter(|&at| bytes[at] != 0);
    used.map(|at| {
        let mut changed = bytes.to_vec();
        changed[at] = 0;
        to_hex(&changed)
    })
    .collect()
}

/// A sheet alone, of `length` bytes, and in its plainest spelling.
fn without_front(bytes: &[u8], word: &str, length: usize) -> Vec<String> {
    let mut words = Vec::new();
    if bytes.len() > length {
        words.push(to_hex(&bytes[bytes.len() - length..]));
    }
    if word != to_hex(bytes) {
        words.push(to_hex(bytes));
    }
    words
}

fn fewer_bytes(bytes: &[u8]) -> Vec<String> {
    if bytes.is_empty() {
        return Vec::new();
    }
    let half = &bytes[..bytes.len() / 2];
    let mut words = vec![to_hex(half), to_hex(&bytes[1..]), to_hex(&bytes[..bytes.len() - 1])];
    if bytes.len() < 64 {
        words.extend(with_a_zero(bytes));
    }
    words
}

/// A log without its second half, its last record or its last byte, or with a byte that is 0.
fn fewer_records(log: &[u8]) -> Vec<String> {
    let records = log.len() / RECORD_LENGTH;
    let mut lengths = vec![records / 2 * RECORD_LENGTH, log.len().saturating_sub(1)];
    lengths.insert(1, log.len().saturating_sub(RECORD_LENGTH));
    lengths.retain(|&length| length < log.len());
    let mut words: Vec<String> = lengths.iter().map(|&length| to_hex(&log[..length])).collect();
    if log.len() < 64 {
        words.extend(with_a_zero(log));
    }
    words
}

#[cfg(test)]
mod tests {
    use super::*;
    use std::time::Duration;

    #[test]
    fn finds_the_lines_that_matter() {
        let texts: Vec<Text> = (0..100).map(|n| format!("read {n} # x").into_bytes()).collect();
        let until = Instant::now() + Duration::from_secs(60);
        let short = shrink(texts, until, &mut |texts| {
            let has = |text: &[u8]| texts.iter().any(|line| line.starts_with(text));
            has(b"read 7") && has(b"read 51")
        });
        assert_eq!(short.len(), 2);
        assert!(short.contains(&b"read 51".to_vec()));
    }
}
