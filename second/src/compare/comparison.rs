//! One comparison: many scripts, a few processes. Scripts are played one behind the other in one
//! process, with lines between them that bring the console back to its start; after a difference a
//! new process goes on with the scripts that are left.

use super::ending::lines_between;
use super::program::Played;
use super::report::{self, Report};
use super::scenes::write_script;
use super::shrink::shrink;
use super::sides::{first_difference, Difference, Pair, Side, Text};
use super::writer::Script;
use crate::protocol::is_blank;
use std::ops::Range;
use std::sync::atomic::{AtomicU64, Ordering};
use std::sync::Mutex;
use std::thread;
use std::time::{Duration, Instant};

pub struct Comparison {
    pub sides: Pair,
    pub seed: u64,
    pub first_script: u64,
    pub scripts: u64,
    pub jobs: u64,
    /// Scripts for one process.
    pub batch: u64,
    pub odd: bool,
    /// How many differing scripts are shrunk, and how long each.
    pub shrunk: u64,
    pub shrink_time: Duration,
    /// Stop after so many differing scripts.
    pub most_differing: u64,
    pub report: Mutex<Report>,
    pub next_batch: AtomicU64,
}

/// Several scripts for one process.
struct Batch {
    texts: Vec<Text>,
    answers: Vec<Vec<u8>>,
    /// The script of each line, by its index in the batch.
    owner: Vec<usize>,
    last_newline: bool,
}

impl Batch {
    fn new(scripts: &[Script]) -> Batch {
        let last = scripts.last().map_or(0, |script| script.number);
        let mut batch = Batch {
            texts: Vec::new(),
            answers: Vec::new(),
            owner: Vec::new(),
            // "the last line may lack its newline"
            last_newline: last & 3 != 0,
        };
        for (index, script) in scripts.iter().enumerate() {
            if index > 0 {
                let between = lines_between(&scripts[index - 1].memory_left);
                between.iter().for_each(|line| batch.push(index, &line.text, &line.answer));
            }
            script.lines.iter().for_each(|line| batch.push(index, &line.text, &line.answer));
        }
        batch
    }

    fn push(&mut self, owner: usize, text: &[u8], answer: &Option<String>) {
        self.texts.push(text.to_vec());
        self.owner.push(owner);
        self.answers.extend(answer.as_ref().map(|answer| answer.clone().into_bytes()));
    }

    /// Do these lines, taken from this batch, still differ?
    fn differs(&self, texts: &[Text], sides: &Pair) -> Option<Difference> {
        sides.differ(texts, self.last_newline, self.most_output())
    }

    /// A missing last newline is kept only where it matters.
    fn end_with_newline_if_it_may(&mut self, sides: &Pair) {
        let missing = !self.last_newline;
        self.last_newline = true;
        if missing && self.differs(&self.texts, sides).is_none() {
            self.last_newline = false;
        }
    }

    /// More output than twice the right one is too much.
    fn most_output(&self) -> usize {
        2 * self.answers.iter().map(|answer| answer.len() + 1).sum::<usize>() + 1_000_000
    }
}

struct FoundIn {
    script: usize,
    difference: Difference,
}

impl Comparison {
    /// Compare everything with as many threads as there are jobs.
    pub fn run(&self) {
        thread::scope(|scope| {
            for _ in 0..self.jobs {
                scope.spawn(|| self.work());
            }
        });
    }

    fn work(&self) {
        loop {
            let start = self.next_batch.fetch_add(1, Ordering::Relaxed) * self.batch;
            if start >= self.scripts || self.has_enough() {
                return;
            }
            let end = (start + self.batch).min(self.scripts);
            self.compare_range(self.first_script + start..self.first_script + end);
        }
    }

    fn has_enough(&self) -> bool {
        self.locked().differ >= self.most_differing
    }

    fn locked(&self) -> std::sync::MutexGuard<'_, Report> {
        self.report.lock().unwrap_or_else(|poisoned| poisoned.into_inner())
    }

    fn compare_range(&self, numbers: Range<u64>) {
        let scripts: Vec<Script> =
            numbers.map(|number| write_script(self.seed, number, self.odd)).collect();
        let mut start = 0;
        let mut size = scripts.len();
        let mut in_company: Option<(usize, usize)> = None;
        while start < scripts.len() && !self.has_enough() {
            let end = (start + size).min(scripts.len());
            let Some(found) = self.play_together(&scripts[start..end]) else {
                self.locked().agree((end - start) as u64);
                start = end;
                size *= 2;
                continue;
            };
            let at = start + found.script;
            self.locked().agree(found.script as u64);
            if found.difference.silent && end - start > 1 {
                // Answers may be lost in a dying program's hands: play on one by one.
                in_company = Some((start, at));
                start = at;
                size = 1;
                continue;
            }
            in_company = None;
            self.tell_difference(&scripts, start, at, &found.difference);
            start = at + 1;
            size = size.div_ceil(2);
        }
        if let Some((start, at)) = in_company {
            self.tell_silence(&scripts, start, at);
        }
    }

    fn play_together(&self, scripts: &[Script]) -> Option<FoundIn> {
        let batch = Batch::new(scripts);
        let first = self.sides.first.play(&batch.texts, batch.last_newline, batch.most_output());
        let second = self.play_second(&batch);
        let difference = first_difference(&batch.texts, &first, &second)?;
        let script = batch.owner[difference.line];
        Some(FoundIn { script, difference })
    }

    /// The right model's answers are known from the writing of the scripts.
    fn play_second(&self, batch: &Batch) -> Played {
        match &self.sides.second {
            Side::Model(None) => Played { answers: batch.answers.clone(), trouble: None },
            other => other.play(&batch.texts, batch.last_newline, batch.most_output()),
        }
    }

    /// Count a differing script, and show the shortest one found in its place.
    fn tell_difference(&self, all: &[Script], start: usize, at: usize, seen: &Difference) {
        let number = all[at].number;
        let count = self.locked().count_difference();
        if count > self.shrunk {
            self.locked().tell_briefly(self.seed, number, seen);
            return;
        }
        let mut batch = Batch::new(&all[at..=at]);
        if batch.differs(&batch.texts, &self.sides).is_none() {
            batch = Batch::new(&all[start..=at]);
        }
        batch.end_with_newline_if_it_may(&self.sides);
        let short = self.shorten(&batch);
        match batch.differs(&short, &self.sides) {
            Some(found) => {
                self.locked().tell(self.seed, number, &short, batch.last_newline, &found)
            }
            None => self.locked().tell_briefly(self.seed, number, seen),
        }
    }

    /// A program that falls silent only when it plays several scripts.
    fn tell_silence(&self, all: &[Script], start: usize, at: usize) {
        let mut report = self.locked();
        report.agree -= 1;
        report.count_difference();
        report.tell_company(self.seed, all[start].number, all[at].number);
    }

    fn shorten(&self, batch: &Batch) -> Vec<Text> {
        let until = Instant::now() + self.shrink_time;
        let sides = self.sides.hurried();
        let mut texts = batch.texts.clone();
        if let Some(seen) = batch.differs(&texts, &sides) {
            let cut = texts[..=seen.line].to_vec();
            if batch.differs(&cut, &sides).is_some() {
                texts = narrow_look(cut, &seen, batch, &sides);
            }
        }
        let mut test = |texts: &[Text]| {
            !texts.iter().all(|text| is_blank(text)) && batch.differs(texts, &sides).is_some()
        };
        shrink(texts, until, &mut test)
    }
}

/// Instead of the whole memory or room, look at the first byte that differs.
fn narrow_look(texts: Vec<Text>, seen: &Difference, batch: &Batch, sides: &Pair) -> Vec<Text> {
    let Some(line) = report::narrower_look(&texts[seen.line], seen) else {
        return texts;
    };
    let mut narrow = texts.clone();
    narrow[seen.line] = line;
    match batch.differs(&narrow, sides) {
        Some(_) => narrow,
        None => texts,
    }
}
