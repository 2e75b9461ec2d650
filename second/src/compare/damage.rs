//! Does the comparer find each deliberate fault, and after how many scripts?

use super::scenes::write_script;
use super::sides::{first_difference, Difference, Side, Text};
use crate::faults::{Fault, ALL};

pub struct Found {
    pub fault: Fault,
    pub name: &'static str,
    /// Scripts played until one differed, and the line and answers that did.
    pub after: Option<(u64, String, Difference)>,
}

/// Play up to `scripts` scripts of this seed on each wrong model.
pub fn look_for_each_fault(seed: u64, scripts: u64) -> Vec<Found> {
    let mut all: Vec<Found> =
        ALL.iter().map(|&(fault, name, _)| Found { fault, name, after: None }).collect();
    for number in 0..scripts {
        if all.iter().all(|found| found.after.is_some()) {
            break;
        }
        let script = write_script(seed, number, false);
        let texts: Vec<Text> = script.lines.iter().map(|line| line.text.clone()).collect();
        let right = Side::Model(None).play(&texts, true, 0);
        for found in all.iter_mut().filter(|found| found.after.is_none()) {
            let wrong = Side::Model(Some(found.fault)).play(&texts, true, 0);
            if let Some(difference) = first_difference(&texts, &right, &wrong) {
                let line = String::from_utf8_lossy(&texts[difference.line]).into_owned();
                found.after = Some((number + 1, line, difference));
            }
        }
    }
    all
}
