//! The comparison of the right model with each wrong one finds a difference soon.

use second::compare::damage::look_for_each_fault;

/// Every fault is found in fewer scripts than this.
const SCRIPTS: u64 = 3_000;

#[test]
fn each_fault_is_found() {
    let all = look_for_each_fault(9_517, SCRIPTS);
    for found in &all {
        match &found.after {
            Some((after, ..)) => println!("{:24} {after}", found.name),
            None => println!("{:24} not found", found.name),
        }
    }
    let missed: Vec<_> = all.iter().filter(|found| found.after.is_none()).collect();
    assert!(missed.is_empty(), "{} faults not found", missed.len());
}
