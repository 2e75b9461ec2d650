//! Scripts written from a seed, played against another program, and compared answer by answer.

pub mod board_scenes;
pub mod boards;
pub mod comparison;
pub mod damage;
pub mod editions;
pub mod ending;
pub mod forms;
pub mod judging;
pub mod logs;
pub mod pairs;
pub mod program;
pub mod random;
pub mod report;
pub mod scenes;
pub mod sheets;
pub mod shrink;
pub mod sides;
pub mod values;
pub mod waiting;
pub mod writer;
