//! A second, independent model of one Am9517A or Intel 8237A, and of a board of two, made from
//! documents 01 and 02 (requests A1 to A3, A5, A6, A8 and A9) and the data sheets alone.
//!
//! The rules are in modules by subject: [`state`], [`registers`], [`serving`], [`run`], [`round`],
//! [`sheet`], [`record`] and [`judge`]; [`board`] and [`arbiter`] are built above them. [`protocol`]
//! is the line protocol over them, with the board's commands in [`board_lines`]. [`faults`] is a set
//! of deliberate faults, all off unless asked for, and [`compare`] plays scripts against another
//! program.

pub mod arbiter;
pub mod board;
pub mod board_lines;
pub mod compare;
pub mod faults;
pub mod judge;
pub mod protocol;
pub mod record;
pub mod registers;
pub mod round;
pub mod run;
pub mod serving;
pub mod sheet;
pub mod state;
