//! What the tests share: three disks side by side, a guest, a judge of states, what was reached.
#![allow(dead_code)]

pub mod action;
pub mod coverage;
pub mod guest;
pub mod judge;
pub mod random;
pub mod rig;
pub mod states;
pub mod view;
