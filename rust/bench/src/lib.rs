//! What `bench` and `stack` share: the clock and the workloads.

pub mod clock;
pub mod workloads;
