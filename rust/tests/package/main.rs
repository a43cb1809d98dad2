//! The package's tests, a module for each concern.

mod answers;
mod columns;
mod composites;
mod guards;
mod lengths;
mod list;
mod mornings;
mod order;
mod random;
mod recorded;
mod refusals;
mod shapes;
mod stamps;
mod types;

#[allow(
    dead_code,
    clippy::pedantic,
    reason = "a file of compare/, which has its own ways"
)]
#[path = "../../../compare/splitmix.rs"]
mod splitmix;
