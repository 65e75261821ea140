// What the programs that fit puzzles and drawn tickets have in common.
mod asked;
mod engines;
mod families;
mod faster;
mod grounded;
#[path = "../tests/large.rs"]
mod large;
#[path = "../tests/library.rs"]
mod library;
#[path = "../tests/logic.rs"]
mod logic;
mod means;
#[path = "../tests/mix.rs"]
mod mix;
mod options;
mod puzzles;
#[path = "../tests/random.rs"]
mod random;
#[path = "../tests/reference.rs"]
mod reference;
#[path = "../tests/report.rs"]
mod report;
#[path = "../tests/sizes.rs"]
mod sizes;
mod summary;
#[path = "../tests/threads.rs"]
mod threads;
#[path = "../tests/tickets.rs"]
mod tickets;
mod timing;
#[path = "../tests/walk.rs"]
mod walk;
