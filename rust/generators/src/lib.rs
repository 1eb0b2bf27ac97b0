//! Generators of test cases, each a function of a seed: crews, records, messages, inboxes, whole runs, schedules, drill
//! scripts, splits of the rail's current, records of finished runs.
//! Any engine may be fed from them; they use the second engine's types and its reader, never its rules.

pub mod absences;
pub mod crews;
pub mod drills;
pub mod histories;
pub mod inboxes;
pub mod messages;
pub mod plans;
pub mod random;
pub mod records;
pub mod runs;
pub mod schedules;
pub mod splits;
pub mod turns;

pub use random::Random;
