//! Comparison of two engines on generated cases, on lookups in the table of least crews (C-11) and on all groups of
//! validators (C-13), the properties of whole runs (01, 'The list in demand 3'), the claims on schedules, where nodes
//! are out of step (C-17), and the properties of splits of the rail's current (C-19) and of the lines that tell
//! absences (C-24).

pub mod absences;
pub mod cases;
pub mod decisions;
pub mod engine;
pub mod exchanges;
pub mod groups;
pub mod lookups;
pub mod mutants;
pub mod pair;
pub mod regrouping;
pub mod runs;
pub mod schedules;
pub mod seeds;
pub mod slots;
pub mod splits;

pub use cases::{compare, Operation};
pub use engine::{Engine, Second};
