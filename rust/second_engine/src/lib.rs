//! The second engine: the rules of the scope paper (01) and of the change requests (02) in plain Rust, byte exact.
//! It is written from the papers' sentences alone; comparison tests hold it against the proved engine.

pub mod absence;
pub mod crew;
pub mod current;
pub mod drill;
pub mod inbox;
pub mod least_crews;
pub mod message;
pub mod mutation;
pub mod node;
pub mod plan;
pub mod refusal;
pub mod rounds;

pub use crew::Crew;
pub use least_crews::LeastCrew;
pub use message::{Body, Message};
pub use mutation::Mutation;
pub use node::Node;
pub use plan::Plan;
pub use refusal::Refusal;
pub use rounds::Selection;
