//! The operations of an engine, as a comparison calls them, and the second engine behind them.

use second_engine::{absence, current, drill, least_crews, message, rounds};
use second_engine::{Crew, LeastCrew, Message, Mutation, Node, Plan, Refusal, Selection};

/// An engine. Records and shares are lent to be written, so that a comparison sees where a call should have left them
/// alone.
pub trait Engine {
    fn accept(&self, crew: Crew) -> Result<(), Refusal>;
    /// Looks up an entry of the table of least crews.
    fn least(&self, class: u8, b: u8, f: u8) -> Result<LeastCrew, Refusal>;
    fn start(&self, crew: Crew, own: u8, run: u32, plan: Plan) -> Result<Node, Refusal>;
    /// Writes the coming message; 0 is silence.
    fn write(&self, node: &mut Node, buffer: &mut [u8]) -> Result<usize, Refusal>;
    fn read(&self, slice: &[u8]) -> Result<Message, Refusal>;
    fn entries<'a>(&self, slice: &'a [u8]) -> &'a [u8];
    fn ask(&self, node: &mut Node, inbox: &[u8]) -> Result<Selection, Refusal>;
    fn take(&self, node: &mut Node, inbox: &[u8]) -> Result<(), Refusal>;
    /// The slots that count in the coming round, slot q its bit of weight 2 to the q.
    fn marks(&self, node: &mut Node, inbox: &[u8]) -> Result<u32, Refusal>;
    fn drill(&self, input: &[u8]) -> Vec<u8>;
    /// Splits the rail's current.
    fn split(&self, demands: &[u32], budget: u32, shares: &mut [u32]) -> Result<(), Refusal>;
    /// What the program that tells absences prints for this input.
    fn absence(&self, input: &[u8]) -> Vec<u8>;
}

/// The second engine, or a mutant of it.
#[derive(Clone, Copy, Debug, Default)]
pub struct Second {
    pub mutation: Mutation,
}

impl Engine for Second {
    fn accept(&self, crew: Crew) -> Result<(), Refusal> {
        crew.accept_mutated(self.mutation)
    }

    fn least(&self, class: u8, b: u8, f: u8) -> Result<LeastCrew, Refusal> {
        least_crews::least_mutated(class, b, f, self.mutation)
    }

    fn start(&self, crew: Crew, own: u8, run: u32, plan: Plan) -> Result<Node, Refusal> {
        Node::start_mutated(crew, own, run, plan, self.mutation)
    }

    fn write(&self, node: &mut Node, buffer: &mut [u8]) -> Result<usize, Refusal> {
        node.write_mutated(buffer, self.mutation)
    }

    fn read(&self, slice: &[u8]) -> Result<Message, Refusal> {
        message::read_mutated(slice, self.mutation)
    }

    fn entries<'a>(&self, slice: &'a [u8]) -> &'a [u8] {
        message::entries_mutated(slice, self.mutation)
    }

    fn ask(&self, node: &mut Node, inbox: &[u8]) -> Result<Selection, Refusal> {
        rounds::ask_mutated(node, inbox, self.mutation)
    }

    fn take(&self, node: &mut Node, inbox: &[u8]) -> Result<(), Refusal> {
        rounds::take_mutated(node, inbox, self.mutation)
    }

    fn marks(&self, node: &mut Node, inbox: &[u8]) -> Result<u32, Refusal> {
        rounds::marks_mutated(node, inbox, self.mutation)
    }

    fn drill(&self, input: &[u8]) -> Vec<u8> {
        drill::run_mutated(input, self.mutation)
    }

    fn split(&self, demands: &[u32], budget: u32, shares: &mut [u32]) -> Result<(), Refusal> {
        current::split_mutated(demands, budget, shares, self.mutation)
    }

    fn absence(&self, input: &[u8]) -> Vec<u8> {
        absence::run_mutated(input, self.mutation)
    }
}
