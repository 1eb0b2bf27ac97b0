//! An engine and, if there is one, another that has to give the same answers to all calls. What any call has to leave
//! alone is checked here too: a write, an ask, telling marks and a refused call change no record.

use crate::cases::{expect, same, show_inbox};
use crate::engine::Engine;
use generators::runs::Setup;
use second_engine::{Node, Plan, Refusal, Selection};
use std::fmt::Debug;

/// The engine that is driven, and the one it is compared with. An error is a text that tells what differs.
#[derive(Clone, Copy)]
pub struct Pair<'a> {
    pub engine: &'a dyn Engine,
    pub other: Option<&'a dyn Engine>,
}

impl Pair<'_> {
    /// The honest records, by own number, and the plans they start with.
    pub fn start(&self, setup: &Setup) -> Result<(Vec<Option<Node>>, Vec<Plan>), String> {
        let mut records = vec![None; setup.is_honest.len()];
        let mut initial = Vec::new();
        for &(crew, own, run, plan) in &setup.starts {
            let answer = self.engine.start(crew, own, run, plan);
            if let Some(other) = self.other {
                same(&(crew, own, run, plan), answer, other.start(crew, own, run, plan))?;
            }
            if let Ok(node) = answer {
                records[usize::from(own)] = Some(node);
                initial.push(plan);
            }
        }
        for (own, &is_honest) in setup.is_honest.iter().enumerate() {
            expect(records[own].is_some() == is_honest, || format!("start of node {own}"))?;
        }
        Ok((records, initial))
    }

    /// The answer to a write, and the buffer after it.
    pub fn write(&self, node: Node, before: &[u8]) -> Result<(Result<usize, Refusal>, Vec<u8>), String> {
        let call = |engine: &dyn Engine| {
            let (mut node, mut buffer) = (node, before.to_vec());
            let answer = engine.write(&mut node, &mut buffer);
            (answer, node, buffer)
        };
        let (answer, after, buffer) = call(self.engine);
        if let Some(other) = self.other {
            same(&(node, before), (answer, after, buffer.clone()), call(other))?;
        }
        expect(after == node, || format!("write changed the record of node {}", node.own))?;
        Ok((answer, buffer))
    }

    /// The answer to a take, and the record after it.
    pub fn take(&self, before: Node, inbox: &[u8]) -> Result<(Result<(), Refusal>, Node), String> {
        let (answer, after) = self.of_inbox(before, inbox, |engine, node| engine.take(node, inbox))?;
        expect(answer.is_ok() || after == before, || {
            format!("refused take changed the record of node {}", before.own)
        })?;
        Ok((answer, after))
    }

    /// The answer to an ask.
    pub fn ask(&self, before: Node, inbox: &[u8]) -> Result<Result<Selection, Refusal>, String> {
        let (answer, after) = self.of_inbox(before, inbox, |engine, node| engine.ask(node, inbox))?;
        expect(after == before, || format!("ask changed the record of node {}", before.own))?;
        Ok(answer)
    }

    /// The answer to telling the slots that count.
    pub fn marks(&self, before: Node, inbox: &[u8]) -> Result<Result<u32, Refusal>, String> {
        let (answer, after) = self.of_inbox(before, inbox, |engine, node| engine.marks(node, inbox))?;
        expect(after == before, || format!("marks changed the record of node {}", before.own))?;
        Ok(answer)
    }

    /// The answer to a call that is handed this inbox, and the record after it. An inbox is shown only where the
    /// engines differ: that takes long.
    fn of_inbox<A: PartialEq + Debug>(
        &self,
        before: Node,
        inbox: &[u8],
        call: impl Fn(&dyn Engine, &mut Node) -> A,
    ) -> Result<(A, Node), String> {
        let play = |engine: &dyn Engine| {
            let mut node = before;
            let answer = call(engine, &mut node);
            (answer, node)
        };
        let one = play(self.engine);
        if let Some(other) = self.other {
            let second = play(other);
            if one != second {
                same(&(before, show_inbox(inbox)), &one, &second)?;
            }
        }
        Ok(one)
    }
}
