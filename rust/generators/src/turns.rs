//! Whose turn it is to validate (02, C-13), for generators and checkers. The second engine goes through the group as
//! the paper lists it; here a node's place is told by its distance from the group's first node, so that the two forms
//! can be held against each other.

use second_engine::node::VALIDATION;
use second_engine::Crew;

/// Whether the node validates in the phase: it is one of the c nodes from number phase × c on, around the n of them.
/// With n = 0 there is nobody.
pub fn is_validator(crew: Crew, phase: u8, q: usize) -> bool {
    let (n, c) = (usize::from(crew.n), usize::from(crew.c));
    if q >= n {
        return false;
    }
    let first = usize::from(phase) * c % n;
    let distance = if q < first { q + n - first } else { q - first };
    distance < c
}

/// The validators of the phase in the order of their places: from the group's first node on to the last of the crew,
/// then from node 0 on, c of them, and of an accepted crew no node twice. With n = 0 there is nobody.
pub fn group(crew: Crew, phase: u8) -> impl Iterator<Item = usize> {
    let (n, c) = (usize::from(crew.n), usize::from(crew.c));
    let first = (usize::from(phase) * c).checked_rem(n).unwrap_or(0);
    (first..n).chain(0..first).take(c)
}

/// Whether the slot of the node may count in this round of the phase, if what stands in it is fit: in round 2 the
/// validators' slots alone may.
pub fn may_count(crew: Crew, phase: u8, round: u8, q: usize) -> bool {
    round != VALIDATION || is_validator(crew, phase, q)
}

/// Whether a circle has enough validators for a good phase. 02: "besides twice their number must exceed c + b (class 1
/// excepted)"
pub fn is_group_in_circle(crew: Crew, phase: u8, circle: &[usize]) -> bool {
    let validators = circle.iter().filter(|&&own| is_validator(crew, phase, own)).count();
    crew.class == 1 || 2 * validators > usize::from(crew.c) + usize::from(crew.b)
}
