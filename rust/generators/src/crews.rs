//! Crews, accepted and refused.

use crate::random::Random;
use second_engine::Crew;

/// The least n that a class allows for b and f.
fn least_nodes(class: u8, b: usize, f: usize) -> usize {
    match class {
        1 => 5 * b + 3 * f + 1,
        2 => 4 * b + 2 * f + 1,
        _ => 3 * b + 2 * f + 1,
    }
}

/// The least D that a class allows.
fn least_votes(class: u8, n: usize, b: usize, f: usize) -> usize {
    match class {
        1 => (n + 3 * b + f) / 2 + 1,
        2 => 3 * b + f + 1,
        _ => 2 * b + f + 1,
    }
}

/// The least c that a class allows. In class 1 it is the most as well.
fn least_group(class: u8, n: usize, b: usize, f: usize) -> usize {
    match class {
        1 => n,
        2 => b + 1,
        _ => 3 * b + 2 * f + 1,
    }
}

/// An accepted crew of any class.
pub fn accepted(random: &mut Random) -> Crew {
    let class = random.between(1, 3) as u8;
    accepted_of_class(random, class)
}

/// An accepted crew of this class, small ones more often than large ones.
pub fn accepted_of_class(random: &mut Random, class: u8) -> Crew {
    let is_hard = random.chance(1, 2);
    let least = usize::from(is_hard);
    loop {
        let most = random.pick(&[1, 2, 3, 10]);
        let (b, f) = (random.between(least, most), random.between(least, most));
        let fewest = least_nodes(class, b, f);
        if fewest > Crew::MOST_NODES {
            continue;
        }
        let room = Crew::MOST_NODES - fewest;
        let any_room = random.between(0, room);
        let n = fewest + random.pick(&[0, 1.min(room), 3.min(room), room, any_room]);
        let (low, high) = (least_votes(class, n, b, f), n - b - f);
        let any_votes = random.between(low, high);
        let d = random.pick(&[low, high, any_votes]);
        let few = least_group(class, n, b, f);
        let any_group = random.between(few, n);
        let c = random.pick(&[n, few, any_group, any_group]);
        return Crew::new(class, n as u8, b as u8, f as u8, d as u8, c as u8);
    }
}

/// An accepted crew with b > 0 and f > 0.
pub fn accepted_with_byzantine(random: &mut Random, class: u8) -> Crew {
    loop {
        let crew = accepted_of_class(random, class);
        if crew.b > 0 && crew.f > 0 {
            return crew;
        }
    }
}

/// Any crew: accepted, next to an accepted one, with another group size, or six bytes.
pub fn any(random: &mut Random) -> Crew {
    match random.below(5) {
        0 => accepted(random),
        1 | 2 => near_accepted(random),
        3 => regrouped(random),
        _ => {
            let bytes = random.bytes(6);
            Crew::new(bytes[0] % 5, bytes[1], bytes[2], bytes[3], bytes[4], bytes[5])
        }
    }
}

/// An accepted crew with another group size, and sometimes with a D that is too low as well, so that two refusals
/// apply.
pub fn regrouped(random: &mut Random) -> Crew {
    let crew = accepted(random);
    let crew = Crew { c: odd_group(random, crew), ..crew };
    if random.chance(1, 4) {
        let [n, b, f] = [crew.n, crew.b, crew.f].map(usize::from);
        return Crew { d: least_votes(crew.class, n, b, f) as u8 - 1, ..crew };
    }
    crew
}

/// A group size for an accepted crew, refused or not: at a bound of some class, next to one, or any byte.
pub fn odd_group(random: &mut Random, crew: Crew) -> u8 {
    let Crew { n, b, f, .. } = crew;
    let any_byte = random.byte();
    let any_size = random.between(0, usize::from(n)) as u8;
    let least = 3 * b + 2 * f;
    random.pick(&[0, b, b + 1, 3 * b, 3 * b + 1, least, least + 1, n - 1, n, n + 1, u8::MAX, any_size, any_byte])
}

/// An accepted crew with one number changed, by one or to any byte.
pub fn near_accepted(random: &mut Random) -> Crew {
    let mut crew = accepted(random);
    let number = match random.below(6) {
        0 => &mut crew.class,
        1 => &mut crew.n,
        2 => &mut crew.b,
        3 => &mut crew.f,
        4 => &mut crew.d,
        _ => &mut crew.c,
    };
    *number = match random.below(3) {
        0 => number.wrapping_add(1),
        1 => number.wrapping_sub(1),
        _ => random.byte(),
    };
    crew
}

/// Every crew of small values and one step beyond, for comparisons that leave none out.
pub fn small() -> impl Iterator<Item = Crew> {
    let above = Crew::MOST_NODES as u8 + 2;
    let counts = |most: u8| (0..=most).chain([85, 86, 127, 128, 254, 255]);
    (0..=4).flat_map(move |class| {
        counts(above).flat_map(move |n| {
            counts(11).flat_map(move |b| {
                counts(11)
                    .flat_map(move |f| counts(above).flat_map(move |d| with_groups(Crew::whole(class, n, b, f, d))))
            })
        })
    })
}

/// The crew with every group size up to one above n, and with the highest. Where it is refused with 1, 2 or 3 whatever
/// its group size is, there is one alone, which no class accepts: 17 comes after these numbers.
fn with_groups(crew: Crew) -> impl Iterator<Item = Crew> {
    let [n, b, f, d] = [crew.n, crew.b, crew.f, crew.d].map(usize::from);
    let is_open = (1..=3).contains(&crew.class) && (1..=Crew::MOST_NODES).contains(&n) && d + b + f <= n;
    let most = if is_open { crew.n + 1 } else { 0 };
    (0..=most).chain(is_open.then_some(u8::MAX)).map(move |c| Crew { c, ..crew })
}
