//! Random cases: as they are made, or damaged.

use super::damaging::damage;
use super::generating::{candidate, loose, network, plan, Case};
use super::line_ends::varied;
use super::random::Random;
use super::term_faults;

/// A case without damage, its lines ended by byte 10: a small plan, now and then loose theory lines or a network.
pub fn undamaged(random: &mut Random) -> Case {
    if random.once_in(15) {
        return network(random);
    }
    let text = if random.once_in(8) { loose(random) } else { plan(random) };
    let cand = candidate(random, &text);
    (text, cand)
}

/// A case with damage and with line ends of any kind: three in five to what the theory lines say, else to the bytes.
// One in four of the first has damaged bytes too: 3 to 5 come before what is wrong with the terms, 7 behind it.
pub fn damaged(random: &mut Random, (text, cand): &Case) -> Case {
    let in_terms = random.below(5) < 3;
    let text = if in_terms { term_faults::put(random, text) } else { text.clone() };
    let (mut text, mut cand) = varied(random, (text, cand.clone()));
    let damages = if in_terms { usize::from(random.once_in(4)) } else { *random.one_of(&[1, 1, 1, 2, 3, 4]) };
    (0..damages).for_each(|_| damage_one(random, &mut text, &mut cand));
    (text, cand)
}

// Damages the text, or once in four the candidate.
fn damage_one(random: &mut Random, text: &mut Vec<u8>, cand: &mut Vec<u8>) {
    if random.once_in(4) {
        damage(random, cand);
    } else {
        damage(random, text);
    }
}

/// A random case with line ends of any kind: as made, or with damage.
pub fn case(random: &mut Random) -> Case {
    let made = undamaged(random);
    if random.once_in(2) {
        varied(random, made)
    } else {
        damaged(random, &made)
    }
}
