//! The numbers of sessions that plans and vectors are made with.

use crate::random::Random;

/// That of the former leaf strings, small ones, one whose only bit stands in the first of its bytes,
/// and the greatest.
pub const EDGES: [u32; 5] = [0, 1, 0xFF, 0x0100_0000, u32::MAX];

/// Every two of them, and each with itself.
pub fn pairs() -> impl Iterator<Item = (u32, u32)> {
    EDGES.into_iter().flat_map(|it| EDGES.map(|to| (it, to)))
}

/// The number in this place of a list without end: the edges, then two others, and so on.
pub fn in_place(place: usize) -> u32 {
    match EDGES.get(place % (EDGES.len() + 2)) {
        Some(edge) => *edge,
        None => Random::new(place as u64).word() as u32,
    }
}

/// One of the edges, or any.
pub fn some(random: &mut Random) -> u32 {
    let any = random.word() as u32;
    match random.once_in(2) {
        true => random.pick(&EDGES),
        false => any,
    }
}

/// Another number: 0, the same bytes from the last to the first, the next one, or one in which a bit
/// is turned.
pub fn another(session: u32, random: &mut Random) -> u32 {
    let turned = session ^ 1 << random.below(32);
    let near = [0, session.swap_bytes(), session.wrapping_add(1), turned];
    let found = random.pick(&near);
    match found == session {
        true => turned,
        false => found,
    }
}

#[cfg(test)]
mod tests {
    use super::*;
    use std::collections::BTreeSet;

    #[test]
    fn another_is_not_the_same() {
        let mut random = Random::new(8);
        for session in EDGES {
            assert!((0..100).all(|_| another(session, &mut random) != session));
        }
        let seen: BTreeSet<u32> = (0..100).map(|_| some(&mut random)).collect();
        assert!(EDGES.iter().all(|edge| seen.contains(edge)) && seen.len() > 30);
    }

    #[test]
    fn edges_come_again_and_others_do_not() {
        let list: Vec<u32> = (0..70).map(in_place).collect();
        assert_eq!((&list[..5], &list[63..68]), (&EDGES[..], &EDGES[..]));
        let seen: BTreeSet<u32> = list.into_iter().collect();
        assert_eq!(seen.len(), EDGES.len() + 20);
    }
}
