//! The tree of RFC 6962, section 2.1, over the shares: root, audit path and path check.
//! Leaves are numbered from 1, and a path runs from the leaf upward.

use crate::limits::{LONGEST_STRING, MOST_HASHES, MOST_PARTIES};
use crate::sha256::{hash, Hash};

/// 0x00, the session's number (document 02: sitting number) in four bytes unless it is 0, the share's
/// number in one byte, the share.
pub fn leaf_string(session: u32, j: usize, share: &[u8]) -> Vec<u8> {
    assert!((1..=MOST_PARTIES).contains(&j));
    let number = session.to_be_bytes();
    let number = match session {
        0 => &[],
        _ => &number[..],
    };
    [&[0x00], number, &[j as u8], share].concat()
}

/// The hash of 0x01, left, right.
pub fn node(left: Hash, right: Hash) -> Hash {
    hash(&[&[0x01], &left[..], &right[..]].concat())
}

/// The hashes of the leaf strings of shares 1, 2 and so on.
pub fn leaves(session: u32, shares: &[Vec<u8>]) -> Vec<Hash> {
    let leaf = |(j, share): (usize, &Vec<u8>)| hash(&leaf_string(session, j, share));
    (1..).zip(shares).map(leaf).collect()
}

/// The largest power of two smaller than n, for n over 1: how many leaves stand on the left.
pub fn split(n: usize) -> usize {
    assert!(n > 1);
    let mut k = 1;
    while 2 * k < n {
        k *= 2;
    }
    k
}

pub fn root(session: u32, shares: &[Vec<u8>]) -> Hash {
    root_of(&leaves(session, shares))
}

/// The root over hashed leaves, at least one.
pub fn root_of(leaves: &[Hash]) -> Hash {
    if let [leaf] = leaves {
        return *leaf;
    }
    let (left, right) = leaves.split_at(split(leaves.len()));
    node(root_of(left), root_of(right))
}

pub fn path(session: u32, shares: &[Vec<u8>], j: usize) -> Vec<Hash> {
    path_of(&leaves(session, shares), j)
}

/// The path of leaf j over hashed leaves: that within its half, then the other half's root.
pub fn path_of(leaves: &[Hash], j: usize) -> Vec<Hash> {
    assert!((1..=leaves.len()).contains(&j));
    if leaves.len() == 1 {
        return Vec::new();
    }
    let k = split(leaves.len());
    let (left, right) = leaves.split_at(k);
    let (mut path, other) = if j <= k {
        (path_of(left, j), right)
    } else {
        (path_of(right, j - k), left)
    };
    path.push(root_of(other));
    path
}

/// How many hashes the path of leaf j has in a tree of n leaves.
pub fn path_length(n: usize, j: usize) -> usize {
    assert!((1..=n).contains(&j));
    if n == 1 {
        return 0;
    }
    let k = split(n);
    if j <= k {
        1 + path_length(k, j)
    } else {
        1 + path_length(n - k, j - k)
    }
}

/// What leaf j and its path give as the root of n leaves; none if the path is too short
/// or too long. The last hash of a path is the half without the leaf.
fn fold(n: usize, j: usize, leaf: Hash, path: &[Hash]) -> Option<Hash> {
    if n == 1 {
        return path.is_empty().then_some(leaf);
    }
    let (other, rest) = path.split_last()?;
    let k = split(n);
    if j <= k {
        Some(node(fold(k, j, leaf, rest)?, *other))
    } else {
        Some(node(*other, fold(n - k, j - k, leaf, rest)?))
    }
}

/// Whether the path has the right length for n and j and leads from the share to the root.
pub fn check(session: u32, n: usize, j: usize, share: &[u8], path: &[Hash], root: Hash) -> bool {
    assert!((1..=n).contains(&j));
    fold(n, j, hash(&leaf_string(session, j, share)), path) == Some(root)
}

/// The check with any arguments: the lowest cause that applies, or its answer. Hashes past
/// the count are ignored, and a count over the room is no path's length.
pub fn judge(
    session: u32,
    (n, j): (usize, usize),
    share: &[u8],
    path: &[Hash; MOST_HASHES],
    count: usize,
    root: &[u8],
) -> Result<bool, u32> {
    if !(1..=MOST_PARTIES).contains(&n) {
        return Err(1);
    }
    if !(1..=n).contains(&j) {
        return Err(3);
    }
    if leaf_string(session, j, share).len() > LONGEST_STRING {
        return Err(4);
    }
    let root: Hash = root.try_into().map_err(|_| 7u32)?;
    let counted = path.get(..count);
    Ok(counted.is_some_and(|hashes| check(session, n, j, share, hashes, root)))
}

#[cfg(test)]
mod tests {
    use super::*;
    use crate::sessions::pairs;
    use crate::sha256::hex;

    fn lengths(n: usize) -> Vec<usize> {
        (1..=n).map(|j| path_length(n, j)).collect()
    }

    fn some_shares(n: usize) -> Vec<Vec<u8>> {
        (0..n).map(|place| vec![place as u8 * 3, 7]).collect()
    }

    #[test]
    fn worked_path_lengths() {
        assert_eq!(lengths(1), [0]);
        assert_eq!(lengths(2), [1, 1]);
        assert_eq!(lengths(3), [2, 2, 1]);
        assert_eq!(lengths(5), [3, 3, 3, 3, 1]);
        assert_eq!(lengths(7), [3, 3, 3, 3, 3, 3, 2]);
        assert_eq!(lengths(MOST_PARTIES), [MOST_HASHES; MOST_PARTIES]);
    }

    #[test]
    fn strings() {
        assert_eq!(leaf_string(0, 16, &[5, 6]), [0, 16, 5, 6]);
        assert_eq!(leaf_string(7, 16, &[5, 6]), [0, 0, 0, 0, 7, 16, 5, 6]);
        assert_eq!(leaf_string(0x0102_0304, 5, &[]), [0, 1, 2, 3, 4, 5]);
        let node_string = [vec![1], vec![2; 32], vec![3; 32]].concat();
        assert_eq!(node([2; 32], [3; 32]), hash(&node_string));
        let share = vec![vec![9, 8]];
        assert_eq!(root(0, &share), hash(&[0, 1, 9, 8]));
        assert_eq!(
            root(u32::MAX, &share),
            hash(&[0, 255, 255, 255, 255, 1, 9, 8])
        );
    }

    /// The tree of seven leaves that RFC 6962, section 2.1.3, draws.
    #[test]
    fn drawn_paths() {
        let d = leaves(0, &some_shares(7));
        let [a, b, c, e, f, j] = [d[0], d[1], d[2], d[4], d[5], d[6]];
        let (g, h, i) = (node(a, b), node(c, d[3]), node(e, f));
        let (k, l) = (node(g, h), node(i, j));
        assert_eq!(root_of(&d), node(k, l));
        assert_eq!(path_of(&d, 1), [b, h, l]);
        assert_eq!(path_of(&d, 4), [c, g, l]);
        assert_eq!(path_of(&d, 5), [f, j, k]);
        assert_eq!(path_of(&d, 7), [i, k]);
    }

    /// Roots that the tests of the Certificate Transparency project give for the first
    /// leaves of this list; their leaf strings hold no number.
    #[test]
    fn published_roots() {
        let data = [
            (0x00, 0),
            (0x00, 1),
            (0x10, 1),
            (0x20, 2),
            (0x30, 2),
            (0x40, 4),
            (0x50, 8),
            (0x60, 16),
        ];
        let leaf = |(first, length): (u8, u8)| {
            let counted = (0..length).map(|i| first + i);
            hash(&[0].into_iter().chain(counted).collect::<Vec<u8>>())
        };
        let leaves = data.map(leaf);
        let roots = [
            "6e340b9cffb37a989ca544e6bb780a2c78901d3fb33738768511a30617afa01d",
            "fac54203e7cc696cf0dfcb42c92a1d9dbaf70ad9e621f4bd8d98662f00e3c125",
            "aeb6bcfe274b70a14fb067a5e5578264db0fa9b51af5e0ba159158f329e06e77",
            "d37ee418976dd95753c1c73862b9398fa2a2cf9b4ff0fdfe8b30cd95209614b7",
            "4e3bbb1f7b478dcfe71fb631631519a3bca12c9aefca1612bfce4c13a86264d4",
            "76e67dadbcdf1e10e1b74ddc608abd2f98dfb16fbce75277b5232a127f2087ef",
            "ddb89be403809e325750d3d263cd78929c2942b7942a34b77e122c9594a74c8c",
            "5dc9da79a70659a9ad559cb701ded9a2ab9d823aad2f4960cfe370eff4604328",
        ];
        for (count, root) in (1..).zip(roots) {
            assert_eq!(hex(&root_of(&leaves[..count])), root);
        }
    }

    #[test]
    fn every_path_passes_and_no_other_number_does() {
        for n in 1..=MOST_PARTIES {
            let shares = some_shares(n);
            let root = root(0, &shares);
            for j in 1..=n {
                let path = path(0, &shares, j);
                assert_eq!(path.len(), path_length(n, j));
                assert!(path.len() <= MOST_HASHES);
                for other in 1..=n {
                    let passes = check(0, n, other, &shares[j - 1], &path, root);
                    assert_eq!(passes, other == j);
                }
            }
        }
    }

    #[test]
    fn a_path_passes_under_its_own_session_alone() {
        for n in 1..=MOST_PARTIES {
            let shares = some_shares(n);
            for (session, other) in pairs() {
                let root = root(session, &shares);
                let path = path(session, &shares, n);
                let passes = check(other, n, n, &shares[n - 1], &path, root);
                assert_eq!(passes, other == session, "n {n}, {session} and {other}");
            }
        }
    }

    /// It is one message whose roots differ by the session: these are the shares of two, each alone.
    #[test]
    fn two_messages_of_two_sessions_may_have_one_leaf_string() {
        let short = leaf_string(0x0100_047F, 1, &[0, 0]);
        assert_eq!(short, leaf_string(0, 1, &[0, 4, 0x7F, 1, 0, 0]));
    }

    #[test]
    fn lowest_cause_first() {
        let none = [[0; 32]; MOST_HASHES];
        let long = vec![0; LONGEST_STRING - 1];
        let root = hash(&[0, 1, 5]);
        assert_eq!(judge(0, (1, 1), &[5], &none, 0, &root), Ok(true));
        assert_eq!(judge(0, (1, 1), &[5], &none, 1, &root), Ok(false));
        assert_eq!(judge(0, (1, 1), &[5], &none, 255, &root), Ok(false));
        assert_eq!(judge(0, (1, 1), &long[1..], &none, 0, &root), Ok(false));
        for session in [1, u32::MAX] {
            let call = |share| judge(session, (1, 1), share, &none, 0, &root);
            assert_eq!(call(&long[5..]), Ok(false));
            assert_eq!(call(&long[4..]), Err(4));
        }
        assert_eq!(judge(0, (0, 0), &long, &none, 0, b""), Err(1));
        let (most, over) = (MOST_PARTIES, MOST_PARTIES + 1);
        assert_eq!(judge(0, (over, over + 1), &long, &none, 0, b""), Err(1));
        assert_eq!(judge(0, (most, over), &long, &none, 0, b""), Err(3));
        assert_eq!(judge(0, (most, most), &long, &none, 0, b""), Err(4));
        assert_eq!(judge(0, (most, most), &[5], &none, 9, &root[1..]), Err(7));
    }
}
