//! Document 02, point 4: "For planning the service week, count, for each u from 0 to n, the sets of exactly u working
//! stations that contain a whole quorum."

use crate::table::{check, members};

/// "on them the answer has no counts": on a refusal there are none.
#[derive(Clone, PartialEq, Eq, Debug)]
pub struct Outages {
    pub refusal: usize,
    pub counts: Vec<usize>,
}

/// All sets of exactly u of n stations, each as the list of its stations: those without the last one, and those with it.
pub fn sets(n: usize, u: usize) -> Vec<Vec<usize>> {
    if u == 0 {
        return vec![vec![]];
    }
    if n == 0 {
        return vec![];
    }
    let with_last = sets(n - 1, u - 1)
        .into_iter()
        .map(|set| [set, vec![n - 1]].concat());
    sets(n - 1, u).into_iter().chain(with_last).collect()
}

/// "contain a whole quorum": all members of some quorum work.
pub fn works(quorums: &[Vec<usize>], set: &[usize]) -> bool {
    quorums
        .iter()
        .any(|quorum| quorum.iter().all(|station| set.contains(station)))
}

/// "The answer is n + 1 counts." "The table's own refusals, here and later, are the check's 1 to 7 in its order".
pub fn outages(n: usize, k: usize, quorums: &[u16], scratch: usize) -> Outages {
    let refusal = check(n, k, quorums, scratch).refusal;
    if refusal != 0 {
        return Outages {
            refusal,
            counts: vec![],
        };
    }
    let quorums: Vec<Vec<usize>> = quorums.iter().map(|&q| members(q)).collect();
    let counts = (0..=n)
        .map(|u| sets(n, u).iter().filter(|set| works(&quorums, set)).count())
        .collect();
    Outages { refusal, counts }
}
