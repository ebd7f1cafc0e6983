//! The first of the smallest families with an empty common part. Its size is the width; without one the width is 0.

use super::{common_part, is_member};
use std::collections::VecDeque;

/// Up to here all families are tried.
const FEW: usize = 10;

/// For a table that passes 1 to 4.
pub fn first_family(n: usize, quorums: &[u16]) -> Option<Vec<usize>> {
    if quorums.len() <= FEW {
        by_trying_all(n, quorums, quorums.len())
    } else {
        by_common_parts(n, quorums)
    }
}

/// All families up to a size, the smallest first and in dictionary order within a size.
pub fn by_trying_all(n: usize, quorums: &[u16], most: usize) -> Option<Vec<usize>> {
    (0..=most).find_map(|size| {
        let mut family = Vec::new();
        first_of_size(n, quorums, size, &mut family).then_some(family)
    })
}

/// Completes the family, an ascending list, to `size` numbers with an empty common part, in the first way that there is.
/// If there is none the list is as it was.
fn first_of_size(n: usize, quorums: &[u16], size: usize, family: &mut Vec<usize>) -> bool {
    if family.len() == size {
        return !common_part(n, quorums, family).contains(&true);
    }
    let next = family.last().map_or(0, |last| last + 1);
    for q in next..quorums.len() {
        family.push(q);
        if first_of_size(n, quorums, size, family) {
            return true;
        }
        family.pop();
    }
    false
}

/// The same for tables with too many families: breadth first over the common parts, with one family for each part, the
/// first that reaches it. Families grow only at their end.
///
/// Why this finds the same. All families here are real, so none is smaller than the width w. Let F = f1 < ... < fw be the
/// first family of size w with an empty common part, and F(d) its first d numbers, with common part P(d).
/// - A family of fewer than d numbers with the part P(d) would, with f(d+1), ..., fw, have an empty part and fewer than w
///   numbers. So no smaller family reaches P(d).
/// - A family G of d numbers with the part P(d) that comes before F(d) would, with f(d+1), ..., fw, have an empty part and
///   hence w numbers. At the first place where G and F(d) differ G has the smaller number, which is smaller than
///   f(d+1), ..., fw too. So the whole would come before F, which is the first.
///
/// So F(d) is the first of all families that reach P(d), by size and then in dictionary order. The queue holds families
/// in just that order: the next ones are made from the earlier first, and from one family by ascending number. Hence if
/// F(d - 1) is kept for its part, F(d) is made and kept for its own. From the empty family on all F(d) are kept, and F(w)
/// is the first to reach the empty part.
pub fn by_common_parts(n: usize, quorums: &[u16]) -> Option<Vec<usize>> {
    let mut reached = vec![false; 1 << n];
    let mut queue = VecDeque::new();
    queue.push_back((Vec::new(), vec![true; n]));
    while let Some((family, part)) = queue.pop_front() {
        let next = family.last().map_or(0, |last| last + 1);
        for (q, &quorum) in quorums.iter().enumerate().skip(next) {
            let smaller: Vec<bool> = (0..n).map(|i| part[i] && is_member(quorum, i)).collect();
            let place = number_of(&smaller);
            if reached[place] {
                continue;
            }
            reached[place] = true;
            let mut longer: Vec<usize> = family.clone();
            longer.push(q);
            if place == 0 {
                return Some(longer);
            }
            queue.push_back((longer, smaller));
        }
    }
    None
}

/// A set of stations as its place in a list of all sets.
fn number_of(set: &[bool]) -> usize {
    set.iter()
        .rev()
        .fold(0, |number, &is_in| 2 * number + usize::from(is_in))
}
