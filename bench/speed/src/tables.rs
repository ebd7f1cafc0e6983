//! The tables whose check is timed.

use model::rng::Rng;
use model::{random, ready};

pub struct Case {
    pub name: String,
    pub n: usize,
    pub k: usize,
    pub quorums: Vec<u16>,
}

fn case(name: &str, n: usize, k: usize, quorums: &[u16]) -> Case {
    Case {
        name: name.to_string(),
        n,
        k,
        quorums: quorums.to_vec(),
    }
}

/// All sets of that many of n stations, by ascending number.
fn sets(n: usize, size: u32) -> Vec<u16> {
    (0..1 << n)
        .filter(|set: &u16| set.count_ones() == size)
        .collect()
}

/// The same in another order.
fn mixed(rng: &mut Rng, mut list: Vec<u16>) -> Vec<u16> {
    for i in 1..list.len() {
        list.swap(i, rng.between(0, i));
    }
    list
}

/// 64 quorums that lack three stations each, and all stations are lacked equally often: with each three all that a turn of
/// the circle of stations makes of them. Three at equal distances are back after four steps, others after twelve.
fn turns() -> Vec<u16> {
    let turned = |three: u16, by: u16| (three << by | three >> (12 - by)) & 4095;
    let threes = [(7, 12), (11, 12), (19, 12), (35, 12), (67, 12), (273, 4)];
    threes
        .iter()
        .flat_map(|&(three, steps)| (0..steps).map(move |by| 4095 - turned(three, by)))
        .collect()
}

/// Twelve stations and 64 quorums: large ones, where many of them are needed to leave nothing in common, small ones, quorums among
/// the first stations only, quorums that repeat, and quorums that share a station.
pub fn worst() -> Vec<Case> {
    let mut rng = Rng::new(64);
    let in_turn: Vec<u16> = (0..64).map(|i| 4095 - (1 << (i % 12))).collect();
    let mut of_ten = sets(12, 10);
    of_ten.reverse();
    let even = turns();
    let mut late = even.clone();
    late[63] = late[62];
    let mut random_of = |size| -> Vec<u16> {
        (0..64)
            .map(|_| random::of_size(&mut rng, 12, size))
            .collect()
    };
    let (six, eight) = (random_of(6), random_of(8));
    let among_ten = mixed(&mut rng, sets(10, 7));
    let shared: Vec<u16> = mixed(&mut rng, sets(11, 6))
        .iter()
        .map(|set| 2 * set + 1)
        .collect();
    let among_seven: Vec<u16> = (0..64).map(|_| random::of_size(&mut rng, 7, 6)).collect();
    let wide = random::of_width(&mut rng, 12, 64, 8);
    vec![
        case("64 of the 66 sets of 10", 12, 1, &of_ten[..64]),
        case("64 sets of 9, all shares equal", 12, 1, &even),
        case("the same, the last two equal", 12, 1, &late),
        case("all but one in turn", 12, 1, &in_turn),
        case("all but one in turn", 12, 11, &in_turn),
        case("64 sets in 8 groups", 12, 7, &wide),
        case("64 random sets of 8", 12, 1, &eight),
        case("64 random sets of 6", 12, 1, &six),
        case("64 sets of 7 of the first 10", 12, 1, &among_ten[..64]),
        case("sets of 6 of the first 7, repeated", 12, 1, &among_seven),
        case("64 sets of 7, all with station 0", 12, 1, &shared[..64]),
    ]
}

pub fn all_differ(quorums: &[u16]) -> bool {
    (1..quorums.len()).all(|i| !quorums[..i].contains(&quorums[i]))
}

/// The lines of the plane with seven points.
const PLANE: [u16; 7] = [7, 25, 97, 42, 82, 76, 52];

/// Nine stations in three columns: a whole column and one station of each other.
fn grid() -> Vec<u16> {
    let mut made = Vec::new();
    for column in 0..3 {
        for (a, b) in (0..9).map(|i| (i / 3, i % 3)) {
            let one = |place: u16, of: u16| 1 << (3 * (of % 3) + place);
            made.push(7 << (3 * column) | one(a, column + 1) | one(b, column + 2));
        }
    }
    made
}

/// What a laboratory would use, and the marked tables that are refused.
pub fn typical() -> Vec<Case> {
    let uniform = |n, k| ready::uniform(n, k).expect("at most 64 quorums");
    let cube = ready::cube(3, 1).expect("nine stations");
    let singleton = ready::singleton(12, 0).expect("a station of twelve");
    vec![
        case("P2", 3, 1, &[3, 5, 6]),
        case("P5", 4, 2, &[7, 11, 13, 14]),
        case("cube 3/1", 9, 1, &cube),
        case("uniform 5/2", 5, 2, &uniform(5, 2)),
        case("uniform 6/2", 6, 2, &uniform(6, 2)),
        case("singleton of 12", 12, 200, &singleton),
        case("plane of 7", 7, 1, &PLANE),
        case("grid of 9, 27 quorums", 9, 1, &grid()),
        case("P3", 3, 2, &[3, 5, 6]),
        case("P4", 2, 5, &[1, 2]),
        case("P7", 4, 2, &[3, 12, 5, 10]),
        case("P8", 2, 1, &[1, 3]),
    ]
}

/// One of many tables of all kinds, some outside the limits.
pub fn any(seed: u64) -> Case {
    let mut rng = Rng::new(seed);
    let (n, count) = (rng.between(1, 12), rng.between(1, 64));
    let k = match rng.below(3) {
        0 => rng.between(0, 201),
        _ => rng.between(1, 12),
    };
    let quorums = match rng.below(7) {
        0 => random::any(&mut rng, n, count),
        1 => random::with_core(&mut rng, n, count),
        2 => random::wide(&mut rng, n, count, 3),
        3 if n > 1 => {
            let width = rng.between(2, n);
            random::of_width(&mut rng, n, count.max(width), width)
        }
        4 => (0..rng.below(67)).map(|_| rng.draw() as u16).collect(),
        _ => random::accepted(&mut rng, n, k.clamp(1, 200)),
    };
    // A wrong number of stations now and then.
    let n = if rng.percent(5) { rng.below(15) } else { n };
    case(&format!("seed {seed}"), n, k, &quorums)
}
