//! The makers of the static library against the model's: all small arguments, and some huge ones.

use model::ready::{cube, singleton, uniform, write, Made};
use model::table::{check, SCRATCH};
use pafluzeno::{header, Refusal};
use std::collections::BTreeMap;

/// What stands in a buffer before the call.
const BEFORE: u16 = 43690;

/// A maker with the whole of its answer, of a refused one too, and as the wrapper has it.
struct Maker {
    name: &'static str,
    library: fn(usize, usize, &mut [u16]) -> header::Made,
    wrapper: fn(usize, usize, &mut [u16]) -> Result<usize, Refusal>,
}

const SINGLETON: Maker = Maker {
    name: "singleton",
    library: header::singleton,
    wrapper: pafluzeno::singleton,
};

const UNIFORM: Maker = Maker {
    name: "uniform",
    library: header::uniform,
    wrapper: pafluzeno::uniform,
};

const CUBE: Maker = Maker {
    name: "cube",
    library: header::cube,
    wrapper: pafluzeno::cube,
};

/// The buffer's lengths: none, one short of the table, just enough, and more.
fn lengths(made: &Made) -> Vec<usize> {
    let size = made.as_ref().map_or(3, Vec::len);
    vec![0, size - 1, size, size + 1, 64, 70]
}

/// The refusal, the number written and the whole buffer afterwards. Answers the refusals, by how often they were given.
fn compare(
    maker: &Maker,
    first: usize,
    second: usize,
    made: &Made,
    seen: &mut BTreeMap<usize, usize>,
) {
    for len in lengths(made) {
        let case = format!("{} of {first} and {second} in {len}", maker.name);
        let mut ours = vec![BEFORE; len];
        let expected = write(made.clone(), &mut ours);
        let mut theirs = vec![BEFORE; len];
        let answer = (maker.library)(first, second, &mut theirs);
        let answer = (answer.refusal.into(), answer.quorums);
        assert_eq!(answer, expected, "{case}");
        assert_eq!(theirs, ours, "{case}");
        theirs.fill(BEFORE);
        match (maker.wrapper)(first, second, &mut theirs) {
            Ok(count) => assert_eq!((0, count), expected, "{case}"),
            Err(refusal) => assert_eq!(usize::from(refusal.number()), expected.0, "{case}"),
        }
        assert_eq!(theirs, ours, "{case}");
        *seen.entry(expected.0).or_insert(0) += 1;
    }
}

fn assert_seen(seen: &BTreeMap<usize, usize>, refusals: &[usize]) {
    let keys: Vec<usize> = seen.keys().copied().collect();
    assert_eq!(keys, refusals, "{seen:?}");
}

/// 0 to 15, and some that a byte, two or four cannot hold.
fn firsts() -> Vec<usize> {
    let mut all: Vec<usize> = (0..=15).collect();
    all.extend([
        255,
        256,
        257,
        258,
        65537,
        1 << 32,
        (1 << 32) + 3,
        1 << 63,
        usize::MAX - 1,
        usize::MAX,
    ]);
    all
}

/// The same with 0 to 210.
fn seconds() -> Vec<usize> {
    let mut all: Vec<usize> = (0..=210).collect();
    all.extend([
        255,
        256,
        257,
        457,
        65537,
        1 << 32,
        (1 << 32) + 1,
        1 << 63,
        usize::MAX - 1,
        usize::MAX,
    ]);
    all
}

/// "Every table written passes 6 and 7 for its k", and is even or not.
fn assert_passes(n: usize, k: usize, quorums: &[u16], even: bool) {
    let checked = check(n, k, quorums, SCRATCH);
    let answer = (checked.refusal, checked.even);
    assert_eq!(answer, (0, even), "n = {n}, k = {k}, {quorums:?}");
}

#[test]
fn singletons() {
    let mut seen = BTreeMap::new();
    for n in firsts() {
        for station in seconds() {
            let made = singleton(n, station);
            compare(&SINGLETON, n, station, &made, &mut seen);
            if let Ok(quorums) = made {
                for k in 1..=200 {
                    assert_passes(n, k, &quorums, n == 1);
                }
            }
        }
    }
    assert_seen(&seen, &[0, 1, 8, 16]);
}

#[test]
fn uniforms() {
    let mut seen = BTreeMap::new();
    for n in firsts() {
        for k in seconds() {
            let made = uniform(n, k);
            compare(&UNIFORM, n, k, &made, &mut seen);
            if let Ok(quorums) = made {
                assert_passes(n, k, &quorums, true);
            }
        }
    }
    assert_seen(&seen, &[0, 1, 2, 16, 18]);
}

#[test]
fn cubes() {
    let mut seen = BTreeMap::new();
    for a in firsts() {
        for k in seconds() {
            let made = cube(a, k);
            compare(&CUBE, a, k, &made, &mut seen);
            if let Ok(quorums) = made {
                assert_passes(quorums.len(), k, &quorums, true);
            }
        }
    }
    assert_seen(&seen, &[0, 2, 16, 17]);
}
