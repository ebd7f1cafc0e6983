//! The examples of the program `cases`: tables through the check, and ready-made tables. One line an example, and one more
//! for the outages that its table survives.

use crate::outages::outages;
use crate::ready::{cube, singleton, uniform, write, Made};
use crate::table::{check, members, scratch_after, Checked, MOST_STATIONS, SCRATCH};

/// Name, n, k and quorums of a table, and the bytes of scratch.
type Table = (&'static str, usize, usize, &'static [u16], usize);

/// One quorum too many, and the first names a station that is not there.
const TOO_MANY: [u16; 65] = {
    let mut quorums = [7; 65];
    quorums[0] = 8;
    quorums
};

const TABLES: [Table; 25] = [
    ("P1", 1, 1, &[1], 5000),
    ("P2", 3, 1, &[3, 5, 6], 5000),
    ("P3", 3, 2, &[3, 5, 6], 5000),
    ("P4", 2, 5, &[1, 2], 5000),
    ("P5", 4, 2, &[7, 11, 13, 14], 5000),
    ("P6", 4, 3, &[7, 11, 13, 14], 5000),
    ("P7", 4, 2, &[3, 12, 5, 10], 5000),
    ("P8", 2, 1, &[1, 3], 5000),
    ("P9", 2, 1, &[1, 2, 3], 5000),
    ("refusal 1", 13, 1, &[1], 5000),
    ("refusal 2", 1, 0, &[1], 5000),
    ("refusal 3", 1, 1, &[], 5000),
    ("refusal 4", 3, 1, &[8], 5000),
    ("refusal 5", 3, 1, &[3, 5, 6], 4095),
    ("refusal 6", 2, 5, &[1, 2], 5000),
    ("refusal 7", 2, 1, &[1, 3], 5000),
    ("nested 3 5 6 7", 3, 1, &[3, 5, 6, 7], 5000),
    ("nested 1 1", 1, 1, &[1, 1], 5000),
    ("two sizes", 6, 1, &[7, 28, 49, 42, 54, 45, 27], 5000),
    ("two shares", 3, 1, &[3, 5], 5000),
    ("check 1 before 2", 13, 0, &[1], 5000),
    ("check 2 before 3", 1, 201, &[], 5000),
    ("check 3 before 4", 3, 1, &TOO_MANY, 5000),
    ("check 4 before 5", 3, 1, &[8], 4095),
    ("check 5 before 6", 2, 5, &[1, 2], 4095),
];

/// A maker and its arguments.
#[derive(Clone, Copy)]
enum Maker {
    Singleton(usize, usize),
    Uniform(usize, usize),
    Cube(usize, usize),
}

use Maker::{Cube, Singleton, Uniform};

const LARGEST: usize = usize::MAX;

/// Name, maker and the length of the buffer.
const MADE: [(&str, Maker, usize); 18] = [
    ("refusal 8", Singleton(3, 3), 3),
    ("refusal 16", Singleton(3, 1), 0),
    ("refusal 17", Cube(2, 3), 3),
    ("refusal 18", Uniform(9, 1), 3),
    ("1 before 8", Singleton(13, LARGEST), 3),
    ("1 before 2", Uniform(0, 0), 3),
    ("2 before 17", Cube(0, 201), 3),
    ("18 before 16", Uniform(12, 2), 3),
    ("17 before 16", Cube(4, 1), 3),
    ("large n", Uniform(LARGEST, LARGEST), 3),
    ("large k", Uniform(12, LARGEST), 3),
    ("large a", Cube(LARGEST, 200), 3),
    ("large power", Cube(2, 200), 3),
    ("large station", Singleton(12, LARGEST), 3),
    ("uniform of the largest k", Uniform(3, 200), 3),
    ("cube of the largest k", Cube(1, 200), 3),
    ("four in three", Uniform(4, 2), 3),
    ("three in three", Uniform(3, 1), 3),
];

/// A singleton has no k of its own: it is checked at this one.
const SINGLETON_STOCK: usize = 1;

/// What stands in a buffer before a table is made, and in a scratch before a check.
const ENTRY_BEFORE: u16 = 65535;
const BYTE_BEFORE: u8 = 7;

fn listed(numbers: &[usize]) -> String {
    let words: Vec<String> = numbers.iter().map(usize::to_string).collect();
    words.join(" ")
}

fn answer(checked: &Checked) -> String {
    let mut line = format!(" table={} width={}", checked.refusal, checked.width);
    line += &format!(" even={}", u8::from(checked.even));
    if !checked.family.is_empty() {
        line += &format!(" family={}", listed(&checked.family));
    }
    line
}

/// "P2 gives 0, 0, 3, 1."
fn outages_line(n: usize, k: usize, quorums: &[u16]) -> String {
    let answer = outages(n, k, quorums, SCRATCH);
    let mut line = format!("n={n} k={k} outages={} counts", answer.refusal);
    for count in answer.counts {
        line += &format!(" {count}");
    }
    line
}

fn table_lines(table: &Table) -> String {
    let &(name, n, k, quorums, scratch) = table;
    let checked = check(n, k, quorums, scratch);
    let after = scratch_after(&vec![BYTE_BEFORE; scratch]);
    let zeros = after.iter().filter(|&&b| b == 0).count();
    let kept = after.iter().filter(|&&b| b == BYTE_BEFORE).count();
    let line = format!("{name}{} zeros={zeros} kept={kept}\n", answer(&checked));
    match scratch {
        0..SCRATCH => line,
        _ => line + &outages_line(n, k, quorums) + "\n",
    }
}

/// What the maker answers, what is in the buffer afterwards, the check of the table at k and k + 1, and a line of its outages.
fn made_line(made: &Made, room: usize, n: usize, k: usize) -> String {
    let mut out = vec![ENTRY_BEFORE; room];
    let (refusal, count) = write(made.clone(), &mut out);
    let kept = out.iter().filter(|&&q| q == ENTRY_BEFORE).count();
    let mut line = format!(" made={refusal} quorums={count} kept={kept}");
    if count > 0 {
        let quorums = &out[..count];
        let numbers: Vec<usize> = quorums.iter().map(|&q| q.into()).collect();
        line += &format!(" members {}", listed(&numbers));
        for stock in [k, k + 1] {
            let checked = check(n, stock, quorums, SCRATCH);
            line += &format!(" | k={stock}{}", answer(&checked));
        }
        line += &format!("\n{}", outages_line(n, k, quorums));
    }
    line + "\n"
}

/// P10: the first quorum of the cube of 3 and 1, and the number of its members.
fn p10() -> String {
    let first = cube(3, 1).expect("P10 is a table")[0];
    let count = members(first).len();
    let line = maker_line(Cube(3, 1), 9);
    format!("P10 quorum={first} count={count}{line}")
}

/// A cube has as many stations as quorums.
fn cube_line(a: usize, k: usize, room: usize) -> String {
    let made = cube(a, k);
    let n = made.as_ref().map_or(0, Vec::len);
    made_line(&made, room, n, k)
}

fn maker_line(maker: Maker, room: usize) -> String {
    match maker {
        Singleton(n, station) => made_line(&singleton(n, station), room, n, SINGLETON_STOCK),
        Uniform(n, k) => made_line(&uniform(n, k), room, n, k),
        Cube(a, k) => cube_line(a, k, room),
    }
}

/// Room for every table, and some entries more.
const ROOM: usize = 70;

/// All singletons and uniform tables, and the cubes.
fn all_lines() -> String {
    let mut lines = String::new();
    for n in 1..=MOST_STATIONS {
        for station in 0..n {
            let line = maker_line(Singleton(n, station), ROOM);
            lines += &format!("singleton n={n} station={station}{line}");
        }
        for k in 1..=n {
            let line = maker_line(Uniform(n, k), ROOM);
            lines += &format!("uniform n={n} k={k}{line}");
        }
    }
    for a in 0..=4 {
        for k in 1..=3 {
            let line = maker_line(Cube(a, k), ROOM);
            lines += &format!("cube a={a} k={k}{line}");
        }
    }
    lines
}

pub fn output() -> String {
    let mut lines: String = TABLES.iter().map(table_lines).collect();
    lines += &p10();
    for (name, maker, room) in MADE {
        lines += &format!("{name}{}", maker_line(maker, room));
    }
    lines + &all_lines()
}
