//! What the verified code costs beside plain Rust, as ratios from one run on one machine. Run it by `bench/run`.

mod checks;
mod clock;
mod contest;
mod journals;
mod outages;
mod pace;
mod plain_reader;
mod process;
mod reading;
mod report;
mod straightforward;
mod tables;
mod texts;
mod year;

use process::Folder;

fn compare() {
    println!(
        "Verified code against plain Rust; a ratio is the verified code's time / the other's."
    );
    println!("Each time is the shortest of so many runs, the two taken in turns:");
    println!(
        "{} of a check ({} of the model's), {} of outages ({}), {} of pace, {} of a journal, {} of reading ({} of the model's).",
        checks::ROUNDS.all,
        checks::ROUNDS.of_model(),
        outages::ROUNDS.all,
        outages::ROUNDS.of_model(),
        pace::ROUNDS,
        journals::ROUNDS,
        reading::ROUNDS,
        reading::ROUNDS / reading::MODEL_EVERY
    );
    let folder = Folder::new();
    checks::compare();
    outages::compare();
    pace::compare(&folder);
    journals::compare(&folder);
    reading::compare();
}

fn main() {
    match std::env::args().nth(1).as_deref() {
        None => compare(),
        Some(pace::MODE) => print!("{}", pace::by_model()),
        Some(journals::MODE) => journals::by_model(),
        Some(_) => {
            eprintln!("usage: speed");
            std::process::exit(2);
        }
    }
}
