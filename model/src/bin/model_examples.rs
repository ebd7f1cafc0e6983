//! Prints what the program `cases`, `runs` or `withdrawals` is to print, by the model; and what `answers` prints for standard
//! input.

fn main() {
    let name = std::env::args().nth(1).unwrap_or_default();
    match name.as_str() {
        "cases" => print!("{}", model::examples::cases::output()),
        "runs" => print!("{}", model::examples::runs::output()),
        "withdrawals" => print!("{}", model::examples::withdrawals::output()),
        "answers" => {
            let input = std::io::read_to_string(std::io::stdin()).expect("a text");
            print!("{}", model::page::answers(input.as_bytes()))
        }
        _ => {
            eprintln!("usage: model_examples cases|runs|withdrawals|answers");
            std::process::exit(2);
        }
    }
}
