//! Holds Tuchovai against the passes of rolldown 1.2.15, and measures both.
mod answers;
#[cfg(library)]
mod bench;
mod card;
mod compare;
#[cfg(library)]
mod damaged;
mod differences;
mod generate;
mod interop;
mod law;
mod ours;
mod reference;
mod rust_side;
mod sample;
mod source;
mod table;

fn command(words: &[String]) {
    let number = |at: usize| words.get(at).and_then(|w| w.parse().ok()).unwrap_or(1);
    match words.first().map(String::as_str) {
        Some("all") => compare::everything(number(1)),
        Some("interop") => interop::random_questions(1_000_000 * number(1), 5),
        Some("sample") => sample::write(200_000),
        Some("smallest") => compare::smallest(),
        Some("graphs") => compare::graphs(&words[1..]),
        #[cfg(library)]
        Some("images") => damaged::images(1_000_000 * number(1), 4),
        #[cfg(library)]
        Some("bench") => bench::everything(&words[1..]),
        _ => eprintln!(
            "compare all [SCALE] | graphs TABLE.. | interop [MILLIONS] | smallest | sample | images [MILLIONS] | bench TABLE.."
        ),
    }
}

/// The Rust passes go by recursion, one call a module, so the work runs on a large stack.
fn main() {
    let words: Vec<String> = std::env::args().skip(1).collect();
    let work = std::thread::Builder::new()
        .stack_size(1 << 30)
        .spawn(move || command(&words));
    if work.expect("a thread can be started").join().is_err() {
        std::process::exit(1);
    }
}
