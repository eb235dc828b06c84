//! Holds the proved code to the second implementation. Ends with 1 on a mismatch.
//!
//!     differ calls SEED COUNT [--draw] [--long] [--trace] LIBRARY...   every edge and fault, round trips, and COUNT calls by chance
//!     differ lines SEED COUNT PROGRAM                                  the line program on listed texts and on COUNT texts by chance
//!
//! --draw: wave_draw must be in one of the libraries. --long: more round trips, and every fault at the largest sizes. --trace: each call is told before it is made.

mod archive;
mod case;
mod compare;
mod damage;
mod hashed;
mod make;
mod plan;
mod rng;
mod texts;
mod worked;

use std::process::exit;

fn usage() -> ! {
    eprintln!("differ calls SEED COUNT [--draw] [--long] [--trace] LIBRARY...\ndiffer lines SEED COUNT PROGRAM");
    exit(2)
}

fn calls(seed: u64, count: u64, words: &[String]) -> bool {
    let flag = |name: &str| words.iter().any(|w| w == name);
    let libraries: Vec<String> = words.iter().filter(|w| !w.starts_with("--")).cloned().collect();
    let archives = archive::Archives::load(&libraries, seed ^ 0xA5A5);
    let mut c = compare::Comparer::new(archives, rng::Rng::new(seed), flag("--trace"));
    let parts: [(&str, &dyn Fn(&mut compare::Comparer)); 19] = [
        ("worked cases", &worked::cases),
        ("packing calls", &plan::packing),
        ("last bytes", &plan::last_bytes),
        ("past the length first", &plan::past_first),
        ("beginning a key", &plan::beginning),
        ("rows and checks", &plan::held_key),
        ("hashes", &hashed::hashes),
        ("syndromes", &hashed::syndromes),
        ("salts", &hashed::salts),
        ("checks of texts", &hashed::checks),
        ("between calls", &hashed::between_calls),
        ("large keys", &|c| plan::large_keys(c, flag("--long"))),
        ("builds and draws", &plan::editor),
        ("gaps", &plan::gaps),
        ("blocks of pivots", &plan::blocks),
        ("late ranks", &plan::late_ranks),
        ("many rows", &|c| plan::many_rows(c, flag("--long"))),
        ("round trips", &|c| plan::round_trips(c, flag("--long"))),
        ("by chance", &|c| plan::chance(c, count)),
    ];
    for (name, part) in parts {
        let (before, clock) = (c.total(), std::time::Instant::now());
        part(&mut c);
        println!("{name}: {} calls compared in {:.1} s", c.total() - before, clock.elapsed().as_secs_f64());
    }
    let whole = c.summary(flag("--draw"));
    println!("calls compared: {}, mismatches: {}", c.total(), c.mismatches);
    whole && c.mismatches == 0
}

fn main() {
    let words: Vec<String> = std::env::args().skip(1).collect();
    if words.len() < 4 {
        usage();
    }
    let (Ok(seed), Ok(count)) = (words[1].parse(), words[2].parse()) else { usage() };
    let agreed = match words[0].as_str() {
        "calls" => calls(seed, count, &words[3..]),
        "lines" => texts::compare(seed, count, &words[3]),
        _ => usage(),
    };
    exit(!agreed as i32)
}
