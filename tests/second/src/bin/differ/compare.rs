//! Makes a call both ways and compares the answer, the state and every buffer word by word.

use crate::archive::Archives;
use crate::case::{second_outcome, Buffer, Call, Case, Outcome, CALLS, GAP_U, GAP_V};
use crate::damage::{faults, Fault};
use crate::rng::Rng;
use std::collections::{BTreeMap, BTreeSet};

const MOST_REPORTS: usize = 10;

pub struct Comparer {
    pub archives: Archives,
    pub rng: Rng,
    /// Calls compared, by call and by answer.
    counts: BTreeMap<(Call, String), u64>,
    /// Draws with sizes in their ranges and g_V other than g_U, and those of them that were released.
    unequal: u64,
    unequal_released: u64,
    /// Faults that were put in alone and made the refusal that they are known by.
    provoked: BTreeSet<(Call, String)>,
    pub mismatches: usize,
    pub trace: bool,
}

/// The refusal, and for a check its verdict.
fn told(call: Call, answer: &[u64]) -> String {
    match answer {
        [0, 1, _, _] if call.is_check() => "yes".to_string(),
        [0, 0, _, _] if call.is_check() => "no".to_string(),
        _ => answer[0].to_string(),
    }
}

fn shown(buffer: &Buffer) -> String {
    const MOST: usize = 40;
    let (items, len): (Vec<String>, usize) = match buffer {
        Buffer::Words(v) => (v.iter().take(MOST).map(|x| format!("{x:#x}")).collect(), v.len()),
        Buffer::Bytes(v) => (v.iter().take(MOST).map(|x| x.to_string()).collect(), v.len()),
        Buffer::Order(v) => (v.iter().take(MOST).map(|x| x.to_string()).collect(), v.len()),
    };
    format!("[{}{}] ({len})", items.join(", "), if len > MOST { ", .." } else { "" })
}

fn first_difference(a: &Buffer, b: &Buffer) -> String {
    let at = |x: usize, y: String, z: String| format!("at {x}: second {y}, archive {z}");
    match (a, b) {
        (Buffer::Words(a), Buffer::Words(b)) => (0..a.len()).find(|i| a[*i] != b[*i]).map(|i| at(i, format!("{:#x}", a[i]), format!("{:#x}", b[i]))),
        (Buffer::Bytes(a), Buffer::Bytes(b)) => (0..a.len()).find(|i| a[*i] != b[*i]).map(|i| at(i, a[i].to_string(), b[i].to_string())),
        (Buffer::Order(a), Buffer::Order(b)) => (0..a.len()).find(|i| a[*i] != b[*i]).map(|i| at(i, a[i].to_string(), b[i].to_string())),
        _ => None,
    }
    .unwrap_or_else(|| "of another kind".to_string())
}

impl Comparer {
    pub fn new(archives: Archives, rng: Rng, trace: bool) -> Comparer {
        Comparer { archives, rng, counts: BTreeMap::new(), unequal: 0, unequal_released: 0, provoked: BTreeSet::new(), mismatches: 0, trace }
    }

    /// Says what is wrong with a case, with its input.
    pub fn report(&mut self, case: &Case, why: &[String], what: &str) {
        self.mismatches += 1;
        println!("MISMATCH in {}: {what}", case.call.name());
        if !why.is_empty() {
            println!("  faults: {}", why.join("; "));
        }
        let numbers: Vec<String> = case.call.numbers().iter().zip(&case.numbers).map(|(n, v)| format!("{n} = {v}")).collect();
        println!("  {}", numbers.join(", "));
        for (name, buffer) in case.call.buffers().iter().zip(&case.buffers) {
            println!("  {name} = {}", shown(buffer));
        }
        if self.mismatches >= MOST_REPORTS {
            println!("differ: {} mismatches, the rest is not run", self.mismatches);
            std::process::exit(1);
        }
    }

    /// Both sides of one case; what the second implementation makes of it. A call that is not linked is made by the second alone and not counted.
    pub fn compare(&mut self, case: &Case, why: &[String]) -> Outcome {
        let second = second_outcome(case);
        if !self.archives.has(case.call) {
            return second;
        }
        if self.trace {
            eprintln!("{} {:?} {why:?}", case.call.name(), case.numbers);
        }
        *self.counts.entry((case.call, told(case.call, &second.answer))).or_default() += 1;
        if case.call == Call::Draw && second.refusal() != 1 && case.numbers[GAP_V] != case.numbers[GAP_U] {
            self.unequal += 1;
            self.unequal_released += (second.refusal() == 0) as u64;
        }
        match self.archives.outcome(case) {
            Err(what) => self.report(case, why, &what),
            Ok(archive) => {
                if archive.answer != second.answer {
                    self.report(case, why, &format!("second answers {:?}, archive {:?}", second.answer, archive.answer));
                } else if let Some(i) = (0..case.buffers.len()).find(|i| archive.buffers[*i] != second.buffers[*i]) {
                    let what = format!("{} at exit, {}", case.call.buffers()[i], first_difference(&second.buffers[i], &archive.buffers[i]));
                    self.report(case, why, &what);
                }
            }
        }
        second
    }

    /// The sound case, which must pass, and each of its faults alone, which must be told by its number.
    pub fn singles(&mut self, case: &Case) {
        if self.compare(case, &[]).refusal() != 0 {
            self.report(case, &[], "a case made to pass is refused");
        }
        for (fault, refusal) in faults(case) {
            let mut damaged = case.clone();
            fault.put(&mut damaged, &mut self.rng);
            let name = fault.name(case.call);
            let outcome = self.compare(&damaged, std::slice::from_ref(&name));
            if outcome.refusal() != refusal {
                self.report(&damaged, std::slice::from_ref(&name), &format!("second answers {}, the fault is {refusal}", outcome.refusal()));
            }
            if self.archives.has(case.call) {
                let kind = name.split(|c: char| c.is_ascii_digit()).next().unwrap();
                self.provoked.insert((case.call, format!("{refusal}: {kind}")));
            }
        }
    }

    /// Every pair of faults, in either order by chance.
    pub fn pairs(&mut self, case: &Case) {
        self.pairs_of(case, &faults(case));
    }

    /// Every pair of faults in the contents of buffers: which is told hangs on the order of the buffers.
    pub fn content_pairs(&mut self, case: &Case) {
        let contents: Vec<(Fault, u64)> = faults(case).into_iter().filter(|(_, refusal)| (3..20).contains(refusal)).collect();
        self.pairs_of(case, &contents);
    }

    fn pairs_of(&mut self, case: &Case, all: &[(Fault, u64)]) {
        if !self.archives.has(case.call) {
            return;
        }
        for (i, (a, _)) in all.iter().enumerate() {
            for (b, _) in &all[i + 1..] {
                let mut pair = [*a, *b];
                if self.rng.one_in(2) {
                    pair.swap(0, 1);
                }
                self.damaged(case, &pair);
            }
        }
    }

    pub fn damaged(&mut self, case: &Case, list: &[Fault]) -> Outcome {
        let mut damaged = case.clone();
        for fault in list {
            fault.put(&mut damaged, &mut self.rng);
        }
        let names: Vec<String> = list.iter().map(|f| f.name(case.call)).collect();
        self.compare(&damaged, &names)
    }

    pub fn total(&self) -> u64 {
        self.counts.values().sum()
    }

    /// The counts of calls compared. False if a call was not linked though it is needed, an answer of the paper was
    /// never seen though it can be, or g_V was other than g_U in fewer than a third of the draws, or of those that were
    /// released.
    pub fn summary(&self, draw_needed: bool) -> bool {
        let mut whole = true;
        for call in CALLS {
            let seen: Vec<(&String, &u64)> = self.counts.iter().filter(|((c, _), _)| *c == call).map(|((_, told), count)| (told, count)).collect();
            if !self.archives.has(call) {
                println!("{}: not linked", call.name());
                whole &= call == Call::Draw && !draw_needed;
                continue;
            }
            let mut parts: Vec<(u64, String)> = seen.iter().map(|(told, count)| (told.parse().unwrap_or(0), format!("{told}: {count}"))).collect();
            parts.sort();
            let list: Vec<&str> = parts.iter().map(|(_, s)| s.as_str()).collect();
            let faults = self.provoked.iter().filter(|(c, _)| *c == call).count();
            println!("{}: {} calls, {faults} kinds of fault; answers {}", call.name(), seen.iter().map(|(_, n)| **n).sum::<u64>(), list.join(", "));
            for answer in call.answers() {
                let verdict = *answer == 0 && call.is_check();
                let names: &[&str] = if verdict { &["yes", "no"] } else { &[&answer.to_string()] };
                for name in names {
                    if !seen.iter().any(|(told, _)| told.as_str() == *name) {
                        println!("{}: the answer {name} was never seen", call.name());
                        whole = false;
                    }
                }
            }
            if let Some(answer) = call.unseen() {
                println!("{}: {answer} is not asked for, no text is known that makes it", call.name());
            }
            if call == Call::Draw {
                let draws = seen.iter().map(|(_, n)| **n).sum::<u64>();
                let released = seen.iter().filter(|(told, _)| told.as_str() == "0").map(|(_, n)| **n).sum::<u64>();
                println!("g_V other than g_U: {} of {draws} draws, {} of {released} released", self.unequal, self.unequal_released);
                if 3 * self.unequal < draws || 3 * self.unequal_released < released {
                    println!("too few draws have gaps that differ");
                    whole = false;
                }
            }
        }
        whole
    }
}
