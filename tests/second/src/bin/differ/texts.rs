//! The line program against the second implementation's: listed texts, generated and damaged ones.

use crate::rng::Rng;
use std::collections::BTreeMap;
use std::io::Write;
use std::process::{Command, Stdio};

const EXAMPLE: &str = "P\t7\t4\t2\t4\nK\t02\nK\t22\nS\t7\t12\t12\t11\nS\t7\t13\t12\t12\nS\t8\t14\t12\t11\n";

/// Key numbers at the edges of their range, far above it, and with a 0 in front.
const KEYS: [&str; 17] = [
    "0",
    "7",
    "255",
    "256",
    "0255",
    "65535",
    "65536",
    "70000",
    "80000",
    "4294967294",
    "4294967295",
    "04294967295",
    "4294967296",
    "4294967303",
    "18446744073709551616",
    "18446744073709551623",
    "1000000000000000000",
];

fn digits(rng: &mut Rng, count: usize) -> Vec<u8> {
    let kind = rng.below(6);
    (0..count)
        .map(|_| match kind {
            0 => b'0',
            1 => b'2',
            _ => b"012"[rng.below(3)],
        })
        .collect()
}

fn fields(list: &[&[u8]]) -> Vec<u8> {
    list.join(&b'\t')
}

/// A number about a bound, or far from it, or badly written.
fn number(rng: &mut Rng, near: u64) -> Vec<u8> {
    match rng.below(24) {
        0 => (near + 1).to_string().into_bytes(),
        1 => near.saturating_sub(1).to_string().into_bytes(),
        2 => format!("0{near}").into_bytes(),
        3 => b"".to_vec(),
        4 => format!("+{near}").into_bytes(),
        5 => format!("{near}{}", rng.pick(&["x", "/", ":", "\0"])).into_bytes(),
        6 => rng.pick(&["0", "00", "-1", "1e1", " 4", "4 "]).as_bytes().to_vec(),
        7 => rng.pick(&["255", "256", "257", "65535", "65536", "65537", "16384", "16386", "4294967294", "4294967295"]).as_bytes().to_vec(),
        8 => rng.pick(&["4294967296", "4294967300", "18446744073709551615", "18446744073709551616", "18446744073709551620"]).as_bytes().to_vec(),
        9 => format!("1{}{near}", "0".repeat(rng.between(1, 60))).into_bytes(),
        _ => near.to_string().into_bytes(),
    }
}

/// A count of digits: mostly right.
fn about(rng: &mut Rng, count: usize) -> usize {
    match rng.below(14) {
        0 => count + 1,
        1 => count.saturating_sub(1),
        2 => rng.between(0, 3),
        3 if rng.one_in(10) => rng.between(900, 1100),
        _ => count,
    }
}

/// The lines of a key and its checks, mostly sound, so that verdicts come out.
fn block(rng: &mut Rng, damaged: bool) -> Vec<Vec<u8>> {
    let n = 2 * match rng.below(4) {
        0 => rng.between(2, 128),
        1 => rng.pick(&[2, 3, 31, 32, 33, 63, 64, 65, 127, 128, 129]),
        _ => rng.between(2, 6),
    };
    let k = rng.between(2, n - 2);
    let w = rng.between(1, n);
    let key = rng.key_number();
    let mut out = vec![];
    let number = |rng: &mut Rng, value: usize| if damaged { number(rng, value as u64) } else { value.to_string().into_bytes() };
    let count = |rng: &mut Rng, value: usize| if damaged { about(rng, value) } else { value };
    let (a, b, c, d) = (number(rng, key as usize), number(rng, n), number(rng, k), number(rng, w));
    out.push(fields(&[b"P", &a, &b, &c, &d]));
    let rows = if damaged && rng.one_in(3) { rng.between(0, k + 2) } else { k };
    for _ in 0..rows {
        let long = count(rng, n - k);
        out.push(fields(&[b"K", &digits(rng, long)]));
    }
    for _ in 0..rng.between(1, 6) {
        let asked = if rng.one_in(6) { rng.key_number() as usize } else { key as usize };
        let formula = rng.below(65536);
        let (a, b) = (number(rng, asked), number(rng, formula));
        let (y, s) = (count(rng, n - k), count(rng, k));
        out.push(fields(&[b"S", &a, &b, &digits(rng, y), &digits(rng, s)]));
    }
    out
}

/// Bytes changed, put in or taken out; lines doubled, dropped or exchanged.
fn damage(rng: &mut Rng, lines: &mut Vec<Vec<u8>>) {
    for _ in 0..rng.between(1, 4) {
        let i = rng.below(lines.len());
        match rng.below(7) {
            0 => drop(lines.remove(i)),
            1 => lines.insert(i, lines[i].clone()),
            2 => lines.insert(i, vec![]),
            3 => {
                let j = rng.below(lines.len());
                lines.swap(i, j);
            }
            _ => {
                let line = &mut lines[i];
                let at = rng.between(0, line.len());
                let byte = rng.pick(b"\t\t\r\n 0123/:PKS\0x~-.\x80\xff");
                match rng.below(3) {
                    0 => line.insert(at, byte),
                    1 if at < line.len() => line[at] = byte,
                    _ if at < line.len() => drop(line.remove(at)),
                    _ => line.push(byte),
                }
            }
        }
        if lines.is_empty() {
            lines.push(vec![]);
        }
    }
}

fn generated(rng: &mut Rng) -> Vec<u8> {
    let mut lines = vec![];
    for _ in 0..rng.between(1, 5) {
        let damaged = rng.one_in(2);
        lines.extend(block(rng, damaged));
    }
    if rng.one_in(3) {
        damage(rng, &mut lines);
    }
    let mut text = lines.join(&b'\n');
    if !rng.one_in(4) {
        text.push(b'\n');
    }
    if rng.one_in(10) {
        text.truncate(rng.below(text.len() + 1));
    }
    text
}

/// Texts written out: each form from each state, line lengths and numbers at their edges, odd bytes.
fn listed() -> Vec<Vec<u8>> {
    let mut out: Vec<Vec<u8>> = vec![EXAMPLE.into(), EXAMPLE.trim_end().into()];
    for text in ["", "\n", "\n\n", "\r\n", "\0", "\t", "\t\n", "P", "K", "S", "P\n", "K\t\n", "S\t\t\t\t\n", "Q\t1\n", "p\t7\t4\t2\t4\n", " P\t7\t4\t2\t4\n"] {
        out.push(text.into());
    }
    let states = ["", "P\t7\t4\t2\t4\n", "P\t7\t4\t2\t4\nK\t02\n", "P\t7\t4\t2\t4\nK\t02\nK\t22\n"];
    let mut lines: Vec<String> = vec![];
    for n in ["0", "2", "3", "4", "5", "254", "255", "256", "257", "258", "16384", "65540", "4294967300", "99999999999999999999999"] {
        for k in ["0", "1", "2", "3", "253", "254", "255", "4294967298", "18446744073709551618"] {
            for w in ["0", "1", "4", "5", "256", "257", "4294967297", "18446744073709551617"] {
                lines.push(format!("P\t7\t{n}\t{k}\t{w}"));
            }
        }
    }
    for key in KEYS.iter().chain(&["", "a", "-0"]) {
        lines.push(format!("P\t{key}\t4\t2\t4"));
        for formula in ["0", "65535", "65536", "00", "", "4294967295", "4294967296"] {
            lines.push(format!("S\t{key}\t{formula}\t12\t11"));
        }
    }
    let digits = "9".repeat(1000);
    lines.extend([format!("P\t{digits}\t4\t2\t4"), format!("S\t{digits}\t12\t12\t11")]);
    for y in ["", "1", "12", "122", "13", "1 ", "012"] {
        lines.push(format!("K\t{y}"));
        lines.push(format!("K\t{y}\t"));
        for s in ["", "1", "11", "112", "31"] {
            lines.push(format!("S\t7\t12\t{y}\t{s}"));
        }
    }
    // a field too many or too few; bytes just below and above the digits, in each place of each field
    for sound in ["P\t7\t4\t2\t4", "K\t02", "S\t7\t12\t12\t11"] {
        for end in ["\t", "\t1", "\t\t", "\tx", " ", "\r", "\0"] {
            lines.push(format!("{sound}{end}"));
            lines.push(format!("{end}{sound}"));
        }
        lines.push(sound.rsplit_once('\t').unwrap().0.to_string());
        for at in 0..sound.len() {
            for byte in ["/", ":", "3", "9", "\t", "\0", ""] {
                lines.push(format!("{}{byte}{}", &sound[..at], &sound[at..]));
                lines.push(format!("{}{byte}{}", &sound[..at], &sound[at + 1..]));
            }
        }
    }
    for long in [1019, 1020, 1021, 1022, 1023, 1024, 1025, 2048, 5000] {
        lines.push(format!("K\t{}", "0".repeat(long)));
        lines.push("x".repeat(long));
        lines.push("\t".repeat(long));
        lines.push(format!("S\t7\t1\t{}\t11", "1".repeat(long - 10)));
    }
    // each number held, if it can be, and every number asked for
    for key in KEYS {
        let asked: String = KEYS.iter().map(|other| format!("S\t{other}\t12\t12\t11\n")).collect();
        out.push(format!("P\t{key}\t4\t2\t4\nK\t02\nK\t22\n{asked}").into());
    }
    for state in states {
        for form in lines.chunks(100) {
            // a line that begins a key changes the state: each such line in a text of its own would cost a process, so the state is set anew before each
            let text: String = form.iter().map(|line| format!("{state}{line}\nS\t7\t1\t12\t11\n")).collect();
            out.push(text.into());
        }
        for line in ["K\t02", "S\t7\t12\t12\t11", "S\t8\t12\t12\t11", "S\t7\t12\t1\t11", "K\t0", "K\t03", "P\t7\t258\t2\t4", "K\t", ""] {
            out.push(format!("{state}{line}").into());
            out.push(format!("{state}{line}\n").into());
        }
    }
    out
}

/// What the program prints, its input given whole or in small pieces.
fn said(program: &str, text: &[u8], pieces: Option<usize>) -> Result<Vec<u8>, String> {
    let mut child = Command::new(program).stdin(Stdio::piped()).stdout(Stdio::piped()).spawn().map_err(|e| format!("{program}: {e}"))?;
    let mut input = child.stdin.take().unwrap();
    let text = text.to_vec();
    let writer = std::thread::spawn(move || {
        for piece in text.chunks(pieces.unwrap_or(text.len().max(1))) {
            if input.write_all(piece).and_then(|_| input.flush()).is_err() {
                return;
            }
        }
    });
    let output = child.wait_with_output().map_err(|e| e.to_string())?;
    writer.join().unwrap();
    if !output.status.success() {
        return Err(format!("{program} ended with {}", output.status));
    }
    Ok(output.stdout)
}

/// True if the program prints what the second implementation prints, on every text.
pub fn compare(seed: u64, count: u64, program: &str) -> bool {
    let mut rng = Rng::new(seed);
    let mut texts = listed();
    texts.extend((0..count).map(|_| generated(&mut rng)));
    let (mut answers, mut wrong): (BTreeMap<String, u64>, u64) = (BTreeMap::new(), 0);
    for text in &texts {
        let want = second::lines::run(text);
        let pieces = if rng.one_in(8) { Some(rng.between(1, 50)) } else { None };
        match said(program, text, pieces) {
            Ok(found) if found == want => {}
            other => {
                wrong += 1;
                println!("MISMATCH of lines on {:?}", String::from_utf8_lossy(text));
                println!("  second: {:?}", String::from_utf8_lossy(&want));
                println!("  program: {:?}", other.map(|found| String::from_utf8_lossy(&found).into_owned()));
                if wrong == 5 {
                    return false;
                }
            }
        }
        for line in String::from_utf8_lossy(&want).lines().skip(1) {
            *answers.entry(line.rsplit('\t').next().unwrap().to_string()).or_default() += 1;
        }
    }
    let list: Vec<String> = answers.iter().map(|(answer, count)| format!("{answer}: {count}")).collect();
    println!("lines: {} texts compared, mismatches: {wrong}; answers {}", texts.len(), list.join(", "));
    let whole = ["yes", "no", "r1", "r2", "r11", "r20", "r21", "r22"].iter().all(|a| answers.contains_key(*a));
    if !whole {
        println!("lines: an answer of the paper was never seen");
    }
    whole && wrong == 0
}
