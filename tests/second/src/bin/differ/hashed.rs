//! The calls that hash: lengths at every edge with every fault, and rules that hold between calls.

use crate::case::{Buffer, Call, Case, Outcome};
use crate::compare::Comparer;
use crate::make;
use crate::plan::{answers, some_k, PLACES, TRITS, WIDE};
use second::packing::bytes;
use second::planes::words;
use Buffer::{Bytes, Words};

/// Lengths of texts: few bytes, and those at which salt and text end about the end of a block of 136 bytes.
pub const TEXTS: [usize; 16] = [0, 1, 5, 31, 32, 101, 102, 103, 104, 105, 238, 239, 240, 241, 376, 500];
const MESSAGES: [usize; 20] = [0, 1, 7, 8, 9, 31, 32, 33, 134, 135, 136, 137, 138, 271, 272, 273, 407, 408, 409, 1000];
const OUTPUTS: [usize; 18] = [0, 1, 7, 8, 9, 32, 134, 135, 136, 137, 138, 271, 272, 273, 300, 408, 409, 1000];

/// Hashes: every length of the output at every length of the message, and long ones.
pub fn hashes(c: &mut Comparer) {
    let edges = MESSAGES.iter().flat_map(|message| OUTPUTS.map(|output| (*message, output)));
    for (message, output) in edges.chain([(0, 20000), (20000, 0), (20000, 20000), (100000, 32)]) {
        let case = make::shake(&mut c.rng, message, output);
        c.singles(&case);
    }
}

/// Syndromes: every fault at every number of trits and every length of the text, pairs at some.
pub fn syndromes(c: &mut Comparer) {
    for (m, text) in TRITS.iter().chain(&[640]).flat_map(|m| TEXTS.map(|text| (*m, text))) {
        let case = make::syndrome(&mut c.rng, m, text);
        c.singles(&case);
    }
    for m in [0, 1, 5, 63, 64, 65, 128] {
        let case = make::syndrome(&mut c.rng, m, 104);
        c.pairs(&case);
    }
    // too many trits, with planes that fit them
    for m in [16385, 16386, 16448, 20000] {
        let case = make::syndrome(&mut c.rng, m, 7);
        answers(c, &case, 1);
    }
}

/// Checks of texts: every fault at sizes of every edge, and at every length of the text; pairs at some.
pub fn checks(c: &mut Comparer) {
    for n in PLACES {
        for k in some_k(&mut c.rng, n) {
            let text = c.rng.pick(&TEXTS);
            let case = make::check_text(&mut c.rng, n, k, text);
            c.singles(&case);
            c.content_pairs(&case);
        }
    }
    for m in WIDE {
        let few = 2 * c.rng.between(1, 5) + m % 2;
        for k in [few, m] {
            let text = c.rng.pick(&TEXTS);
            let case = make::check_text(&mut c.rng, m + few, k, text);
            c.singles(&case);
        }
    }
    for text in TEXTS {
        for (n, k) in [(4, 2), (130, 65)] {
            let case = make::check_text(&mut c.rng, n, k, text);
            c.singles(&case);
        }
    }
    for (n, k) in [(4, 2), (6, 3), (66, 2), (130, 65), (130, 66)] {
        let case = make::check_text(&mut c.rng, n, k, 104);
        c.pairs(&case);
    }
    let most = make::check_text(&mut c.rng, 16384, 2, 105);
    c.singles(&most);
}

/// By the rule in numbers: a salt of 32 bytes is taken, any other is 2, though salt and text together have as many.
pub fn salts(c: &mut Comparer) {
    for (salt, all) in [0, 1, 16, 31, 32, 33, 40].into_iter().flat_map(|salt| [40, 136].map(|all| (salt, all))) {
        let (front, rest) = (c.rng.text(salt), c.rng.text(all - salt));
        let rule = if salt == 32 { 0 } else { 2 };
        for m in [0, 7, 130] {
            let case = make::syndrome_of(&mut c.rng, m, front.clone(), rest.clone());
            answers(c, &case, rule);
        }
        for (n, k) in [(4, 2), (130, 65)] {
            let case = make::about_text(make::check(&mut c.rng, n, k), front.clone(), rest.clone());
            answers(c, &case, rule);
        }
    }
}

/// The rules between the calls, at sizes of every edge, a published one and the largest; with a weight by chance, and
/// then with the one that comes out.
pub fn between_calls(c: &mut Comparer) {
    let mut sizes = vec![(8492, 4246), (16384, 2), (16384, 16382)];
    for n in PLACES {
        sizes.extend(some_k(&mut c.rng, n).into_iter().map(|k| (n, k)));
    }
    for (n, k) in sizes {
        let text = c.rng.pick(&TEXTS);
        let mut case = make::check_text(&mut c.rng, n, k, text);
        let weight = text_by_calls(c, &case).weight();
        case.numbers[4] = weight.max(1);
        text_by_calls(c, &case);
    }
}

/// The check of a text is that of y, packed, and y is what the stream call takes of m+136 bytes of the hash.
fn text_by_calls(c: &mut Comparer, case: &Case) -> Outcome {
    let m = (case.numbers[2] - case.numbers[3]) as usize;
    let (salt, text) = (case.buffers[2].bytes(), case.buffers[3].bytes());
    let asked = make::syndrome_of(&mut c.rng, m, salt.to_vec(), text.to_vec());
    let made = c.compare(&asked, &[]);
    let [ones, twos] = taken(c, m, [salt, text].concat());
    if made.refusal() != 0 || made.buffers[2..] != [ones.clone(), twos.clone()] {
        c.report(case, &[], &format!("its syndrome is {:?}, and its stream gives {ones:?}, {twos:?}", made.buffers));
    }
    let y = Case::new(Call::Pack, vec![m as u64], vec![ones, twos, Bytes(vec![255; bytes(m)])]);
    let y = c.compare(&y, &[]).buffers.remove(2);
    let on_y = c.compare(&make::about_syndrome(case.clone(), y.bytes().to_vec()), &[]);
    let on_text = c.compare(case, &[]);
    if on_text.answer != on_y.answer || on_text.buffers[4..] != on_y.buffers[3..] {
        c.report(case, &[], &format!("answered {:?}, and its y {:?}", on_text.answer, on_y.answer));
    }
    on_text
}

/// The planes that the stream call takes from the hash of a message.
fn taken(c: &mut Comparer, m: usize, message: Vec<u8>) -> [Buffer; 2] {
    let hash = Case::new(Call::Shake, vec![], vec![Bytes(message), Bytes(vec![255; m + 136])]);
    let stream = c.compare(&hash, &[]).buffers.remove(1);
    let planes = vec![!0; words(m)];
    let take = Case::new(Call::Stream, vec![m as u64], vec![stream, Words(planes.clone()), Words(planes)]);
    let found = c.compare(&take, &[]).buffers;
    [found[1].clone(), found[2].clone()]
}
