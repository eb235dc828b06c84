//! Which cases are run: sizes at every edge with every fault, pairs of faults, round trips, and cases by chance.

use crate::case::{Buffer, Call, Case, Role, CALLS, GAP_U, GAP_V, WEIGHT};
use crate::compare::Comparer;
use crate::damage::{faults, Fault};
use crate::hashed::TEXTS;
use crate::make::{self, SecretPlanes, Shape};
use crate::rng::Rng;
use second::algebra::weight;
use second::packing::{bytes, packed};
use second::planes::words;

pub const TRITS: [usize; 34] =
    [0, 1, 2, 3, 4, 5, 6, 9, 10, 11, 59, 60, 61, 62, 63, 64, 65, 66, 126, 127, 128, 129, 130, 254, 255, 256, 257, 258, 319, 320, 321, 4246, 16383, 16384];
/// Lengths of rows of 5 to 33 words, at the edges of words.
pub const WIDE: [usize; 16] = [319, 320, 321, 384, 385, 447, 511, 512, 513, 575, 640, 641, 703, 1023, 1025, 2111];
pub const PLACES: [usize; 11] = [4, 6, 62, 64, 66, 126, 128, 130, 254, 256, 258];

/// The packing calls: every length below 960, where the ends of words, of six bytes and of twelve have met in every way; every fault at some lengths,
/// pairs at fewer.
pub fn packing(c: &mut Comparer) {
    for m in 0..960 {
        for make in [make::pack, make::unpack, make::stream] {
            let case = make(&mut c.rng, m);
            c.compare(&case, &[]);
        }
    }
    for m in TRITS {
        for make in [make::pack, make::unpack, make::stream] {
            let case = make(&mut c.rng, m);
            c.singles(&case);
        }
    }
    for m in [0, 1, 5, 63, 64, 65, 128] {
        for make in [make::pack, make::unpack, make::stream] {
            let case = make(&mut c.rng, m);
            c.pairs(&case);
        }
    }
}

/// Every last byte from 0 to 255 of every packed buffer, at every number of trits in it, is answered by the rule in numbers: 5 above 242, and 15 from
/// 3 to the power q on where the byte has q of the row's trits, q not 0.
pub fn last_bytes(c: &mut Comparer) {
    for m in 2..=11 {
        let row = make::store(&mut c.rng, 20, 20 - m, 0);
        let (y, s) = (make::check(&mut c.rng, 20, 20 - m), make::check(&mut c.rng, 20, m));
        let text = make::check_text(&mut c.rng, 20, m, 9);
        for (mut case, at) in [(make::unpack(&mut c.rng, m), 0), (row, 2), (y, 2), (s, 3), (text, 4)] {
            for last in 0..=255u8 {
                *case.buffers[at].bytes_mut().last_mut().unwrap() = last;
                let rule = match (last, m as u32 % 5) {
                    (243.., _) => 5,
                    (_, 0) => 0,
                    (b, q) => 15 * (b >= 3u8.pow(q)) as u64,
                };
                let name = format!("last byte {last}");
                let found = c.compare(&case, std::slice::from_ref(&name)).refusal();
                if found != rule {
                    c.report(&case, &[name], &format!("second answers {found}, the rule is {rule}"));
                }
            }
        }
    }
}

/// What is wrong with a pair of planes: nothing, a bit past the length in either, a bit in both planes within the length or past it, or two bits of these.
fn plane_faults(at: usize, rows: usize, m: usize) -> [Vec<Fault>; 7] {
    let (both, same) = (Fault::Both { at, rows, m, past: false }, Fault::Both { at, rows, m, past: true });
    let (ones, twos) = (Fault::Past { at, rows, m }, Fault::Past { at: at + 1, rows, m });
    [vec![], vec![ones], vec![twos], vec![both], vec![same], vec![both, ones], vec![both, twos]]
}

/// The rule in numbers for one pair of planes: 4 where a bit is past the length, else 3 where something is wrong.
fn planes_rule(list: &[Fault]) -> u64 {
    match list {
        [] => 0,
        _ if list.iter().any(|f| matches!(f, Fault::Past { .. } | Fault::Both { past: true, .. })) => 4,
        _ => 3,
    }
}

/// 4 before 3, but buffer after buffer: every two pairs of planes of a call are answered by the rule in numbers of the first that has something wrong.
pub fn past_first(c: &mut Comparer) {
    let mut cases = vec![make::pack(&mut c.rng, 2), make::pack(&mut c.rng, 130), make::check(&mut c.rng, 6, 3), make::check(&mut c.rng, 200, 70)];
    cases.extend([make::check_text(&mut c.rng, 6, 3, 0), make::check_text(&mut c.rng, 200, 70, 105)]);
    for (n, ku, kv, gv, gu) in [(4, 1, 1, 0, 0), (6, 1, 1, 1, 1), (130, 32, 31, 0, 5), (260, 3, 5, 4, 2)] {
        let shape = Shape { n, ku, kv, gv, gu };
        cases.extend([make::build(&mut c.rng, &shape), make::draw(&mut c.rng, &shape)]);
    }
    for case in cases {
        let mut planes = vec![];
        for role in &case.roles {
            if let Role::Planes { at, rows, m } = *role {
                planes.push(plane_faults(at, rows, m));
            }
        }
        for (i, earlier) in planes.iter().enumerate() {
            let mut later = vec![vec![]];
            later.extend(planes[i + 1..].iter().flat_map(|lists| lists[1..].to_vec()));
            for (a, b) in earlier.iter().flat_map(|a| later.iter().map(move |b| (a, b))) {
                let list = [a.as_slice(), b].concat();
                let rule = planes_rule(if a.is_empty() { b } else { a });
                let found = c.damaged(&case, &list).refusal();
                if found != rule {
                    let names: Vec<String> = list.iter().map(|f| f.name(case.call)).collect();
                    c.report(&case, &names, &format!("second answers {found}, the rule is {rule}"));
                }
            }
        }
    }
}

/// Beginning a key: numbers at every edge, over old states of every kind.
pub fn beginning(c: &mut Comparer) {
    let old = [[0; 6], [1, 7, 4, 2, 4, 2], [1, 9, 256, 100, 30, 17], [2, 300, 5, 0, 0, u64::MAX], [u64::MAX; 6]];
    for n in [0, 1, 2, 3, 4, 5, 6, 7, 64, 8492, 8576, 16382, 16383, 16384, 16385, 16386, 65536, 1 << 32 | 4, u64::MAX - 1, u64::MAX] {
        for k in [0, 1, 2, 3, n.wrapping_sub(3), n.wrapping_sub(2), n.wrapping_sub(1), n, 1 << 32 | 2, u64::MAX] {
            for w in [0, 1, n.wrapping_sub(1), n, n.wrapping_add(1), 1 << 32 | 1, u64::MAX] {
                for number in [0, 1, 255, 256, 65535, 65536, (1 << 32) - 2, (1 << 32) - 1, 1 << 32, 1 << 32 | 7, u64::MAX] {
                    let mut numbers = c.rng.pick(&old).to_vec();
                    numbers.extend([number, n, k, w]);
                    c.compare(&Case::new(Call::Begin, numbers, vec![]), &[]);
                }
            }
        }
    }
}

/// k at its edges, odd, even, and different from n-k.
pub fn some_k(rng: &mut Rng, n: usize) -> Vec<usize> {
    let mut out = vec![2, n - 2, n / 2, n / 2 + 1, n / 2 - 1, rng.between(2, n - 2)];
    for words in [64, 128, 192] {
        out.extend([words, words + 1, n.saturating_sub(words), n.saturating_sub(words + 1)]);
    }
    out.retain(|k| (2..=n - 2).contains(k));
    out.sort();
    out.dedup();
    out
}

/// Rows and checks: every fault at sizes of every edge, pairs at some.
pub fn held_key(c: &mut Comparer) {
    for n in PLACES {
        for k in some_k(&mut c.rng, n) {
            for stored in [0, k / 2, k - 1] {
                let case = make::store(&mut c.rng, n, k, stored);
                c.singles(&case);
            }
            let case = make::check(&mut c.rng, n, k);
            c.singles(&case);
            c.content_pairs(&case);
        }
    }
    for m in WIDE {
        let k = 2 * c.rng.between(1, 5) + m % 2;
        for (n, k) in [(m + k, k), (m + k, m)] {
            let stored = c.rng.below(k);
            let case = make::store(&mut c.rng, n, k, stored);
            c.singles(&case);
            let case = make::check(&mut c.rng, n, k);
            c.singles(&case);
        }
    }
    for (n, k) in [(4, 2), (6, 3), (66, 2), (130, 65), (130, 66)] {
        let case = make::store(&mut c.rng, n, k, k - 1);
        c.pairs(&case);
        let case = make::check(&mut c.rng, n, k);
        c.pairs(&case);
    }
}

/// The published sizes and the largest: checks and rows, the work of each verdict included.
pub fn large_keys(c: &mut Comparer, thorough: bool) {
    for (n, k) in [(8492, 4246), (8576, 4288), (16384, 2), (16384, 16382), (16384, 8191)] {
        let case = make::store(&mut c.rng, n, k, k - 1);
        c.singles(&case);
        let case = make::check(&mut c.rng, n, k);
        if thorough || n < 16384 || k == 2 {
            c.singles(&case);
        } else {
            let list = faults(&case);
            for (fault, _) in list.iter().filter(|(f, refusal)| *refusal > 2 || matches!(f, Fault::Longer { .. } | Fault::Shorter { .. })).step_by(3) {
                c.damaged(&case, &[*fault]);
            }
        }
        // the weight that comes out is the one asked for
        let mut case = make::check(&mut c.rng, n, k);
        let weight = c.compare(&case, &[]).weight();
        case.numbers[4] = weight.max(1);
        c.compare(&case, &[]);
    }
}

/// Sizes of secrets at this n: k at its edges, odd, even; no gap, the same in both halves, a gap of one half alone and as large as it may be, any.
fn shapes(rng: &mut Rng, n: usize) -> Vec<Shape> {
    let most = n / 2 - 1;
    let mut out = vec![];
    for (ku, kv) in [(1, 1), (1, most), (most, 1), (most, most), (rng.between(1, most), rng.between(1, most))] {
        for (gv, gu) in [(0, 0), (ku.min(kv), ku.min(kv)), (kv, 0), (0, ku), (rng.between(0, kv), rng.between(0, ku))] {
            out.push(Shape { n, ku, kv, gv, gu });
        }
    }
    out
}

/// Builds and draws: every fault at sizes of every edge, pairs at some. Draws that are not linked hold the second implementation to its refusals.
pub fn editor(c: &mut Comparer) {
    for n in PLACES {
        for (i, shape) in shapes(&mut c.rng, n).into_iter().enumerate() {
            for case in [make::build(&mut c.rng, &shape), make::draw(&mut c.rng, &shape)] {
                c.singles(&case);
                if i % 3 == 2 {
                    c.content_pairs(&case);
                }
            }
        }
    }
    // few rows of many words, up to the largest n
    let mut wide: Vec<Shape> = WIDE.iter().map(|m| Shape::wide(&mut c.rng, *m)).collect();
    wide.extend([(8191, 8191, 8191, 8191), (8191, 8190, 0, 8191), (8190, 8191, 8191, 77)].map(|(ku, kv, gv, gu)| Shape { n: 16384, ku, kv, gv, gu }));
    for shape in wide {
        for case in [make::build(&mut c.rng, &shape), make::draw(&mut c.rng, &shape)] {
            c.singles(&case);
        }
    }
    for (n, ku, kv, gv, gu) in [(4, 1, 1, 0, 0), (6, 1, 2, 2, 0), (8, 3, 2, 1, 1), (130, 32, 31, 0, 5)] {
        let shape = Shape { n, ku, kv, gv, gu };
        for case in [make::build(&mut c.rng, &shape), make::draw(&mut c.rng, &shape)] {
            c.pairs(&case);
        }
    }
}

/// Every g_V and g_U at some small sizes, by the rule in numbers: a call is refused 1 exactly where g_V is above k_V or g_U above k_U, and a draw is refused 8
/// exactly where a U value from index g_U on is 0.
pub fn gaps(c: &mut Comparer) {
    for (n, ku, kv) in [(4, 1, 1), (6, 1, 1), (6, 1, 2), (6, 2, 1), (10, 1, 4), (10, 4, 1), (12, 4, 3), (20, 3, 5)] {
        for (gv, gu) in (0..=kv + 1).flat_map(|gv| (0..=ku + 1).map(move |gu| (gv, gu))) {
            let shape = Shape { n, ku, kv, gv: gv.min(kv), gu: gu.min(ku) };
            let rule = (gv > kv || gu > ku) as u64;
            for mut case in [make::build(&mut c.rng, &shape), make::draw(&mut c.rng, &shape)] {
                case.numbers[GAP_V] = gv as u64;
                case.numbers[GAP_U] = gu as u64;
                answers(c, &case, rule);
            }
            for zero in 0..ku {
                let mut case = make::draw(&mut c.rng, &shape);
                case.buffers[15].words_mut()[0] &= !(1 << zero);
                case.buffers[16].words_mut()[0] &= !(1 << zero);
                let found = c.compare(&case, &[]).refusal();
                if (found == 8) != (zero >= shape.gu) {
                    c.report(&case, &[], &format!("second answers {found}, and U value {zero} is 0"));
                }
            }
        }
    }
}

/// Rows in number about whole blocks of twelve pivots, with columns that have no pivot, and with ranks that lack; N one more than the rows, 64 and about it, 128,
/// or any.
pub fn blocks(c: &mut Comparer) {
    const ROWS: [usize; 9] = [1, 7, 11, 12, 13, 18, 24, 25, 30];
    for (ru, rv) in ROWS.iter().flat_map(|ru| ROWS.iter().map(move |rv| (*ru, *rv))) {
        let any = ru.max(rv) + c.rng.between(1, 40);
        let half = c.rng.pick(&[ru.max(rv) + 1, 63, 64, 65, 128, any]);
        let (ku, kv) = (half - ru, half - rv);
        for (gv, gu) in [(kv, ku), (c.rng.gap(kv), c.rng.gap(ku)), (c.rng.below(12).min(kv), c.rng.below(12).min(ku))] {
            let shape = Shape { n: 2 * half, ku, kv, gv, gu };
            let poor = SecretPlanes::poor(&mut c.rng, &shape);
            for case in [make::any_draw(&mut c.rng, &shape), make::build_of(&mut c.rng, &shape, &poor, 1), make::weighed_draw(&mut c.rng, &shape, &poor)] {
                c.compare(&case, &[]);
                for (fault, _) in faults(&case).into_iter().filter(|(_, refusal)| [9, 10, 12, 13].contains(refusal)) {
                    c.damaged(&case, &[fault]);
                }
            }
        }
    }
}

/// Ranks that only columns past the first words of the rows have: so many first columns are 0, or one fewer or more, that the others have
/// full rank, or lack a part of it.
pub fn late_ranks(c: &mut Comparer) {
    for (ru, rv) in [(1, 1), (5, 12), (12, 13), (30, 2), (64, 25), (70, 70)] {
        for half in [193, 256, 300, 320] {
            let (ku, kv) = (half - ru, half - rv);
            let most = half - ru.max(rv);
            for first in [64, 127, 128, 129, 192, most - 4, most, most + 1, half - 1].into_iter().filter(|first| *first < half) {
                let shape = Shape { n: 2 * half, ku, kv, gv: c.rng.gap(kv), gu: c.rng.gap(ku) };
                let late = SecretPlanes::late(&mut c.rng, &shape, first);
                let case = make::build_of(&mut c.rng, &shape, &late, 1);
                c.compare(&case, &[]);
            }
        }
    }
}

/// The case is answered by this number.
pub fn answers(c: &mut Comparer, case: &Case, rule: u64) {
    let found = c.compare(case, &[]).refusal();
    if found != rule {
        c.report(case, &[], &format!("second answers {found}, the rule is {rule}"));
    }
}

/// Builds and draws of many rows, each of them long.
pub fn many_rows(c: &mut Comparer, long: bool) {
    let sizes: &[usize] = if long { &[510, 642, 1072, 1410, 2144] } else { &[510, 642] };
    for n in sizes {
        let half = n / 2;
        let shape = Shape { n: *n, ku: half / 2 - 1, kv: half / 3, gv: half / 20, gu: half / 10 };
        let case = make::build(&mut c.rng, &shape);
        c.compare(&case, &[]);
        let mut case = make::draw(&mut c.rng, &shape);
        c.compare(&case, &[]);
        case.numbers[WEIGHT] -= 1;
        c.compare(&case, &[]);
    }
}

/// Build, pack, make y of a text, draw until a word is released, store, check y and the text: always yes. Then one trit
/// or one byte is changed. True if a word was released.
pub fn round_trip(c: &mut Comparer, shape: &Shape) -> bool {
    let (n, k, m) = (shape.n, shape.ku + shape.kv, shape.n - shape.ku - shape.kv);
    let (secret, built) = loop {
        let secret = SecretPlanes::random(&mut c.rng, shape);
        let case = make::build_of(&mut c.rng, shape, &secret, 1);
        let built = c.compare(&case, &["round trip".to_string()]);
        if built.refusal() == 0 {
            break (secret, built);
        }
    };
    let p = built.buffers[9].order().to_vec();

    // each row of the released key is packed
    let mut packed_rows = vec![];
    for row in 0..k {
        let part = |plane: usize| Buffer::Words(built.buffers[plane].words()[row * words(m)..(row + 1) * words(m)].to_vec());
        let case = Case::new(Call::Pack, vec![m as u64], vec![part(10), part(11), Buffer::Bytes(vec![170; bytes(m)])]);
        let outcome = c.compare(&case, &["round trip".to_string()]);
        packed_rows.push(outcome.buffers[2].clone());
    }

    // y is the syndrome of a text; the weight is one that a draw makes; then draws are made until it comes again
    let length = c.rng.pick(&TEXTS);
    let asked = make::syndrome(&mut c.rng, m, length);
    let made = c.compare(&asked, &["round trip".to_string()]);
    let y = (made.buffers[2].words().to_vec(), made.buffers[3].words().to_vec());
    let mut w = 0;
    for _ in 0..100 {
        let case = make::draw_of(&mut c.rng, shape, &secret, &p, &y, 1);
        if let Ok(word) = make::word_of(&case, shape) {
            w = weight(&word);
            if w > 0 {
                break;
            }
        }
    }
    if w == 0 {
        return false;
    }
    let mut released = None;
    for _ in 0..200 {
        let case = make::draw_of(&mut c.rng, shape, &secret, &p, &y, w);
        let outcome = c.compare(&case, &["round trip".to_string()]);
        if outcome.refusal() == 0 {
            released = Some(outcome);
            break;
        }
    }
    let Some(released) = released else {
        return false;
    };

    // the rows are stored under some key number
    let number = c.rng.key_number();
    let begun = c.compare(&Case::new(Call::Begin, [[0u64; 6].to_vec(), vec![number, n as u64, k as u64, w as u64]].concat(), vec![]), &[]);
    let mut state = begun.answer[1..].to_vec();
    let (mut ones, mut twos) = (Buffer::Words(c.rng.words(k * words(m))), Buffer::Words(c.rng.words(k * words(m))));
    for row in packed_rows {
        let stored = c.compare(&Case::new(Call::Store, state, vec![ones, twos, row]), &["round trip".to_string()]);
        state = stored.answer[1..].to_vec();
        ones = stored.buffers[0].clone();
        twos = stored.buffers[1].clone();
    }
    if ones != built.buffers[10] || twos != built.buffers[11] {
        let case = Case::new(Call::Store, state, vec![ones, twos, Buffer::Bytes(vec![])]);
        c.report(&case, &[], "the stored key is not the released one");
        return true;
    }

    // y and s packed
    let pack = |c: &mut Comparer, m: usize, ones: &[u64], twos: &[u64]| {
        let case = Case::new(Call::Pack, vec![m as u64], vec![Buffer::Words(ones.to_vec()), Buffer::Words(twos.to_vec()), Buffer::Bytes(vec![0; bytes(m)])]);
        c.compare(&case, &["round trip".to_string()]).buffers[2].bytes().to_vec()
    };
    let y = pack(c, m, &y.0, &y.1);
    let s = pack(c, k, released.buffers[19].words(), released.buffers[20].words());
    state.push(number);
    let work = || Buffer::Words(vec![!0; words(m)]);
    let case = Case::new(Call::Check, state, vec![ones, twos, Buffer::Bytes(y), Buffer::Bytes(s), work(), work()]);
    let verdict = c.compare(&case, &["round trip".to_string()]);
    // yes, with the bits of each plane of the released word, which add up to w
    let set = |buffer: &Buffer| buffer.words().iter().map(|w| w.count_ones() as u64).sum::<u64>();
    let (in_ones, in_twos) = (set(&released.buffers[17]), set(&released.buffers[18]));
    if verdict.answer != [0, 1, in_ones, in_twos] || in_ones + in_twos != w as u64 {
        c.report(&case, &["round trip".to_string()], &format!("a released word is answered {:?}", verdict.answer));
    }
    let on_text = make::about_text(case.clone(), asked.buffers[0].bytes().to_vec(), asked.buffers[1].bytes().to_vec());
    check_of_text(c, &on_text, &verdict.answer);
    // one trit of s, of y, of the key changed
    for (buffer, length) in [(3, k), (3, k), (2, m), (2, m)] {
        let mut changed = case.clone();
        let place = c.rng.below(length);
        let bytes = changed.buffers[buffer].bytes_mut();
        let mut five = second::packing::trits_of(bytes[place / 5]);
        five[place % 5] = (five[place % 5] + c.rng.between(1, 2) as u8) % 3;
        bytes[place / 5] = packed(&five)[0];
        c.compare(&changed, &["round trip".to_string(), "one trit changed".to_string()]);
    }
    let mut changed = case.clone();
    let (row, place) = (c.rng.below(k), c.rng.below(m));
    let (word, bit) = (row * words(m) + place / 64, 1u64 << (place % 64));
    let trit = (changed.buffers[0].words()[word] & bit != 0, changed.buffers[1].words()[word] & bit != 0);
    let next = match trit {
        (false, false) => (true, false),
        (true, false) => (false, true),
        _ => (false, false),
    };
    for (plane, on) in [(0, next.0), (1, next.1)] {
        let w = &mut changed.buffers[plane].words_mut()[word];
        *w = if on { *w | bit } else { *w & !bit };
    }
    c.compare(&changed, &["round trip".to_string(), "one trit of the key changed".to_string()]);
    true
}

/// The check of a text is answered as that of its y; then the salt or the text is changed.
fn check_of_text(c: &mut Comparer, case: &Case, answer: &[u64]) {
    let found = c.compare(case, &["round trip".to_string()]);
    if found.answer != answer {
        c.report(case, &["round trip".to_string()], &format!("its y is answered {answer:?}"));
    }
    for fault in [Fault::Turn { at: 2 }, Fault::Turn { at: 3 }, Fault::Longer { at: 3 }, Fault::Shorter { at: 3 }] {
        c.damaged(case, &[fault]);
    }
}

pub fn round_trips(c: &mut Comparer, long: bool) {
    let (mut made, mut released) = (0, 0);
    let mut list: Vec<(usize, usize)> = PLACES.iter().map(|n| (*n, if long { 60 } else { 3 })).collect();
    if long {
        list.extend([(510, 5), (512, 5), (1072, 2)]);
    }
    for (n, times) in list {
        for _ in 0..times {
            let shape = Shape::random(&mut c.rng, n);
            made += 1;
            released += round_trip(c, &shape) as usize;
        }
    }
    println!("round trips: {made}, with a word released: {released}");
    if 2 * released < made {
        println!("differ: most round trips released no word");
        c.mismatches += 1;
    }
}

/// A case by chance: any call, mostly small sizes, sound or with up to three faults.
fn by_chance(c: &mut Comparer) {
    let call = c.rng.pick(&CALLS);
    if !c.archives.has(call) {
        return;
    }
    let edge = c.rng.pick(&PLACES);
    let wide = c.rng.one_in(10);
    let half = match c.rng.below(8) {
        _ if wide => c.rng.between(300, 1500),
        0 => edge / 2,
        1 => c.rng.between(2, 130),
        _ => c.rng.between(2, 20),
    };
    let n = 2 * half;
    let k = match c.rng.below(2) {
        0 if wide => c.rng.between(2, 10),
        1 if wide => n - c.rng.between(2, 10),
        _ => c.rng.between(2, n - 2),
    };
    let m = if wide { half } else { c.rng.between(0, 130) };
    let length = if wide { m } else { c.rng.between(0, 300) };
    let text = if c.rng.one_in(2) { c.rng.pick(&TEXTS) } else { length };
    let shape = if wide { Shape::wide(&mut c.rng, half) } else { Shape::random(&mut c.rng, n) };
    let case = match call {
        Call::Pack => make::pack(&mut c.rng, m),
        Call::Unpack => make::unpack(&mut c.rng, m),
        Call::Stream => make::stream(&mut c.rng, m),
        Call::Begin => {
            let mut numbers = c.rng.words(6);
            let number = c.rng.between(0, 300) as u64;
            numbers.extend([number, c.rng.between(0, 300) as u64, c.rng.between(0, 300) as u64, c.rng.between(0, 300) as u64]);
            if c.rng.one_in(2) {
                numbers[7] = n as u64;
                numbers[8] = k as u64;
            }
            Case::new(Call::Begin, numbers, vec![])
        }
        Call::Store => {
            let stored = c.rng.below(k);
            make::store(&mut c.rng, n, k, stored)
        }
        Call::Check => make::check(&mut c.rng, n, k),
        Call::CheckText => make::check_text(&mut c.rng, n, k, text),
        Call::Syndrome => make::syndrome(&mut c.rng, m, text),
        Call::Shake => make::shake(&mut c.rng, text, m + length),
        Call::Build => make::any_build(&mut c.rng, &shape),
        Call::Draw => make::any_draw(&mut c.rng, &shape),
    };
    let mut list = vec![];
    let count = [0, 0, 0, 0, 1, 1, 1, 2, 2, 3][c.rng.below(10)];
    let known = faults(&case);
    for _ in 0..count {
        let kind = c.rng.below(6);
        if kind == 0 && !case.buffers.is_empty() {
            list.push(Fault::Turn { at: c.rng.below(case.buffers.len()) });
        } else if kind == 1 && !case.numbers.is_empty() {
            let at = c.rng.below(case.numbers.len());
            let step = c.rng.between(1, 2) as u64;
            let value = if c.rng.one_in(2) { case.numbers[at].wrapping_add(step) } else { case.numbers[at].wrapping_sub(step) };
            list.push(Fault::Number { at, value });
        } else if !known.is_empty() {
            list.push(known[c.rng.below(known.len())].0);
        }
    }
    let outcome = c.damaged(&case, &list);
    // a check that was not refused is asked for its own weight too
    if call.is_check() && count == 0 && outcome.weight() > 0 {
        let mut asked = case.clone();
        asked.numbers[4] = outcome.weight();
        c.compare(&asked, &[]);
    }
}

pub fn chance(c: &mut Comparer, count: u64) {
    let end = c.total() + count;
    while c.total() < end {
        by_chance(c);
    }
}
