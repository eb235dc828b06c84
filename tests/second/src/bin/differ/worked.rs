//! The paper's worked cases, made by the proved code and held to the paper's own values; hashes that are published, and
//! texts worked by hand from the bytes of Python's hashlib.

use crate::case::{Buffer, Call, Case, GAP_U, GAP_V};
use crate::compare::Comparer;
use second::packing::packed;
use second::planes::planes;
use Buffer::{Bytes, Order, Words};

fn row(digits: &str) -> Vec<u8> {
    digits.bytes().map(|b| b - b'0').collect()
}

/// Rows parted by blanks, in planes.
fn pair(rows: &str) -> [Buffer; 2] {
    let rows: Vec<Vec<u8>> = rows.split(' ').map(row).collect();
    let (ones, twos) = planes(&rows);
    [Words(ones), Words(twos)]
}

fn one(value: u64) -> Buffer {
    Words(vec![value])
}

/// The case, its answer and some of its buffers at exit, as the paper has them.
fn expect(c: &mut Comparer, case: Case, answer: &[u64], exit: &[(usize, Buffer)]) {
    let found = c.compare(&case, &["worked case".to_string()]);
    if found.answer != answer || exit.iter().any(|(i, buffer)| found.buffers[*i] != *buffer) {
        c.report(&case, &["worked case".to_string()], &format!("the paper has {answer:?} and {exit:?}, found {found:?}"));
    }
}

/// Words of a working plane at the worked sizes: 2 rows and 243 of 2 words, 1 row and 248 of 1.
const BUILD_WORK: usize = 490;
const DRAW_WORK: usize = 249;

fn work(count: usize, value: u64) -> Buffer {
    Words(vec![value; count])
}

fn secret() -> Vec<Buffer> {
    [pair("11"), pair("12"), pair("01"), pair("12")].concat()
}

fn build(start: [u16; 4]) -> Case {
    let mut buffers = secret();
    buffers.extend([Order(start.to_vec()), Order(vec![9; 4]), Words(vec![7; 2]), Words(vec![8; 2]), work(BUILD_WORK, 5), work(BUILD_WORK, 6)]);
    Case::new(Call::Build, vec![4, 1, 1, 0, 0, 4], buffers)
}

fn draw(w: u64, v_trit: &str, u_value: &str) -> Case {
    let mut buffers = secret();
    buffers.push(Order(vec![0, 1, 2, 3]));
    buffers.extend(pair("12"));
    buffers.push(Order(vec![0, 1]));
    buffers.extend(pair(v_trit));
    buffers.push(Order(vec![0, 1]));
    buffers.extend(pair(u_value));
    buffers.extend([one(1), one(2), one(3), one(4), work(DRAW_WORK, 5), work(DRAW_WORK, 6)]);
    Case::new(Call::Draw, vec![4, 1, 1, 0, 0, w], buffers)
}

fn check(number: u64, w: u64, y: &str, s: &str) -> Case {
    let mut buffers = pair("02 22").to_vec();
    buffers.extend([Bytes(packed(&row(y))), Bytes(packed(&row(s))), one(5), one(6)]);
    Case::new(Call::Check, vec![1, 7, 4, 2, w, 2, number], buffers)
}

/// The bytes 0 to 31, and a text.
fn salted(text: &str) -> [Buffer; 2] {
    [Bytes((0..32).collect()), Bytes(text.as_bytes().to_vec())]
}

/// SHAKE256 of no message, of abc and of 200 bytes a3.
fn hashes(c: &mut Comparer) {
    for (message, hash) in [
        (vec![], "46b9dd2b0ba88d13233b3feb743eeb243fcd52ea62b81b82b50c27646ed5762f"),
        (b"abc".to_vec(), "483366601360a8771c6863080cc4114d8db44530f8f1e1ee4f94ea37e78b5739"),
        (vec![0xa3; 200], "cd8a920ed141aa0407a22d59288652e9d9f1a7ee0c1e7c1ca699424da84a904d"),
    ] {
        let hash = (0..32).map(|i| u8::from_str_radix(&hash[2 * i..2 * i + 2], 16).unwrap()).collect();
        let case = Case::new(Call::Shake, vec![], vec![Bytes(message.clone()), Bytes(vec![7; 32])]);
        expect(c, case, &[0], &[(0, Bytes(message)), (1, Bytes(hash))]);
    }
}

/// The stream begins 105, 240 for the salt alone, 255, 46, 154 for formula 7, and 211, 252, 228 for formula 29.
fn texts(c: &mut Comparer) {
    for (text, y) in [("", "0220102"), ("formula 7", "1021010"), ("formula 29", "1121201"), ("formula 7", "10")] {
        let [ones, twos] = pair(y);
        let case = Case::new(Call::Syndrome, vec![y.len() as u64], [salted(text), [one(3), one(4)]].concat());
        expect(c, case, &[0], &[(2, ones), (3, twos)]);
    }
    // y is 02, 10, 10 and 11, s is 11 or 00, and the word is 1111, 2211, 1000 and 2011
    let asked = |number: u64, text: &str, s: u8| {
        let buffers = [&pair("02 22")[..], &salted(text), &[Bytes(vec![s]), one(5), one(6)]].concat();
        Case::new(Call::CheckText, vec![1, 7, 4, 2, 4, 2, number], buffers)
    };
    let words = [("", 4, 1, 4, 0), ("formula 7", 4, 1, 2, 2), ("formula 7", 0, 0, 1, 0), ("formula 29", 4, 0, 2, 1)];
    for (text, s, yes, ones, twos) in words {
        expect(c, asked(7, text, s), &[0, yes, ones, twos], &[(5, one(0)), (6, one(0))]);
    }
    for (number, s, refusal) in [(8, 4, 22), (7, 243, 5), (7, 22, 15), (8, 243, 22)] {
        expect(c, asked(number, "formula 7", s), &[refusal, 0, 0, 0], &[(5, one(5)), (6, one(6))]);
    }
    let mut short = asked(7, "formula 7", 243);
    short.buffers[2].bytes_mut().pop();
    expect(c, short, &[2, 0, 0, 0], &[(5, one(5)), (6, one(6))]);
}

pub fn cases(c: &mut Comparer) {
    hashes(c);
    texts(c);
    let [ones, twos] = pair("12001");
    expect(c, Case::new(Call::Pack, vec![5], vec![ones, twos, Bytes(vec![0])]), &[0], &[(2, Bytes(vec![88]))]);
    let reads = |byte: u8| Case::new(Call::Unpack, vec![5], vec![Bytes(vec![byte]), one(3), one(4)]);
    let [ones, twos] = pair("22222");
    expect(c, reads(242), &[0], &[(1, ones), (2, twos)]);
    expect(c, reads(243), &[5], &[(1, one(3)), (2, one(4))]);
    // two trits: 8 is 22, and 242 has trits past the length
    let two = |byte: u8| Case::new(Call::Unpack, vec![2], vec![Bytes(vec![byte]), one(3), one(4)]);
    expect(c, two(8), &[0], &[(1, one(0)), (2, one(3))]);
    expect(c, two(242), &[15], &[(1, one(3)), (2, one(4))]);

    // two trits: 4 before 3, with the same bit or another, and each alone
    for (ones, twos, refusal) in [(4, 4, 4), (5, 1, 4), (1, 5, 4), (1 << 63, 2 | 1 << 63, 4), (4, 0, 4), (1, 1, 3)] {
        expect(c, Case::new(Call::Pack, vec![2], vec![one(ones), one(twos), Bytes(vec![9])]), &[refusal], &[(2, Bytes(vec![9]))]);
    }
    // the held rows: 3 in one and 4 in the other, either way round
    for (ones, twos, refusal) in [([1, 4], [1, 0], 4), ([4, 1], [0, 1], 4), ([0, 1], [4, 1], 4), ([4, 0], [4, 0], 4), ([0, 1], [0, 1], 3)] {
        let mut held = check(7, 4, "12", "11");
        held.buffers[0] = Words(ones.to_vec());
        held.buffers[1] = Words(twos.to_vec());
        expect(c, held, &[refusal, 0, 0, 0], &[(4, one(5)), (5, one(6))]);
    }
    // H_U and H_V: within one 4 comes first; 3 in H_U comes before 4 in H_V
    for (planes, refusal) in [([5, 1, 1, 2], 4), ([1, 1, 4, 0], 3), ([4, 0, 1, 1], 4), ([1, 1, 4, 4], 3), ([3, 0, 5, 1], 4)] {
        let (mut built, mut drawn) = (build([0, 1, 2, 3]), draw(4, "2", "1"));
        for (i, word) in planes.into_iter().enumerate() {
            built.buffers[i] = one(word);
            drawn.buffers[i] = one(word);
        }
        expect(c, built, &[refusal], &[(10, Words(vec![7; 2])), (12, work(BUILD_WORK, 5)), (13, work(BUILD_WORK, 6))]);
        expect(c, drawn, &[refusal], &[(17, one(1)), (18, one(2)), (19, one(3)), (20, one(4)), (21, work(DRAW_WORK, 5)), (22, work(DRAW_WORK, 6))]);
    }

    let [k1, k2] = pair("02 22");
    expect(c, build([0, 1, 2, 3]), &[0], &[(9, Order(vec![0, 1, 2, 3])), (10, k1), (11, k2), (12, work(BUILD_WORK, 0)), (13, work(BUILD_WORK, 0))]);
    let [k1, k2] = pair("22 20");
    expect(c, build([1, 2, 0, 3]), &[0], &[(9, Order(vec![1, 3, 0, 2])), (10, k1), (11, k2), (12, work(BUILD_WORK, 0)), (13, work(BUILD_WORK, 0))]);

    for (w, v_trit, u_value, word, s) in [(4, "2", "1", "2111", "11"), (4, "2", "2", "2111", "11"), (4, "0", "2", "2221", "21"), (2, "0", "1", "0102", "02")] {
        let ([w1, w2], [s1, s2]) = (pair(word), pair(s));
        let zero = work(DRAW_WORK, 0);
        expect(c, draw(w, v_trit, u_value), &[0], &[(17, w1), (18, w2), (19, s1), (20, s2), (21, zero.clone()), (22, zero)]);
    }
    let zero = work(DRAW_WORK, 0);
    expect(c, draw(4, "1", "1"), &[14], &[(17, one(1)), (18, one(2)), (19, one(3)), (20, one(4)), (21, zero.clone()), (22, zero)]);

    // at w = 2, V trit 2 and U value 0: with a gap of U, and of V or not, 1200; with a gap of V alone 8
    for (gv, gu, refusal) in [(0, 1, 0), (1, 1, 0), (1, 0, 8), (0, 0, 8), (2, 1, 1), (0, 2, 1)] {
        let mut drawn = draw(2, "2", "0");
        drawn.numbers[GAP_V] = gv;
        drawn.numbers[GAP_U] = gu;
        let ([w1, w2], [s1, s2]) = if refusal == 0 { (pair("1200"), pair("00")) } else { ([one(1), one(2)], [one(3), one(4)]) };
        let left = |held: u64| work(DRAW_WORK, if refusal == 0 { 0 } else { held });
        expect(c, drawn, &[refusal], &[(17, w1), (18, w2), (19, s1), (20, s2), (21, left(5)), (22, left(6))]);
    }

    expect(c, check(7, 4, "12", "11"), &[0, 1, 3, 1], &[(4, one(0)), (5, one(0))]);
    expect(c, check(7, 4, "12", "12"), &[0, 0, 1, 2], &[(4, one(0)), (5, one(0))]);
    expect(c, check(8, 4, "12", "11"), &[22, 0, 0, 0], &[(4, one(5)), (5, one(6))]);
    expect(c, check(7, 2, "12", "00"), &[0, 1, 1, 1], &[(4, one(0)), (5, one(0))]);
    // a trit past the length in y, in s; y's 15 before s's 5, y's 5 before s's 15
    for (y, s, refusal) in [(16, 4, 15), (7, 22, 15), (16, 243, 15), (243, 22, 5)] {
        let mut asked = check(7, 4, "12", "11");
        asked.buffers[2] = Bytes(vec![y]);
        asked.buffers[3] = Bytes(vec![s]);
        expect(c, asked, &[refusal, 0, 0, 0], &[(4, one(5)), (5, one(6))]);
    }
    // the row 02 is 6, and 33 has a 1 past the length: the state and the planes stay
    for (byte, answer, plane) in [(6, vec![0, 1, 7, 4, 2, 4, 1], 2), (33, vec![15, 1, 7, 4, 2, 4, 0], 9)] {
        let row = Case::new(Call::Store, vec![1, 7, 4, 2, 4, 0], vec![Words(vec![0, 8]), Words(vec![9, 8]), Bytes(vec![byte])]);
        expect(c, row, &answer, &[(0, Words(vec![0, 8])), (1, Words(vec![plane, 8]))]);
    }

    // key numbers: at a beginning, and held and asked for at a check
    for (number, refusal) in [(255, 0), (256, 0), (65535, 0), (65536, 0), (4294967295, 0), (4294967296, 1), (4294967303, 1), (u64::MAX, 1)] {
        let state = if refusal == 0 { vec![0, 1, number, 4, 2, 4, 0] } else { vec![1, 0, 0, 0, 0, 0, 0] };
        expect(c, Case::new(Call::Begin, vec![0, 0, 0, 0, 0, 0, number, 4, 2, 4], vec![]), &state, &[]);
    }
    for (held, asked, answer) in [
        (256, 256, [0, 1, 3, 1]),
        (4294967295, 4294967295, [0, 1, 3, 1]),
        (4294967295, 255, [22, 0, 0, 0]),
        (7, 4294967303, [22, 0, 0, 0]),
        (4294967296, 4294967296, [1, 0, 0, 0]),
    ] {
        let mut numbered = check(asked, 4, "12", "11");
        numbered.numbers[1] = held;
        let [w1, w2] = if answer[0] == 0 { [one(0), one(0)] } else { [one(5), one(6)] };
        expect(c, numbered, &answer, &[(4, w1), (5, w2)]);
    }

    for (n, refusal) in [(4, 0), (16384, 0), (2, 1), (16386, 1)] {
        let state = if refusal == 0 { vec![refusal, 1, 0, n, 2, 1, 0] } else { vec![refusal, 0, 0, 0, 0, 0, 0] };
        expect(c, Case::new(Call::Begin, vec![0, 0, 0, 0, 0, 0, 0, n, 2, 1], vec![]), &state, &[]);
    }
}
