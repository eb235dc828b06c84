//! Syndromes of texts, by hand from hashlib's bytes, and checks of texts: their verdicts and the order of refusals.

use second::held::{check, check_on, check_text, Asked, Checked, Held};
use second::packing::{bytes, from_stream, packed, syndrome, syndrome_by, Hash};
use second::planes::{planes, read_row, words};
use second::shake::shake256;

/// The bytes 0 to 31.
fn salt() -> Vec<u8> {
    (0..32).collect()
}

/// The syndrome of a text with that salt, in digits.
fn digits(m: usize, text: &str) -> String {
    let (mut ones, mut twos) = (vec![!0; words(m)], vec![!0; words(m)]);
    assert_eq!(syndrome(m as u64, &salt(), text.as_bytes(), &mut ones, &mut twos), 0);
    read_row(&ones, &twos, m).iter().map(|t| t.to_string()).collect()
}

/// SHAKE256 of the salt and the text begins, by hashlib:
/// the empty text: 105, 240, 124; "formula 7": 255, 46, 154, 37; "formula 29": 211, 252, 228, 164.
#[test]
fn syndromes_by_hand() {
    // 105 = 2·3 + 2·9 + 81, 240 = 2·3 + 2·9 + 2·27 + 2·81, 124 = 1 + 2·3 + 9 + 27 + 81
    assert_eq!(digits(12, ""), "022010222212");
    // 255 is skipped; 46 = 1 + 2·9 + 27, 154 = 1 + 2·9 + 2·27 + 81, 37 = 1 + 9 + 27
    assert_eq!(digits(12, "formula 7"), "102101022110");
    // 252 is skipped; 211 = 1 + 3 + 2·9 + 27 + 2·81, 228 = 3 + 9 + 2·27 + 2·81, 164 = 2 + 2·81
    assert_eq!(digits(12, "formula 29"), "112120112220");
    for m in 0..12 {
        assert_eq!(digits(m, "formula 7"), "102101022110"[..m]);
    }
}

/// Long syndromes by a model over hashlib: the ones, the twos, and the last word of each plane.
#[test]
fn long_syndromes() {
    for (text, m, in_ones, in_twos, last_ones, last_twos) in [
        ("", 66, 19, 24, 0x1, 0x2),
        ("", 16384, 5461, 5458, 0xf8820401a4012100, 0x41d10b4508adefc),
        ("formula 7", 640, 222, 218, 0x482f4a144c4050a2, 0xb2d0b4ab13af0b00),
        ("formula 7", 4246, 1418, 1379, 0x2248d0, 0x4a722),
    ] {
        let (mut ones, mut twos) = (vec![!0; words(m)], vec![!0; words(m)]);
        assert_eq!(syndrome(m as u64, &salt(), text.as_bytes(), &mut ones, &mut twos), 0);
        let set = |plane: &[u64]| plane.iter().map(|word| word.count_ones()).sum::<u32>();
        assert_eq!((set(&ones), set(&twos)), (in_ones, in_twos), "{m} trits");
        assert_eq!((ones.last(), twos.last()), (Some(&last_ones), Some(&last_twos)), "{m} trits");
    }
}

/// A stream of bytes that are skipped, but for those from this one on.
fn late<const FROM: usize>(_: &[u8], output: &mut [u8]) {
    output.fill(255);
    output[FROM..].fill(88);
}

/// A stream of which every byte is skipped.
fn skipped(_: &[u8], output: &mut [u8]) {
    output.fill(243);
}

/// m+136 bytes are read, skipped ones counted: of 143 for 7 trits the last two, of 16,520 for 16,384 the last 3,277.
#[test]
fn bytes_that_are_read() {
    let hashes: [(usize, Hash, u64); 8] = [
        (0, skipped, 0),
        (1, late::<136>, 0),
        (1, skipped, 6),
        (7, late::<141>, 0),
        (7, late::<142>, 6),
        (16384, late::<13243>, 0),
        (16384, late::<13244>, 6),
        (16384, skipped, 6),
    ];
    for (m, hash, refusal) in hashes {
        let (mut ones, mut twos) = (vec![5; words(m)], vec![6; words(m)]);
        assert_eq!(syndrome_by(hash, m as u64, &salt(), b"", &mut ones, &mut twos), refusal, "{m} trits");
        if refusal != 0 {
            assert_eq!((ones, twos), (vec![5; words(m)], vec![6; words(m)]));
        }
    }
}

/// Every set of faults of a syndrome is told by the first; the planes stay.
#[test]
fn refusals_of_a_syndrome() {
    for set in 1..1 << 5 {
        let has = |fault: usize| set >> fault & 1 == 1;
        let m = if has(0) { 16385 } else { 70 };
        let (mut ones, mut twos) = (vec![5; words(m) + has(1) as usize], vec![6; words(m) - has(2) as usize]);
        let salt = vec![1; 32 - has(3) as usize];
        let hash = if has(4) { skipped } else { shake256 };
        let (ones_before, twos_before) = (ones.clone(), twos.clone());
        let refusal = [1, 2, 2, 2, 6][(0..5).find(|fault| has(*fault)).unwrap()];
        assert_eq!(syndrome_by(hash, m as u64, &salt, b"text", &mut ones, &mut twos), refusal, "{set:b}");
        assert_eq!((ones, twos), (ones_before, twos_before));
    }
    for length in [0, 1, 31, 33, 64] {
        assert_eq!(syndrome(2, &vec![1; length], b"", &mut [5], &mut [6]), 2);
    }
}

/// The worked key, with s = 11: y and the word are 02 and 1111 for the empty text, 10 and 2211 for formula 7, 11 and
/// 2011 for formula 29.
#[test]
fn texts_under_the_worked_key() {
    let held = Held { begun: 1, number: 7, n: 4, k: 2, w: 4, rows: 2 };
    let ask = |text: &str, s: &[u8]| {
        let (mut work_ones, mut work_twos) = ([5], [6]);
        let (ones, twos) = ([0, 0], [2, 3]);
        let found = check_text(held, 7, &ones, &twos, &salt(), text.as_bytes(), s, &mut work_ones, &mut work_twos);
        assert_eq!((work_ones, work_twos), ([0], [0]));
        found
    };
    assert_eq!(ask("", &packed(&[1, 1])), Checked { refusal: 0, yes: 1, ones: 4, twos: 0 });
    assert_eq!(ask("formula 7", &packed(&[1, 1])), Checked { refusal: 0, yes: 1, ones: 2, twos: 2 });
    assert_eq!(ask("formula 29", &packed(&[1, 1])), Checked { refusal: 0, yes: 0, ones: 2, twos: 1 });
    assert_eq!(ask("formula 7", &packed(&[0, 0])), Checked { refusal: 0, yes: 0, ones: 1, twos: 0 });
}

/// Trits and bytes from a seed.
struct Rng(u64);

impl Rng {
    fn below(&mut self, n: usize) -> usize {
        self.0 = self.0.wrapping_mul(6364136223846793005).wrapping_add(1442695040888963407);
        ((self.0 >> 33) % n as u64) as usize
    }

    fn row(&mut self, m: usize) -> Vec<u8> {
        (0..m).map(|_| self.below(3) as u8).collect()
    }

    fn bytes(&mut self, count: usize) -> Vec<u8> {
        (0..count).map(|_| self.below(256) as u8).collect()
    }
}

/// The verdict on a text is that on the packed y that is made of it, whatever the weight asked for.
#[test]
fn verdicts_on_texts() {
    let mut rng = Rng(12);
    for (n, k) in [(4, 2), (6, 3), (10, 7), (66, 2), (130, 65), (200, 70), (700, 5)] {
        for length in [0, 1, 102, 103, 104, 105, 300] {
            let rows: Vec<Vec<u8>> = (0..k).map(|_| rng.row(n - k)).collect();
            let (salt, text, s) = (rng.bytes(32), rng.bytes(length), packed(&rng.row(k)));
            let found: Vec<Checked> = (1..=n).map(|w| verdict_on_both(&rows, n, w, &salt, &text, &s)).collect();
            let weight = found[0].ones + found[0].twos;
            assert!((1..).zip(&found).all(|(w, answer)| answer.yes == (w == weight) as u64));
        }
    }
}

/// The verdict on a text, which is the one on its y.
fn verdict_on_both(rows: &[Vec<u8>], n: usize, w: usize, salt: &[u8], text: &[u8], s: &[u8]) -> Checked {
    let (k, m) = (rows.len(), n - rows.len());
    let held = Held { begun: 1, number: 3, n: n as u64, k: k as u64, w: w as u64, rows: k as u64 };
    let (ones, twos) = planes(rows);
    let (mut y_ones, mut y_twos) = (vec![5; words(m)], vec![6; words(m)]);
    assert_eq!(syndrome(m as u64, salt, text, &mut y_ones, &mut y_twos), 0);
    let y = packed(&read_row(&y_ones, &y_twos, m));
    let (mut work_ones, mut work_twos) = (vec![7; words(m)], vec![8; words(m)]);
    let on_text = check_text(held, 3, &ones, &twos, salt, text, s, &mut work_ones, &mut work_twos);
    assert_eq!((work_ones, work_twos), (vec![0; words(m)], vec![0; words(m)]));
    assert_eq!(on_text.refusal, 0);
    assert_eq!(on_text, check(held, 3, &ones, &twos, &y, s, &mut y_ones, &mut y_twos));
    on_text
}

/// The syndrome is what the stream call makes of m+136 bytes of SHAKE256.
#[test]
fn syndromes_are_streams() {
    let mut rng = Rng(13);
    for m in [0, 1, 4, 5, 6, 63, 64, 65, 128, 640, 1001] {
        let message = rng.bytes(32 + m % 7);
        let mut stream = vec![0; m + 136];
        shake256(&message, &mut stream);
        let (mut a, mut b, mut c, mut d) = (vec![0; words(m)], vec![0; words(m)], vec![1; words(m)], vec![1; words(m)]);
        assert_eq!(from_stream(m as u64, &stream, &mut a, &mut b), 0);
        assert_eq!(syndrome(m as u64, &message[..32], &message[32..], &mut c, &mut d), 0);
        assert_eq!((a, b), (c, d));
    }
}

/// What is lent to a check of a text: the key has 7 rows of 3 trits, s two bytes.
#[derive(Clone)]
struct Lent {
    held: Held,
    number: u64,
    key: [Vec<u64>; 2],
    hash: Hash,
    salt: Vec<u8>,
    s: Vec<u8>,
    work: [Vec<u64>; 2],
}

impl Lent {
    fn sound() -> Lent {
        let held = Held { begun: 1, number: 7, n: 10, k: 7, w: 5, rows: 7 };
        let key = [vec![1, 2, 4, 0, 1, 2, 4], vec![2, 4, 1, 7, 2, 1, 0]];
        let work = [vec![5], vec![6]];
        Lent { held, number: 7, key, hash: shake256, salt: salt(), s: vec![17, 3], work }
    }

    fn ask(&mut self) -> Checked {
        let [ones, twos] = &self.key;
        let [work_ones, work_twos] = &mut self.work;
        let asked = Asked::Text { hash: self.hash, salt: &self.salt, text: b"text" };
        check_on(self.held, self.number, [ones, twos], asked, &self.s, [work_ones, work_twos])
    }
}

/// Each fault of a check of a text with its refusal, in the order of the tests.
const FAULTS: [(u64, fn(&mut Lent)); 16] = [
    (20, |lent| lent.held.begun = 0),
    (1, |lent| lent.held.w = 11),
    (20, |lent| lent.held.rows = 6),
    (22, |lent| lent.number = 8),
    (2, |lent| lent.key[0].push(0)),
    (2, |lent| lent.key[1].truncate(6)),
    (2, |lent| lent.work[0].push(9)),
    (2, |lent| lent.work[1].clear()),
    (2, |lent| lent.salt.truncate(31)),
    (2, |lent| lent.salt.resize(33, 0)),
    (2, |lent| lent.s.push(0)),
    (4, |lent| lent.key[0][6] |= 8),
    (3, |lent| lent.key[1][0] |= 1),
    (5, |lent| lent.s[0] = 243),
    (15, |lent| lent.s[1] = 9),
    (6, |lent| lent.hash = skipped),
];

/// Every set of faults is told by the first of them; the working space stays, but is 0 after 6 alone.
#[test]
fn refusals_of_a_check() {
    assert_eq!(Lent::sound().ask().refusal, 0);
    assert_eq!((words(3), bytes(3), bytes(7)), (1, 1, 2));
    for set in 1..1 << FAULTS.len() {
        let mut lent = Lent::sound();
        let faults: Vec<usize> = (0..FAULTS.len()).filter(|fault| set >> fault & 1 == 1).collect();
        for fault in faults.iter().rev() {
            FAULTS[*fault].1(&mut lent);
        }
        let before = lent.work.clone();
        let refusal = FAULTS[faults[0]].0;
        assert_eq!(lent.ask(), Checked { refusal, yes: 0, ones: 0, twos: 0 }, "{faults:?}");
        assert_eq!(lent.work, if refusal == 6 { [vec![0], vec![0]] } else { before });
    }
}
