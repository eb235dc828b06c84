//! Every worked example of the paper, starred or not, and cases that the starred ones leave out.

use second::algebra::{ones_and_twos, weight};
use second::draw::{draw, draw_word, drawn_word, Choices, DrawWords};
use second::held::{begin, check, full_word, store_row, Checked, Held};
use second::key::{build, build_key, column_rule, secret_matrix, Key, Secret, SecretWords, Sizes};
use second::packing::{from_stream, pack, packed, trits_of, unpack};
use second::planes::{planes, words};

fn row(digits: &str) -> Vec<u8> {
    digits.bytes().map(|b| b - b'0').collect()
}

fn rows(digits: &[&str]) -> Vec<Vec<u8>> {
    digits.iter().map(|d| row(d)).collect()
}

fn secret() -> Secret {
    Secret { hu: rows(&["11"]), hv: rows(&["12"]), b: row("01"), c: row("12") }
}

fn choices(v_trit: u8, u_value: u8) -> Choices {
    Choices { v_order: vec![0, 1], v_trits: vec![v_trit], u_order: vec![0, 1], u_values: vec![u_value] }
}

#[test]
fn trits_in_words() {
    assert_eq!(planes(&rows(&["120"])), (vec![1], vec![2]));
    assert_eq!(weight(&row("120")), 2);
    assert_eq!(ones_and_twos(&row("2111")), (3, 1));
    // rows follow each other, each beginning a new word
    assert_eq!(planes(&rows(&["1", "2"])), (vec![1, 0], vec![0, 1]));
    let long: Vec<u8> = (0..65).map(|i| (i == 64) as u8 * 2 + (i == 63) as u8).collect();
    assert_eq!(planes(&[long]), (vec![1 << 63, 0], vec![0, 1]));
}

#[test]
fn packing_examples() {
    assert_eq!(packed(&row("12001")), [88]);
    assert_eq!(trits_of(242), [2, 2, 2, 2, 2]);
    let (mut ones, mut twos) = ([7], [9]);
    assert_eq!(unpack(5, &[242], &mut ones, &mut twos), 0);
    assert_eq!((ones, twos), ([0], [31]));
    let (mut ones, mut twos) = ([7], [9]);
    assert_eq!(unpack(5, &[243], &mut ones, &mut twos), 5);
    assert_eq!((ones, twos), ([7], [9]));
    // all 243 bytes have the five trits that weigh 1, 3, 9, 27, 81
    for b in 0..=242u8 {
        let t = trits_of(b);
        assert!(t.iter().all(|x| *x < 3));
        assert_eq!(t[0] as u32 + 3 * t[1] as u32 + 9 * t[2] as u32 + 27 * t[3] as u32 + 81 * t[4] as u32, b as u32);
        assert_eq!(packed(&t), [b]);
    }
    // trits past the length: written as 0, and 15 on reading if one is not
    let (mut ones, mut twos) = ([7], [9]);
    assert_eq!(unpack(2, &[242], &mut ones, &mut twos), 15);
    assert_eq!((ones, twos), ([7], [9]));
    assert_eq!(packed(&row("22")), [8]);
    assert_eq!(unpack(2, &[8], &mut ones, &mut twos), 0);
    assert_eq!((ones, twos), ([0], [3]));
    // 5 comes first
    assert_eq!(unpack(1, &[243], &mut ones, &mut twos), 5);
    assert_eq!(unpack(6, &[243, 242], &mut ones, &mut twos), 5);
    // 16,384 passes and 16,385 is 1
    let mut bytes = vec![0; 3277];
    assert_eq!(pack(16384, &[0; 256], &[0; 256], &mut bytes), 0);
    assert_eq!(pack(16385, &[0; 257], &[0; 257], &mut bytes), 1);
    // 4 comes before 3, with the same bit or another
    assert_eq!(pack(2, &[4 | 1 << 63], &[1 << 63], &mut [0]), 4);
    assert_eq!(pack(2, &[1 << 63], &[1 << 63], &mut [0]), 4);
    assert_eq!(pack(2, &[5], &[1], &mut [0]), 4);
    assert_eq!(pack(2, &[1], &[5], &mut [0]), 4);
    assert_eq!(pack(2, &[4], &[0], &mut [0]), 4);
    assert_eq!(pack(2, &[1], &[1], &mut [0]), 3);
}

/// Every text of one byte or two, at every length that takes so many: what is read packs to its bytes, and as many texts are read as there are rows.
#[test]
fn one_packed_form() {
    for m in 1..=10u32 {
        let mut read = 0;
        for text in 0..256u32.pow(m.div_ceil(5)) {
            let bytes: Vec<u8> = (0..m.div_ceil(5)).map(|j| (text >> (8 * j)) as u8).collect();
            let (mut ones, mut twos, mut again) = ([7], [9], vec![5; bytes.len()]);
            match unpack(m as u64, &bytes, &mut ones, &mut twos) {
                0 => {
                    read += 1;
                    assert_eq!(pack(m as u64, &ones, &twos, &mut again), 0);
                    assert_eq!(again, bytes);
                }
                refusal => assert_eq!((refusal, ones, twos), (if bytes.iter().any(|b| *b > 242) { 5 } else { 15 }, [7], [9])),
            }
        }
        assert_eq!(read, 3u32.pow(m), "m = {m}");
    }
}

#[test]
fn stream_examples() {
    let (mut ones, mut twos) = ([0], [0]);
    assert_eq!(from_stream(7, &[243, 88, 255, 242, 250], &mut ones, &mut twos), 0);
    assert_eq!((ones, twos), ([1 | 1 << 4], [2 | 1 << 5 | 1 << 6]));
    assert_eq!(from_stream(7, &[243, 88, 255], &mut ones, &mut twos), 6);
    assert_eq!((ones, twos), ([1 | 1 << 4], [2 | 1 << 5 | 1 << 6]));
    // what the last byte holds past the length is not looked at
    assert_eq!(from_stream(2, &[242], &mut ones, &mut twos), 0);
    assert_eq!((ones, twos), ([0], [3]));
    assert_eq!(from_stream(0, &[], &mut [], &mut []), 0);
}

#[test]
fn worked_keys() {
    assert_eq!(build_key(&secret(), &[0, 1, 2, 3]), Ok(Key { p: vec![0, 1, 2, 3], rows: rows(&["02", "22"]) }));
    assert_eq!(build_key(&secret(), &[1, 2, 0, 3]), Ok(Key { p: vec![1, 3, 0, 2], rows: rows(&["22", "20"]) }));
    // secret matrix: d = 1 + (0,2) = (1,0); rows (d·H_U | -b·H_U) and (-c·H_V | H_V)
    assert_eq!(secret_matrix(&secret()), rows(&["1002", "2212"]));
}

#[test]
fn last_column_is_tried() {
    let (_, order) = column_rule(rows(&["1101", "0010"]), vec![0, 1, 2, 3]);
    assert_eq!(order, [0, 2, 3, 1]);
}

#[test]
fn worked_draws() {
    let (s, p, y) = (secret(), [0, 1, 2, 3], row("12"));
    // the U value is unused where the V trit is not 0
    for value in [1, 2] {
        assert_eq!(draw_word(0, 0, 4, &s, &p, &y, &choices(2, value)), Ok(row("2111")));
        assert_eq!(drawn_word(0, 0, &s, &p, &y, &choices(1, value)), Ok(row("0212")));
        assert_eq!(draw_word(0, 0, 4, &s, &p, &y, &choices(1, value)), Err(14));
    }
    assert_eq!(draw_word(0, 0, 4, &s, &p, &y, &choices(0, 2)), Ok(row("2221")));
    assert_eq!(draw_word(0, 0, 2, &s, &p, &y, &choices(0, 1)), Ok(row("0102")));
}

#[test]
fn accepted_yet_never_drawn() {
    let key = rows(&["02", "22"]);
    assert_eq!(full_word(&key, &row("12"), &row("00")), row("1200"));
    let mut made_with_a_gap = [false; 2];
    for orders in 0..4 {
        for v_trit in 0..3 {
            for u_value in 0..3 {
                let order = |flip: bool| if flip { vec![1, 0] } else { vec![0, 1] };
                let c = Choices { v_order: order(orders % 2 == 1), v_trits: vec![v_trit], u_order: order(orders > 1), u_values: vec![u_value] };
                for gv in [0, 1] {
                    if u_value != 0 {
                        assert_ne!(draw_word(gv, 0, 2, &secret(), &[0, 1, 2, 3], &row("12"), &c), Ok(row("1200")));
                    }
                    made_with_a_gap[gv] |= draw_word(gv, 1, 2, &secret(), &[0, 1, 2, 3], &row("12"), &c) == Ok(row("1200"));
                }
            }
        }
    }
    assert_eq!(made_with_a_gap, [true; 2], "at g_U = 1 a draw does make it, whatever g_V is");
}

/// The worked key through the lent words: build, rows stored packed, checks.
#[test]
fn through_the_border() {
    let z = Sizes { n: 4, ku: 1, kv: 1, gv: 0, gu: 0, w: 4 };
    let s = secret();
    let (hu, hv, b, c) = (planes(&s.hu), planes(&s.hv), planes(std::slice::from_ref(&s.b)), planes(std::slice::from_ref(&s.c)));
    let lent = SecretWords { hu: [&hu.0, &hu.1], hv: [&hv.0, &hv.1], b: [&b.0, &b.1], c: [&c.0, &c.1] };
    let (mut p, mut ones, mut twos, mut w1, mut w2) = ([9; 4], [7; 2], [8; 2], [5; 490], [6; 490]);
    assert_eq!(build(z, lent, &[0, 1, 2, 3], &mut p, [&mut ones, &mut twos], [&mut w1, &mut w2]), 0);
    assert_eq!((p, ones, twos, w1, w2), ([0, 1, 2, 3], [0, 0], [2, 3], [0; 490], [0; 490]));
    for z in [Sizes { gv: 2, ..z }, Sizes { gu: 2, ..z }] {
        assert_eq!(build(z, lent, &[0, 1, 2, 3], &mut p, [&mut ones, &mut twos], [&mut w1, &mut w2]), 1);
    }
    assert_eq!(build(z, lent, &[0, 1, 2, 2], &mut p, [&mut ones, &mut twos], [&mut w1, &mut w2]), 7);

    let (y, vt, uv) = (planes(&rows(&["12"])), planes(&rows(&["2"])), planes(&rows(&["1"])));
    let (mut word1, mut word2, mut s1, mut s2) = ([9], [9], [9], [9]);
    let mut work = [vec![3u64; z.draw_work()], vec![4u64; z.draw_work()]];
    let [wa, wb] = &mut work;
    let given = DrawWords { p: &[0, 1, 2, 3], y: [&y.0, &y.1], v_order: &[0, 1], v_trits: [&vt.0, &vt.1], u_order: &[0, 1], u_values: [&uv.0, &uv.1] };
    assert_eq!(draw(z, lent, given, [&mut word1, &mut word2], [&mut s1, &mut s2], [wa, wb]), 0);
    assert_eq!((word1, word2, s1, s2), ([0b1110], [1], [3], [0]));
    assert!(work.iter().flatten().all(|w| *w == 0));

    let begun = begin(Held::default(), 7, 4, 2, 4);
    assert_eq!(begun.refusal, 0);
    let (mut ones, mut twos) = ([7; 2], [8; 2]);
    let one = store_row(begun.held, &mut ones, &mut twos, &packed(&row("02")));
    assert_eq!((one.refusal, one.held.rows, ones, twos), (0, 1, [0, 7], [2, 8]));
    assert_eq!(check(one.held, 7, &ones, &twos, &[7], &[4], &mut [0], &mut [0]).refusal, 20);
    let two = store_row(one.held, &mut ones, &mut twos, &packed(&row("22")));
    assert_eq!((two.refusal, two.held.rows, ones, twos), (0, 2, [0, 0], [2, 3]));
    assert_eq!(store_row(two.held, &mut ones, &mut twos, &[0]).refusal, 21);
    let ask = |number, y: &str, s: &str| check(two.held, number, &ones, &twos, &packed(&row(y)), &packed(&row(s)), &mut [1], &mut [2]);
    assert_eq!(ask(7, "12", "11"), Checked { refusal: 0, yes: 1, ones: 3, twos: 1 });
    assert_eq!(ask(7, "12", "12"), Checked { refusal: 0, yes: 0, ones: 1, twos: 2 });
    assert_eq!(ask(8, "12", "11"), Checked { refusal: 22, yes: 0, ones: 0, twos: 0 });
    let at_two = Held { w: 2, ..two.held };
    assert_eq!(check(at_two, 7, &ones, &twos, &packed(&row("12")), &[0], &mut [1], &mut [2]), Checked { refusal: 0, yes: 1, ones: 1, twos: 1 });
}

#[test]
fn sizes_at_the_edges() {
    for (n, refusal) in [(4, 0), (16384, 0), (2, 1), (16386, 1), (5, 1), (0, 1)] {
        assert_eq!(begin(Held::default(), 0, n, 2, 1).refusal, refusal, "n = {n}");
    }
    for (n, good) in [(4, true), (16384, true), (2, false), (16386, false)] {
        assert_eq!(Sizes { n, ku: 1, kv: 1, gv: 0, gu: 0, w: 1 }.in_range(), good, "n = {n}");
    }
    for (number, refusal) in [(0, 0), (255, 0), (256, 0), (65535, 0), (65536, 0), (4294967295, 0), (4294967296, 1), (u64::MAX, 1)] {
        assert_eq!(begin(Held::default(), number, 4, 2, 4).refusal, refusal, "key number {number}");
    }
    assert_eq!(words(64), 1);
    assert_eq!(words(65), 2);
}

/// g_U = k_U leaves the last part empty: no value need be other than 0.
#[test]
fn gap_of_all() {
    for gv in [0, 1] {
        assert!(drawn_word(gv, 1, &secret(), &[0, 1, 2, 3], &row("12"), &choices(0, 0)).is_ok());
    }
}

/// Each gap is bounded by the k of its own half alone.
#[test]
fn gaps_at_the_edges() {
    let z = Sizes { n: 16, ku: 2, kv: 5, gv: 0, gu: 0, w: 1 };
    for (gv, gu, good) in
        [(0, 0, true), (5, 0, true), (6, 0, false), (0, 2, true), (0, 3, false), (5, 2, true), (3, 3, false), (u64::MAX, 0, false), (0, u64::MAX, false)]
    {
        assert_eq!(Sizes { gv, gu, ..z }.in_range(), good, "g_V = {gv}, g_U = {gu}");
        assert_eq!(Sizes { gv: gu, gu: gv, ku: 5, kv: 2, ..z }.in_range(), good, "g_V = {gu}, g_U = {gv}");
    }
}

/// At w = 2, V trit 2 and U value 0 make 1200 where g_U is 1, and are refused 8 where it is 0, whatever g_V is.
#[test]
fn zeros_from_the_gap_of_u_on() {
    let s = secret();
    let (hu, hv, b, c) = (planes(&s.hu), planes(&s.hv), planes(std::slice::from_ref(&s.b)), planes(std::slice::from_ref(&s.c)));
    let lent = SecretWords { hu: [&hu.0, &hu.1], hv: [&hv.0, &hv.1], b: [&b.0, &b.1], c: [&c.0, &c.1] };
    let (y, vt, uv) = (planes(&rows(&["12"])), planes(&rows(&["2"])), planes(&rows(&["0"])));
    for (gv, gu, refusal) in [(0, 0, 8), (1, 0, 8), (0, 1, 0), (1, 1, 0)] {
        let z = Sizes { n: 4, ku: 1, kv: 1, gv, gu, w: 2 };
        let given = DrawWords { p: &[0, 1, 2, 3], y: [&y.0, &y.1], v_order: &[0, 1], v_trits: [&vt.0, &vt.1], u_order: &[0, 1], u_values: [&uv.0, &uv.1] };
        let (mut word1, mut word2, mut s1, mut s2, mut w1, mut w2) = ([9], [9], [9], [9], [3; 249], [4; 249]);
        assert_eq!(draw(z, lent, given, [&mut word1, &mut word2], [&mut s1, &mut s2], [&mut w1, &mut w2]), refusal, "g_V = {gv}, g_U = {gu}");
        let left = if refusal == 0 { ([1], [2], [0], [0], [0; 249], [0; 249]) } else { ([9], [9], [9], [9], [3; 249], [4; 249]) };
        assert_eq!((word1, word2, s1, s2, w1, w2), left);
    }
}

/// A draw at n = 8 (k_U = 2, k_V = 1) whose V order lacks rank without a gap of V, and whose U order lacks it without a gap of U.
#[test]
fn each_gap_widens_its_own_part() {
    let s = Secret { hu: rows(&["1122", "1010"]), hv: rows(&["1220", "1122", "1101"]), b: row("0002"), c: row("2111") };
    let p = [6, 3, 7, 0, 2, 4, 1, 5];
    let drawn = |gv, gu, v_order: &[usize], u_order: &[usize]| {
        let c = Choices { v_order: v_order.to_vec(), v_trits: vec![2], u_order: u_order.to_vec(), u_values: vec![1, 2] };
        drawn_word(gv, gu, &s, &p, &row("10221"), &c)
    };
    let (narrow_v, narrow_u) = ([1, 2, 3, 0], [1, 3, 0, 2]);
    for other in [0, 1, 2] {
        assert_eq!(drawn(0, other, &narrow_v, &[2, 0, 3, 1]), Err(12));
        assert_eq!(drawn(1, other, &narrow_v, &[2, 0, 3, 1]), Ok(row("12121022")));
    }
    for other in [0, 1] {
        assert_eq!(drawn(other, 0, &[3, 1, 0, 2], &narrow_u), Err(13));
        assert_eq!(drawn(other, 1, &[3, 1, 0, 2], &narrow_u), Ok(row("10112112")));
        assert_eq!(drawn(other, 2, &[3, 1, 0, 2], &[2, 0, 3, 1]), Ok(row("00121020")));
    }
}

#[test]
fn lines_example() {
    let text = "P 7 4 2 4\nK 02\nK 22\nS 7 12 12 11\nS 7 13 12 12\nS 8 14 12 11\n".replace(' ', "\t");
    let answer = "key formula weight verdict\n7 12 3+1 yes\n7 13 1+2 no\n8 14 - r22\n".replace(' ', "\t");
    assert_eq!(second::lines::run(text.as_bytes()), answer.as_bytes());
    // a last line without its line end counts
    assert_eq!(second::lines::run(text.trim_end().as_bytes()), answer.as_bytes());
}

#[test]
fn lines_refused() {
    let said = |text: &str| {
        let out = String::from_utf8(second::lines::run(text.replace(' ', "\t").as_bytes())).unwrap();
        out.lines().skip(1).map(|l| l.replace('\t', " ")).collect::<Vec<_>>().join("|")
    };
    assert_eq!(said(""), "");
    assert_eq!(said("\n"), "- - - r11");
    assert_eq!(said("P 255 258 2 4"), "- - - r1");
    assert_eq!(said("P 255 256 2 99999999999999999999999999"), "- - - r1");
    assert_eq!(said("P 07 4 2 4"), "- - - r11");
    assert_eq!(said("K 02"), "- - - r20");
    assert_eq!(said("S 7 1 1 1"), "7 1 - r20");
    assert_eq!(said("S 7 65536 1 1"), "- - - r11");
    assert_eq!(said("P 7 4 2 4\nK 022\nK 02\nK 22\nK 22\nS 7 5 1 11"), "- - - r2|- - - r21|7 5 - r2");
    for key in ["255", "256", "65535", "65536", "4294967295"] {
        assert_eq!(said(&format!("P {key} 4 2 4\nK 02\nK 22\nS {key} 12 12 11")), format!("{key} 12 3+1 yes"));
        assert_eq!(said(&format!("P 7 4 2 4\nK 02\nK 22\nS {key} 12 12 11")), format!("{key} 12 - r22"));
        assert_eq!(said(&format!("S {key} 12 12 11")), format!("{key} 12 - r20"));
    }
    for key in ["4294967296", "4294967303", "18446744073709551616", "18446744073709551623", "04294967295", &"9".repeat(1000)] {
        assert_eq!(said(&format!("P 7 4 2 4\nP {key} 4 2 4\nK 02\nK 22\nS {key} 12 12 11\nS 7 13 12 11")), "- - - r11|- - - r11|7 13 3+1 yes");
    }
    assert_eq!(said("P 7 4294967300 2 4\nP 7 4 4294967298 4\nP 7 4 2 4294967300"), "- - - r1|- - - r1|- - - r1");
    assert_eq!(said(&format!("K {}", "0".repeat(1022))), "- - - r20");
    assert_eq!(said(&format!("K {}", "0".repeat(1023))), "- - - r11");
}
