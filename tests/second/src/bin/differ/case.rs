//! A case: one call with its numbers and its buffers, as they are lent at the C border; and what the second implementation makes of it.

use second::draw::{draw, DrawWords};
use second::held::{begin, check, check_text, store_row, Checked, Held, Stored};
use second::key::{build, SecretWords, Sizes};
use second::packing::{from_stream, pack, syndrome, unpack};
use second::shake::shake256;

#[derive(Clone, Copy, PartialEq, Eq, Debug, PartialOrd, Ord)]
pub enum Call {
    Pack,
    Unpack,
    Stream,
    Begin,
    Store,
    Check,
    CheckText,
    Syndrome,
    Shake,
    Build,
    Draw,
}

pub const CALLS: [Call; 11] = [
    // the module's half
    Call::Pack,
    Call::Unpack,
    Call::Stream,
    Call::Begin,
    Call::Store,
    Call::Check,
    Call::CheckText,
    Call::Syndrome,
    Call::Shake,
    // the editor's half
    Call::Build,
    Call::Draw,
];

/// Where the gaps and the weight stand among the numbers of a build and of a draw.
pub const GAP_V: usize = 3;
pub const GAP_U: usize = 4;
pub const WEIGHT: usize = 5;

impl Call {
    pub fn name(self) -> &'static str {
        match self {
            Call::Pack => "wave_pack",
            Call::Unpack => "wave_unpack",
            Call::Stream => "wave_from_stream",
            Call::Begin => "wave_begin",
            Call::Store => "wave_store_row",
            Call::Check => "wave_check",
            Call::CheckText => "wave_check_text",
            Call::Syndrome => "wave_syndrome",
            Call::Shake => "wave_shake256",
            Call::Build => "wave_build",
            Call::Draw => "wave_draw",
        }
    }

    /// The answer is a verdict: yes or no, or a refusal.
    pub fn is_check(self) -> bool {
        matches!(self, Call::Check | Call::CheckText)
    }

    /// Buffers that may have any length.
    pub fn any_length(self, at: usize) -> bool {
        match self {
            Call::Stream => at == 0,
            Call::CheckText => at == 3,
            Call::Syndrome => at == 1,
            Call::Shake => true,
            _ => false,
        }
    }

    /// A refusal that the call has and no run can ask for: no salt and text are known whose hash has so many bytes to be
    /// skipped. For one trit a random stream has them once in 2 to the power 589, for more trits less often.
    pub fn unseen(self) -> Option<u64> {
        match self {
            Call::CheckText | Call::Syndrome => Some(6),
            _ => None,
        }
    }

    /// The refusals that the paper has for this call, but for one that cannot be asked for; 0 for none.
    pub fn answers(self) -> &'static [u64] {
        match self {
            Call::Pack => &[0, 1, 2, 3, 4],
            Call::Unpack => &[0, 1, 2, 5, 15],
            Call::Stream => &[0, 1, 2, 6],
            Call::Begin => &[0, 1],
            Call::Store => &[0, 1, 2, 5, 15, 20, 21],
            Call::Check | Call::CheckText => &[0, 1, 2, 3, 4, 5, 15, 20, 22],
            Call::Syndrome => &[0, 1, 2],
            Call::Shake => &[0],
            Call::Build => &[0, 1, 2, 3, 4, 7, 8, 9, 10],
            Call::Draw => &[0, 1, 2, 3, 4, 7, 8, 12, 13, 14],
        }
    }

    pub fn numbers(self) -> &'static [&'static str] {
        match self {
            Call::Pack | Call::Unpack | Call::Stream | Call::Syndrome => &["m"],
            Call::Shake => &[],
            Call::Begin => &["begun", "held number", "held n", "held k", "held w", "rows", "number", "n", "k", "w"],
            Call::Store => &["begun", "held number", "n", "k", "w", "rows"],
            Call::Check | Call::CheckText => &["begun", "held number", "n", "k", "w", "rows", "number"],
            Call::Build | Call::Draw => &["n", "ku", "kv", "gv", "gu", "w"],
        }
    }

    pub fn buffers(self) -> &'static [&'static str] {
        match self {
            Call::Pack => &["ones", "twos", "bytes"],
            Call::Unpack | Call::Stream => &["bytes", "ones", "twos"],
            Call::Begin => &[],
            Call::Store => &["key ones", "key twos", "row"],
            Call::Check => &["key ones", "key twos", "y", "s", "work ones", "work twos"],
            Call::CheckText => &["key ones", "key twos", "salt", "text", "s", "work ones", "work twos"],
            Call::Syndrome => &["salt", "text", "ones", "twos"],
            Call::Shake => &["message", "output"],
            Call::Build => &[
                "hu ones",
                "hu twos",
                "hv ones",
                "hv twos",
                "b ones",
                "b twos",
                "c ones",
                "c twos",
                "start",
                "p",
                "key ones",
                "key twos",
                "work ones",
                "work twos",
            ],
            Call::Draw => &[
                "hu ones",
                "hu twos",
                "hv ones",
                "hv twos",
                "b ones",
                "b twos",
                "c ones",
                "c twos",
                "p",
                "y ones",
                "y twos",
                "v order",
                "v trits ones",
                "v trits twos",
                "u order",
                "u values ones",
                "u values twos",
                "word ones",
                "word twos",
                "s ones",
                "s twos",
                "work ones",
                "work twos",
            ],
        }
    }
}

#[derive(Clone, PartialEq, Eq, Debug)]
pub enum Buffer {
    Words(Vec<u64>),
    Bytes(Vec<u8>),
    Order(Vec<u16>),
}

impl Buffer {
    pub fn len(&self) -> usize {
        match self {
            Buffer::Words(v) => v.len(),
            Buffer::Bytes(v) => v.len(),
            Buffer::Order(v) => v.len(),
        }
    }

    pub fn words(&self) -> &[u64] {
        match self {
            Buffer::Words(v) => v,
            _ => panic!("not words"),
        }
    }

    pub fn bytes(&self) -> &[u8] {
        match self {
            Buffer::Bytes(v) => v,
            _ => panic!("not bytes"),
        }
    }

    pub fn order(&self) -> &[u16] {
        match self {
            Buffer::Order(v) => v,
            _ => panic!("not an order"),
        }
    }

    pub fn words_mut(&mut self) -> &mut Vec<u64> {
        match self {
            Buffer::Words(v) => v,
            _ => panic!("not words"),
        }
    }

    pub fn bytes_mut(&mut self) -> &mut Vec<u8> {
        match self {
            Buffer::Bytes(v) => v,
            _ => panic!("not bytes"),
        }
    }

    pub fn order_mut(&mut self) -> &mut Vec<u16> {
        match self {
            Buffer::Order(v) => v,
            _ => panic!("not an order"),
        }
    }
}

/// What the contents of a buffer are held to, so that they can be damaged.
#[derive(Clone, Copy, Debug)]
pub enum Role {
    /// Rows of m trits in the planes `at` and `at + 1`: 3 and 4.
    Planes { at: usize, rows: usize, m: usize },
    /// Trits that may not be 0 from this place on: 8.
    NonZero { at: usize, from: usize, m: usize },
    /// An order of so many places: 7.
    Order { at: usize },
    /// Packed bytes of m trits: 5, 15.
    Packed { at: usize, m: usize },
    /// A stream of which so many bytes are needed: 6.
    Stream { at: usize, need: usize },
    /// A matrix whose rank over the first `count` places of an order, or over all, is tested: 9, 10, 12, 13.
    Rank { at: usize, rows: usize, m: usize, order: Option<(usize, usize)>, refusal: u64 },
}

/// A number to be put in, and the refusal that it alone makes.
#[derive(Clone, Copy, Debug)]
pub struct Edge {
    pub at: usize,
    pub value: u64,
    pub refusal: u64,
}

#[derive(Clone)]
pub struct Case {
    pub call: Call,
    pub numbers: Vec<u64>,
    pub buffers: Vec<Buffer>,
    pub roles: Vec<Role>,
    pub edges: Vec<Edge>,
}

impl Case {
    pub fn new(call: Call, numbers: Vec<u64>, buffers: Vec<Buffer>) -> Case {
        assert_eq!(numbers.len(), call.numbers().len());
        assert_eq!(buffers.len(), call.buffers().len());
        Case { call, numbers, buffers, roles: vec![], edges: vec![] }
    }
}

/// The numbers answered, and every buffer at exit.
#[derive(Clone, PartialEq, Eq, Debug)]
pub struct Outcome {
    pub answer: Vec<u64>,
    pub buffers: Vec<Buffer>,
}

impl Outcome {
    pub fn refusal(&self) -> u64 {
        self.answer[0]
    }

    /// Of a check: the ones and twos of the full word together.
    pub fn weight(&self) -> u64 {
        self.answer[2] + self.answer[3]
    }
}

pub fn held(numbers: &[u64]) -> Held {
    Held { begun: numbers[0], number: numbers[1], n: numbers[2], k: numbers[3], w: numbers[4], rows: numbers[5] }
}

pub fn sizes(numbers: &[u64]) -> Sizes {
    Sizes { n: numbers[0], ku: numbers[1], kv: numbers[2], gv: numbers[GAP_V], gu: numbers[GAP_U], w: numbers[WEIGHT] }
}

pub fn stored(answer: Stored) -> Vec<u64> {
    let h = answer.held;
    vec![answer.refusal, h.begun, h.number, h.n, h.k, h.w, h.rows]
}

pub fn checked(answer: Checked) -> Vec<u64> {
    vec![answer.refusal, answer.yes, answer.ones, answer.twos]
}

/// What the second implementation makes of a case.
pub fn second_outcome(case: &Case) -> Outcome {
    let x = &case.numbers;
    let mut buffers = case.buffers.clone();
    let answer = match (case.call, &mut buffers[..]) {
        (Call::Pack, [ones, twos, bytes]) => vec![pack(x[0], ones.words(), twos.words(), bytes.bytes_mut())],
        (Call::Unpack, [bytes, ones, twos]) => vec![unpack(x[0], bytes.bytes(), ones.words_mut(), twos.words_mut())],
        (Call::Stream, [bytes, ones, twos]) => vec![from_stream(x[0], bytes.bytes(), ones.words_mut(), twos.words_mut())],
        (Call::Begin, []) => stored(begin(held(x), x[6], x[7], x[8], x[9])),
        (Call::Store, [ones, twos, row]) => stored(store_row(held(x), ones.words_mut(), twos.words_mut(), row.bytes())),
        (Call::Check, [ones, twos, y, s, w1, w2]) => {
            checked(check(held(x), x[6], ones.words(), twos.words(), y.bytes(), s.bytes(), w1.words_mut(), w2.words_mut()))
        }
        (Call::CheckText, [ones, twos, salt, text, s, w1, w2]) => {
            let (ones, twos, salt, text) = (ones.words(), twos.words(), salt.bytes(), text.bytes());
            let (w1, w2) = (w1.words_mut(), w2.words_mut());
            checked(check_text(held(x), x[6], ones, twos, salt, text, s.bytes(), w1, w2))
        }
        (Call::Syndrome, [salt, text, ones, twos]) => {
            vec![syndrome(x[0], salt.bytes(), text.bytes(), ones.words_mut(), twos.words_mut())]
        }
        (Call::Shake, [message, output]) => {
            shake256(message.bytes(), output.bytes_mut());
            vec![0]
        }
        (Call::Build, [hu1, hu2, hv1, hv2, b1, b2, c1, c2, start, p, k1, k2, w1, w2]) => {
            let secret =
                SecretWords { hu: [hu1.words(), hu2.words()], hv: [hv1.words(), hv2.words()], b: [b1.words(), b2.words()], c: [c1.words(), c2.words()] };
            vec![build(sizes(x), secret, start.order(), p.order_mut(), [k1.words_mut(), k2.words_mut()], [w1.words_mut(), w2.words_mut()])]
        }
        (Call::Draw, [hu1, hu2, hv1, hv2, b1, b2, c1, c2, p, y1, y2, vo, vt1, vt2, uo, uv1, uv2, word1, word2, s1, s2, w1, w2]) => {
            let secret =
                SecretWords { hu: [hu1.words(), hu2.words()], hv: [hv1.words(), hv2.words()], b: [b1.words(), b2.words()], c: [c1.words(), c2.words()] };
            let given = DrawWords {
                p: p.order(),
                y: [y1.words(), y2.words()],
                v_order: vo.order(),
                v_trits: [vt1.words(), vt2.words()],
                u_order: uo.order(),
                u_values: [uv1.words(), uv2.words()],
            };
            let (word, s, work) = (
                [word1.words_mut() as &mut [u64], word2.words_mut()],
                [s1.words_mut() as &mut [u64], s2.words_mut()],
                [w1.words_mut() as &mut [u64], w2.words_mut()],
            );
            vec![draw(sizes(x), secret, given, word, s, work)]
        }
        _ => panic!("a case of {:?} with {} buffers", case.call, case.buffers.len()),
    };
    Outcome { answer, buffers }
}
