//! The proved code: each archive is a shared object of its own, and each call is made on buffers that are guarded on both sides.

use crate::case::{checked, held, sizes, stored, Buffer, Call, Case, Outcome};
use crate::rng::Rng;
use second::held::{Checked, Held, Stored};
use second::key::Sizes;
use std::ffi::{c_char, c_int, c_void, CStr, CString};

extern "C" {
    fn dlopen(path: *const c_char, flags: c_int) -> *mut c_void;
    fn dlsym(library: *mut c_void, name: *const c_char) -> *mut c_void;
    fn dlerror() -> *const c_char;
    fn mmap(at: *mut c_void, size: usize, protection: c_int, flags: c_int, file: c_int, offset: i64) -> *mut c_void;
    fn mprotect(at: *mut c_void, size: usize, protection: c_int) -> c_int;
    fn munmap(at: *mut c_void, size: usize) -> c_int;
}

const RTLD_NOW: c_int = 2; // and not RTLD_GLOBAL: no archive sees another
const READ_WRITE: c_int = 3;
const NO_ACCESS: c_int = 0;
const PRIVATE_ANONYMOUS: c_int = 0x22;
const PAGE: usize = 4096;
const FRONT: usize = 64;

/// A stretch of memory followed by a page that nobody may touch.
struct Slot {
    base: *mut u8,
    size: usize,
}

impl Slot {
    fn new(least: usize) -> Slot {
        let size = least.div_ceil(PAGE) * PAGE;
        unsafe {
            let base = mmap(std::ptr::null_mut(), size + PAGE, READ_WRITE, PRIVATE_ANONYMOUS, -1, 0);
            assert!(base as isize != -1, "mmap");
            assert_eq!(mprotect(base.add(size), PAGE, NO_ACCESS), 0, "mprotect");
            Slot { base: base as *mut u8, size }
        }
    }
}

impl Drop for Slot {
    fn drop(&mut self) {
        unsafe { munmap(self.base as *mut c_void, self.size + PAGE) };
    }
}

/// A buffer as it is lent: where it is, its count, and where its guards are.
struct Lent {
    at: *mut u8,
    count: usize,
    bytes: usize,
    behind: usize,
}

fn guard(i: usize) -> u8 {
    (i as u8).wrapping_mul(29) ^ 0x5A
}

fn raw(buffer: &Buffer) -> (*const u8, usize) {
    match buffer {
        Buffer::Words(v) => (v.as_ptr() as *const u8, 8),
        Buffer::Bytes(v) => (v.as_ptr(), 1),
        Buffer::Order(v) => (v.as_ptr() as *const u8, 2),
    }
}

/// Memory for the buffers of one call after another.
struct Arena(Vec<Slot>);

impl Arena {
    /// Copies the buffer in, guard bytes before it, and behind it either guard bytes or the page that nobody may touch.
    fn lend(&mut self, i: usize, buffer: &Buffer, rng: &mut Rng) -> Lent {
        let (from, unit) = raw(buffer);
        let bytes = buffer.len() * unit;
        let least = bytes + FRONT + 8 * unit + FRONT;
        while self.0.len() <= i {
            self.0.push(Slot::new(least));
        }
        if self.0[i].size < least {
            self.0[i] = Slot::new(2 * least);
        }
        let behind = if rng.one_in(2) { 0 } else { FRONT + rng.below(8) * unit };
        unsafe {
            let at = self.0[i].base.add(self.0[i].size - behind - bytes);
            std::ptr::copy_nonoverlapping(from, at, bytes);
            for g in 0..FRONT {
                *at.sub(FRONT).add(g) = guard(g);
            }
            for g in 0..behind {
                *at.add(bytes + g) = guard(g);
            }
            Lent { at, count: buffer.len(), bytes, behind }
        }
    }
}

impl Lent {
    fn w(&self) -> *mut u64 {
        self.at as *mut u64
    }

    fn o(&self) -> *mut u16 {
        self.at as *mut u16
    }

    fn guards_stand(&self) -> bool {
        unsafe { (0..FRONT).all(|g| *self.at.sub(FRONT).add(g) == guard(g)) && (0..self.behind).all(|g| *self.at.add(self.bytes + g) == guard(g)) }
    }

    /// What is in the buffer now, of the kind that went in.
    fn back(&self, kind: &Buffer) -> Buffer {
        unsafe {
            match kind {
                Buffer::Words(_) => Buffer::Words(std::slice::from_raw_parts(self.w(), self.count).to_vec()),
                Buffer::Bytes(_) => Buffer::Bytes(std::slice::from_raw_parts(self.at, self.count).to_vec()),
                Buffer::Order(_) => Buffer::Order(std::slice::from_raw_parts(self.o(), self.count).to_vec()),
            }
        }
    }
}

type W = *mut u64;
type B = *mut u8;
type O = *mut u16;
type L = usize;
type PackFn = unsafe extern "C" fn(usize, W, L, W, L, B, L) -> u64;
type UnpackFn = unsafe extern "C" fn(usize, B, L, W, L, W, L) -> u64;
type BeginFn = unsafe extern "C" fn(Held, u64, u64, u64, u64) -> Stored;
type StoreFn = unsafe extern "C" fn(Held, W, L, W, L, B, L) -> Stored;
type CheckFn = unsafe extern "C" fn(Held, u64, W, L, W, L, B, L, B, L, W, L, W, L) -> Checked;
type CheckTextFn = unsafe extern "C" fn(Held, u64, W, L, W, L, B, L, B, L, B, L, W, L, W, L) -> Checked;
type SyndromeFn = unsafe extern "C" fn(usize, B, L, B, L, W, L, W, L) -> u64;
type ShakeFn = unsafe extern "C" fn(B, L, B, L);
#[rustfmt::skip]
type BuildFn = unsafe extern "C" fn(Sizes, W, L, W, L, W, L, W, L, W, L, W, L, W, L, W, L, O, L, O, L, W, L, W, L, W, L, W, L) -> u64;
#[rustfmt::skip]
type DrawFn = unsafe extern "C" fn(Sizes, W, L, W, L, W, L, W, L, W, L, W, L, W, L, W, L, O, L, W, L, W, L, O, L, W, L, W, L, O, L, W, L, W, L,
    W, L, W, L, W, L, W, L, W, L, W, L) -> u64;

pub struct Archives {
    calls: Vec<(Call, *mut c_void)>,
    arena: Arena,
    rng: Rng,
}

impl Archives {
    /// Loads each library apart and looks up every call.
    pub fn load(paths: &[String], seed: u64) -> Archives {
        let mut libraries = vec![];
        for path in paths {
            let name = CString::new(path.as_str()).unwrap();
            let library = unsafe { dlopen(name.as_ptr(), RTLD_NOW) };
            if library.is_null() {
                eprintln!("differ: {}", unsafe { CStr::from_ptr(dlerror()) }.to_string_lossy());
                std::process::exit(2);
            }
            libraries.push(library);
        }
        let mut calls = vec![];
        for call in crate::case::CALLS {
            let name = CString::new(call.name()).unwrap();
            if let Some(at) = libraries.iter().map(|l| unsafe { dlsym(*l, name.as_ptr()) }).find(|at| !at.is_null()) {
                calls.push((call, at));
            }
        }
        Archives { calls, arena: Arena(vec![]), rng: Rng::new(seed) }
    }

    fn symbol(&self, call: Call) -> Option<*mut c_void> {
        self.calls.iter().find(|(c, _)| *c == call).map(|(_, at)| *at)
    }

    pub fn has(&self, call: Call) -> bool {
        self.symbol(call).is_some()
    }

    /// The call made on guarded copies of the buffers; an error if a guard was changed.
    #[rustfmt::skip]
    pub fn outcome(&mut self, case: &Case) -> Result<Outcome, String> {
        let at = self.symbol(case.call).expect("a call that is linked");
        let lent: Vec<Lent> = case.buffers.iter().enumerate().map(|(i, b)| self.arena.lend(i, b, &mut self.rng)).collect();
        let x = &case.numbers;
        let w = |i: usize| lent[i].w();
        let b = |i: usize| lent[i].at;
        let o = |i: usize| lent[i].o();
        let l = |i: usize| lent[i].count;
        use std::mem::transmute as as_call;
        let answer = unsafe {
            match case.call {
                Call::Pack => vec![as_call::<_, PackFn>(at)(x[0] as usize, w(0), l(0), w(1), l(1), b(2), l(2))],
                Call::Unpack | Call::Stream => vec![as_call::<_, UnpackFn>(at)(x[0] as usize, b(0), l(0), w(1), l(1), w(2), l(2))],
                Call::Begin => stored(as_call::<_, BeginFn>(at)(held(x), x[6], x[7], x[8], x[9])),
                Call::Store => stored(as_call::<_, StoreFn>(at)(held(x), w(0), l(0), w(1), l(1), b(2), l(2))),
                Call::Check => checked(as_call::<_, CheckFn>(at)(held(x), x[6], w(0), l(0), w(1), l(1), b(2), l(2), b(3), l(3), w(4), l(4), w(5), l(5))),
                Call::CheckText => checked(as_call::<_, CheckTextFn>(at)(held(x), x[6], w(0), l(0), w(1), l(1),
                    b(2), l(2), b(3), l(3), b(4), l(4), w(5), l(5), w(6), l(6))),
                Call::Syndrome => vec![as_call::<_, SyndromeFn>(at)(x[0] as usize, b(0), l(0), b(1), l(1), w(2), l(2),
                    w(3), l(3))],
                Call::Shake => {
                    as_call::<_, ShakeFn>(at)(b(0), l(0), b(1), l(1));
                    vec![0]
                }
                Call::Build => vec![as_call::<_, BuildFn>(at)(sizes(x), w(0), l(0), w(1), l(1), w(2), l(2), w(3), l(3), w(4), l(4), w(5), l(5),
                    w(6), l(6), w(7), l(7), o(8), l(8), o(9), l(9), w(10), l(10), w(11), l(11), w(12), l(12), w(13), l(13))],
                Call::Draw => vec![as_call::<_, DrawFn>(at)(sizes(x), w(0), l(0), w(1), l(1), w(2), l(2), w(3), l(3), w(4), l(4), w(5), l(5),
                    w(6), l(6), w(7), l(7), o(8), l(8), w(9), l(9), w(10), l(10), o(11), l(11), w(12), l(12), w(13), l(13), o(14), l(14),
                    w(15), l(15), w(16), l(16), w(17), l(17), w(18), l(18), w(19), l(19), w(20), l(20), w(21), l(21), w(22), l(22))],
            }
        };
        if let Some(i) = (0..lent.len()).find(|i| !lent[*i].guards_stand()) {
            return Err(format!("a guard word of {} changed", case.call.buffers()[i]));
        }
        let buffers = lent.iter().zip(&case.buffers).map(|(l, kind)| l.back(kind)).collect();
        Ok(Outcome { answer, buffers })
    }
}
