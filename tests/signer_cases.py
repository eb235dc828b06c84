#!/usr/bin/env python3
"""Worked cases of the build and of the draw, and what the program `sign_lines` must print: worked out from the paper's rules on lists of trits; it shares nothing with the crates.

A plane is one whole number whose bit i is place i, cut into words of 64 bits; a row begins a new word. Each call tests in the paper's order: 1, every
length (2), the contents buffer after buffer (4, 3, 8, 7), then 9 and 10, or 12, 13 and 14.

signer_cases.py calls LIBRARY   runs each case by wave_build and wave_draw of this shared object and holds the answer and every buffer to the rules;
                                at n = 4 it runs all choices, and holds the words that were released to those that meet the terms of demand 3
signer_cases.py sign            prints what `sign_lines` must print"""
import ctypes
import itertools
import os
import re
import sys


# ---- planes and trits

def words_for(m):
    return -(-m // 64)


def trit(ones, twos, place):
    return (ones[place // 64] >> place % 64 & 1) + 2 * (twos[place // 64] >> place % 64 & 1)


def rows_of(ones, twos, rows, m):
    return [[trit(ones, twos, 64 * words_for(m) * i + q) for q in range(m)] for i in range(rows)]


def plane(trits, which):
    whole = sum(1 << i for i, t in enumerate(trits) if t == which)
    return [whole >> 64 * j & (1 << 64) - 1 for j in range(words_for(len(trits)))]


def planes(rows):
    return [[w for r in rows for w in plane(r, which)] for which in (1, 2)]


def planes_refusal(ones, twos, rows, m):
    w = words_for(m)
    for i in range(rows):
        for ws in (ones, twos):
            if sum(x << 64 * j for j, x in enumerate(ws[w * i:w * i + w])) >> m:
                return 4
    return 3 if any(a & b for a, b in zip(ones, twos)) else 0


# ---- linear algebra modulo 3

def joins(basis, v):
    """Adds a column to the basis if it is independent of it, and tells that."""
    for lead, b in basis:
        if v[lead]:
            t = v[lead] * b[lead]
            v = [(x - t * y) % 3 for x, y in zip(v, b)]
    lead = next((i for i, x in enumerate(v) if x), None)
    if lead is not None:
        basis.append((lead, v))
    return lead is not None


def rank(columns):
    """The rank of a list of columns, by elimination."""
    basis = []
    return sum(joins(basis, v) for v in columns)


def column(H, q):
    return [row[q] for row in H]


def pivots(H, places):
    """The first independent columns, in the order of the places."""
    basis = []
    return [q for q in places if joins(basis, column(H, q))]


def solve(columns, targets):
    """For each target the coefficients of independent columns, as many as rows, that sum to it."""
    rows = [[c[i] for c in columns + targets] for i in range(len(columns))]
    for j in range(len(columns)):
        i = next(i for i in range(j, len(rows)) if rows[i][j])
        rows[j], rows[i] = rows[i], rows[j]
        rows[j] = [rows[j][j] * x % 3 for x in rows[j]]
        for k in range(len(rows)):
            if k != j:
                rows[k] = [(x - rows[k][j] * y) % 3 for x, y in zip(rows[k], rows[j])]
    return [[r[len(rows) + j] for r in rows] for j in range(len(targets))]


def times(H, e):
    return [sum(a * b for a, b in zip(row, e)) % 3 for row in H]


# ---- what both calls are lent

def sizes_fit(z):
    n, ku, kv, gv, gu, w = z
    return 4 <= n <= 16384 and n % 2 == 0 and 1 <= ku <= n // 2 - 1 and 1 <= kv <= n // 2 - 1 and gv <= kv and gu <= ku and 1 <= w <= n


def secret_lengths(z):
    n, ku, kv = z[:3]
    h = words_for(n // 2)
    return [(n // 2 - ku) * h] * 2 + [(n // 2 - kv) * h] * 2 + [h] * 4


def secret_refusal(z, secret):
    n, ku, kv = z[:3]
    N = n // 2
    for i, rows in enumerate((N - ku, N - kv, 1, 1)):
        r = planes_refusal(secret[2 * i], secret[2 * i + 1], rows, N)
        if r:
            return r
    return 8 if 0 in rows_of(secret[6], secret[7], 1, N)[0] else 0


def secret_of(z, secret):
    n, ku, kv = z[:3]
    N = n // 2
    return rows_of(*secret[0:2], N - ku, N), rows_of(*secret[2:4], N - kv, N), rows_of(*secret[4:6], 1, N)[0], rows_of(*secret[6:8], 1, N)[0]


TABLE_ROWS = 3 * 81


def build_work(z):
    n, ku, kv = z[:3]
    return (n - ku - kv + TABLE_ROWS) * 2 * words_for(n // 2)


def draw_work(z):
    n, ku, kv = z[:3]
    return (n // 2 - min(ku, kv) + TABLE_ROWS + 5) * words_for(n // 2)


def no_order(order):
    return sorted(order) != list(range(len(order)))


# ---- the build

def built(z, secret, start):
    """The refusal 9 or 10, or the final order and the rows of R."""
    n = z[0]
    N = n // 2
    hu, hv, b, c = secret_of(z, secret)
    if rank([column(hu, q) for q in range(N)]) < len(hu):
        return 9, None, None
    if rank([column(hv, q) for q in range(N)]) < len(hv):
        return 10, None, None
    H = [[(1 + b[q] * c[q]) * h[q] % 3 for q in range(N)] + [-b[q] * h[q] % 3 for q in range(N)] for h in hu]
    H += [[-c[q] * h[q] % 3 for q in range(N)] + h for h in hv]
    p, j, l, basis = list(start), 0, n - 1, []
    while j < len(H):
        if joins(basis, column(H, p[j])):
            j += 1
        else:
            p[j], p[l] = p[l], p[j]
            l -= 1
    kept = [column(H, q) for q in p[:j]]
    return 0, p, solve(kept, [column(H, q) for q in p[j:]])


def build(z, secret, start, p, key, work):
    """The answer, and every buffer that may change as it is then."""
    n, ku, kv, gv, gu, w = z
    k = ku + kv
    r = n - k
    if not sizes_fit(z):
        code = 1
    elif [len(x) for x in secret + [start, p] + key + work] != secret_lengths(z) + [n, n] + [k * words_for(r)] * 2 + [build_work(z)] * 2:
        code = 2
    else:
        code = secret_refusal(z, secret) or (7 if no_order(start) else 0)
        if not code:
            code, order, rows = built(z, secret, start)
            work = [[0] * len(x) for x in work]
            if not code:
                p, key = order, planes(rows)
    return code, [p] + key + work


# ---- the draw

def secret_places(p, trits):
    """Public place i is secret place p(i)."""
    out = [0] * len(p)
    for i, t in enumerate(trits):
        out[p[i]] = t
    return out


def halves(N, b, c, x):
    l, r = x[:N], x[N:]
    return [((1 + b[i] * c[i]) * l[i] - b[i] * r[i]) % 3 for i in range(N)], [(r[i] - c[i] * l[i]) % 3 for i in range(N)]


def solved(H, x, pivot, word):
    """The word with the pivots' values for which H e is H x."""
    goal = [(a - b) % 3 for a, b in zip(times(H, x), times(H, word))]
    for q, t in zip(pivot, solve([column(H, q) for q in pivot], [goal])[0]):
        word[q] = t
    return word


def drawn(z, secret, p, y, v_order, v, u_order, u):
    """The refusal 12, 13 or 14, or the word in public places."""
    n, ku, kv, gv, gu, w = z
    N = n // 2
    hu, hv, b, c = secret_of(z, secret)
    xu, xv = halves(N, b, c, secret_places(p, y))
    pivot = pivots(hv, v_order[:N - kv + gv])
    if len(pivot) < N - kv:
        return 12, None
    ev, left = [0] * N, iter(v)
    for q in v_order:
        if q not in pivot:
            ev[q] = next(left)
    ev = solved(hv, xv, pivot, ev)
    pivot = pivots(hu, u_order[:N - ku + gu])
    if len(pivot) < N - ku:
        return 13, None
    eu, left = [0] * N, iter(u)
    for q in u_order[:N - ku + gu]:
        if q not in pivot:
            eu[q] = next(left)
    for q in u_order[N - ku + gu:]:
        value = next(left)
        eu[q] = (c[q] - b[q]) * ev[q] % 3 if ev[q] else value
    eu = solved(hu, xu, pivot, eu)
    el = [(eu[i] + b[i] * ev[i]) % 3 for i in range(N)]
    word = el + [(c[i] * el[i] + ev[i]) % 3 for i in range(N)]
    return 14 if sum(t != 0 for t in word) != w else 0, [word[q] for q in p]


def draw_lengths(z):
    n, ku, kv = z[:3]
    N, k = n // 2, ku + kv
    return [n] + [words_for(n - k)] * 2 + [N] + [words_for(kv)] * 2 + [N] + [words_for(ku)] * 2 + [words_for(n)] * 2 + [words_for(k)] * 2 + [draw_work(z)] * 2


def choices_refusal(z, p, y, v_order, v, u_order, u):
    n, ku, kv, gv, gu, w = z
    if no_order(p):
        return 7
    r = planes_refusal(*y, 1, n - ku - kv)
    if r or no_order(v_order):
        return r or 7
    r = planes_refusal(*v, 1, kv)
    if r or no_order(u_order):
        return r or 7
    return planes_refusal(*u, 1, ku) or (8 if 0 in rows_of(*u, 1, ku)[0][gu:] else 0)


def draw_code(z, secret, p, y, v_order, v, u_order, u, word, s, work):
    """The answer, and the word in public places where there is one."""
    n, ku, kv, gv, gu, w = z
    if not sizes_fit(z):
        return 1, None
    if [len(x) for x in secret + [p] + y + [v_order] + v + [u_order] + u + word + s + work] != secret_lengths(z) + draw_lengths(z):
        return 2, None
    code = secret_refusal(z, secret) or choices_refusal(z, p, y, v_order, v, u_order, u)
    if code:
        return code, None
    return drawn(z, secret, p, rows_of(*y, 1, n - ku - kv)[0], v_order, rows_of(*v, 1, kv)[0], u_order, rows_of(*u, 1, ku)[0])


def draw(z, secret, p, y, v_order, v, u_order, u, word, s, work):
    """The answer, and every buffer that may change as it is then."""
    n, ku, kv, gv, gu, w = z
    code, e = draw_code(z, secret, p, y, v_order, v, u_order, u, word, s, work)
    if code == 0:
        word, s = planes([e]), planes([e[n - ku - kv:]])
    if code == 0 or code > 8:
        work = [[0] * len(x) for x in work]
    return code, word + s + work


# ---- the words of demand 3

def meeting(z, secret, p, R, y):
    """The words that meet the terms, for n = 4, as numbers in base 3, the first place first."""
    n, ku, kv, gv, gu, w = z
    N, k = n // 2, ku + kv
    hu = secret_of(z, secret)[0]
    out = []
    for number in range(3 ** n):
        e = [number // 3 ** i % 3 for i in range(n)]
        t = e[n - k:]
        if sum(x != 0 for x in e) != w or any((e[j] + sum(t[i] * R[i][j] for i in range(k))) % 3 != y[j] for j in range(n - k)):
            continue
        f = secret_places(p, e)
        both = [j for j in range(N) if f[j] and f[j + N]]
        if any(rank([column(hu, q) for q in range(N) if q not in pairs]) == N - ku for pairs in itertools.combinations(both, ku - gu)):
            out.append(number)
    return out


# ---- the calls

class Sizes(ctypes.Structure):
    _fields_ = [(f, ctypes.c_uint64) for f in ("n", "ku", "kv", "gv", "gu", "w")]


GUARD = 4
compared = 0


def lent(numbers, kind):
    """The numbers between guards."""
    return (kind * (len(numbers) + 2 * GUARD))(*([0xA5A5] * GUARD + list(numbers) + [0x5A5A] * GUARD))


def run(call, z, read, written, orders):
    """The answer of a call, and its written buffers; what is only read must stay, and so must all guards."""
    buffers = [lent(x, ctypes.c_uint16 if i in orders else ctypes.c_uint64) for i, x in enumerate(read + written)]
    arguments = []
    for b, x in zip(buffers, read + written):
        arguments += [ctypes.byref(b, GUARD * ctypes.sizeof(b._type_)), ctypes.c_size_t(len(x))]
    code = call(Sizes(*z), *arguments)
    out = [list(b) for b in buffers]
    for b, x in zip(out, read + written):
        assert b[:GUARD] == [0xA5A5] * GUARD and b[GUARD + len(x):] == [0x5A5A] * GUARD, ("a guard was overwritten", z)
    assert [b[GUARD:len(b) - GUARD] for b in out[:len(read)]] == [list(x) for x in read], ("what is only read was changed", z)
    return code, [b[GUARD:len(b) - GUARD] for b in out[len(read):]]


def same(z, got, wanted):
    global compared
    compared += 1
    if got != (wanted[0], [list(x) for x in wanted[1]]):
        sys.exit(f"signer cases: at {z} the call gives {got}, the rules give {wanted}")


def call_build(z, secret, start, p, key, work):
    same(z, run(BUILD, z, secret + [start], [p] + key + work, (8, 9)), build(z, secret, start, p, key, work))


def call_draw(z, secret, p, y, v_order, v, u_order, u, word, s, work):
    got = run(DRAW, z, secret + [p] + y + [v_order] + v + [u_order] + u, word + s + work, (8, 11, 14))
    same(z, got, draw(z, secret, p, y, v_order, v, u_order, u, word, s, work))
    return got


# ---- made-up rows and orders

def sample_trits(m, rows, x):
    out = []
    for _ in range(rows):
        row = []
        for _ in range(-(-m // 5)):
            x = (75 * (x % 65537) + 74) % 65537
            byte = x % 243
            row += [byte // 3 ** i % 3 for i in range(5)]
        out.append(row[:m])
    return out


def sample_rows(m, rows, x):
    return planes(sample_trits(m, rows, x))


def sample_order(n, a, b):
    return [(b + a * j) % n for j in range(n)]


def poor(rows, order):
    """The rows with a zero column, a column twice another and a sum of two, among the first seven places of the order."""
    rows = [list(row) for row in rows]
    for row in rows:
        row[order[1]], row[order[4]], row[order[6]] = 0, 2 * row[order[0]] % 3, (row[order[2]] + row[order[3]]) % 3
    return rows


def lacking(rows):
    """The rows with the last twice the first."""
    return rows[:-1] + [[2 * t % 3 for t in rows[0]]]


# ---- the cases

PAPER = [[3], [0], [1], [2], [2], [0], [1], [2]]
SMALL = (4, 1, 1, 0, 0, 4)
FIRST = [0, 1, 2, 3]
GAPS = [(0, 0), (0, 1), (1, 0), (1, 1)]


def space(words):
    return [[7] * words, [6] * words]


BUILD_SPACE, DRAW_SPACE = space(490), space(249)


def four(z, secret, start):
    call_build(z, secret, start, [9] * 4, [[9] * 2, [8] * 2], BUILD_SPACE)


def altered(secret, at, words):
    return secret[:at] + [words] + secret[at + 1:]


def build_cases():
    four(SMALL, PAPER, FIRST)
    four(SMALL, PAPER, [1, 2, 0, 3])
    four((4, 1, 1, 1, 1, 1), PAPER, [3, 2, 1, 0])
    four((4, 1, 1, 0, 1, 1), PAPER, [3, 2, 1, 0])
    four((4, 1, 1, 1, 0, 1), PAPER, [3, 2, 1, 0])
    four(SMALL, [[2], [0], [2], [0], [0], [0], [3], [0]], [0, 1, 3, 2])
    for z in ((2, 1, 1, 0, 0, 1), (5, 1, 1, 0, 0, 4), (16386, 1, 1, 0, 0, 4), (4, 0, 1, 0, 0, 4), (4, 2, 1, 0, 0, 4), (4, 1, 0, 0, 0, 4), (4, 1, 2, 0, 0, 4),
              (4, 1, 1, 2, 2, 4), (4, 1, 1, 2, 0, 4), (4, 1, 1, 0, 2, 4), (4, 1, 1, 0, 0, 0), (4, 1, 1, 0, 0, 5)):
        four(z, PAPER, FIRST)
    four((16384, 8191, 8191, 8191, 8191, 16384), PAPER, FIRST)
    for at, ws in ((0, [3, 0]), (1, []), (2, []), (3, [2, 0]), (4, [2, 0]), (5, []), (6, []), (7, [2, 0])):
        four(SMALL, altered(PAPER, at, ws), FIRST)
    four(SMALL, PAPER, [0, 1, 2])
    four(SMALL, PAPER, [0, 1, 2, 3, 4])
    for p, k1, k2, w1, w2 in ((3, 2, 2, 490, 490), (4, 1, 2, 490, 490), (4, 2, 3, 490, 490), (4, 2, 2, 489, 490), (4, 2, 2, 490, 491), (4, 2, 2, 4, 4)):
        call_build(SMALL, PAPER, FIRST, [9] * p, [[9] * k1, [8] * k2], [[7] * w1, [6] * w2])
    for at, ws in ((1, [1]), (1, [4]), (3, [3]), (2, [9]), (5, [2]), (4, [6]), (6, [3]), (7, [6]), (7, [0])):
        four(SMALL, altered(PAPER, at, ws), FIRST)
    four(SMALL, PAPER, [0, 1, 2, 2])
    four(SMALL, PAPER, [0, 1, 2, 4])
    four(SMALL, [[12], [8]] + PAPER[2:], FIRST)
    # 4 before 3 in one buffer, with one bit, two bits, and bits of two rows; but 3 in a buffer before 4 in a later one
    four(SMALL, [[4], [4]] + PAPER[2:], FIRST)
    four(SMALL, [[1], [5]] + PAPER[2:], FIRST)
    four(SMALL, [[1], [1], [4], [0]] + PAPER[4:], FIRST)
    four(SMALL, [[4], [0], [1], [1]] + PAPER[4:], FIRST)
    for hu in ([[1, 8], [1, 0]], [[8, 1], [0, 1]], [[0, 1], [8, 1]], [[1, 0], [1, 8]], [[1, 1], [1, 0]], [[0, 0], [8, 0]]):
        call_build((6, 1, 1, 0, 0, 3), hu + [[1, 2], [0, 0], [3], [0], [7], [0]], [0, 1, 2, 3, 4, 5], [9] * 6, [[9] * 2, [8] * 2], space(494))
    four(SMALL, [[3], [4], [3], [2], [2], [0], [1], [0]], [0, 0, 2, 3])
    four(SMALL, [[0], [0]] + PAPER[2:], FIRST)
    four(SMALL, PAPER[:2] + [[0], [0]] + PAPER[4:], FIRST)
    four(SMALL, [[0], [0], [0], [0]] + PAPER[4:], FIRST)
    call_build((132, 64, 63, 1, 1, 100), sample_rows(66, 2, 11) + sample_rows(66, 3, 12) + sample_rows(66, 1, 13) + [[6148914691236517205, 1], [12297829382473034410, 2]],
          sample_order(132, 25, 7), [9] * 132, [[9] * 127, [8] * 127], space(992))
    call_build((132, 30, 31, 30, 30, 1), sample_rows(66, 36, 21) + sample_rows(66, 35, 22) + sample_rows(66, 1, 23) + [[12297829382473034410, 1], [6148914691236517205, 2]],
          sample_order(132, 35, 100), [9] * 132, [[9] * 122, [8] * 122], space(1256))
    block_builds()


# n, k_U, k_V: hu and hv have 11 and 12 rows, 12 and 12, 12 and 7, 20 and 13, 30 and 19, 24 and 13 (N = 64), 13 and 25 (N = 65), 68 and 16
BLOCKS = [(32, 5, 4), (48, 12, 12), (38, 7, 12), (50, 5, 12), (70, 5, 16), (128, 40, 51), (130, 52, 40), (152, 8, 60)]


def block_secret(z, first, change_u=None, change_v=None, b=None):
    """A made-up secret, with hu and hv changed and with another b."""
    n, ku, kv = z
    N = n // 2
    hu, hv = sample_trits(N, N - ku, first), sample_trits(N, N - kv, first + 1)
    hu, hv = change_u(hu) if change_u else hu, change_v(hv) if change_v else hv
    return planes(hu) + planes(hv) + planes([b or sample_trits(N, 1, first + 2)[0]]) + planes([[1 + q % 2 for q in range(N)]])


def block_builds():
    """Blocks of twelve pivots, whole and cut by the last row, with columns that have no pivot, and columns that are exchanged."""
    for i, z in enumerate(BLOCKS):
        n, ku, kv = z
        N, k = n // 2, ku + kv
        first, mixed, right = 71 + 10 * i, sample_order(n, 11, 5), list(range(N, n)) + list(range(N))
        thin = lambda rows: poor(rows, range(N))
        for secret, start in ((block_secret(z, first), mixed), (block_secret(z, first, thin, thin), list(range(n))), (block_secret(z, first, b=[0] * N), right),
                              (block_secret(z, first, thin, None, [0] * N), right), (block_secret(z, first, lacking), mixed), (block_secret(z, first, None, lacking), mixed)):
            call_build(z + (0, 0, 1), secret, start, [9] * n, [[9] * k * words_for(n - k), [8] * k * words_for(n - k)], space(build_work(z)))


def small_draw(z, secret, p, y, v_order, v, u_order, u):
    return call_draw(z, secret, p, y, v_order, v, u_order, u, [[9], [8]], [[5], [4]], DRAW_SPACE)


def digit(t):
    return planes([[t]])


def wide_draw(z, first, gv, gu, v_order, u_order, weight):
    """A draw at N = 66, with the rows made up from `first` on."""
    n, ku, kv = z
    secret = sample_rows(66, 66 - ku, first) + sample_rows(66, 66 - kv, first + 1) + sample_rows(66, 1, first + 2) + [[6148914691236517205, 1], [12297829382473034410, 2]]
    u = [[0x5A5A5A5A5A5A5A5A & (1 << ku) - 1], [0xA5A5A5A5A5A5A5A5 & (1 << ku) - 1]]
    k = ku + kv
    call_draw((n, ku, kv, gv, gu, weight), secret, sample_order(n, 25, 7), sample_rows(n - k, 1, first + 3), v_order, sample_rows(kv, 1, first + 4), u_order, u,
         [[9] * 3, [8] * 3], [[5] * words_for(k), [4] * words_for(k)], space(draw_work(z)))


def block_draw(z, secret, v_order, u_order, first):
    """A draw that is released, if no rank lacks: the weight is the one that comes out."""
    n, ku, kv, gv, gu = z
    k = ku + kv
    p, y, v = sample_order(n, 11, 5), sample_trits(n - k, 1, first)[0], sample_trits(kv, 1, first + 1)[0]
    u = sample_trits(ku, 1, first + 2)[0][:gu] + [1 + q % 2 for q in range(gu, ku)]
    word = drawn(z + (0,), secret, p, y, v_order, v, u_order, u)[1] or [1]
    call_draw(z + (sum(t != 0 for t in word),), secret, p, planes([y]), v_order, planes([v]), u_order, planes([u]),
              [[9] * words_for(n), [8] * words_for(n)], [[5] * words_for(k), [4] * words_for(k)], space(draw_work(z)))


def block_draws():
    """The same sizes: columns without a pivot in the first parts, parts that lack rank, and parts that are whole halves."""
    for i, z in enumerate(BLOCKS):
        n, ku, kv = z
        first, v_order, u_order = 171 + 10 * i, sample_order(n // 2, 11, 1), sample_order(n // 2, 17, 4)
        whole, thin = block_secret(z, first), block_secret(z, first, lambda rows: poor(rows, u_order), lambda rows: poor(rows, v_order))
        for secret, gv, gu in ((whole, 0, 0), (whole, kv, ku), (whole, kv - 1, ku - 1), (whole, kv // 2, 0), (thin, kv, ku), (thin, min(8, kv), min(8, ku)), (thin, 1, ku), (thin, kv, 1)):
            block_draw(z + (gv, gu), secret, v_order, u_order, first + 3)
        for secret in (block_secret(z, first, lacking), block_secret(z, first, None, lacking)):
            block_draw(z + (kv, ku), secret, v_order, u_order, first + 3)


def draw_cases():
    y, other, up, down = [[1], [2]], [1, 3, 0, 2], [0, 1], [1, 0]
    # the paper's draws, and the same under a p that is not its own inverse
    for p in (FIRST, other):
        for w, v, u in ((4, 2, 1), (4, 0, 2), (4, 1, 1), (2, 0, 1), (4, 2, 2), (3, 1, 2)):
            small_draw((4, 1, 1, 0, 0, w), PAPER, p, y, up, digit(v), up, digit(u))
        for gv, gu in GAPS:
            small_draw((4, 1, 1, gv, gu, 4), PAPER, p, y, down, digit(2), up, digit(0))
            small_draw((4, 1, 1, gv, gu, 3), PAPER, p, y, up, digit(0), down, digit(0))
            small_draw((4, 1, 1, gv, gu, 2), PAPER, p, y, up, digit(2), up, digit(0))
    # sizes
    for z in ((2, 1, 1, 0, 0, 1), (16386, 1, 1, 0, 0, 4), (4, 1, 1, 2, 2, 4), (4, 1, 1, 2, 1, 4), (4, 1, 1, 1, 2, 4), (4, 1, 1, 0, 0, 5),
              (16384, 8191, 8191, 8191, 8191, 16384)):
        small_draw(z, PAPER, FIRST, y, up, digit(2), up, digit(1))
    # the contents of each buffer, and two faults at once
    good = [PAPER, FIRST, y, up, digit(2), up, digit(1)]
    faults = [(0, altered(PAPER, 1, [1])), (0, altered(PAPER, 2, [5])), (0, altered(PAPER, 5, [2])), (0, altered(PAPER, 7, [6])), (0, altered(PAPER, 6, [0])), (1, [0, 1, 2, 2]), (1, [0, 1, 2, 9]),
              (2, [[1], [3]]), (2, [[1], [6]]), (3, [0, 0]), (3, [0, 2]), (4, [[1], [1]]), (4, [[0], [2]]), (5, [1, 1]), (5, [7, 0]), (6, [[1], [1]]), (6, [[2], [0]]), (6, [[0], [0]])]
    for at, bad in faults:
        small_draw(SMALL, *altered(good, at, bad))
    small_draw(SMALL, *altered(altered(good, 6, [[0], [0]]), 3, [1, 1]))
    small_draw(SMALL, *altered(altered(good, 1, [0, 0, 0, 0]), 2, [[4], [4]]))
    # 4 before 3 in each buffer; but 3 in a buffer before 4 in a later one
    for at, bad in ((0, [[5], [1]] + PAPER[2:]), (0, PAPER[:6] + [[1], [5]]), (2, [[5], [1]]), (2, [[4], [4]]), (4, [[3], [1]]), (6, [[2], [2]]), (6, [[1], [3]])):
        small_draw(SMALL, *altered(good, at, bad))
    small_draw(SMALL, *altered(altered(good, 2, [[1], [1]]), 4, [[2], [0]]))
    small_draw(SMALL, *altered(altered(good, 4, [[1], [1]]), 6, [[2], [2]]))
    # the first part lacks rank in V, in U, and in both
    small_draw(SMALL, PAPER[:2] + [[2], [0]] + PAPER[4:], *good[1:])
    small_draw(SMALL, [[2], [0]] + PAPER[2:], *good[1:])
    small_draw(SMALL, [[2], [0], [2], [0]] + PAPER[4:], *good[1:])
    for gv, gu in GAPS:
        small_draw((4, 1, 1, gv, gu, 3), [[2], [0], [2], [0]] + PAPER[4:], *good[1:])
    # n = 6: g_V up to k_V = 2, above k_U = 1, and with the halves exchanged; each gap one past its range too
    for ku, kv in ((1, 2), (2, 1)):
        h = {1: planes([[1, 1, 2], [1, 0, 1]]), 2: planes([[0, 1, 1]])}
        for gv, gu, w, first in itertools.product(range(4), range(4), range(1, 7), range(3)):
            call_draw((6, ku, kv, gv, gu, w), h[ku] + h[kv] + planes([[1, 2, 0]]) + planes([[1, 1, 2]]), [5, 3, 1, 0, 4, 2], planes([[2, 1, 2]]),
                      [0, 2, 1], planes([[1, 2][:kv]]), [0, 2, 1], planes([[first, 1][:ku]]), [[9], [8]], [[5], [4]], space(250))
    # rows of more than one word, with gaps from 0 to k_U and k_V
    for z, first, gv, gu, weight in WIDE:
        wide_draw(z, first, gv, gu, sample_order(66, 5, 3), sample_order(66, 7, 60), weight)
    block_draws()
    # lengths of the buffers that are not the secret, each one less and one more
    lengths = draw_lengths(SMALL)
    for at in range(len(lengths)):
        for by in (-1, 1):
            made = [list(x)[:m] + [0] * (m - len(x)) for x, m in zip([FIRST] + y + [up] + digit(2) + [up] + digit(1) + [[9], [8], [5], [4]] + DRAW_SPACE,
                                                                     [m + by * (i == at) for i, m in enumerate(lengths)])]
            p, y1, y2, ov, v1, v2, ou, u1, u2, e1, e2, s1, s2, w1, w2 = made
            call_draw(SMALL, PAPER, p, [y1, y2], ov, [v1, v2], ou, [u1, u2], [e1, e2], [s1, s2], [w1, w2])
    every_word()


def released(z, p, y):
    """All words that draws release for y, over all choices, as numbers in base 3."""
    out = set()
    for v_order, v, u_order, u in itertools.product(([0, 1], [1, 0]), range(3), ([0, 1], [1, 0]), range(3)):
        code, (ones, twos, *_) = small_draw(z, PAPER, p, planes([y]), v_order, digit(v), u_order, digit(u))
        if code == 0:
            out.add(sum(trit(ones, twos, i) * 3 ** i for i in range(4)))
    return sorted(out)


def every_word():
    """Under the paper's two keys at n = 4: every syndrome, both gaps and every weight."""
    global compared
    for start in (FIRST, [1, 2, 0, 3]):
        _, p, R = built(SMALL, PAPER, start)
        for y in itertools.product(range(3), repeat=2):
            for (gv, gu), w in itertools.product(GAPS, range(1, 5)):
                z = (4, 1, 1, gv, gu, w)
                got, wanted = released(z, p, y), meeting(z, PAPER, p, R, y)
                compared += 1
                if got != wanted:
                    sys.exit(f"signer cases: at {z} under {p} for {y} draws release {got}, and the terms hold of {wanted}")
                print(f"g_V {gv}, g_U {gu}, w {w}, p {digits(p)}, y {digits(y)}: released {' '.join(map(str, got)) or 'none'}")


# ---- the sample that joins the halves

def numbers_of(path):
    """The numbers that the sample keeps its secret in."""
    text = open(path).read()
    return {name: [int(x) for x in re.findall(r"\d+", body)] for name, body in re.findall(r"const (\w+): \[\w+; \d+\] = \[([^\]]*)\]", text)}


def digits(trits):
    return "".join(map(str, trits))


def sign_lines():
    z = n, ku, kv, gv, gu, w = 64, 16, 10, 2, 2, 52
    kept = numbers_of(os.path.join(os.path.dirname(__file__), "../crates/sign_lines/src/secret.rt"))
    secret = [kept[name] for name in ("HU_ONES", "HU_TWOS", "HV_ONES", "HV_TWOS", "B_ONES", "B_TWOS", "C_ONES", "C_TWOS")]
    y = rows_of(kept["Y_ONES"], kept["Y_TWOS"], 1, n - ku - kv)[0]
    _, p, R = built(z, secret, kept["START"])
    for x in range(1000):
        bytes_ = [x]
        for _ in range(2):
            bytes_.append((75 * bytes_[-1] + 74) % 65537)
        v = [byte % 243 // 3 ** i % 3 for byte in bytes_[1:] for i in range(5)]
        last = bytes_[-1]
        values = (75 * last + 74) % 65537 % 65536
        u = [1 if values >> j & 1 else 2 for j in range(ku)]
        code, e = drawn(z, secret, p, y, sample_order(32, 2 * (x % 16) + 1, x % 32), v, sample_order(32, 2 * (last % 16) + 1, last % 32), u)
        if code == 0:
            break
    print("P", 7, n, ku + kv, w, sep="\t")
    for row in R:
        print("K", digits(row), sep="\t")
    print("S", 7, 12, digits(y), digits(e[n - ku - kv:]), sep="\t")


WIDE = [((132, 64, 63), 41, 0, 0, 132), ((132, 64, 63), 41, 1, 1, 132), ((132, 30, 31), 51, 0, 0, 102), ((132, 30, 31), 51, 7, 7, 102), ((132, 30, 31), 51, 7, 7, 103),
        ((132, 30, 31), 51, 30, 30, 95), ((132, 30, 31), 51, 0, 7, 102), ((132, 30, 31), 51, 31, 7, 102), ((132, 30, 31), 51, 31, 0, 102), ((132, 30, 31), 51, 0, 30, 95)]

if __name__ == "__main__":
    if sys.argv[1] == "sign":
        sign_lines()
    else:
        library = ctypes.CDLL(os.path.abspath(sys.argv[2]))
        BUILD, DRAW = library.wave_build, library.wave_draw
        BUILD.restype = DRAW.restype = ctypes.c_uint64
        build_cases()
        draw_cases()
        print(f"signer cases: {compared} compared")
