//! Trits as small numbers modulo 3; a matrix is a list of rows.

pub fn weight(v: &[u8]) -> usize {
    v.iter().filter(|t| **t != 0).count()
}

/// How many trits are 1, and how many are 2.
pub fn ones_and_twos(v: &[u8]) -> (usize, usize) {
    (v.iter().filter(|t| **t == 1).count(), v.iter().filter(|t| **t == 2).count())
}

pub fn plus(a: &[u8], b: &[u8]) -> Vec<u8> {
    assert_eq!(a.len(), b.len());
    a.iter().zip(b).map(|(x, y)| (x + y) % 3).collect()
}

pub fn minus(a: &[u8], b: &[u8]) -> Vec<u8> {
    assert_eq!(a.len(), b.len());
    a.iter().zip(b).map(|(x, y)| (x + 3 - y) % 3).collect()
}

/// The product place by place.
pub fn times(a: &[u8], b: &[u8]) -> Vec<u8> {
    assert_eq!(a.len(), b.len());
    a.iter().zip(b).map(|(x, y)| (x * y) % 3).collect()
}

pub fn negative(a: &[u8]) -> Vec<u8> {
    a.iter().map(|x| (3 - x) % 3).collect()
}

pub fn dot(a: &[u8], b: &[u8]) -> u8 {
    assert_eq!(a.len(), b.len());
    (a.iter().zip(b).map(|(x, y)| (x * y) as u64).sum::<u64>() % 3) as u8
}

/// A matrix times a vector.
pub fn apply(rows: &[Vec<u8>], v: &[u8]) -> Vec<u8> {
    rows.iter().map(|r| dot(r, v)).collect()
}

/// Takes `factor` times row `from` out of `row`.
pub fn take_out(row: &mut [u8], factor: u8, from: &[u8]) {
    assert_eq!(row.len(), from.len());
    for (x, y) in row.iter_mut().zip(from) {
        *x = (*x + (3 - factor) * *y) % 3;
    }
}

/// One column of an elimination: a row from `at` on with a trit there comes to `at`, gets a 1 there, and is taken out of all others. False if there is no such row.
pub fn clear_column(rows: &mut [Vec<u8>], at: usize, column: usize) -> bool {
    let Some(found) = (at..rows.len()).find(|r| rows[*r][column] != 0) else {
        return false;
    };
    rows.swap(at, found);
    let pivot = rows[at][column];
    for t in rows[at].iter_mut() {
        *t = *t * pivot % 3;
    }
    let source = rows[at].clone();
    for (r, row) in rows.iter_mut().enumerate() {
        if r != at && row[column] != 0 {
            let factor = row[column];
            take_out(row, factor, &source);
        }
    }
    true
}

/// The first independent ones among the columns named, in the order named.
pub fn first_independent(rows: &[Vec<u8>], columns: &[usize]) -> Vec<usize> {
    let mut rows = rows.to_vec();
    let mut kept = Vec::new();
    for column in columns {
        if clear_column(&mut rows, kept.len(), *column) {
            kept.push(*column);
        }
    }
    kept
}

pub fn rank(rows: &[Vec<u8>]) -> usize {
    let columns: Vec<usize> = (0..rows[0].len()).collect();
    first_independent(rows, &columns).len()
}

/// The word that is `known` off the pivots and for which the matrix times it is `target`; the pivots' columns are independent, as many as there are rows.
pub fn solve(rows: &[Vec<u8>], pivots: &[usize], known: &[u8], target: &[u8]) -> Vec<u8> {
    let mut word = known.to_vec();
    for q in pivots {
        word[*q] = 0;
    }
    let missing = minus(target, &apply(rows, &word));
    let mut square: Vec<Vec<u8>> = rows.iter().zip(&missing).map(|(row, m)| pivots.iter().map(|q| row[*q]).chain([*m]).collect()).collect();
    for c in 0..pivots.len() {
        assert!(clear_column(&mut square, c, c), "the pivots are not independent");
    }
    for (c, q) in pivots.iter().enumerate() {
        word[*q] = square[c][pivots.len()];
    }
    word
}
