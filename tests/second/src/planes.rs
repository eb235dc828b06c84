//! Rows of trits in two planes of 64-bit words, ones and twos, least significant bit first; each row begins a new word.

pub fn words(m: usize) -> usize {
    m.div_ceil(64)
}

fn bit(plane: &[u64], row_start: usize, place: usize) -> bool {
    plane[row_start + place / 64] >> (place % 64) & 1 == 1
}

/// 4 for a bit set past the length of any row; then 3 for a bit set in both planes, anywhere; else 0. The lengths are right.
pub fn fault(ones: &[u64], twos: &[u64], rows: usize, m: usize) -> u64 {
    for r in 0..rows {
        for place in m..64 * words(m) {
            if bit(ones, r * words(m), place) || bit(twos, r * words(m), place) {
                return 4;
            }
        }
    }
    if ones.iter().zip(twos).any(|(a, b)| a & b != 0) {
        return 3;
    }
    0
}

/// The rows of trits in the planes.
pub fn read(ones: &[u64], twos: &[u64], rows: usize, m: usize) -> Vec<Vec<u8>> {
    (0..rows).map(|r| (0..m).map(|j| bit(ones, r * words(m), j) as u8 + 2 * bit(twos, r * words(m), j) as u8).collect()).collect()
}

/// The one row of trits in the planes.
pub fn read_row(ones: &[u64], twos: &[u64], m: usize) -> Vec<u8> {
    read(ones, twos, 1, m).remove(0)
}

/// Writes a row over the words lent, bits past its length 0.
pub fn write_row(row: &[u8], ones: &mut [u64], twos: &mut [u64]) {
    assert!(ones.len() == words(row.len()) && twos.len() == words(row.len()));
    ones.fill(0);
    twos.fill(0);
    for (j, t) in row.iter().enumerate() {
        match t {
            0 => {}
            1 => ones[j / 64] |= 1 << (j % 64),
            2 => twos[j / 64] |= 1 << (j % 64),
            _ => panic!("{t} is no trit"),
        }
    }
}

/// Writes the rows one after another.
pub fn write(rows: &[Vec<u8>], ones: &mut [u64], twos: &mut [u64]) {
    let mut at = 0;
    for row in rows {
        let next = at + words(row.len());
        write_row(row, &mut ones[at..next], &mut twos[at..next]);
        at = next;
    }
    assert!(at == ones.len() && at == twos.len());
}

/// The planes of these rows.
pub fn planes(rows: &[Vec<u8>]) -> (Vec<u64>, Vec<u64>) {
    let count = rows.iter().map(|r| words(r.len())).sum();
    let (mut ones, mut twos) = (vec![0; count], vec![0; count]);
    write(rows, &mut ones, &mut twos);
    (ones, twos)
}
