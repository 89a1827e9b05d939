//! The marks: which transaction has sighted which byte of the files. Eight stretches of 4,096 bytes, transaction t's from
//! 4,096 × t on, a bit for each file byte in the order of the files buffer, lowest bit first: byte g of the files buffer is
//! bit g mod 8 of octet 4,096 t + g div 8.

use std::ops::Range;

use crate::store::SPAN;

/// The bits of an octet from `from` up to `to`.
fn bits(from: usize, to: usize) -> u8 {
    ((1u16 << to) - (1u16 << from)) as u8
}

/// Where a stretch of bytes lies in a transaction's octets: bits of the first, whole octets, bits of the last.
struct Parts {
    first: usize,
    first_bits: u8,
    whole: Range<usize>,
    last: usize,
    last_bits: u8,
}

/// None for a stretch without a byte.
fn parts(bytes: Range<usize>) -> Option<Parts> {
    if bytes.is_empty() {
        return None;
    }
    let (first, last) = (bytes.start / 8, (bytes.end - 1) / 8);
    let (low, high) = (bytes.start % 8, (bytes.end - 1) % 8 + 1);
    let first_bits = if first == last { bits(low, high) } else { bits(low, 8) };
    let last_bits = if first == last { 0 } else { bits(0, high) };
    Some(Parts { first, first_bits, whole: first + 1..last.max(first + 1), last, last_bits })
}

/// Transaction t marks the bytes.
pub fn set(marks: &mut [u8], t: usize, bytes: Range<usize>) {
    let own = &mut marks[SPAN * t..SPAN * (t + 1)];
    if let Some(parts) = parts(bytes) {
        own[parts.first] |= parts.first_bits;
        own[parts.whole].fill(255);
        own[parts.last] |= parts.last_bits;
    }
}

/// Whether transaction t has marked one of the bytes.
pub fn any(marks: &[u8], t: usize, bytes: Range<usize>) -> bool {
    let own = &marks[SPAN * t..SPAN * (t + 1)];
    parts(bytes).is_some_and(|parts| {
        own[parts.first] & parts.first_bits != 0
            || own[parts.last] & parts.last_bits != 0
            || own[parts.whole].iter().fold(0, |all, octet| all | octet) != 0
    })
}

/// Clears the marks of transaction t.
pub fn clear(marks: &mut [u8], t: usize) {
    marks[SPAN * t..SPAN * (t + 1)].fill(0);
}

#[cfg(test)]
mod tests {
    use super::*;
    use crate::store::BUFFER;

    fn has(marks: &[u8], t: usize, byte: usize) -> bool {
        marks[SPAN * t + byte / 8] >> (byte % 8) & 1 == 1
    }

    #[test]
    fn a_stretch_is_marked_and_found_byte_by_byte() {
        for t in [0, 3, 7] {
            for start in [0, 1, 7, 8, 4089, 4096, 32750] {
                for length in [0, 1, 2, 7, 8, 9, 15, 16, 17, 18] {
                    let mut marks = vec![0; BUFFER];
                    set(&mut marks, t, start..start + length);
                    for u in 0..8 {
                        for byte in 0..BUFFER {
                            let inside = u == t && (start..start + length).contains(&byte);
                            assert_eq!(has(&marks, u, byte), inside);
                        }
                    }
                    assert_eq!(any(&marks, t, 0..BUFFER), length > 0);
                    assert!(!any(&marks, t, 0..start) && !any(&marks, t, start + length..BUFFER));
                    for byte in start..start + length {
                        assert!(any(&marks, t, byte..byte + 1) && !any(&marks, (t + 1) % 8, byte..byte + 1));
                    }
                    clear(&mut marks, (t + 1) % 8);
                    assert_eq!(any(&marks, t, 0..BUFFER), length > 0);
                    clear(&mut marks, t);
                    assert!(marks.iter().all(|octet| *octet == 0));
                }
            }
        }
    }

    /// An octet for each file byte, bit t for transaction t, as paper 01 has it; and the same marks by transaction.
    #[test]
    fn an_old_arrangement_and_its_new_one_name_the_same_pairs() {
        let old: Vec<u8> = (0..BUFFER).map(|i| ((i * 48271 + i / 251) % 253) as u8).collect();
        let octet = |i: usize| (0..8).fold(0, |octet, k| octet | (old[8 * (i % SPAN) + k] >> (i / SPAN) & 1) << k);
        let new: Vec<u8> = (0..BUFFER).map(octet).collect();
        for t in 0..8 {
            for byte in 0..BUFFER {
                assert_eq!(has(&new, t, byte), old[byte] >> t & 1 == 1);
            }
        }
    }
}
