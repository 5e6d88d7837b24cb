//! What the writers of texts put.
use std::fs::File;
use std::io::{self, Write};

/// Puts a number in decimal.
pub fn put_number(out: &mut Vec<u8>, number: u64) {
    let mut digits = [0; 20];
    let mut at = digits.len();
    let mut rest = number;
    loop {
        at -= 1;
        digits[at] = b'0' + (rest % 10) as u8;
        rest /= 10;
        if rest == 0 {
            break;
        }
    }
    out.extend_from_slice(&digits[at..]);
}

/// Puts words one behind the other.
pub fn put(out: &mut Vec<u8>, words: &[&[u8]]) {
    for word in words {
        out.extend_from_slice(word);
    }
}

/// Puts a word, and names with a blank before each.
pub fn put_words(out: &mut Vec<u8>, word: &[u8], names: impl Iterator<Item = impl AsRef<[u8]>>) {
    out.extend_from_slice(word);
    for name in names {
        out.push(b' ');
        out.extend_from_slice(name.as_ref());
    }
}

/// Puts the lines of a table's rows.
pub fn put_rows(out: &mut Vec<u8>, rows: &[u8], count: usize, width: usize, on: bool) {
    for k in 0..count {
        if width > 0 {
            out.extend_from_slice(&rows[k * width..(k + 1) * width]);
            out.push(b' ');
        }
        out.extend_from_slice(if on { b"1\n" } else { b"0\n" });
    }
}

/// The most bytes that are kept before they are written.
const PIECE: usize = 65_536;

/// Writes what is kept, where that is much.
pub fn turn(kept: &mut Vec<u8>, out: &mut File) -> io::Result<()> {
    if kept.len() >= PIECE {
        out.write_all(kept)?;
        kept.clear();
    }
    Ok(())
}
