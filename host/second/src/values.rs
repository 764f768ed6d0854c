//! The value of a custom caveat: integers, byte strings, text, false, true, null, and arrays of these
//! inside one another. All else is refused.

use crate::cbor::{head, malformed, out_of_bounds, run, Defect, ARRAY, BYTES, TEXT, UNSIGNED};
use crate::utf8::is_utf8;

const NEGATIVE: u8 = 1;
const FALSE: u8 = 0xf4;
const NULL: u8 = 0xf6;

/// The place behind the value at `at`, in which arrays stand at most `depth` deep. The arrays still
/// open are kept as a list of how many elements each still wants, so a count costs nothing by itself.
pub fn value(s: &[u8], at: usize, depth: u8) -> Result<usize, Defect> {
    let mut open: Vec<u64> = Vec::new();
    let mut at = at;
    loop {
        let head = head(s, at)?;
        if head.major == ARRAY {
            if open.len() == usize::from(depth) {
                return Err(out_of_bounds(at));
            }
            open.push(head.value);
            at = head.next;
        } else {
            at = scalar(s, at, head.major)?;
        }
        while open.last() == Some(&0) {
            open.pop();
        }
        match open.last_mut() {
            Some(wanted) => *wanted -= 1,
            None => return Ok(at),
        }
    }
}

/// The place behind an item that is no array and whose head, of type `major`, is good.
fn scalar(s: &[u8], at: usize, major: u8) -> Result<usize, Defect> {
    match major {
        UNSIGNED | NEGATIVE => Ok(head(s, at)?.next),
        BYTES => Ok(run(s, at, BYTES, 0, u64::MAX)?.1),
        TEXT => {
            let (from, to) = run(s, at, TEXT, 0, u64::MAX)?;
            if is_utf8(&s[from..to]) { Ok(to) } else { Err(malformed(from)) }
        }
        _ if (FALSE..=NULL).contains(&s[at]) => Ok(at + 1),
        _ => Err(malformed(at)),
    }
}

#[cfg(test)]
mod tests {
    use super::*;

    #[test]
    fn scalars_are_read_whole() {
        let good: [&[u8]; 12] = [
            &[0x17],
            &[0x18, 0x18],
            &[0x20],
            &[0x3b, 255, 255, 255, 255, 255, 255, 255, 255],
            &[0x40],
            &[0x42, 0xff, 0x80],
            &[0x60],
            &[0x61, 0],
            &[0x63, 0xef, 0xbb, 0xbf],
            &[0xf4],
            &[0xf5],
            &[0xf6],
        ];
        for bytes in good {
            assert_eq!(value(bytes, 0, 0), Ok(bytes.len()), "{bytes:02x?}");
        }
        assert_eq!(value(&[9, 0xf5, 9], 1, 0), Ok(2));
    }

    #[test]
    fn what_is_no_value_is_refused_at_its_head() {
        let bad: [&[u8]; 14] = [
            &[],
            &[0xa0],
            &[0xc0, 0],
            &[0xe0],
            &[0xf3],
            &[0xf7],
            &[0xf8, 0x14],
            &[0xf8, 0x20],
            &[0xf9, 0x3c, 0],
            &[0xfa, 0x3f, 0x80, 0, 0],
            &[0xfb, 0x3f, 0xf0, 0, 0, 0, 0, 0, 0],
            &[0x5f, 0xff],
            &[0x18, 0x17],
            &[0x62, b'a'],
        ];
        for bytes in bad {
            assert_eq!(value(bytes, 0, 4), Err(malformed(0)), "{bytes:02x?}");
            let inside = [&[0x82, 0x00], bytes].concat();
            assert_eq!(value(&inside, 0, 4), Err(malformed(2)), "{inside:02x?}");
        }
        assert_eq!(value(&[0x82, 0x00], 7, 4), Err(malformed(7)));
    }

    #[test]
    fn bad_text_is_refused_where_content_begins() {
        assert_eq!(value(&[0x63, b'a', 0xed, 0xa0], 0, 0), Err(malformed(1)));
        assert_eq!(value(&[0x81, 0x78, 24, 0xc0], 0, 1), Err(malformed(1)));
        let long = [&[0x81, 0x78, 24][..], &[0xc0; 24]].concat();
        assert_eq!(value(&long, 0, 1), Err(malformed(3)));
    }

    #[test]
    fn the_fifth_array_is_out_of_bounds_once_its_head_is_good() {
        assert_eq!(value(&[0x81, 0x81, 0x81, 0x80], 0, 4), Ok(4));
        assert_eq!(value(&[0x81, 0x81, 0x81, 0x81, 0xf6], 0, 4), Ok(5));
        assert_eq!(value(&[0x81, 0x81, 0x81, 0x81, 0x80], 0, 4), Err(out_of_bounds(4)));
        assert_eq!(value(&[0x81, 0x81, 0x81, 0x81, 0x98, 0x17], 0, 4), Err(malformed(4)));
        assert_eq!(value(&[0x81, 0x81, 0x81, 0x81, 0xa0], 0, 4), Err(malformed(4)));
        assert_eq!(value(&[0x80], 0, 0), Err(out_of_bounds(0)));
    }

    #[test]
    fn arrays_close_and_give_their_level_back() {
        assert_eq!(value(&[0x83, 0x80, 0x81, 0x00, 0x80, 0x00], 0, 2), Ok(5));
        assert_eq!(value(&[0x82, 0x82, 0x80, 0x80, 0x01, 0x02], 0, 3), Ok(5));
    }

    #[test]
    fn a_count_past_the_bytes_runs_out_of_them() {
        let endless = [0x9b, 255, 255, 255, 255, 255, 255, 255, 255, 1, 2, 3];
        assert_eq!(value(&endless, 0, 1), Err(malformed(12)));
        let spoiled = [0x9b, 255, 255, 255, 255, 255, 255, 255, 255, 1, 0xa0, 3];
        assert_eq!(value(&spoiled, 0, 1), Err(malformed(10)));
    }
}
