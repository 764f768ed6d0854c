//! Room that a text is written into, whole or not at all, and what is handed back about it.

pub const DONE: u32 = 0;
pub const OUT_SHORT: u32 = 36;

/// What issue and narrow hand back: document 01's number, and how many characters of text stand at the
/// front of the room. With a refusal these are 0.
#[derive(Clone, Copy, Debug, PartialEq, Eq)]
pub struct Written {
    pub answer: u32,
    pub length: u32,
}

/// Lays a text that was made at the front of the room; what lies behind it stays, and so does all of the
/// room where there is no text or too little room for it.
pub(crate) fn hand_out(made: Result<Vec<u8>, u32>, room: &mut [u8]) -> Written {
    match made.and_then(|text| lay(&text, room)) {
        Ok(length) => Written { answer: DONE, length },
        Err(answer) => Written { answer, length: 0 },
    }
}

fn lay(text: &[u8], room: &mut [u8]) -> Result<u32, u32> {
    room.get_mut(..text.len()).ok_or(OUT_SHORT)?.copy_from_slice(text);
    // A token's text has at most 5,462 characters.
    Ok(text.len() as u32)
}

#[cfg(test)]
mod tests {
    use super::*;

    #[test]
    fn a_text_is_laid_whole_or_not_at_all() {
        let mut room = *b"......";
        assert_eq!(hand_out(Ok(b"abc".to_vec()), &mut room), Written { answer: DONE, length: 3 });
        assert_eq!(&room, b"abc...");
        assert_eq!(hand_out(Ok(b"123456".to_vec()), &mut room), Written { answer: DONE, length: 6 });
        assert_eq!(&room, b"123456");
        assert_eq!(hand_out(Ok(vec![b'x'; 7]), &mut room), Written { answer: OUT_SHORT, length: 0 });
        assert_eq!(hand_out(Err(7), &mut room), Written { answer: 7, length: 0 });
        assert_eq!(&room, b"123456");
        assert_eq!(hand_out(Ok(b"a".to_vec()), &mut []), Written { answer: OUT_SHORT, length: 0 });
    }
}
