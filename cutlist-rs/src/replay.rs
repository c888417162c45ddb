//! What a link log is made of, and what the library answers to one.

use crate::refusal::Refusal;

/// The command of an event by which a cable goes down.
pub const DOWN: u8 = 0x44;

/// The command of an event by which a cable comes up.
pub const UP: u8 = 0x55;

/// The count of an answer to a log, if the answer is whole: a byte for each event, which is 1 or 0.
/// Of anything else the crate does not know what it says.
pub(crate) fn whole(log: &[u8], silent: &[u8], count: usize) -> Result<usize, Refusal> {
    let each = log.len().is_multiple_of(2) && count == log.len() / 2;
    let Some(bytes) = silent.get(..count).filter(|_| each) else {
        return Err(Refusal::Unknown(0));
    };
    match bytes.iter().find(|&&byte| byte > 1) {
        Some(&byte) => Err(Refusal::Unknown(byte)),
        None => Ok(count),
    }
}

#[cfg(test)]
mod tests {
    use super::*;

    const LOG: [u8; 6] = [DOWN, 0, DOWN, 1, UP, 0];

    #[test]
    fn a_whole_answer_has_a_byte_for_each_event() {
        assert_eq!(whole(&LOG, &[0, 1, 0], 3), Ok(3));
        assert_eq!(whole(&LOG, &[0, 1, 0, 7], 3), Ok(3));
        assert_eq!(whole(&[], &[], 0), Ok(0));
        for count in [0, 1, 2, 4, 5, 6, usize::MAX] {
            let answer = whole(&LOG, &[0, 1, 0, 1, 0, 1], count);
            assert_eq!(answer, Err(Refusal::Unknown(0)), "{count}");
        }
        // Half an event is never taken, and bytes that were not lent are none.
        assert_eq!(whole(&LOG[..5], &[0, 1, 0], 2), Err(Refusal::Unknown(0)));
        assert_eq!(whole(&LOG[..5], &[0, 1, 0], 3), Err(Refusal::Unknown(0)));
        assert_eq!(whole(&LOG, &[0, 1], 3), Err(Refusal::Unknown(0)));
    }

    #[test]
    fn a_byte_that_is_neither_1_nor_0_is_an_error() {
        for byte in 2..=u8::MAX {
            for place in 0..3 {
                let mut silent = [0, 1, 1];
                silent[place] = byte;
                assert_eq!(whole(&LOG, &silent, 3), Err(Refusal::Unknown(byte)));
            }
        }
    }
}
