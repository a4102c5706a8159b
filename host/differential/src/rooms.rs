//! Results that go into a lent room: the same bytes in rooms of every size, and nothing else
//! touched.

use crate::guard::PATTERN;
use crate::tally::{Outcome, Tally};
use independent::Refusal;

/// What the lent room holds before the call.
const PATTERN_BYTE: u8 = 0xA5;
const NO_ROOM: Refusal = Refusal { number: 23, record: 0, field: 0 };

/// Rooms of none, one too few, just enough, one more and many more bytes than the result needs;
/// for a refusal, none and plenty.
pub fn around(result: &Result<Vec<u8>, Refusal>, plenty: usize) -> Vec<usize> {
    match result {
        Ok(bytes) => {
            let need = bytes.len();
            vec![0, need - 1, need, need + 1, 2 * need + 1_000]
        }
        Err(_) => vec![0, plenty],
    }
}

/// Puts a call to the library in a room of this size. The call is given the room, its size, and
/// where the result's length goes.
pub fn in_room(
    tally: &mut Tally,
    about: &str,
    input: &[u8],
    result: Result<&[u8], Refusal>,
    room: usize,
    call: impl FnOnce(*mut u8, usize, *mut u64) -> u64,
) {
    let mut lent = vec![PATTERN_BYTE; room];
    let mut length = PATTERN;
    let answer = call(lent.as_mut_ptr(), room, &mut length);
    let given = Outcome::new(answer, [length], &lent);

    let mut memory = vec![PATTERN_BYTE; room];
    let expected = match result {
        Ok(bytes) if bytes.len() <= room => {
            memory[..bytes.len()].copy_from_slice(bytes);
            Outcome::new(0, [bytes.len() as u64], &memory)
        }
        Ok(_) => Outcome::refused(NO_ROOM, &memory),
        Err(refusal) => Outcome::refused(refusal, &memory),
    };
    tally.compare(&format!("{about}, room {room}"), input, given, expected);
}
