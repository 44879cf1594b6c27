// Numbers written into a lent buffer, by the calls that answer with a set count of them.

use super::lines::BUFFER_TOO_SHORT;
use super::method::Refusal;

// CALL-3, CALL-5, TEXT-5: writes the numbers from the buffer's start and hands back their count, or hands back minus the first refusal and writes
// nothing: 17, then that of the numbers.
pub fn written(numbers: Result<Vec<u64>, Refusal>, count: usize, buffer: &mut [u64]) -> i32 {
    let Some(lent) = buffer.get_mut(..count) else { return -BUFFER_TOO_SHORT };
    match numbers {
        Ok(numbers) => {
            lent.copy_from_slice(&numbers);
            count as i32
        }
        Err(number) => -number,
    }
}
