//! The solvers' copy: a record without what its loads and semaphores saw (document 02, P12).

use super::record::{read, MAX_SIZE};

/// Writes the copy to the front of the buffer and gives its length, which is the record's. The record's questions are asked
/// first, then 25; a refusal changes no byte, and bytes past the copy stay.
pub fn solvers_copy(record: &[u8], buffer: &mut [u8]) -> Result<usize, u8> {
    let mut execution = read(record)?;
    let room = buffer.get_mut(..record.len()).ok_or(25)?;
    for instruction in &mut execution.instructions {
        instruction.seen = [0; MAX_SIZE];
    }
    room.copy_from_slice(&execution.to_bytes());
    Ok(record.len())
}
