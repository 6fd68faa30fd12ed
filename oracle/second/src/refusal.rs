//! "Calls and their numbers": a refusal is its number, tried in 01's order, and
//! 02's numbers where 02 puts them.

/// Stops a call with its number if the condition holds.
pub fn refuse_if(condition: bool, number: u8) -> Result<(), u8> {
    if condition {
        Err(number)
    } else {
        Ok(())
    }
}

/// The number a call returns: 0 if it was not refused.
pub fn number_of(outcome: Result<(), u8>) -> u8 {
    outcome.err().unwrap_or(0)
}

/// The other way round: goes on only if an inner call was not refused.
pub fn accepted(number: u8) -> Result<(), u8> {
    refuse_if(number != 0, number)
}
