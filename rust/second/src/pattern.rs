//! Patterns.
use crate::refusal::{ensure, refusal, Refusal};
use crate::values::{value, Value};

/// One value for each input, in line order.
pub type Pattern = Vec<Value>;

/// Reads 1 to 256 patterns for so many inputs. Refusals 8 and 9.
pub fn read_all(bytes: &[u8], inputs: usize) -> Result<Vec<Pattern>, Refusal> {
    let patterns = bytes.chunks_exact(inputs);
    ensure(patterns.remainder().is_empty() && (1..=256).contains(&patterns.len()), 8)?;
    let values = bytes.iter().enumerate().map(|(place, &byte)| value(byte).ok_or(refusal(9, place)));
    let values = values.collect::<Result<Pattern, _>>()?;
    Ok(values.chunks_exact(inputs).map(<[_]>::to_vec).collect())
}
