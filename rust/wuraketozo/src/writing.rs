//! Writing a payload.

use crate::ffi;
use crate::record::Flow;
use crate::refusal::Refusal;

/// Writes a whole payload to the front of `buffer` and answers its length:
/// header, user data, the options of an encoded option list, and `fill` zero
/// bytes behind them. Refusals 7, 9 and 8 leave the buffer as it was.
///
/// ```
/// use wuraketozo::{write, Flow};
/// let flow = Flow {
///     source: [192, 0, 2, 1],
///     destination: [198, 51, 100, 7],
///     source_port: 4660,
///     destination_port: 53,
/// };
/// let mut buffer = [0; 64];
/// // One option, kind 6 (REQ), token 300 as a seven-bit number.
/// let length = write(&flow, b"", &[1, 6, 0xAC, 2], 0, &mut buffer)?;
/// assert_eq!(buffer[8..length], [0xF8, 0xC5, 6, 6, 0, 0, 1, 0x2C]);
/// # Ok::<(), wuraketozo::Refusal>(())
/// ```
#[inline]
pub fn write(
    flow: &Flow,
    user: &[u8],
    list: &[u8],
    fill: u8,
    buffer: &mut [u8],
) -> Result<usize, Refusal> {
    let raw = ffi::write(
        flow.source,
        flow.destination,
        flow.source_port,
        flow.destination_port,
        user,
        list,
        fill,
        buffer,
    );
    match raw.refusal {
        0 => Ok(raw.size),
        number => Err(Refusal::of(number)),
    }
}
