// What is left after writing a job into lent bytes: that of a text, one from
// numbers or one from records. Every byte holds its mark before. The text
// itself is told as it stands, and all bytes behind it as the other tables are,
// so that a byte too many or one that was not cleared is found out.

use crate::job::Job;
use crate::lent::{Lent, BYTE_MARK};
use crate::write::write_again;

/// How many bytes the batch program has for a text. More are not lent; the
/// generator stays below.
pub const TEXT_PLACES: usize = 47_242;

/// Writing a job once and then so many times more.
pub fn again(out: u16, writings: u16, job: &Job) -> Lent {
    let mut bytes = vec![BYTE_MARK as u8; TEXT_PLACES];
    let length = write_again(writings, &mut bytes[..TEXT_PLACES.min(out.into())], job);
    let behind = length.unwrap_or(0);
    let left = bytes[behind..].iter().map(|&byte| byte.into()).collect();
    let said = length.map(|length| {
        let text = String::from_utf8_lossy(&bytes[..length]);
        // The line feed at the end of the text ends the answer's last line.
        let lines = text.strip_suffix('\n').expect("a text ends with a line feed");
        format!("BYTES {}\n{}", length, lines)
    });
    Lent { said, tables: vec![("out", left)] }
}
