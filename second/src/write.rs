// Writing a job as its text, the way back from reading it: rule 7.15, with the
// checks of rule 8.30 and what rule 9.14 leaves in the lent bytes. The checks
// are those of any job from numbers; whether walks join the ends is not asked.
// The generator's texts are put together in text.rs, by other means, so that
// the selftest can hold each of the two to the other.

use crate::job::{refuse, Job, Refusal};
use crate::text;

/// The least length of the bytes that are lent for a text. No accepted job has
/// a longer one.
pub const LEAST_TEXT: usize = 47_142;

/// Lent bytes, written on from the front.
struct Sheet<'a> {
    bytes: &'a mut [u8],
    used: usize,
}

impl Sheet<'_> {
    fn byte(&mut self, byte: u8) {
        self.bytes[self.used] = byte;
        self.used += 1;
    }

    /// The digits from the highest down: the unit starts at the greatest power
    /// of ten that the number reaches, so no zero comes first but for 0.
    fn number(&mut self, number: usize) {
        let mut unit = 1;
        while number / unit > 9 {
            unit *= 10;
        }
        while unit > 0 {
            self.byte(b'0' + (number / unit % 10) as u8);
            unit /= 10;
        }
    }

    fn heading(&mut self, word: &str, count: usize) {
        word.bytes().for_each(|letter| self.byte(letter));
        self.byte(b' ');
        self.number(count);
        self.byte(b'\n');
    }

    fn pair(&mut self, first: u16, second: u16) {
        self.number(first.into());
        self.byte(b' ');
        self.number(second.into());
        self.byte(b'\n');
    }

    fn single(&mut self, number: u16) {
        self.number(number.into());
        self.byte(b'\n');
    }
}

/// Writes the text of a job to the front of the lent bytes and zeros behind it
/// up to their least length, and says how many bytes the text has. Refusal 9
/// touches nothing, any other refusal leaves zeros up to the least length.
pub fn write(lent: &mut [u8], job: &Job) -> Result<usize, Refusal> {
    if lent.len() < LEAST_TEXT {
        return refuse(9, 0);
    }
    lent[..LEAST_TEXT].fill(0);
    job.check()?;
    let mut sheet = Sheet { bytes: lent, used: 0 };
    sheet.heading("NODES", job.hall.nodes as usize);
    sheet.heading("LANES", job.hall.lane_numbers.len() / 2);
    job.hall.lane_numbers.chunks(2).for_each(|lane| sheet.pair(lane[0], lane[1]));
    if !job.hall.closed.is_empty() {
        sheet.heading("CLOSED", job.hall.closed.len());
        job.hall.closed.iter().for_each(|&node| sheet.single(node));
    }
    sheet.heading("CARRIERS", job.moves.len());
    job.moves.iter().for_each(|asked| sheet.pair(asked.start, asked.goal));
    sheet.heading("ORDER", job.order.len());
    job.order.iter().for_each(|&carrier| sheet.single(carrier));
    if job.dwell > 0 {
        sheet.heading("DWELL", job.dwell as usize);
    }
    Ok(sheet.used)
}

/// How much a job holds, to be added up over many readings.
fn size(job: &Job) -> usize {
    let entries = job.hall.lane_numbers.len() + job.hall.closed.len() + job.moves.len();
    entries + job.order.len() + job.dwell as usize
}

/// The job of a text, which is read once and then so many times more. The
/// further readings and writings are for the benchmark; what they give is added
/// up and looked at, so that none of them can be left out.
pub fn read_again(readings: u16, text: &[u8]) -> Result<Job, Refusal> {
    let job = text::read(text)?;
    let read: usize = (0..readings).map(|_| text::read(text).map_or(0, |again| size(&again))).sum();
    assert_eq!(read, usize::from(readings) * size(&job), "the same job each time");
    Ok(job)
}

/// Writes a job once and then so many times more, each time over the last.
pub fn write_again(writings: u16, lent: &mut [u8], job: &Job) -> Result<usize, Refusal> {
    let length = write(lent, job)?;
    let written: usize = (0..writings).map(|_| write(lent, job).unwrap_or(0)).sum();
    assert_eq!(written, usize::from(writings) * length, "the same text each time");
    Ok(length)
}
