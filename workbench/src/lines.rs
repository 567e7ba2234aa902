//! A file line by line, in bounded memory.

use std::io::{self, BufRead, BufReader, Read};

/// The most bytes that a line may have. A term of 1,024 symbols has room for
/// names of a thousand bytes.
pub const LONGEST: usize = 1 << 20;

/// So many bytes are read at once, if they are there.
const AHEAD: usize = 1 << 16;

pub enum Line {
    /// Without its `\n`, and whether it had one.
    Whole { bytes: Vec<u8>, ended: bool },
    /// It has over `LONGEST` bytes, which were skipped.
    TooLong,
}

pub struct Lines<'a> {
    input: BufReader<&'a mut dyn Read>,
    /// Bytes of the lines so far.
    pub read: u64,
}

impl<'a> Lines<'a> {
    pub fn new(input: &'a mut dyn Read) -> Lines<'a> {
        let input = BufReader::with_capacity(AHEAD, input);
        Lines { input, read: 0 }
    }

    /// Whether the next line is there whole, so that nobody waits for it.
    pub fn is_there(&self) -> bool {
        self.input.buffer().contains(&b'\n')
    }

    /// A last line may end with a line break, and need not.
    pub fn line(&mut self) -> io::Result<Option<Line>> {
        let mut line = Vec::new();
        let most = LONGEST as u64 + 1;
        let got = Read::take(&mut self.input, most).read_until(b'\n', &mut line)?;
        self.read += got as u64;
        if got == 0 {
            return Ok(None);
        }
        let ended = line.last() == Some(&b'\n');
        if ended {
            line.pop();
        } else if line.len() > LONGEST {
            self.skip()?;
            return Ok(Some(Line::TooLong));
        }
        let bytes = line;
        Ok(Some(Line::Whole { bytes, ended }))
    }

    /// The rest of a line.
    fn skip(&mut self) -> io::Result<()> {
        loop {
            let next = self.input.fill_buf()?;
            let end = next.iter().position(|byte| *byte == b'\n');
            let skipped = end.map_or(next.len(), |end| end + 1);
            self.input.consume(skipped);
            self.read += skipped as u64;
            if end.is_some() || skipped == 0 {
                return Ok(());
            }
        }
    }
}
