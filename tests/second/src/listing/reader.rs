//! The run file as words: "either the reader yields a word, or the lister
//! prints the refusal".

use super::{Fault, Stop, CUT, OUT_OF_PLACE};
use std::io::{BufReader, ErrorKind, Read, Result};

const WORD_BYTES: usize = 4;
const BUFFER_BYTES: usize = 64 * 1024;

pub(super) struct Words<R: Read> {
    bytes: BufReader<R>,
    /// The position, from 0, of the word that comes next.
    pub position: u64,
}

impl<R: Read> Words<R> {
    pub fn new(bytes: R) -> Words<R> {
        Words {
            bytes: BufReader::with_capacity(BUFFER_BYTES, bytes),
            position: 0,
        }
    }

    /// The next word as `meaning` reads it. 28 at the position of a cut word,
    /// or where a missing one would stand; 29 where it has no meaning.
    pub fn next<T>(
        &mut self,
        meaning: impl FnOnce(u32) -> Option<T>,
    ) -> std::result::Result<T, Stop> {
        let position = self.position;
        let mut word = [0; WORD_BYTES];
        if self.fill(&mut word)? < WORD_BYTES {
            let number = CUT;
            return Err(Stop::At(Fault { position, number }));
        }
        self.position += 1;
        let number = OUT_OF_PLACE;
        meaning(u32::from_le_bytes(word)).ok_or(Stop::At(Fault { position, number }))
    }

    /// After the end word: any byte, even one, is refused at the position
    /// after it.
    pub fn nothing_more(&mut self) -> std::result::Result<(), Stop> {
        let position = self.position;
        if self.fill(&mut [0])? > 0 {
            let number = OUT_OF_PLACE;
            return Err(Stop::At(Fault { position, number }));
        }
        Ok(())
    }

    /// Reads until the bytes are filled or the file ends; how many it had.
    fn fill(&mut self, bytes: &mut [u8]) -> Result<usize> {
        let mut had = 0;
        while had < bytes.len() {
            match self.bytes.read(&mut bytes[had..]) {
                Ok(0) => break,
                Ok(more) => had += more,
                Err(error) if error.kind() == ErrorKind::Interrupted => {}
                Err(error) => return Err(error),
            }
        }
        Ok(had)
    }
}
