use crate::handle::handle;
use crate::{sys, Refusal};

handle! {
    /// Room for a survey, made before it: so a collection takes no memory.
    Tables, compressor_tables_drop
}

impl Tables {
    /// Tables with room for a survey of so many words: two bits a word, 8 bytes for each 64 words, and 4 a word, of
    /// which a survey touches those of the objects that it reaches.
    ///
    /// # Errors
    /// `OutOfMemory`.
    pub fn reserve(words: u64) -> Result<Tables, Refusal> {
        Ok(Tables::made(|tables| sys::compressor_tables_reserve(words, tables))?.0)
    }
}
