use super::Space;
use crate::{Refusal, Shape, Value, FROM_SPACE};

impl Space<'_> {
    /// For debugging: gives all objects addresses that none has had, in these roots and in all references and weak
    /// words. So a value that was kept elsewhere leads nowhere from then on: to load from it is a panic, and where it
    /// is stored or handed in, the next turn finds it. Turn after each collection of a debug build; a collection
    /// turns the space back. It looks at all words, one object after the other.
    ///
    /// # Errors
    /// `BadRoot`; `BadReference`; `ObjectPastEnd`. Then some words have the new addresses.
    pub fn turn(&mut self, roots: &mut [Value]) -> Result<(), Refusal> {
        let turns = self.turns & 0xf_ffff;
        self.turns += 1;
        self.turn_to(FROM_SPACE * (3 + 2 * turns), roots)
    }

    /// Gives all objects the addresses back that the library wants, as before a survey or a flip.
    ///
    /// # Errors
    /// As [`turn`](Space::turn).
    pub fn turn_back(&mut self, roots: &mut [Value]) -> Result<(), Refusal> {
        if self.base == FROM_SPACE {
            return Ok(());
        }
        self.turn_to(FROM_SPACE, roots)
    }

    fn turn_to(&mut self, base: u64, roots: &mut [Value]) -> Result<(), Refusal> {
        let (old, used, edition) = (self.base, self.used(), self.edition);
        let turned = |value: Value| {
            let index = value.word().wrapping_sub(old);
            match value.is_reference() {
                true => (index < used).then(|| Value::of_word(base + index)),
                false => Some(value),
            }
        };
        for (number, root) in (0..).zip(roots) {
            *root = turned(*root).ok_or(Refusal::BadRoot { number })?;
        }
        let (words, mut at) = (self.words(), 0);
        while at < used {
            let shape = Shape::of(edition, words[at as usize]);
            if shape.words() > used - at {
                return Err(Refusal::ObjectPastEnd { index: at });
            }
            let first = at + 1;
            for index in first..first + u64::from(shape.refs) + u64::from(shape.weak) {
                let word = &mut words[index as usize];
                let value = turned(Value::of_word(*word));
                *word = value.ok_or(Refusal::BadReference { index })?.word();
            }
            at += shape.words();
        }
        self.base = base;
        self.empty_buffers();
        Ok(())
    }
}
