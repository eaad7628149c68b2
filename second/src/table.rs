//! All words of one class with the editions that have them.

use crate::edition::EditionMask;
use crate::form::Form;

/// The words of a class: IL and ISS, 26 bits.
pub const WORDS_OF_CLASS: u32 = 1 << 26;

/// The editions of each word of a class, filled from the enumeration.
pub struct ClassTable {
    masks: Vec<u16>,
}

impl ClassTable {
    pub fn of(form: &Form, class: u8) -> ClassTable {
        let mut masks = vec![0; WORDS_OF_CLASS as usize];
        form.records_of_class(class, &mut |_, word, editions| {
            let mask: &mut u16 = &mut masks[(word % WORDS_OF_CLASS) as usize];
            let editions = u16::try_from(editions.0).expect("at most sixteen editions");
            assert_eq!(*mask & editions, 0, "two records make one word");
            *mask |= editions;
        });
        ClassTable { masks }
    }

    pub fn editions(&self, word: u32) -> EditionMask {
        EditionMask(self.masks[(word % WORDS_OF_CLASS) as usize].into())
    }
}
