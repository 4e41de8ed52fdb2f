//! Enumerations of a generated text.

use super::*;

impl Writer<'_> {
    pub(super) fn enumeration(&mut self, width: usize) {
        let name = self.fresh();
        self.put_all(&["enum", &name, "="]);
        let mut identifiers = Vec::new();
        let mut taken: Vec<usize> = Vec::new();
        for _ in 0..self.rng.between(1, 3) {
            let words = self.free_words(width, &taken);
            if !words.is_empty() {
                identifiers.push(self.identifier(&words));
                taken.extend(words.iter().flat_map(|word| valuations(word)));
            }
        }
        self.scope.enumerations.push(Enumeration {
            name,
            width,
            identifiers,
        });
    }

    fn identifier(&mut self, words: &[String]) -> String {
        let identifier = self.fresh();
        self.put_all(&[&identifier, ":"]);
        for (number, word) in words.iter().enumerate() {
            if number > 0 {
                self.put(",");
            }
            self.put(word);
        }
        identifier
    }

    /// One or two words of the same identifier, which may overlap; none if all are taken.
    fn free_words(&mut self, width: usize, taken: &[usize]) -> Vec<String> {
        (0..self.rng.between(1, 2))
            .filter_map(|_| self.free_word(width, taken))
            .collect()
    }

    /// A word that shares no valuation with those taken, or with the slip any word.
    fn free_word(&mut self, width: usize, taken: &[usize]) -> Option<String> {
        for _ in 0..12 {
            let word = self.word(width);
            if self.intends(Slip::Word) && self.rng.one_in(3) {
                return Some(self.broken_word(word));
            }
            if valuations(&word).iter().all(|v| !taken.contains(v)) {
                return Some(word);
            }
        }
        None
    }

    fn word(&mut self, width: usize) -> String {
        (0..width)
            .map(|_| *self.rng.pick(&['0', '1', '0', '1', '*']))
            .collect()
    }

    fn broken_word(&mut self, word: String) -> String {
        match self.rng.below(3) {
            0 => format!("{word}0"),
            1 => format!("{word}01*01*01"),
            _ => word,
        }
    }
}

fn valuations(word: &str) -> Vec<usize> {
    (0..1usize << word.len().min(8))
        .filter(|v| crate::enumeration::matches(word.as_bytes(), |bit| v >> bit & 1 == 1))
        .collect()
}
