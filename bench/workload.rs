//! The measured questions as bytes in a file, for programs in any language: for each question
//! n, S, T and k, one byte each, and then the table of n·n bytes.

pub struct Question {
    pub radios: usize,
    pub source: usize,
    pub destination: usize,
    pub wanted: usize,
    pub table: Vec<u8>,
}

impl Question {
    fn cell(&self, row: usize, column: usize) -> usize {
        usize::from(self.table[row * self.radios + column])
    }

    fn degree(&self, radio: usize) -> usize {
        let others = (0..self.radios).filter(|&other| other != radio);
        others.map(|other| self.cell(radio, other)).sum()
    }

    /// A cell on the diagonal is 1 for a handheld.
    fn inner_handhelds(&self) -> usize {
        let inner =
            (0..self.radios).filter(|&radio| radio != self.source && radio != self.destination);
        inner.map(|radio| self.cell(radio, radio)).sum()
    }

    /// The A of the documents.
    pub fn number_of_steps(&self) -> usize {
        let both_ways: usize = (0..self.radios).map(|radio| self.degree(radio)).sum();
        let direct = self.cell(self.source, self.destination);
        let at_ends = self.degree(self.source) + self.degree(self.destination);
        both_ways + direct + self.radios - 2 - self.inner_handhelds() - at_ends
    }

    /// What refusals 7 and 8 ask for: the lengths of log, path list and cut list.
    pub fn lengths_needed(&self) -> [usize; 3] {
        [
            4 * (2 * self.wanted + 1) * self.number_of_steps(),
            self.radios - 2 + 3 * self.wanted,
            self.wanted,
        ]
    }
}
