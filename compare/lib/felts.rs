//! Which exponents the felts had that were compared.

use crate::power::is_in_quarters;
use std::collections::BTreeMap;

/// How many runs had a felt of each word, and how many of those a hammer in contact.
#[derive(Default)]
pub struct Felts(BTreeMap<u32, [u64; 2]>);

/// So many per cent of the runs at least, and of those with a hammer in contact, must have a felt in quarters.
const IN_QUARTERS: u64 = 40;

impl Felts {
    pub fn add(&mut self, word: u32, in_contact: bool) {
        let [runs, contacts] = self.0.entry(word).or_insert([0; 2]);
        *runs += 1;
        *contacts += in_contact as u64;
    }

    /// The runs, and those in contact, of the words that are asked for.
    fn sums(&self, asked: impl Fn(u32) -> bool) -> [u64; 2] {
        let felts = self.0.iter().filter(|(word, _)| asked(**word));
        felts.fold([0; 2], |sums, (_, felt)| [sums[0] + felt[0], sums[1] + felt[1]])
    }

    pub fn report(&self) {
        for (word, [runs, contacts]) in &self.0 {
            println!("felts    h = {word:<20} {runs:>9}, {contacts} in contact");
        }
        let ([runs, contacts], [all, all_contacts]) = (self.sums(is_in_quarters), self.sums(|_| true));
        println!("         {runs} of {all} in quarters, {contacts} of the {all_contacts} in contact");
    }

    /// Whether enough have quarters.
    pub fn enough(&self) -> bool {
        let quarters = self.sums(is_in_quarters);
        let few = quarters.iter().zip(self.sums(|_| true)).any(|(some, all)| 100 * some < IN_QUARTERS * all);
        if few {
            println!("too few felts in quarters: {IN_QUARTERS} % are wanted");
        }
        !few
    }
}
