//! Joins: what they are asked of, for pairs of policies of every sort.
use crate::calls::{Lent, Library};
use crate::cases::landed;
use crate::outputs::{writing, Question};
use crate::policies::Policies;
use crate::tally::Tally;
use flowgoal_calls::{Stray, Writing};
use second_search::join::join;

impl Question for Policies {
    fn images(&self) -> Vec<&[u8]> {
        vec![&self.maker, &self.board]
    }
    fn second(&self, output: &mut [u8]) -> Writing {
        writing(join(landed(), &self.maker, &self.board, output))
    }
    fn call(&self, library: Library, images: &[Vec<u8>], output: &mut Lent<u8>) -> Result<Writing, Stray> {
        let [maker, other] = [&images[0], &images[1]];
        // equal policies are lent as one image, so that it is read twice
        let board = if maker == other { maker } else { other };
        library.join(maker, board, output)
    }
    fn count(answer: Writing, tally: &mut Tally) {
        tally.join(answer);
    }
    fn asked(&self) -> String {
        format!("join of {}", self.sort)
    }
}
