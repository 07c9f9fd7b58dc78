//! Questions that are lent work slices and a path slice: one of them, asked with slices of every length.
use crate::asking::Asker;
use crate::calls::{Lent, Library};
use crate::tally::Tally;
use flowgoal_calls::Stray;
use std::fmt;

/// With work slices of more entries, or a path of more steps than this, not every length of the path slice is tried.
const MOST_WORK: usize = 4096;
const MOST_STEPS: usize = 256;

/// A question with all that it is asked of but for the slices.
pub trait Question {
    type Answer: Copy + PartialEq + fmt::Display;
    /// The refusal of work slices that are too short.
    const NO_WORK: Self::Answer;
    /// The refusal of a path slice that is too short for so many steps.
    fn no_room(steps: u32) -> Self::Answer;
    /// The images that it is asked of.
    fn images(&self) -> Vec<&[u8]>;
    /// One call with copies of the images.
    fn call(&self, library: Library, images: &[Vec<u8>], work: &mut [Lent; 2], path: &mut Lent) -> Result<Self::Answer, Stray>;
    fn count(answer: Self::Answer, tally: &mut Tally);
    /// The answer as it is printed, with the path where the slice shows one.
    fn record(answer: Self::Answer, slice: &[u32]) -> String;
    /// What it is asked of, before what is said of it; nothing where the case says it.
    fn asked(&self) -> String;
}

/// What is printed, as one line.
pub fn on_one_line(printed: &str) -> String {
    printed.trim_end().replace('\n', "; ")
}

/// The lengths of the slices that a call is lent.
#[derive(Clone, Copy)]
pub struct Lengths {
    pub work: [usize; 2],
    pub path: usize,
}

impl fmt::Display for Lengths {
    fn fmt(&self, f: &mut fmt::Formatter) -> fmt::Result {
        write!(f, "work slices {:?}, path slice {}", self.work, self.path)
    }
}

/// What is wanted where there is a path: a shortest one has so many steps, and where there is room for it the answer is this one
/// and the entries pass.
pub struct Shortest<'a, A> {
    pub steps: usize,
    pub answer: A,
    pub validate: &'a dyn Fn(&[u32]) -> Result<(), String>,
}

impl<A> Shortest<'_, A> {
    /// The entries of the path.
    fn entries(&self) -> usize {
        2 * self.steps + 1
    }
    /// Every length from 0 to 2m + 2, or the ones around the turns where the search takes long.
    fn path_lengths(&self, work: usize) -> Vec<usize> {
        match work <= MOST_WORK && self.steps <= MOST_STEPS {
            true => (0..=self.entries() + 1).collect(),
            false => vec![0, self.entries() - 1, self.entries(), self.entries() + 1],
        }
    }
}

/// A question, who is asked, and where what the calls answer is counted.
pub struct Asking<'a, Q> {
    pub asker: Asker,
    pub question: Q,
    pub tally: &'a mut Tally,
}

impl<Q: Question> Asking<'_, Q> {
    /// One call, with what must hold of every call; gives the answer and the path slice.
    fn call(&mut self, lengths: Lengths) -> Result<(Q::Answer, Lent), String> {
        let mut work = lengths.work.map(Lent::new);
        let mut path = Lent::new(lengths.path);
        let images: Vec<Vec<u8>> = self.question.images().into_iter().map(<[u8]>::to_vec).collect();
        let answer = self.question.call(self.asker.library, &images, &mut work, &mut path);
        let asked = || self.question.asked();
        self.asker.say(|| match answer {
            Ok(answer) => format!("{}the library says, with {lengths}: {}", asked(), Q::record(answer, path.entries())),
            Err(stray) => format!("{}the library, with {lengths}: {stray}", asked()),
        });
        let answer = answer.map_err(|stray| format!("{stray} ({lengths})"))?;
        Q::count(answer, self.tally);
        if images != self.question.images() {
            return Err(format!("an image was changed ({lengths})"));
        }
        if !work.iter().all(Lent::kept_inside) || !path.kept_inside() {
            return Err(format!("an entry outside a lent slice was changed ({lengths})"));
        }
        Ok((answer, path))
    }

    /// A call that must give this answer.
    fn answered(&mut self, lengths: Lengths, wanted: Q::Answer) -> Result<Lent, String> {
        let (answer, path) = self.call(lengths)?;
        match answer == wanted {
            true => Ok(path),
            false => Err(format!("{answer}, expected {wanted} ({lengths})")),
        }
    }

    /// A call that must give this answer and leave the path slice alone.
    pub fn untouched(&mut self, lengths: Lengths, wanted: Q::Answer) -> Result<(), String> {
        match self.answered(lengths, wanted)?.unchanged_from(0) {
            true => Ok(()),
            false => Err(format!("the path slice was changed with the answer {wanted} ({lengths})")),
        }
    }

    /// A call where there is a path: 12 with m where it has no room, and else a path that passes.
    fn shown(&mut self, lengths: Lengths, shortest: &Shortest<Q::Answer>) -> Result<(), String> {
        if lengths.path < shortest.entries() {
            return self.untouched(lengths, Q::no_room(shortest.steps as u32));
        }
        let path = self.answered(lengths, shortest.answer)?;
        if !path.unchanged_from(shortest.entries()) {
            return Err(format!("an entry from 2m + 1 on was changed ({lengths})"));
        }
        let entries = &path.entries()[..shortest.entries()];
        (shortest.validate)(entries).map_err(|why| format!("the path shown: {why}"))
    }

    /// Path slices of every length, with work slices of this one; and longer work slices.
    pub fn every_length(&mut self, work: usize, shortest: &Shortest<Q::Answer>) -> Result<(), String> {
        for path in shortest.path_lengths(work) {
            self.shown(Lengths { work: [work; 2], path }, shortest)?;
        }
        self.shown(Lengths { work: [work + 1, work + 5], path: shortest.entries() }, shortest)
    }

    /// Work slices that need so many entries, with one too few in either.
    pub fn too_little_work(&mut self, need: usize) -> Result<(), String> {
        for work in [[need - 1, need], [need, need - 1]] {
            self.untouched(Lengths { work, path: 9 }, Q::NO_WORK)?;
        }
        Ok(())
    }
}
