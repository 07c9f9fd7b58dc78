//! Canonical images: what they are asked of; and, besides what the second search writes, that writing one again changes nothing, and
//! that two policies have the same one exactly when they say the same.
use crate::asking::Asker;
use crate::calls::{Lent, Library};
use crate::cases::landed;
use crate::loose::Loose;
use crate::meaning::{meaning, Meaning};
use crate::outputs::{self, writing, Question};
use crate::retold::{Way, NEAR, SAME};
use crate::tally::Tally;
use flowgoal_calls::{Stray, Writing};
use second_search::canonical::canonical;
use second_search::gen::Rng;
use second_search::policy::{check_policy_landed, Policy};

/// One policy in so many is asked for with an output of every length, where its image is at most so long.
const EVERY: u32 = 200;
const MOST_BYTES: usize = 1000;

/// Of so many policies in a hundred other tellings are tried, where they have at most so many records; so many of them say something
/// else.
const TOLD: u32 = 40;
const MOST_TOLD: usize = 200;
const NEAR_TRIED: usize = 4;

impl Question for Loose {
    fn images(&self) -> Vec<&[u8]> {
        vec![&self.image]
    }
    fn second(&self, output: &mut [u8]) -> Writing {
        writing(canonical(landed(), &self.image, output))
    }
    fn call(&self, library: Library, images: &[Vec<u8>], output: &mut Lent<u8>) -> Result<Writing, Stray> {
        library.canonical(&images[0], output)
    }
    fn count(answer: Writing, tally: &mut Tally) {
        tally.canonical(answer);
    }
    fn asked(&self) -> String {
        format!("canonical image of {}", self.sort)
    }
}

/// A policy with what is asked of its image besides.
struct Asking<'a> {
    asker: Asker,
    loose: &'a Loose,
    policy: Policy,
    meaning: Meaning,
    image: &'a [u8],
}

/// The lengths of the output: those that matter, or every one up to that of the image and one more.
fn lengths(loose: &Loose, every: bool) -> Vec<usize> {
    let lengths = loose.lengths();
    // the fourth of six is that of the image
    match lengths[..] {
        [_, _, _, n, _, _] if every && n <= MOST_BYTES => (0..=n + 1).collect(),
        _ => lengths,
    }
}

/// All that is asked of the image of a policy; gives it where it was written.
pub fn ask(asker: Asker, loose: &Loose, rng: &mut Rng, tally: &mut Tally) -> Result<Option<Vec<u8>>, Vec<String>> {
    let lengths = lengths(loose, rng.range(1, EVERY) == 1);
    let checked = check_policy_landed(landed(), &loose.image);
    let written = outputs::ask(asker, loose, &lengths, tally);
    let (Ok(policy), Ok(Some(image))) = (checked, &written) else { return written.map_err(|why| vec![why]) };
    let asking = Asking { asker, loose, meaning: meaning(&policy), policy, image };
    let wrong: Vec<String> = [asking.again(tally)].into_iter().chain(asking.told(rng, tally)).filter_map(Result::err).collect();
    if wrong.is_empty() {
        written.map_err(|why| vec![why])
    } else {
        Err(wrong)
    }
}

/// The image that the library writes into an output of so many bytes, or the answer in words where it writes none.
fn written_by(library: Library, policy: &[u8], room: usize) -> Result<Vec<u8>, String> {
    let mut output = Lent::new(room);
    match library.canonical(policy, &mut output) {
        Ok(Writing::Written(n)) => Ok(output.entries()[..(n as usize).min(room)].to_vec()),
        Ok(refused) => Err(refused.to_string()),
        Err(stray) => Err(stray.to_string()),
    }
}

impl Asking<'_> {
    /// What the library makes of another policy, in words: the image at hand, another one, or none.
    fn compared(&self, other: &[u8], room: usize) -> (bool, String) {
        match written_by(self.asker.library, other, room) {
            Ok(image) if image == self.image => (true, "the same image".to_string()),
            Ok(_) => (false, "another image".to_string()),
            Err(answer) => (false, answer),
        }
    }

    /// "Writing twice changes nothing": the image of the image, with just the room for it.
    fn again(&self, tally: &mut Tally) -> Result<(), String> {
        let (same, said) = self.compared(self.image, self.image.len());
        tally.again();
        self.asker.say(|| format!("{}, written again: the library gives {said}", self.loose.asked()));
        match same {
            true => Ok(()),
            false => Err(format!("{}, written again: {said}", self.loose.asked())),
        }
    }

    /// The policy told in other ways: in two of those that say the same, the last of which is all of them, and in some of the others.
    fn told(&self, rng: &mut Rng, tally: &mut Tally) -> Vec<Result<(), String>> {
        if self.policy.records.len() > MOST_TOLD || !rng.chance(TOLD) {
            return Vec::new();
        }
        let mut one = |ways: &'static [Way]| &ways[rng.range(0, ways.len() as u32 - 1) as usize];
        let same = [&SAME[SAME.len() - 1], one(&SAME)].map(|way| (way, true));
        let near = [(); NEAR_TRIED].map(|()| (one(&NEAR), false));
        same.into_iter().chain(near).map(|(way, same)| self.tell(way, same, rng, tally)).collect()
    }

    /// "Two policies give equal bytes exactly when" what they say agrees.
    fn tell(&self, way: &Way, same: bool, rng: &mut Rng, tally: &mut Tally) -> Result<(), String> {
        let Some(told) = (way.tell)(rng, &self.policy) else { return Ok(()) };
        let bytes = told.encode();
        if check_policy_landed(landed(), &bytes).is_err() {
            return Ok(());
        }
        let agree = meaning(&told) == self.meaning;
        let asked = || format!("{}, told {}", self.loose.asked(), way.words);
        if same && !agree {
            return Err(format!("{}: the test itself made it say something else", asked()));
        }
        // one that is the policy itself tells nothing
        if same == agree && bytes != self.loose.image {
            tally.told(way.words, same);
        }
        // each of its records makes two at the most
        let (equal, said) = self.compared(&bytes, 2 * bytes.len());
        let says = if agree { "says the same" } else { "says something else" };
        self.asker.say(|| format!("{}: it {says}, and the library gives {said}", asked()));
        match equal == agree {
            true => Ok(()),
            false => Err(format!("{}: it {says}, and the library gives {said}", asked())),
        }
    }
}
