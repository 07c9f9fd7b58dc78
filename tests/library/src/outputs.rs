//! Questions that are lent an output, into which they write an image: one of them, asked with outputs of every length that matters,
//! against what the second search writes, byte for byte.
use crate::asking::Asker;
use crate::calls::{Lent, Library};
use crate::tally::Tally;
use flowgoal_calls::{policy_length, Stray, Writing, MOST_RECORDS};

/// Room for every policy.
pub const ROOM: usize = policy_length(MOST_RECORDS);

/// An image of more bytes is asked for with fewer outputs: the second search takes long.
const LONG: usize = ROOM / 2;

/// A question with the images that it is asked of.
pub trait Question {
    fn images(&self) -> Vec<&[u8]>;
    /// What the second search answers; it writes as the library does.
    fn second(&self, output: &mut [u8]) -> Writing;
    /// One call with copies of the images.
    fn call(&self, library: Library, images: &[Vec<u8>], output: &mut Lent<u8>) -> Result<Writing, Stray>;
    fn count(answer: Writing, tally: &mut Tally);
    /// What it is asked of, before what is said of it.
    fn asked(&self) -> String;
    /// The lengths of the output that it is asked with: around that of the result, or, of a refusal, from none to room for all.
    fn lengths(&self) -> Vec<usize> {
        let all = self.images().iter().map(|image| image.len()).sum::<usize>();
        let some = 2 + all % 40;
        match self.second(&mut vec![0; ROOM]) {
            Writing::Written(n) if n as usize <= LONG => {
                let n = n as usize;
                vec![0, 1, n - 1, n, n + 1, n + some]
            }
            Writing::Written(n) => vec![0, n as usize - 1, n as usize, n as usize + some],
            Writing::Refused(15) => vec![0, some, ROOM, 2 * all],
            Writing::Refused(_) => vec![0, some, all],
        }
    }
}

/// The answer to a question that the second search answers so.
pub fn writing(second: Result<usize, u32>) -> Writing {
    match second {
        Ok(length) => Writing::Written(length as u32),
        Err(number) => Writing::Refused(number),
    }
}

/// The question with outputs of these lengths; gives the image where it was written.
pub fn ask<Q: Question>(asker: Asker, question: &Q, lengths: &[usize], tally: &mut Tally) -> Result<Option<Vec<u8>>, String> {
    let mut image = None;
    for &length in lengths {
        let wrong = |why: String| format!("{}, output {length}: {why}", question.asked());
        image = ask_with(asker, question, length, tally).map_err(wrong)?.or(image);
    }
    Ok(image)
}

/// One call, with what must hold of it.
fn ask_with<Q: Question>(asker: Asker, question: &Q, length: usize, tally: &mut Tally) -> Result<Option<Vec<u8>>, String> {
    let (mut ours, mut output) = (Lent::new(length), Lent::new(length));
    let wanted = question.second(ours.lend());
    let images: Vec<Vec<u8>> = question.images().into_iter().map(<[u8]>::to_vec).collect();
    let answer = question.call(asker.library, &images, &mut output);
    let asked = || format!("{}, output {length}", question.asked());
    asker.say(|| match answer {
        Ok(answer) => format!("{}: the second search says {wanted}, the library {answer}", asked()),
        Err(stray) => format!("{}: the second search says {wanted}, and from the library {stray}", asked()),
    });
    let answer = answer.map_err(|stray| stray.to_string())?;
    Q::count(answer, tally);
    if answer != wanted {
        return Err(format!("{answer}, expected {wanted}"));
    }
    if images != question.images() {
        return Err("an image was changed".to_string());
    }
    match answer {
        Writing::Written(n) => written(&output, ours.entries(), n as usize).map(Some),
        Writing::Refused(_) if output.unchanged_from(0) => Ok(None),
        Writing::Refused(_) => Err(format!("the output was changed with the answer {answer}")),
    }
}

/// The image in the output, where it is the second search's and nothing else was touched.
fn written(output: &Lent<u8>, ours: &[u8], length: usize) -> Result<Vec<u8>, String> {
    let image = &output.entries()[..length];
    if let Some(at) = (0..length).find(|&at| image[at] != ours[at]) {
        return Err(format!("byte {at} of the image is {}, expected {}", image[at], ours[at]));
    }
    match output.unchanged_from(length) {
        true => Ok(image.to_vec()),
        false => Err("a byte behind the image was changed".to_string()),
    }
}
