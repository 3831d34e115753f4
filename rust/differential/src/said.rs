//! What is said to a question: document 01's number and place, the values of the answer, and what the
//! lent buffer then holds. Where the question is answered the number and the place are 0; where it is
//! refused there is no value.

use crate::question::Question;

#[derive(Debug, Clone, PartialEq, Eq)]
pub struct Said {
    pub number: u32,
    pub place: u64,
    pub values: Vec<u64>,
    /// The whole buffer; no bytes where none was lent.
    pub lent: Vec<u8>,
}

impl Said {
    fn new(values: Result<Vec<u64>, (u32, u64)>, lent: Vec<u8>) -> Said {
        match values {
            Ok(values) => Said { number: 0, place: 0, values, lent },
            Err((number, place)) => Said { number, place, values: Vec::new(), lent },
        }
    }

    pub fn answered(values: &[u64]) -> Said {
        Said::new(Ok(values.to_vec()), Vec::new())
    }

    /// The question is refused, with the buffer left as it was.
    pub fn refused(question: Question, number: u32, place: u64) -> Said {
        Said::new(Err((number, place)), question.lent())
    }

    /// The listing is put into the first bytes of the buffer, if that has room.
    pub fn listed(question: Question, listing: &[u8]) -> Said {
        let mut lent = question.lent();
        match lent.get_mut(..listing.len()) {
            Some(first) => first.copy_from_slice(listing),
            None => return Said::refused(question, 11, 0),
        }
        Said::new(Ok(vec![listing.len() as u64]), lent)
    }

    /// The bytes listed, where a listing is answered.
    pub fn listing(&self, question: Question) -> Option<&[u8]> {
        match (question, &self.values[..]) {
            (Question::Listing { .. }, &[bytes]) => self.lent.get(..bytes as usize),
            _ => None,
        }
    }
}

/// By the proved code.
pub fn by_proved_code(image: &[u8], question: Question) -> Said {
    let mut lent = question.lent();
    let values = match question {
        Question::Read => liskobran::read(image).map(|()| Vec::new()),
        Question::Points { writer, reader, n } => liskobran::points(image, writer, reader, n)
            .map(|points| vec![points.publishing, points.reading]),
        Question::Listing { core, .. } => {
            liskobran::listing(image, core, &mut lent).map(|listing| vec![listing.len() as u64])
        }
        Question::Ages { chain } => liskobran::ages(image, chain).map(|ages| {
            [ages.paths, ages.longest, ages.worst, ages.best, ages.jitter].map(u64::from).to_vec()
        }),
    };
    Said::new(values.map_err(|refusal| (refusal.number, refusal.place)), lent)
}
