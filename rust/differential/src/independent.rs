//! What the independent program says. It reads an image once for all questions that follow one
//! another, and lists a core once for all rooms.

use independent::{ages_in, listing_in, listing_length_in, points_in, read, Refusal, Table};

use crate::question::Question;
use crate::said::Said;

pub struct Independent {
    image: Vec<u8>,
    read: Result<Table, Refusal>,
    /// Of the core asked for last, how long its listing is, and the listing once there was room.
    core: Option<u64>,
    length: Result<u64, Refusal>,
    listing: Vec<u8>,
}

impl Independent {
    /// Begins with the empty image.
    pub fn new() -> Independent {
        let nothing = Refusal::new(1, 0);
        Independent {
            image: Vec::new(),
            read: Err(nothing),
            core: None,
            length: Err(nothing),
            listing: Vec::new(),
        }
    }

    /// The table of an image, where it is accepted.
    pub fn table(&mut self, image: &[u8]) -> Result<&Table, Refusal> {
        if self.image != image {
            *self = Independent { image: image.to_vec(), read: read(image), ..Independent::new() };
        }
        self.read.as_ref().map_err(|&refusal| refusal)
    }

    /// How many bytes the listing of a core has.
    pub fn length(&mut self, image: &[u8], core: u64) -> Result<u64, Refusal> {
        self.table(image)?;
        if self.core != Some(core) {
            self.core = Some(core);
            self.length = listing_length_in(self.table(image)?, core);
            self.listing.clear();
        }
        self.length
    }

    /// The listing of a core, where there is room for it.
    fn listing(&mut self, image: &[u8], core: u64, room: usize) -> Result<&[u8], Refusal> {
        let length = self.length(image, core)?;
        if (room as u64) < length {
            return Err(Refusal::new(11, 0));
        }
        if self.listing.is_empty() {
            let mut listing = vec![0xff; length as usize];
            let bytes = listing_in(self.table(image)?, core, &mut listing)?;
            listing.truncate(bytes);
            self.listing = listing;
        }
        Ok(&self.listing)
    }

    pub fn says(&mut self, image: &[u8], question: Question) -> Said {
        let said = match question {
            Question::Read => self.table(image).map(|_| Said::answered(&[])),
            Question::Points { writer, reader, n } => self.table(image).and_then(|table| {
                points_in(table, writer, reader, n)
                    .map(|(publishing, reading)| Said::answered(&[publishing, reading]))
            }),
            Question::Ages { chain } => self.table(image).and_then(|table| {
                ages_in(table, chain).map(|ages| {
                    let values = [ages.paths, ages.longest, ages.worst, ages.best, ages.jitter];
                    Said::answered(&values)
                })
            }),
            Question::Listing { core, room } => {
                self.listing(image, core, room).map(|listing| Said::listed(question, listing))
            }
        };
        said.unwrap_or_else(|refusal| Said::refused(question, refusal.number, refusal.place))
    }
}
