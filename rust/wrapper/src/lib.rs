//! Questions about a table image, answered by the proved code. The declarations here repeat those of
//! include/liskobran.h for the functions of the archive; nothing checks them against the Rattle
//! source (crates/capi), which is why the differential test asks through them.

/// A refusal: its number in document 01, "Numbers that say no", and the bit of the image at which
/// it arose.
#[derive(Debug, Clone, Copy, PartialEq, Eq)]
pub struct Refusal {
    pub number: u32,
    pub place: u64,
}

/// A number of 0 says that the question is answered.
fn unless_refused(number: u32, place: u64) -> Result<(), Refusal> {
    match number {
        0 => Ok(()),
        number => Err(Refusal { number, place }),
    }
}

/// The points of a pair of tasks, in ticks.
#[derive(Debug, Clone, Copy, PartialEq, Eq)]
pub struct Points {
    pub publishing: u64,
    pub reading: u64,
}

/// The ages of a chain, in ticks up to the valve, and how many basic paths it has.
#[derive(Debug, Clone, Copy, PartialEq, Eq)]
pub struct Ages {
    pub paths: u32,
    pub longest: u32,
    pub worst: u32,
    pub best: u32,
    pub jitter: u32,
}

#[repr(C)]
struct LiskobranAnswer {
    number: u32,
    place: u64,
}

#[repr(C)]
struct LiskobranPoints {
    number: u32,
    place: u64,
    publishing: u64,
    reading: u64,
}

#[repr(C)]
struct LiskobranListing {
    number: u32,
    place: u64,
    bytes: u64,
}

#[repr(C)]
struct LiskobranAges {
    number: u32,
    place: u64,
    paths: u32,
    longest: u32,
    worst: u32,
    best: u32,
    jitter: u32,
}

// SAFETY of each call: the functions require nothing but slices, each of which is an address that is
// not null, even of no bytes, and the number of bytes that may be read there; of a lent buffer, which
// shares no byte with the image, also written. They keep no pointer and write nowhere else.
extern "C" {
    fn liskobran_read_slice(image: *const u8, length: usize) -> LiskobranAnswer;
    fn liskobran_points_slice(
        image: *const u8,
        length: usize,
        writer: u64,
        reader: u64,
        n: u64,
    ) -> LiskobranPoints;
    fn liskobran_listing_slice(
        image: *const u8,
        length: usize,
        core: u64,
        buffer: *mut u8,
        room: usize,
    ) -> LiskobranListing;
    fn liskobran_ages_slice(image: *const u8, length: usize, chain: u64) -> LiskobranAges;
}

/// Is the image accepted, or with which number and at which place is it refused?
pub fn read(image: &[u8]) -> Result<(), Refusal> {
    // SAFETY: a slice, as above.
    let answer = unsafe { liskobran_read_slice(image.as_ptr(), image.len()) };
    unless_refused(answer.number, answer.place)
}

/// The publishing point P(n) and the reading point Q(n) of two tasks of the image's table.
pub fn points(image: &[u8], writer: u64, reader: u64, n: u64) -> Result<Points, Refusal> {
    // SAFETY: a slice, as above; any numbers may be asked.
    let answer = unsafe { liskobran_points_slice(image.as_ptr(), image.len(), writer, reader, n) };
    unless_refused(answer.number, answer.place)?;
    Ok(Points { publishing: answer.publishing, reading: answer.reading })
}

/// The copy listing of a core: the first bytes of the buffer, where it has room for all of them.
pub fn listing<'a>(image: &[u8], core: u64, buffer: &'a mut [u8]) -> Result<&'a [u8], Refusal> {
    let (lent, room) = (buffer.as_mut_ptr(), buffer.len());
    // SAFETY: two slices, as above, one of them borrowed for writing alone; any core may be asked.
    let answer = unsafe { liskobran_listing_slice(image.as_ptr(), image.len(), core, lent, room) };
    unless_refused(answer.number, answer.place)?;
    Ok(&buffer[..answer.bytes as usize])
}

/// The ages of a chain.
pub fn ages(image: &[u8], chain: u64) -> Result<Ages, Refusal> {
    // SAFETY: a slice, as above; any chain may be asked.
    let answer = unsafe { liskobran_ages_slice(image.as_ptr(), image.len(), chain) };
    unless_refused(answer.number, answer.place)?;
    let LiskobranAges { paths, longest, worst, best, jitter, .. } = answer;
    Ok(Ages { paths, longest, worst, best, jitter })
}
