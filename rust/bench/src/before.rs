//! The listing by an earlier archive, which is linked under another name (build.rs). The declarations
//! repeat those of the wrapper.

use plain::reading::Refusal;

#[repr(C)]
struct LiskobranListing {
    number: u32,
    place: u64,
    bytes: u64,
}

extern "C" {
    fn liskobran_listing_slice_before(
        image: *const u8,
        length: usize,
        core: u64,
        buffer: *mut u8,
        room: usize,
    ) -> LiskobranListing;
}

pub fn listing(image: &[u8], core: u64, buffer: &mut [u8]) -> Result<u64, Refusal> {
    let (lent, room) = (buffer.as_mut_ptr(), buffer.len());
    // SAFETY: what the wrapper says of its call. The function reads one slice and writes to the
    // other, which is borrowed for writing alone; it keeps no pointer; any core may be asked.
    let answer =
        unsafe { liskobran_listing_slice_before(image.as_ptr(), image.len(), core, lent, room) };
    match answer.number {
        0 => Ok(answer.bytes),
        number => Err((number, answer.place)),
    }
}
