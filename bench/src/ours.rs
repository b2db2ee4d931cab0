// The proved reader and repacker, as crates/exports/out/libexports.a has them. A slice crosses as its pointer and length.
use crate::plain::Stop;
use crate::replies::Reader;

#[link(name = "exports", kind = "static")]
extern "C" {
    fn inthuchot_open(archive: *const u8, n: usize, tables: *mut u32, room: usize, out: *mut u64, space: usize) -> u64;
    fn inthuchot_step(archive: *const u8, n: usize, tables: *mut u32, room: usize, numbers: *const u64, many: usize, out: *mut u64, space: usize) -> u64;
    fn inthuchot_argument(archive: *const u8, n: usize, tables: *const u32, room: usize, numbers: *const u64, many: usize, event: usize, number: usize, out: *mut u64, space: usize) -> u64;
    fn inthuchot_repack(archive: *const u8, n: usize, room: *mut u32, words: usize, output: *mut u8, bytes: usize, out: *mut u64, space: usize) -> u64;
}

pub struct Ours;

impl Reader for Ours {
    fn open(archive: &[u8], tables: &mut [u32], out: &mut [u64]) -> u64 {
        unsafe { inthuchot_open(archive.as_ptr(), archive.len(), tables.as_mut_ptr(), tables.len(), out.as_mut_ptr(), out.len()) }
    }

    fn step(archive: &[u8], tables: &mut [u32], numbers: &[u64], out: &mut [u64]) -> u64 {
        unsafe {
            inthuchot_step(archive.as_ptr(), archive.len(), tables.as_mut_ptr(), tables.len(), numbers.as_ptr(), numbers.len(), out.as_mut_ptr(), out.len())
        }
    }

    fn argument(archive: &[u8], tables: &[u32], numbers: &[u64], event: usize, number: usize, out: &mut [u64]) -> u64 {
        let (bytes, words, state, space) = (archive.as_ptr(), tables.as_ptr(), numbers.as_ptr(), out.len());
        unsafe { inthuchot_argument(bytes, archive.len(), words, tables.len(), state, numbers.len(), event, number, out.as_mut_ptr(), space) }
    }
}

// Of the four numbers 1 is a refusal, with number and place, and 11 what was written, with its length.
pub fn repack(archive: &[u8], room: &mut [u32], output: &mut [u8]) -> Result<usize, Stop> {
    let mut out = [0; 4];
    let (bytes, words, written) = (archive.as_ptr(), room.as_mut_ptr(), output.as_mut_ptr());
    let put = unsafe { inthuchot_repack(bytes, archive.len(), words, room.len(), written, output.len(), out.as_mut_ptr(), out.len()) };
    match (put, out) {
        (4, [1, number, place, 0]) => Err(Stop { number: number as u8, place: place as usize }),
        (4, [11, length, 0, 0]) => Ok(length as usize),
        _ => panic!("a repack replied {put} with {out:?}"),
    }
}
