// Digests of a whole reading by either reader, through the same calls and the same loop.
use crate::plain;
use crate::replies::{count, walk, Reader, ANSWER, ARGUMENT, EVENT, LOG, RATES, REPLY};

fn mix(x: u64, number: u64) -> u64 {
    x.rotate_left(7).wrapping_add(number)
}

// The digest with the bytes at a place of the archive.
fn mix_bytes(archive: &[u8], x: u64, place: u64, length: u64) -> u64 {
    let chunks = plain::text(archive, place as usize, length as usize).chunks_exact(8);
    let rest = chunks.remainder();
    let x = chunks.fold(x, |x, chunk| mix(x, u64::from_le_bytes(chunk.try_into().unwrap())));
    rest.iter().fold(x, |x, &byte| mix(x, byte as u64))
}

// The digest with the bytes of a text by its three numbers; one that is unresolved has none.
fn mix_text(archive: &[u8], x: u64, text: &[u64]) -> u64 {
    if text[0] == 1 {
        mix_bytes(archive, x, text[1], text[2])
    } else {
        x
    }
}

// The digest with every number of a reply and the bytes of its texts.
fn mix_numbers(archive: &[u8], x: u64, numbers: &[u64]) -> u64 {
    let x = numbers.iter().fold(x, |x, &number| mix(x, number));
    match numbers[0] {
        4 => mix_bytes(archive, x, numbers[2], numbers[3]),
        EVENT => mix_text(archive, mix_text(archive, x, &numbers[10..13]), &numbers[13..16]),
        LOG => mix_bytes(archive, x, numbers[9], numbers[10]),
        ARGUMENT => {
            let x = mix_text(archive, x, &numbers[1..4]);
            if numbers[4] == 6 {
                mix_text(archive, x, &numbers[5..8])
            } else {
                x
            }
        }
        _ => x,
    }
}

// Reads an archive to its end, with every argument and text.
pub fn read<R: Reader>(archive: &[u8], tables: &mut [u32]) -> u64 {
    let mut x = 0;
    walk::<R>(archive, tables, |_, out, tables, _| {
        x = mix_numbers(archive, x, &out[..REPLY]);
        let mut asked = [0; ANSWER];
        for number in 0..count(out) {
            R::argument(archive, tables, &out[ANSWER..], out[1] as usize, number as usize, &mut asked);
            x = mix_numbers(archive, x, &asked);
        }
    });
    x
}

// Steps through an archive and asks for nothing: the place and the current context's rate after each step.
pub fn steps<R: Reader>(archive: &[u8], tables: &mut [u32]) -> u64 {
    let mut x = 0;
    walk::<R>(archive, tables, |_, out, _, _| x = mix(mix(x, out[ANSWER]), out[ANSWER + RATES + out[REPLY - 1] as usize]));
    x
}
