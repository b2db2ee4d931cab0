// Compares the proved repacker with the plain one, reply by reply and byte by byte, and times both on the same archives.
use crate::make::{self, Long, Random};
use crate::plain::Stop;
use crate::repack::{self, ROOM_WORDS};
use crate::{best, listing, ours, save};

type Packed = Result<usize, Stop>;

// What both repackers answer with a room and an output of these lengths, filled at random before; the reply and the output.
fn compare(random: &mut Random, archive: &[u8], words: usize, space: usize) -> Result<(Packed, Vec<u8>), String> {
    let mut our_room: Vec<u32> = (0..words).map(|_| random.next() as u32).collect();
    let mut our_output: Vec<u8> = (0..space).map(|_| random.next() as u8).collect();
    let (mut plain_room, mut plain_output) = (our_room.clone(), our_output.clone());
    let got = ours::repack(archive, &mut our_room, &mut our_output);
    let expected = repack::repack(archive, &mut plain_room, &mut plain_output);
    let lent = format!("a room of {words} words and an output of {space} bytes");
    if got != expected {
        return Err(format!("{lent}: ours {got:?}, plain {expected:?}"));
    }
    if our_room != plain_room {
        return Err(format!("{lent}: the rooms differ"));
    }
    if our_output != plain_output {
        let at = our_output.iter().zip(&plain_output).position(|(a, b)| a != b);
        return Err(format!("{lent}: the outputs differ at {at:?}"));
    }
    Ok((expected, plain_output))
}

// What was written reads as the same list of items, is not longer, and is repacked to itself.
fn trust(archive: &[u8], written: &[u8]) -> Result<(), String> {
    let items = |archive: &[u8]| {
        let lines = listing::listing(archive);
        let end = lines.windows(5).rposition(|part| part == b"\nend ").unwrap();
        lines[..end].to_vec()
    };
    if items(archive) != items(written) {
        return Err("what was written reads as another list".into());
    }
    let mut again = vec![0; written.len()];
    let reply = repack::repack(written, &mut [0; ROOM_WORDS], &mut again);
    if archive.len() < written.len() || reply != Ok(written.len()) || again != written {
        return Err("what was written is not the shortest".into());
    }
    Ok(())
}

// Both repackers with a room and an output that are long enough, and then with others; how many calls, and the first reply.
pub fn compare_all(random: &mut Random, archive: &[u8]) -> Result<(u64, Packed), String> {
    let (reply, output) = compare(random, archive, ROOM_WORDS, archive.len() + 8)?;
    let length = reply.unwrap_or(archive.len());
    if let Ok(length) = reply {
        trust(archive, &output[..length])?;
    }
    let spaces = [length.saturating_sub(1), length, length + 1 + random.below(20), random.below(length + 1)];
    for space in spaces {
        let more = random.below(3);
        compare(random, archive, ROOM_WORDS + more, space).map(drop)?;
    }
    for words in [ROOM_WORDS - 1, random.below(ROOM_WORDS)] {
        let space = spaces[random.below(4)];
        compare(random, archive, words, space).map(drop)?;
    }
    Ok((3 + spaces.len() as u64, reply))
}

// The lines of the expected answers for what the plain repacker gives.
pub fn lines(archive: &[u8]) -> Vec<u8> {
    let mut output = vec![0; archive.len()];
    match repack::repack(archive, &mut [0; ROOM_WORDS], &mut output) {
        Err(stop) => format!("pack {} {}\n", stop.number, stop.place),
        Ok(length) => {
            let digits: String = output[..length].iter().map(|byte| format!("{byte:02x}")).collect();
            format!("pack 0 {length}\n{digits}\n")
        }
    }
    .into_bytes()
}

pub fn test(many: usize) {
    let mut random = Random(0x9ac4);
    let (mut calls, mut outcomes, mut saved, mut total) = (0, [0; 15], 0, 0);
    let mut one = |archive: &[u8], random: &mut Random| match compare_all(random, archive) {
        Ok((n, reply)) => {
            calls += n;
            match reply {
                Ok(length) => {
                    saved += archive.len() - length;
                    total += archive.len();
                    outcomes[0] += 1;
                }
                Err(stop) => outcomes[stop.number as usize] += 1,
            }
        }
        Err(what) => save(archive, &what),
    };
    for i in 0..many {
        let archive = match i % 8 {
            0..=2 => make::bytes_of(&make::sound(&mut random).concat()),
            3 | 4 => make::lossy(&mut random),
            5 | 6 => {
                let records = make::sound(&mut random);
                make::damaged(&mut random, records)
            }
            _ if random.chance(50) => make::bytes_of(&make::records(&mut random).concat()),
            _ => {
                let records = make::records(&mut random);
                make::damaged(&mut random, records)
            }
        };
        one(&archive, &mut random);
    }
    for texts in 509..514 {
        for threads in 253..258 {
            one(&make::many(&mut random, texts, threads), &mut random);
        }
    }
    let archive = make::bytes_of(&make::sound(&mut Random(793)).concat());
    for n in 0..=archive.len() {
        one(&archive[..n], &mut random);
    }
    println!(
        "{many} archives, whole, cut and damaged, 25 about the limits of a context, and one cut at each of its {} bytes: {calls} repackings, no difference",
        archive.len()
    );
    println!("they ended by number (0 to 14, with room): {outcomes:?}; of {total} bytes that were taken {saved} were saved");
    let whole = make::every_kind(&mut random);
    assert!(repack::repack(&whole, &mut [0; ROOM_WORDS], &mut vec![0; whole.len()]).is_ok());
    for bit in 0..8 * whole.len() {
        let mut archive = whole.clone();
        archive[bit / 8] ^= 1 << (bit % 8);
        if let Err(what) = compare(&mut random, &archive, ROOM_WORDS, archive.len()) {
            save(&archive, &what);
        }
    }
    println!("an archive with each of its {} bits changed: no difference", 8 * whole.len());
    for n in [16_777_208, 16_777_216, 16_777_217, 16_777_224] {
        let mut long = make::long(n, 5, Long { logs: 20, ..Long::new(50, 3) });
        long.truncate(n);
        long.resize(n, 0);
        if let Err(what) = compare(&mut random, &long, ROOM_WORDS, n) {
            save(&long, &what);
        }
    }
    println!("repackings about the longest length: no difference");
}

const RUNS: usize = 9;

// The timed archives, by name.
fn kinds() -> [(&'static str, Long); 14] {
    let near = |inline, providers| Long { providers, texts: 500, threads: 250, ..Long::new(inline, 6) };
    let spelled = |texts, spelling| Long { texts, spelling, ..Long::new(10, 6) };
    [
        ("registered", Long::new(10, 6)),
        ("half", Long::new(50, 6)),
        ("inline", Long::new(100, 6)),
        ("registered, 500 texts", near(10, 5)),
        ("inline, 500 texts", near(100, 5)),
        ("inline, 500 texts, 8 providers", near(100, 8)),
        ("registered, no arguments", Long::new(10, 0)),
        ("registered, a third logs", Long { logs: 33, ..Long::new(10, 6) }),
        // names of one pattern and a number; of 256 bytes, the number at 240 to 243
        ("..worker-0001.phase.1.completed, 100 texts", spelled(100, make::worker_and_phase)),
        ("c001of9, 500 texts", spelled(500, make::part_of_nine)),
        ("000010, 500 texts", spelled(500, make::tens)),
        ("..0001.completed, 256 bytes, 500 texts", spelled(500, make::late_number)),
        ("0001.battery.charge.., 500 texts", spelled(500, make::number_in_front)),
        ("display.frame.1.presented.., 500 texts", spelled(500, make::counter_in_the_middle)),
    ]
}

pub fn time(mib: usize) {
    println!(
        "\n{:<42} {:>6} {:>8} {:>8} {:>11} {:>11} {:>7}",
        "repacking", "MiB", "to MiB", "events", "ours ns/ev", "Rust ns/ev", "ratio"
    );
    for (name, of) in kinds() {
        for (what, bytes) in [(name, mib << 20), ("  a quarter as long", mib << 18)] {
            let archive = make::long(bytes, 99, of);
            let (mut room, mut output) = (vec![0; ROOM_WORDS], vec![0; archive.len()]);
            let (mut other_room, mut other) = (room.clone(), output.clone());
            let length = |reply: Packed| reply.expect("the archive is taken") as u64;
            let (a, b) = best(
                RUNS,
                || length(ours::repack(&archive, &mut room, &mut output)),
                || length(repack::repack(&archive, &mut other_room, &mut other)),
            );
            assert!(output == other && room == other_room, "the outputs differ");
            let written = length(repack::repack(&archive, &mut other_room, &mut other));
            let events = make::events(&archive) as f64;
            println!(
                "{:<42} {:>6.1} {:>8.1} {:>8} {:>11.1} {:>11.1} {:>7.2}",
                what,
                archive.len() as f64 / (1 << 20) as f64,
                written as f64 / (1 << 20) as f64,
                events,
                a / events,
                b / events,
                a / b
            );
        }
    }
}

// Repacks one of the timed archives once, ours alone, for a program that counts instructions; short: with no output, so that it is
// refused by 14 once all is counted and nothing has been written.
pub fn once(mib: usize, name: &str, short: bool) {
    let Some((_, of)) = kinds().into_iter().find(|(kind, _)| *kind == name) else {
        println!("archives: {:?}", kinds().map(|(kind, _)| kind));
        return;
    };
    let archive = make::long(mib << 20, 99, of);
    let mut output = vec![0; if short { 0 } else { archive.len() }];
    let reply = ours::repack(&archive, &mut [0; ROOM_WORDS], &mut output);
    println!("{name}: {} bytes, {} events: {reply:?}", archive.len(), make::events(&archive));
}
