// Compares the proved reader and repacker with plain Rust ones, reply by reply, and times them on the same archives; the comparison of
// texts likewise.
// Arguments: `read`, `repack`, `compare` or `all`, then `test N` or `time MIB`, then corpus.bin and probes.bin, if there are any; their
// expected answers are looked for beside them. `repack once MIB ARCHIVE` repacks one of the timed archives once, to count instructions.
mod compare;
mod digest;
mod listing;
mod make;
mod ours;
mod packing;
mod plain;
mod repack;
mod replies;

use make::{Long, Random};
use ours::Ours;
use plain::{State, TABLE_WORDS};
use replies::{replies, Plain, Reader, REPLY, STATE};
use std::hint::black_box;

// What both readers answer for a whole archive, with tables of so many words that are filled at random; how many replies.
fn compare(archive: &[u8], room: usize, seed: u64) -> Result<u64, String> {
    let mut random = Random(seed | 1);
    let mut our_tables: Vec<u32> = (0..room).map(|_| random.next() as u32).collect();
    let mut plain_tables = our_tables.clone();
    let got = replies::<Ours>(archive, &mut our_tables);
    let expected = replies::<Plain>(archive, &mut plain_tables);
    if got != expected {
        let at = got.iter().zip(&expected).position(|(a, b)| a != b).unwrap_or(got.len().min(expected.len()));
        return Err(format!("reply {at}: ours {:?}, plain {:?}", got.get(at), expected.get(at)));
    }
    if our_tables != plain_tables {
        return Err("the tables differ".into());
    }
    if digest::read::<Ours>(archive, &mut our_tables) != digest::read::<Plain>(archive, &mut plain_tables) {
        return Err("the digests differ".into());
    }
    if digest::steps::<Ours>(archive, &mut our_tables) != digest::steps::<Plain>(archive, &mut plain_tables) {
        return Err("the digests of the steps differ".into());
    }
    Ok(got.len() as u64)
}

// The number of the last reply of a step: which refusals the cases reach.
fn outcome(archive: &[u8]) -> u8 {
    let mut tables = vec![0; TABLE_WORDS];
    let mut state = match plain::open(archive, &mut tables) {
        Ok(state) => state,
        Err(stop) => return stop.number,
    };
    loop {
        if let Err(stop) = plain::step(archive, &mut state, &mut tables) {
            return stop.number;
        }
    }
}

// One call of each kind from numbers that stand for a state: what the lent words hold afterwards, those behind the reply too.
#[derive(Debug, PartialEq)]
struct Calls {
    asked: (u64, Vec<u64>),
    stepped: (u64, Vec<u64>),
    opened: (u64, Vec<u64>),
    step_tables: Vec<u32>,
    open_tables: Vec<u32>,
}

fn calls<R: Reader>(archive: &[u8], tables: &[u32], numbers: &[u64], event: usize, number: usize, space: usize) -> Calls {
    let lent: Vec<u64> = (0..space as u64).map(|i| 1000 + i).collect();
    let (mut step_tables, mut open_tables) = (tables.to_vec(), tables.to_vec());
    let put = |call: &mut dyn FnMut(&mut [u64]) -> u64| {
        let mut out = lent.clone();
        (call(&mut out), out)
    };
    Calls {
        asked: put(&mut |out| R::argument(archive, tables, numbers, event, number, out)),
        stepped: put(&mut |out| R::step(archive, &mut step_tables, numbers, out)),
        opened: put(&mut |out| R::open(archive, &mut open_tables, out)),
        step_tables,
        open_tables,
    }
}

// A step, a question and an opening with any numbers, any tables and any words lent for the replies.
fn compare_at(archive: &[u8], tables: &[u32], numbers: &[u64], event: usize, number: usize, space: usize) -> Result<(), String> {
    let ours = calls::<Ours>(archive, tables, numbers, event, number, space);
    let plain = calls::<Plain>(archive, tables, numbers, event, number, space);
    if ours.asked != plain.asked {
        return Err(format!("argument {number} at {event} in {numbers:?}: ours {:?}, plain {:?}", ours.asked, plain.asked));
    }
    if ours.stepped != plain.stepped {
        return Err(format!("a step in {numbers:?}: ours {:?}, plain {:?}", ours.stepped, plain.stepped));
    }
    if ours.opened != plain.opened {
        return Err(format!("an opening: ours {:?}, plain {:?}", ours.opened, plain.opened));
    }
    if ours != plain {
        return Err("the tables differ".into());
    }
    Ok(())
}

// Any states and any tables over an archive; the tables are mostly filled with places of its records.
fn compare_states(random: &mut Random, archive: &[u8]) -> Result<u64, String> {
    let mut tables = vec![0; TABLE_WORDS];
    let mut state = State::default();
    let mut places = vec![];
    if plain::open(archive, &mut tables).is_ok() {
        while plain::step(archive, &mut state, &mut tables).is_ok() {
            places.push(state.place);
        }
    }
    places.push(state.place);
    let reached = state;
    let turns = 30;
    for _ in 0..turns {
        let mut some = tables.clone();
        for _ in 0..random.below(60) {
            let context = random.below(9) * plain::CONTEXT_WORDS;
            let at = context + if random.chance(70) { random.below(14) } else { 512 + random.below(8) };
            some[at] = match random.below(4) {
                0 => random.below(archive.len() + 20) as u32,
                1 => 8 * random.below(archive.len() / 8 + 2) as u32,
                2 => places[random.below(places.len())] as u32,
                _ => random.next() as u32,
            };
        }
        if random.chance(5) {
            some.truncate(random.below(TABLE_WORDS + 1));
        }
        let before = random.below(places.len());
        let mut state = State { place: places[before], ..reached };
        let most = if random.chance(5) { 11 } else { 9 };
        state.count = random.below(most);
        let past = if random.chance(5) { 3 } else { 1 };
        state.current = random.below(state.count + past);
        for id in &mut state.ids {
            if random.chance(50) {
                *id = random.below(6) as u32;
            }
        }
        // any rates, also in slots that are opened later
        if random.chance(80) {
            state.rates = std::array::from_fn(|_| make::rate(random));
        }
        if random.chance(10) {
            state.place = random.below(archive.len() + 20);
        }
        let mut event = if before == 0 { 0 } else { places[before - 1] };
        if random.chance(10) {
            event = random.below(archive.len() + 20);
        }
        if random.chance(1) {
            (state.place, event) = (usize::MAX - random.below(40), usize::MAX - random.below(40));
        }
        let mut numbers = replies::state_numbers(&state).to_vec();
        if random.chance(10) {
            numbers[replies::IDS + random.below(8)] |= random.next() << 32;
        }
        if random.chance(5) {
            numbers.resize(random.below(STATE + 3), 7);
        }
        let space = if random.chance(10) { random.below(REPLY + 5) } else { REPLY };
        compare_at(archive, &some, &numbers, event, random.below(8), space)?;
    }
    Ok(turns)
}

// A step at an event or a log whose entries name odd records, and a question for each of its arguments.
fn compare_planted(random: &mut Random) -> Result<u64, (Vec<u8>, String)> {
    let planted = make::planted(random);
    let mut tables = vec![0; TABLE_WORDS];
    for (position, place) in planted.entries {
        tables[position] = place;
    }
    let state = State { place: planted.event, ..State::default() };
    let after = State { place: planted.end, ..State::default() };
    for number in 0..7 {
        for state in [state, after] {
            let numbers = replies::state_numbers(&state);
            compare_at(&planted.archive, &tables, &numbers, planted.event, number, REPLY).map_err(|what| (planted.archive.clone(), what))?;
        }
    }
    Ok(14)
}

pub fn save(archive: &[u8], what: &str) -> ! {
    let path = std::env::temp_dir().join("difference.bin");
    std::fs::write(&path, archive).unwrap();
    println!("DIFFERENCE: {what}\nthe archive is in {}", path.display());
    std::process::exit(1);
}

fn test(many: usize) {
    let mut random = Random(0x5eed);
    let (mut answers, mut calls, mut outcomes) = (0, 0, [0; 10]);
    for i in 0..many {
        let records = make::records(&mut random);
        let archive = match i % 4 {
            0 => make::bytes_of(&records.concat()),
            _ => make::damaged(&mut random, records),
        };
        let room = match random.below(50) {
            0 => random.below(TABLE_WORDS),
            1 => TABLE_WORDS + random.below(9),
            _ => TABLE_WORDS,
        };
        match compare(&archive, room, random.next()) {
            Ok(n) => answers += n,
            Err(what) => save(&archive, &what),
        }
        match compare_states(&mut random, &archive) {
            Ok(n) => calls += n,
            Err(what) => save(&archive, &what),
        }
        match compare_planted(&mut random) {
            Ok(n) => calls += n,
            Err((archive, what)) => save(&archive, &what),
        }
        outcomes[outcome(&archive) as usize] += 1;
    }
    println!("{many} archives, whole, cut and damaged: {answers} replies and {calls} calls with any state and tables, no difference");
    println!("they ended by number (0 to 9): {outcomes:?}");
    // every cut of one archive, with rates of several contexts
    let archive = make::bytes_of(&make::records(&mut Random(951)).concat());
    for n in 0..=archive.len() {
        if let Err(what) = compare(&archive[..n], TABLE_WORDS, n as u64) {
            save(&archive[..n], &what);
        }
    }
    println!("one archive cut at each of its {} bytes: no difference", archive.len());
    // the length's limit
    for n in [16_777_208, 16_777_216, 16_777_217, 16_777_224] {
        let mut long = make::long(n, 5, Long { logs: 20, ..Long::new(50, 3) });
        long.truncate(n);
        long.resize(n, 0);
        if digest::read::<Ours>(&long, &mut [0; TABLE_WORDS]) != digest::read::<Plain>(&long, &mut [0; TABLE_WORDS]) {
            save(&long, "the digests differ");
        }
    }
    println!("archives about the longest length: no difference");
}

fn word32(bytes: &[u8], at: usize) -> usize {
    u32::from_le_bytes(bytes[at..at + 4].try_into().unwrap()) as usize
}

fn word64(bytes: &[u8], at: usize) -> u64 {
    u64::from_le_bytes(bytes[at..at + 8].try_into().unwrap())
}

// The vectors have room for what nothing here reads yet.
fn unread(what: String) -> ! {
    println!("REFUSED: {what}, which is not read here yet");
    std::process::exit(1);
}

const NO_SHEET: usize = u32::MAX as usize;

// The cases of corpus.bin; the plain reader's listing and the plain repacker's bytes against the expected answers, where they stand beside.
fn corpus(path: &str) {
    let bytes = std::fs::read(path).unwrap();
    let expected = std::fs::read(path.replace(".bin", ".expected")).unwrap_or_default();
    let mut rest = &expected[..];
    let (mut at, mut case, mut answers, mut calls) = (0, 0, 0, 0);
    while at < bytes.len() {
        let n = word32(&bytes, at);
        if word32(&bytes, at + 4) != NO_SHEET || word64(&bytes, at + 8) != 0 {
            unread(format!("case {case} has a sheet or another size"));
        }
        let archive = &bytes[at + 16..at + 16 + n];
        at += 16 + n;
        match compare(archive, TABLE_WORDS, case) {
            Ok(n) => answers += n,
            Err(what) => save(archive, &format!("case {case}: {what}")),
        }
        match packing::compare_all(&mut Random(case | 1), archive) {
            Ok((n, _)) => calls += n,
            Err(what) => save(archive, &format!("case {case}: {what}")),
        }
        if !expected.is_empty() {
            let lines = [format!("case {case} {n}\n").into_bytes(), listing::listing(archive), packing::lines(archive)].concat();
            if !rest.starts_with(&lines) {
                save(archive, &format!("case {case}: the plain listing or repacking is not the expected one"));
            }
            rest = &rest[lines.len()..];
        }
        case += 1;
    }
    if !rest.is_empty() {
        println!("DIFFERENCE: there are expected answers behind those of the {case} cases");
        std::process::exit(1);
    }
    let listed = if expected.is_empty() { "" } else { ", and the plain listings and repackings are the expected ones" };
    println!("{case} cases of the corpus, {answers} replies and {calls} repackings: no difference{listed}");
}

// The calls of probes.bin, likewise.
fn probes(path: &str) {
    let bytes = std::fs::read(path).unwrap();
    let expected = std::fs::read(path.replace(".bin", ".expected")).unwrap_or_default();
    let (mut lines, mut at, mut probe) = (vec![], 0, 0);
    while at < bytes.len() {
        let header = &bytes[at..at + 176];
        if word32(header, 160) != NO_SHEET || header[164..].iter().any(|&byte| byte != 0) {
            unread(format!("probe {probe} has a sheet, another size or marks"));
        }
        let n = word32(header, 4);
        let entries = word32(header, 156);
        let mut tables = vec![0u32; word32(header, 152)];
        for i in 0..entries {
            tables[word32(&bytes, at + 176 + 8 * i)] = word32(&bytes, at + 180 + 8 * i) as u32;
        }
        let start = at + 176 + 8 * entries;
        let archive = &bytes[start..start + n];
        at = start + n;
        let mut state = State {
            place: word64(header, 8) as usize,
            rates: std::array::from_fn(|i| word64(header, 16 + 8 * i)),
            ids: std::array::from_fn(|i| word32(header, 88 + 4 * i) as u32),
            count: word64(header, 120) as usize,
            current: word64(header, 128) as usize,
        };
        let (event, number) = (word64(header, 136) as usize, word64(header, 144) as usize);
        if let Err(what) = compare_at(archive, &tables, &replies::state_numbers(&state), event, number, REPLY + 1) {
            save(archive, &format!("probe {probe}: {what}"));
        }
        lines.extend(format!("probe {probe}\n").into_bytes());
        if word32(header, 0) == 1 {
            lines.extend(match plain::argument(archive, &state, &tables, event, number) {
                Ok(argument) => listing::argument_line(archive, &argument),
                Err(stop) => listing::stop_line(&stop),
            });
        } else {
            let before = tables.clone();
            lines.extend(match plain::step(archive, &mut state, &mut tables) {
                Ok(None) => b"-\n".to_vec(),
                Ok(Some(item)) => listing::item_line(archive, &item),
                Err(stop) => listing::stop_line(&stop),
            });
            lines.extend(listing::state_line(&state));
            for (i, (old, new)) in before.iter().zip(&tables).enumerate() {
                if old != new {
                    lines.extend(format!("t {i} {new}\n").into_bytes());
                }
            }
        }
        probe += 1;
    }
    if !expected.is_empty() && lines != expected {
        println!("DIFFERENCE: the plain reader's answers to the probes are not the expected ones");
        std::process::exit(1);
    }
    let listed = if expected.is_empty() { "" } else { ", and the plain reader's answers are the expected ones" };
    println!("{probe} probes: no difference{listed}");
}

#[repr(C)]
struct Moment {
    seconds: i64,
    nanoseconds: i64,
}

extern "C" {
    fn clock_gettime(clock: i32, moment: *mut Moment) -> i32;
}

// The processor's time that this thread has taken, in nanoseconds: what other programs take meanwhile is not counted.
pub fn now() -> f64 {
    const THREAD: i32 = 3;
    let mut moment = Moment { seconds: 0, nanoseconds: 0 };
    assert_eq!(unsafe { clock_gettime(THREAD, &mut moment) }, 0);
    moment.seconds as f64 * 1e9 + moment.nanoseconds as f64
}

// The best time of several runs, in nanoseconds; the two readers take turns.
pub fn best(runs: usize, mut ours: impl FnMut() -> u64, mut plain: impl FnMut() -> u64) -> (f64, f64) {
    let (mut a, mut b) = (f64::MAX, f64::MAX);
    for _ in 0..runs {
        let start = now();
        let x = black_box(ours());
        a = a.min(now() - start);
        let start = now();
        let y = black_box(plain());
        b = b.min(now() - start);
        assert_eq!(x, y, "the digests differ");
    }
    (a, b)
}

const RUNS: usize = 25;

fn time(mib: usize) {
    println!("{:<28} {:>8} {:>8} {:>12} {:>12} {:>8}", "archive", "MiB", "events", "ours ns/ev", "Rust ns/ev", "ratio");
    let kinds = [
        ("registered, 0 to 6 args", Long::new(10, 6)),
        ("inline, 0 to 6 args", Long::new(90, 6)),
        ("registered, no args", Long::new(10, 0)),
        ("registered, 0 to 15 args", Long::new(10, 15)),
        ("registered, a third logs", Long { logs: 33, ..Long::new(10, 6) }),
    ];
    for (name, of) in kinds {
        let archive = make::long(mib << 20, 99, of);
        let archive = &archive[..archive.len().min(16_777_216) / 8 * 8];
        let mut tables = vec![0; TABLE_WORDS];
        let mut state = plain::open(archive, &mut tables).unwrap();
        // with the logs
        let mut events = 0;
        while let Ok(item) = plain::step(archive, &mut state, &mut tables) {
            events += matches!(item, Some(plain::Item::Event(_) | plain::Item::Log(_))) as usize;
        }
        let mut other = tables.clone();
        for (what, a, b) in [
            ("", best(RUNS, || digest::read::<Ours>(archive, &mut tables), || digest::read::<Plain>(archive, &mut other))),
            ("  steps alone", best(RUNS, || digest::steps::<Ours>(archive, &mut tables), || digest::steps::<Plain>(archive, &mut other))),
        ]
        .map(|(what, (a, b))| (what, a, b))
        {
            println!(
                "{:<28} {:>8.1} {:>8} {:>12.1} {:>12.1} {:>8.2}",
                if what.is_empty() { name } else { what },
                archive.len() as f64 / (1 << 20) as f64,
                events,
                a / events as f64,
                b / events as f64,
                a / b
            );
        }
    }
}

fn main() {
    let arguments: Vec<String> = std::env::args().skip(1).collect();
    let word = |i: usize| arguments.get(i).map_or("", String::as_str);
    let reading = matches!(word(0), "read" | "all");
    let repacking = matches!(word(0), "repack" | "all");
    let comparing = matches!(word(0), "compare" | "all");
    match word(1) {
        "time" => {
            let mib = word(2).parse().unwrap_or(12);
            if reading {
                time(mib);
            }
            if repacking {
                packing::time(mib);
            }
            if comparing {
                compare::time();
            }
        }
        "test" => {
            let many = word(2).parse().unwrap_or(20_000);
            if reading {
                test(many);
            }
            if repacking {
                packing::test(many);
            }
            if comparing {
                compare::test(many);
            }
            if let Some(path) = arguments.get(3) {
                corpus(path);
            }
            if let Some(path) = arguments.get(4) {
                probes(path);
            }
        }
        "once" if repacking => packing::once(word(2).parse().unwrap_or(1), word(3), word(4) == "short"),
        _ => println!("read, repack, compare or all, then test N [corpus.bin [probes.bin]] or time MIB; repack once MIB ARCHIVE [short]"),
    }
}
