// The calls that crates/exports exports, and the plain reader behind the same calls: each reply as numbers at the start of lent words,
// in the layout of crates/exports/specs/Block.antt.
use crate::plain::{self, Argument, Item, State, Stop, Text, Thread, Value};

// How many numbers an answer or an argument has, a state, and a reply, which is an answer and a state.
pub const ANSWER: usize = 20;
pub const STATE: usize = 20;
pub const REPLY: usize = ANSWER + STATE;

// Where the rates and the ids stand in a state's numbers; the place is in front, how many ids and the current slot are behind.
pub const RATES: usize = 1;
pub const IDS: usize = RATES + 9;

// The first number of an end or a refusal, of an event, of an argument and of a log; 11 is a repacking's.
pub const END: u64 = 1;
pub const EVENT: u64 = 8;
pub const ARGUMENT: u64 = 10;
pub const LOG: u64 = 12;

// Each call answers how many numbers it put: 0 where the words are too few, and then they are as they were.
pub trait Reader {
    fn open(archive: &[u8], tables: &mut [u32], out: &mut [u64]) -> u64;
    fn step(archive: &[u8], tables: &mut [u32], numbers: &[u64], out: &mut [u64]) -> u64;
    fn argument(archive: &[u8], tables: &[u32], numbers: &[u64], event: usize, number: usize, out: &mut [u64]) -> u64;
}

fn text(t: Text) -> [u64; 3] {
    match t {
        Text::At { place, length } => [1, place as u64, length as u64],
        Text::Unresolved(index) => [2, index as u64, 0],
    }
}

fn thread(t: Thread) -> [u64; 3] {
    match t {
        Thread::Words { process, thread } => [1, process, thread],
        Thread::Unresolved(index) => [2, index as u64, 0],
    }
}

fn provider(id: Option<u32>) -> [u64; 2] {
    id.map_or([0, 0], |id| [1, id as u64])
}

fn value(v: Value) -> [u64; 4] {
    match v {
        Value::Null => [0, 0, 0, 0],
        Value::Signed32(v) => [1, v as i64 as u64, 0, 0],
        Value::Unsigned32(v) => [2, v as u64, 0, 0],
        Value::Signed64(v) => [3, v as u64, 0, 0],
        Value::Unsigned64(v) => [4, v, 0, 0],
        Value::Double(v) => [5, v, 0, 0],
        Value::Text(t) => {
            let [tag, first, second] = text(t);
            [6, tag, first, second]
        }
        Value::Pointer(v) => [7, v, 0, 0],
        Value::KernelObject(v) => [8, v, 0, 0],
        Value::Boolean(v) => [9, v as u64, 0, 0],
        Value::Unknown(kind) => [kind as u64, 0, 0, 0],
    }
}

pub fn state_numbers(s: &State) -> [u64; STATE] {
    let [a, b, c, d, e, f, g, h, i] = s.rates;
    let [j, k, l, m, n, o, p, q] = s.ids.map(u64::from);
    [s.place as u64, a, b, c, d, e, f, g, h, i, j, k, l, m, n, o, p, q, s.count as u64, s.current as u64]
}

// The state that numbers stand for; those that are missing are 0.
fn given_state(numbers: &[u64]) -> State {
    let n = match numbers.first_chunk::<STATE>() {
        Some(numbers) => *numbers,
        None => std::array::from_fn(|i| numbers.get(i).copied().unwrap_or(0)),
    };
    State {
        place: n[0] as usize,
        rates: std::array::from_fn(|i| n[RATES + i]),
        ids: std::array::from_fn(|i| n[IDS + i] as u32),
        count: n[STATE - 2] as usize,
        current: n[STATE - 1] as usize,
    }
}

fn short(a: u64, b: u64, c: u64, d: u64) -> [u64; ANSWER] {
    [a, b, c, d, 0, 0, 0, 0, 0, 0, 0, 0, 0, 0, 0, 0, 0, 0, 0, 0]
}

fn put_answer(out: &mut [u64; ANSWER], answer: Result<Option<Item>, Stop>) {
    *out = match answer {
        Err(stop) => short(END, stop.number as u64, stop.place as u64, 0),
        Ok(None) => short(2, 0, 0, 0),
        Ok(Some(Item::Magic)) => short(3, 0, 0, 0),
        Ok(Some(Item::ProviderInfo { id, place, length })) => short(4, id as u64, place as u64, length as u64),
        Ok(Some(Item::Section { id })) => short(5, id as u64, 0, 0),
        Ok(Some(Item::ProviderEvent { id, event })) => short(6, id as u64, event as u64, 0),
        Ok(Some(Item::Initialization { rate })) => short(7, rate, 0, 0),
        Ok(Some(Item::Skipped { kind, size })) => short(9, kind as u64, size, 0),
        Ok(Some(Item::Event(e))) => {
            let [p, q] = provider(e.provider);
            let ([r, s, t], [c, d, f], [l, m, n]) = (thread(e.thread), text(e.category), text(e.name));
            let (place, kind, count, extra) = (e.place as u64, e.kind as u64, e.count as u64, e.extra.unwrap_or(0));
            [EVENT, place, p, q, kind, e.timestamp, e.rate, r, s, t, c, d, f, l, m, n, count, extra, 0, 0]
        }
        Ok(Some(Item::Log(l))) => {
            let ([p, q], [r, s, t]) = (provider(l.provider), thread(l.thread));
            let (place, message, length) = (l.place as u64, l.message as u64, l.length as u64);
            [LOG, place, p, q, l.timestamp, l.rate, r, s, t, message, length, 0, 0, 0, 0, 0, 0, 0, 0, 0]
        }
    };
}

fn put_reply(out: &mut [u64], answer: Result<Option<Item>, Stop>, state: &State) -> u64 {
    let Some(out) = out.first_chunk_mut::<REPLY>() else { return 0 };
    put_answer(out.first_chunk_mut().unwrap(), answer);
    *out.last_chunk_mut().unwrap() = state_numbers(state);
    REPLY as u64
}

fn put_asked(out: &mut [u64], asked: Result<Argument, Stop>) -> u64 {
    let Some(out) = out.first_chunk_mut::<ANSWER>() else { return 0 };
    *out = match asked {
        Err(stop) => short(END, stop.number as u64, stop.place as u64, 0),
        Ok(argument) => {
            let ([a, b, c], [d, e, f, g]) = (text(argument.name), value(argument.value));
            [ARGUMENT, a, b, c, d, e, f, g, 0, 0, 0, 0, 0, 0, 0, 0, 0, 0, 0, 0]
        }
    };
    ANSWER as u64
}

pub struct Plain;

// Behind a call, as the proved reader is, so that no number is left out that a loop does not look at.
impl Reader for Plain {
    #[inline(never)]
    fn open(archive: &[u8], tables: &mut [u32], out: &mut [u64]) -> u64 {
        let opened = plain::open(archive, tables);
        put_reply(out, opened.map(|_| None), &opened.unwrap_or_default())
    }

    #[inline(never)]
    fn step(archive: &[u8], tables: &mut [u32], numbers: &[u64], out: &mut [u64]) -> u64 {
        let mut state = given_state(numbers);
        let answer = plain::step(archive, &mut state, tables);
        put_reply(out, answer, &state)
    }

    #[inline(never)]
    fn argument(archive: &[u8], tables: &[u32], numbers: &[u64], event: usize, number: usize, out: &mut [u64]) -> u64 {
        put_asked(out, plain::argument(archive, &given_state(numbers), tables, event, number))
    }
}

// Opens an archive and steps through it to its end; each reply goes to `turn`, with the tables as they stand and the place that was
// stepped from. The state of a reply is what the next step starts from.
pub fn walk<R: Reader>(archive: &[u8], tables: &mut [u32], mut turn: impl FnMut(u64, &[u64; REPLY], &[u32], u64)) {
    let mut out = [0; REPLY];
    let put = R::open(archive, tables, &mut out);
    turn(put, &out, tables, 0);
    for _ in 0..archive.len() / 8 + 2 {
        if out[0] == END {
            return;
        }
        let state: [u64; STATE] = *out.last_chunk().unwrap();
        let put = R::step(archive, tables, &state, &mut out);
        turn(put, &out, tables, state[0]);
    }
    assert_eq!(out[0], END, "the reading does not end");
}

// How many arguments an answer has.
pub fn count(answer: &[u64]) -> u64 {
    if answer[0] == EVENT {
        answer[16]
    } else {
        0
    }
}

// Every reply of a whole reading, how many numbers were put and what the words hold then, with one argument more asked for than there
// are; the opening shows nothing, and has none.
pub fn replies<R: Reader>(archive: &[u8], tables: &mut [u32]) -> Vec<(u64, [u64; REPLY])> {
    let mut all: Vec<(u64, [u64; REPLY])> = vec![];
    walk::<R>(archive, tables, |put, out, tables, from| {
        let opening = all.is_empty();
        all.push((put, *out));
        for number in 0..count(out) + !opening as u64 {
            let mut asked = [number; REPLY];
            let put = R::argument(archive, tables, &out[ANSWER..], from as usize, number as usize, &mut asked);
            all.push((put, asked));
        }
    });
    all
}
