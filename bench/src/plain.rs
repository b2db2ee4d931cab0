// A plain Rust reader of Fuchsia traces, written for comparison: the checks and replies of document 01 and of requests W1 (logs) and
// W2 (a rate for each context), and nothing proved.
// A record is read through a cursor; what it refers to is looked up in the tables of its context.

pub const CONTEXT_WORDS: usize = 768;
pub const TABLE_WORDS: usize = 9 * CONTEXT_WORDS;
pub const LONGEST_ARCHIVE: usize = 1 << 24;
pub const LONGEST_TEXT: usize = 256;
pub const HIGHEST_INDEX: usize = 511;
// The rate from opening the archive or the context until its own initialization record.
pub const FIRST_RATE: u64 = 1_000_000_000;
pub const MAGIC: [u8; 8] = [0x10, 0x00, 0x04, 0x46, 0x78, 0x54, 0x16, 0x00];

// The rates are by slot: 0 for no provider, then one for each id.
#[derive(Clone, Copy, Debug, PartialEq, Eq)]
pub struct State {
    pub place: usize,
    pub rates: [u64; 9],
    pub ids: [u32; 8],
    pub count: usize,
    pub current: usize,
}

impl Default for State {
    fn default() -> Self {
        State { place: 0, rates: [FIRST_RATE; 9], ids: [0; 8], count: 0, current: 0 }
    }
}

impl State {
    fn provider(&self) -> Option<u32> {
        self.current.checked_sub(1).map(|slot| self.ids[slot])
    }

    fn rate(&self) -> u64 {
        self.rates[self.current]
    }
}

// The number and place of a refusal, or of the end, which is number 0.
#[derive(Clone, Copy, Debug, PartialEq, Eq)]
pub struct Stop {
    pub number: u8,
    pub place: usize,
}

#[derive(Clone, Copy, Debug)]
pub enum Text {
    At { place: usize, length: usize },
    Unresolved(usize),
}

#[derive(Clone, Copy, Debug)]
pub enum Thread {
    Words { process: u64, thread: u64 },
    Unresolved(usize),
}

#[derive(Clone, Copy, Debug)]
pub enum Value {
    Null,
    Signed32(i32),
    Unsigned32(u32),
    Signed64(i64),
    Unsigned64(u64),
    Double(u64),
    Text(Text),
    Pointer(u64),
    KernelObject(u64),
    Boolean(bool),
    Unknown(u8),
}

#[derive(Clone, Copy, Debug)]
pub struct Argument {
    pub name: Text,
    pub value: Value,
}

#[derive(Clone, Copy, Debug)]
pub struct Event {
    pub place: usize,
    pub provider: Option<u32>,
    pub kind: u8,
    pub timestamp: u64,
    pub rate: u64,
    pub thread: Thread,
    pub category: Text,
    pub name: Text,
    pub count: usize,
    pub extra: Option<u64>,
}

// The message is so many bytes at a place of the archive.
#[derive(Clone, Copy, Debug)]
pub struct Log {
    pub place: usize,
    pub provider: Option<u32>,
    pub timestamp: u64,
    pub rate: u64,
    pub thread: Thread,
    pub message: usize,
    pub length: usize,
}

#[derive(Clone, Copy, Debug)]
pub enum Item {
    Magic,
    ProviderInfo { id: u32, place: usize, length: usize },
    Section { id: u32 },
    ProviderEvent { id: u32, event: u8 },
    Initialization { rate: u64 },
    Event(Event),
    Log(Log),
    Skipped { kind: u8, size: u64 },
}

pub fn word(bytes: &[u8], place: usize) -> u64 {
    u64::from_le_bytes(bytes[place..place + 8].try_into().unwrap())
}

pub fn bits(word: u64, low: u32, high: u32) -> u64 {
    (word >> low) & (u64::MAX >> (63 - (high - low)))
}

pub fn stream_bytes(length: usize) -> usize {
    (length + 7) & !7
}

// The size in bytes that a header gives.
fn size_of(header: u64) -> usize {
    8 * if bits(header, 0, 3) == 15 { bits(header, 4, 35) } else { bits(header, 4, 15) } as usize
}

// What both a step and a question check first.
fn door(archive: &[u8], tables: &[u32]) -> Result<(), Stop> {
    let number = if archive.len() > LONGEST_ARCHIVE {
        2
    } else if !archive.starts_with(&MAGIC) {
        1
    } else if tables.len() < TABLE_WORDS {
        3
    } else {
        return Ok(());
    };
    Err(Stop { number, place: 0 })
}

fn belongs(state: &State, archive: &[u8]) -> bool {
    state.place % 8 == 0 && state.place <= archive.len() && state.count <= 8 && state.current <= state.count
}

// The record at a place, as the part of the archive that it takes.
pub fn record(archive: &[u8], place: usize) -> Result<(u64, usize), u8> {
    if archive.len() - place < 8 {
        return Err(5);
    }
    let header = word(archive, place);
    let size = size_of(header);
    if size == 0 {
        return Err(6);
    }
    if archive.len() - place < size {
        return Err(5);
    }
    Ok((header, place + size))
}

// Bytes of the archive, or an entry of a table.
#[derive(Clone, Copy)]
enum Reference {
    Inline { place: usize, length: usize },
    Index(usize),
}

enum Held {
    Text(Reference),
    Other(Value),
}

// An argument apart from any table.
struct Part {
    name: Reference,
    value: Held,
}

// A record's body, read from front to back.
struct Cursor<'a> {
    archive: &'a [u8],
    at: usize,
    end: usize,
}

impl Cursor<'_> {
    fn take(&mut self, length: usize) -> Result<usize, u8> {
        let place = self.at;
        if self.end - place < length {
            return Err(6);
        }
        self.at = place + length;
        Ok(place)
    }

    fn word(&mut self) -> Result<u64, u8> {
        let place = self.take(8)?;
        Ok(word(self.archive, place))
    }

    fn stream(&mut self, length: usize) -> Result<usize, u8> {
        if length > LONGEST_TEXT {
            return Err(7);
        }
        self.take(stream_bytes(length))
    }

    fn text(&mut self, reference: u64) -> Result<Reference, u8> {
        if reference == 0 {
            return Ok(Reference::Inline { place: self.at, length: 0 });
        }
        if reference < 0x8000 {
            return Ok(Reference::Index(reference as usize));
        }
        let length = (reference - 0x8000) as usize;
        let place = self.stream(length)?;
        Ok(Reference::Inline { place, length })
    }

    fn thread(&mut self, reference: u64) -> Result<Reference, u8> {
        if reference != 0 {
            return Ok(Reference::Index(reference as usize));
        }
        let place = self.take(16)?;
        Ok(Reference::Inline { place, length: 16 })
    }

    fn argument(&mut self) -> Result<Part, u8> {
        let start = self.at;
        let end = self.end;
        let header = self.word()?;
        let size = 8 * bits(header, 4, 15) as usize;
        if size == 0 || end - start < size {
            return Err(6);
        }
        self.end = start + size;
        let name = self.text(bits(header, 16, 31))?;
        let value = match bits(header, 0, 3) {
            0 => Held::Other(Value::Null),
            1 => Held::Other(Value::Signed32((header >> 32) as u32 as i32)),
            2 => Held::Other(Value::Unsigned32((header >> 32) as u32)),
            3 => Held::Other(Value::Signed64(self.word()? as i64)),
            4 => Held::Other(Value::Unsigned64(self.word()?)),
            5 => Held::Other(Value::Double(self.word()?)),
            6 => Held::Text(self.text(bits(header, 32, 47))?),
            7 => Held::Other(Value::Pointer(self.word()?)),
            8 => Held::Other(Value::KernelObject(self.word()?)),
            9 => Held::Other(Value::Boolean(bits(header, 32, 32) == 1)),
            kind => Held::Other(Value::Unknown(kind as u8)),
        };
        self.at = start + size;
        self.end = end;
        Ok(Part { name, value })
    }
}

// The tables of one context, and how far a looked-up record may reach. None stands for an entry that does not belong.
struct Lookup<'a> {
    archive: &'a [u8],
    strings: &'a [u32],
    threads: &'a [u32],
    limit: usize,
}

impl<'a> Lookup<'a> {
    fn new(archive: &'a [u8], tables: &'a [u32], context: usize, limit: usize) -> Self {
        let (strings, threads) = tables[context * CONTEXT_WORDS..][..CONTEXT_WORDS].split_at(512);
        Lookup { archive, strings, threads, limit }
    }

    // The header of the record at a place, if it is of this kind and ends at or before the limit.
    fn header(&self, place: usize, kind: u64) -> Option<u64> {
        if place % 8 != 0 || self.limit < place + 8 {
            return None;
        }
        let header = word(self.archive, place);
        let size = size_of(header);
        (bits(header, 0, 3) == kind && size != 0 && place + size <= self.limit).then_some(header)
    }

    fn text(&self, reference: Reference) -> Option<Text> {
        let index = match reference {
            Reference::Inline { place, length } => return Some(Text::At { place, length }),
            Reference::Index(index) => index,
        };
        let place = match self.strings.get(index) {
            None | Some(0) => return Some(Text::Unresolved(index)),
            Some(&place) => place as usize,
        };
        let header = self.header(place, 2)?;
        let length = bits(header, 32, 46) as usize;
        let fits = length <= LONGEST_TEXT && 8 + stream_bytes(length) <= size_of(header);
        (fits && bits(header, 16, 30) as usize == index).then_some(Text::At { place: place + 8, length })
    }

    fn thread(&self, reference: Reference) -> Option<Thread> {
        let place = match reference {
            Reference::Inline { place, .. } => place,
            Reference::Index(index) => {
                let place = self.threads[index] as usize;
                if place == 0 {
                    return Some(Thread::Unresolved(index));
                }
                let header = self.header(place, 3)?;
                if bits(header, 16, 23) as usize != index || size_of(header) < 24 {
                    return None;
                }
                place + 8
            }
        };
        Some(Thread::Words { process: word(self.archive, place), thread: word(self.archive, place + 8) })
    }

    fn argument(&self, part: Part) -> Option<Argument> {
        let name = self.text(part.name)?;
        let value = match part.value {
            Held::Text(reference) => Value::Text(self.text(reference)?),
            Held::Other(value) => value,
        };
        Some(Argument { name, value })
    }
}

// The parts of an event in front of its arguments.
struct Head {
    kind: u8,
    count: usize,
    timestamp: u64,
    thread: Reference,
    category: Reference,
    name: Reference,
}

fn head(body: &mut Cursor, header: u64) -> Result<Head, u8> {
    Ok(Head {
        kind: bits(header, 16, 19) as u8,
        count: bits(header, 20, 23) as usize,
        timestamp: body.word()?,
        thread: body.thread(bits(header, 24, 31))?,
        category: body.text(bits(header, 32, 47))?,
        name: body.text(bits(header, 48, 63))?,
    })
}

fn extra(body: &mut Cursor, kind: u8) -> Result<Option<u64>, u8> {
    match kind {
        0 | 2 | 3 => Ok(None),
        _ => body.word().map(Some),
    }
}

// Opens an archive: clears the tables and stands at its start.
pub fn open(archive: &[u8], tables: &mut [u32]) -> Result<State, Stop> {
    door(archive, tables)?;
    tables[..TABLE_WORDS].fill(0);
    Ok(State::default())
}

// Reads one record. A step that is stopped changes nothing.
pub fn step(archive: &[u8], state: &mut State, tables: &mut [u32]) -> Result<Option<Item>, Stop> {
    door(archive, tables)?;
    let place = state.place;
    if !belongs(state, archive) {
        return Err(Stop { number: 4, place });
    }
    if place == archive.len() {
        return Err(Stop { number: 0, place });
    }
    read(archive, state, tables).map_err(|number| Stop { number, place })
}

fn read(archive: &[u8], state: &mut State, tables: &mut [u32]) -> Result<Option<Item>, u8> {
    let place = state.place;
    let (header, end) = record(archive, place)?;
    let item = match bits(header, 0, 3) {
        0 => Some(metadata(state, header, end)?),
        1 => {
            if end - place < 16 {
                return Err(6);
            }
            let rate = word(archive, place + 8);
            state.rates[state.current] = rate;
            Some(Item::Initialization { rate })
        }
        2 => {
            let index = bits(header, 16, 30) as usize;
            if index != 0 {
                let length = bits(header, 32, 46) as usize;
                if index > HIGHEST_INDEX {
                    return Err(8);
                }
                if length > LONGEST_TEXT {
                    return Err(7);
                }
                if end - place < 8 + stream_bytes(length) {
                    return Err(6);
                }
                tables[state.current * CONTEXT_WORDS + index] = place as u32;
            }
            None
        }
        3 => {
            let index = bits(header, 16, 23) as usize;
            if index != 0 {
                if end - place < 24 {
                    return Err(6);
                }
                tables[state.current * CONTEXT_WORDS + 512 + index] = place as u32;
            }
            None
        }
        4 if bits(header, 16, 19) <= 10 => Some(Item::Event(event(archive, state, tables, header, end)?)),
        9 => Some(Item::Log(log(archive, state, tables, header, end)?)),
        kind => Some(Item::Skipped { kind: kind as u8, size: size_of(header) as u64 / 8 }),
    };
    state.place = end;
    Ok(item)
}

fn metadata(state: &mut State, header: u64, end: usize) -> Result<Item, u8> {
    let place = state.place;
    let id = bits(header, 20, 51) as u32;
    match bits(header, 16, 19) {
        1 => {
            let length = bits(header, 52, 59) as usize;
            if end - place < 8 + stream_bytes(length) {
                return Err(6);
            }
            enter(state, id)?;
            Ok(Item::ProviderInfo { id, place: place + 8, length })
        }
        2 => {
            enter(state, id)?;
            Ok(Item::Section { id })
        }
        3 => Ok(Item::ProviderEvent { id, event: bits(header, 52, 55) as u8 }),
        4 if bits(header, 20, 23) == 0 => {
            if header != u64::from_le_bytes(MAGIC) {
                return Err(6);
            }
            Ok(Item::Magic)
        }
        _ => Ok(Item::Skipped { kind: 0, size: size_of(header) as u64 / 8 }),
    }
}

fn enter(state: &mut State, id: u32) -> Result<(), u8> {
    if let Some(slot) = state.ids[..state.count].iter().position(|&known| known == id) {
        state.current = slot + 1;
        return Ok(());
    }
    if state.count == 8 {
        return Err(9);
    }
    state.ids[state.count] = id;
    state.count += 1;
    state.current = state.count;
    state.rates[state.current] = FIRST_RATE;
    Ok(())
}

fn event(archive: &[u8], state: &State, tables: &[u32], header: u64, end: usize) -> Result<Event, u8> {
    let place = state.place;
    let lookup = Lookup::new(archive, tables, state.current, place);
    let mut body = Cursor { archive, at: place + 8, end };
    let head = head(&mut body, header)?;
    let mut sound = true;
    for _ in 0..head.count {
        let part = body.argument()?;
        sound &= lookup.argument(part).is_some();
    }
    let extra = extra(&mut body, head.kind)?;
    if !sound {
        return Err(4);
    }
    Ok(Event {
        place,
        provider: state.provider(),
        kind: head.kind,
        timestamp: head.timestamp,
        rate: state.rate(),
        thread: lookup.thread(head.thread).ok_or(4)?,
        category: lookup.text(head.category).ok_or(4)?,
        name: lookup.text(head.name).ok_or(4)?,
        count: head.count,
        extra,
    })
}

fn log(archive: &[u8], state: &State, tables: &[u32], header: u64, end: usize) -> Result<Log, u8> {
    let place = state.place;
    let length = bits(header, 16, 30) as usize;
    let mut body = Cursor { archive, at: place + 8, end };
    let timestamp = body.word()?;
    let thread = body.thread(bits(header, 32, 39))?;
    let message = body.stream(length)?;
    let thread = Lookup::new(archive, tables, state.current, place).thread(thread).ok_or(4)?;
    Ok(Log { place, provider: state.provider(), timestamp, rate: state.rate(), thread, message, length })
}

// An argument of the event at a place, by its number from 0, in the state right after that event.
pub fn argument(archive: &[u8], state: &State, tables: &[u32], event: usize, number: usize) -> Result<Argument, Stop> {
    door(archive, tables)?;
    let wrong = Stop { number: 4, place: state.place };
    if !belongs(state, archive) || event % 8 != 0 || archive.len() <= event {
        return Err(wrong);
    }
    ask(archive, state, tables, event, number).ok_or(wrong)
}

fn ask(archive: &[u8], state: &State, tables: &[u32], event: usize, number: usize) -> Option<Argument> {
    let (header, end) = record(archive, event).ok()?;
    if end != state.place || bits(header, 0, 3) != 4 || bits(header, 16, 19) > 10 {
        return None;
    }
    let mut body = Cursor { archive, at: event + 8, end };
    let head = head(&mut body, header).ok()?;
    let mut asked = None;
    for i in 0..head.count {
        let part = body.argument().ok()?;
        if i == number {
            asked = Some(part);
        }
    }
    extra(&mut body, head.kind).ok()?;
    Lookup::new(archive, tables, state.current, state.place).argument(asked?)
}

// The part of the archive that a text stands in, or the empty part.
pub fn text(archive: &[u8], place: usize, length: usize) -> &[u8] {
    place.checked_add(length).and_then(|end| archive.get(place..end)).unwrap_or(&[])
}
