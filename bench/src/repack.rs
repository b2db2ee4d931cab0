// A plain Rust repacker, written for comparison: the checks and replies of document 01 and of request W1 (logs) and the repacking rule,
// with the hash maps of std.
// The archive is read twice: once to find what it is refused by and to count the uses, once to write.
use crate::plain::{bits, record, stream_bytes, word, Stop, HIGHEST_INDEX, LONGEST_ARCHIVE, LONGEST_TEXT, MAGIC};
use std::collections::HashMap;

pub const ROOM_WORDS: usize = 27_648;
const MOST_TEXTS: usize = 511;
const MOST_THREADS: usize = 255;

// What a reference stands for; none where it is unresolved.
type Text<'a> = Option<&'a [u8]>;
type Thread = Option<[u64; 2]>;

#[derive(Clone, Copy)]
enum Value<'a> {
    InHeader(u64),
    Word(u64),
    Text(Text<'a>),
}

#[derive(Clone, Copy)]
struct Argument<'a> {
    kind: u64,
    name: Text<'a>,
    value: Value<'a>,
}

// An event without its arguments.
struct Event<'a> {
    kind: u64,
    timestamp: u64,
    thread: Thread,
    category: Text<'a>,
    name: Text<'a>,
    extra: Option<u64>,
}

enum Record<'a> {
    Magic,
    ProviderInfo { id: u32, name: &'a [u8] },
    Section { id: u32 },
    ProviderEvent { id: u32, event: u64 },
    Initialization { rate: u64 },
    Event(Event<'a>),
    Log { timestamp: u64, thread: Thread, message: &'a [u8] },
    // a string or thread record, or one that is skipped
    Nothing,
}

// The part of a record or an argument that is left, and whether repacking would lose something of what was read.
struct Cursor<'a> {
    archive: &'a [u8],
    at: usize,
    end: usize,
    lost: bool,
}

impl<'a> Cursor<'a> {
    fn take(&mut self, length: usize) -> Result<&'a [u8], u8> {
        if self.end - self.at < length {
            return Err(6);
        }
        let part = &self.archive[self.at..self.at + length];
        self.at += length;
        Ok(part)
    }

    fn word(&mut self) -> Result<u64, u8> {
        Ok(word(self.take(8)?, 0))
    }

    fn stream(&mut self, length: usize) -> Result<&'a [u8], u8> {
        if length > LONGEST_TEXT {
            return Err(7);
        }
        let (text, padding) = self.take(stream_bytes(length))?.split_at(length);
        self.lost |= padding.iter().any(|&byte| byte != 0);
        Ok(text)
    }

    fn thread(&mut self) -> Result<[u64; 2], u8> {
        Ok([self.word()?, self.word()?])
    }

    // Nothing may be left, and these bits are to be zero.
    fn finish(&mut self, reserved: u64) {
        self.lost |= self.at != self.end || reserved != 0;
    }
}

// The tables of one context.
struct Tables<'a> {
    strings: Vec<Text<'a>>,
    threads: Vec<Thread>,
}

impl<'a> Tables<'a> {
    fn new() -> Self {
        Tables { strings: vec![None; HIGHEST_INDEX + 1], threads: vec![None; 256] }
    }

    fn text(&self, body: &mut Cursor<'a>, reference: u64) -> Result<Text<'a>, u8> {
        Ok(match reference {
            0 => Some(&[]),
            1..=0x7fff => self.strings.get(reference as usize).copied().flatten(),
            _ => Some(body.stream((reference - 0x8000) as usize)?),
        })
    }

    fn thread(&self, body: &mut Cursor<'a>, reference: u64) -> Result<Thread, u8> {
        match reference {
            0 => body.thread().map(Some),
            _ => Ok(self.threads[reference as usize]),
        }
    }

    fn argument(&self, body: &mut Cursor<'a>) -> Result<Argument<'a>, u8> {
        let (start, end) = (body.at, body.end);
        let header = body.word()?;
        let size = 8 * bits(header, 4, 15) as usize;
        if size == 0 || end - start < size {
            return Err(6);
        }
        body.end = start + size;
        let kind = bits(header, 0, 3);
        let name = self.text(body, bits(header, 16, 31))?;
        let mut reserved = bits(header, 32, 63);
        let value = match kind {
            0 => Value::InHeader(0),
            1 | 2 => Value::InHeader(std::mem::take(&mut reserved)),
            3 | 4 | 5 | 7 | 8 => Value::Word(body.word()?),
            6 => {
                reserved = bits(header, 48, 63);
                Value::Text(self.text(body, bits(header, 32, 47))?)
            }
            9 => {
                reserved = bits(header, 33, 63);
                Value::InHeader(bits(header, 32, 32))
            }
            _ => {
                // shown as unknown, which is a loss
                reserved = 1;
                Value::InHeader(0)
            }
        };
        body.finish(reserved);
        (body.at, body.end) = (start + size, end);
        Ok(Argument { kind, name, value })
    }
}

// A reading of the archive; the arguments are those of the last event.
struct Reader<'a> {
    archive: &'a [u8],
    place: usize,
    ids: Vec<u32>,
    current: usize,
    tables: Vec<Tables<'a>>,
    arguments: Vec<Argument<'a>>,
}

impl<'a> Reader<'a> {
    fn new(archive: &'a [u8]) -> Self {
        Reader { archive, place: 0, ids: vec![], current: 0, tables: vec![Tables::new()], arguments: vec![] }
    }

    fn enter(&mut self, id: u32) -> Result<(), u8> {
        self.current = match self.ids.iter().position(|&known| known == id) {
            Some(slot) => slot + 1,
            None if self.ids.len() == 8 => return Err(9),
            None => {
                self.ids.push(id);
                self.tables.push(Tables::new());
                self.ids.len()
            }
        };
        Ok(())
    }

    // The next record, and whether repacking would lose something of it.
    fn next(&mut self) -> Result<(Record<'a>, bool), u8> {
        let (header, end) = record(self.archive, self.place)?;
        let mut body = Cursor { archive: self.archive, at: self.place + 8, end, lost: false };
        let read = match bits(header, 0, 3) {
            0 => self.metadata(&mut body, header)?,
            1 => {
                let rate = body.word()?;
                body.finish(bits(header, 16, 63));
                Record::Initialization { rate }
            }
            2 => {
                self.string(&mut body, header)?;
                Record::Nothing
            }
            3 => {
                let index = bits(header, 16, 23) as usize;
                if index != 0 {
                    self.tables[self.current].threads[index] = Some(body.thread()?);
                    body.finish(bits(header, 24, 63));
                }
                Record::Nothing
            }
            4 if bits(header, 16, 19) <= 10 => self.event(&mut body, header)?,
            9 => {
                let timestamp = body.word()?;
                let thread = self.tables[self.current].thread(&mut body, bits(header, 32, 39))?;
                let message = body.stream(bits(header, 16, 30) as usize)?;
                body.finish(bits(header, 31, 31) | bits(header, 40, 63));
                Record::Log { timestamp, thread, message }
            }
            _ => {
                body.lost = true;
                Record::Nothing
            }
        };
        self.place = end;
        Ok((read, body.lost))
    }

    fn metadata(&mut self, body: &mut Cursor<'a>, header: u64) -> Result<Record<'a>, u8> {
        let id = bits(header, 20, 51) as u32;
        Ok(match bits(header, 16, 19) {
            1 => {
                let name = body.stream(bits(header, 52, 59) as usize)?;
                self.enter(id)?;
                body.finish(bits(header, 60, 63));
                Record::ProviderInfo { id, name }
            }
            2 => {
                self.enter(id)?;
                body.finish(bits(header, 52, 63));
                Record::Section { id }
            }
            3 => {
                body.finish(bits(header, 56, 63));
                Record::ProviderEvent { id, event: bits(header, 52, 55) }
            }
            4 if bits(header, 20, 23) == 0 => {
                if header != u64::from_le_bytes(MAGIC) {
                    return Err(6);
                }
                Record::Magic
            }
            _ => {
                body.lost = true;
                Record::Nothing
            }
        })
    }

    fn string(&mut self, body: &mut Cursor<'a>, header: u64) -> Result<(), u8> {
        let index = bits(header, 16, 30) as usize;
        if index == 0 {
            return Ok(());
        }
        if index > HIGHEST_INDEX {
            return Err(8);
        }
        self.tables[self.current].strings[index] = Some(body.stream(bits(header, 32, 46) as usize)?);
        body.finish(bits(header, 31, 31) | bits(header, 47, 63));
        Ok(())
    }

    fn event(&mut self, body: &mut Cursor<'a>, header: u64) -> Result<Record<'a>, u8> {
        let tables = &self.tables[self.current];
        let kind = bits(header, 16, 19);
        let timestamp = body.word()?;
        let thread = tables.thread(body, bits(header, 24, 31))?;
        let category = tables.text(body, bits(header, 32, 47))?;
        let name = tables.text(body, bits(header, 48, 63))?;
        self.arguments.clear();
        for _ in 0..bits(header, 20, 23) {
            self.arguments.push(tables.argument(body)?);
        }
        let extra = match kind {
            0 | 2 | 3 => None,
            _ => Some(body.word()?),
        };
        body.finish(0);
        Ok(Record::Event(Event { kind, timestamp, thread, category, name, extra }))
    }
}

// The texts of an event, in the order of their uses.
fn texts<'a, 'r>(event: &Event<'a>, arguments: &'r [Argument<'a>]) -> impl Iterator<Item = Text<'a>> + use<'a, 'r> {
    let of_argument = |argument: &Argument<'a>| {
        let value = match argument.value {
            Value::Text(text) => text,
            _ => Some(&[][..]),
        };
        [argument.name, value]
    };
    [event.category, event.name].into_iter().chain(arguments.iter().flat_map(of_argument))
}

// Whether a record has an unresolved reference.
fn unresolved(read: &Record, arguments: &[Argument]) -> bool {
    match read {
        Record::Event(event) => event.thread.is_none() || texts(event, arguments).any(|text| text.is_none()),
        Record::Log { thread, .. } => thread.is_none(),
        _ => false,
    }
}

// How often a text or a thread is used, and the index that it was given, from 1.
#[derive(Default)]
struct Use {
    count: usize,
    index: u64,
}

impl Use {
    fn registered(&self, words: usize) -> bool {
        1 + words < self.count * words
    }

    fn words(&self, words: usize) -> usize {
        (self.count * words).min(1 + words)
    }
}

// What a context uses, and how many of it are registered so far.
#[derive(Default)]
struct Uses<'a> {
    texts: HashMap<&'a [u8], Use>,
    threads: HashMap<[u64; 2], Use>,
    text_indexes: u64,
    thread_indexes: u64,
}

impl<'a> Uses<'a> {
    // Counts a record without unresolved references; false where there are too many texts or threads by now. A message is no use.
    fn count(&mut self, read: &Record<'a>, arguments: &[Argument<'a>]) -> bool {
        match read {
            Record::Event(event) => {
                self.count_thread(event.thread);
                for text in texts(event, arguments).flatten().filter(|text| !text.is_empty()) {
                    self.texts.entry(text).or_default().count += 1;
                }
            }
            Record::Log { thread, .. } => self.count_thread(*thread),
            _ => {}
        }
        self.texts.len() <= MOST_TEXTS && self.threads.len() <= MOST_THREADS
    }

    fn count_thread(&mut self, thread: Thread) {
        self.threads.entry(thread.unwrap()).or_default().count += 1;
    }

    fn words(&self) -> usize {
        let texts: usize = self.texts.iter().map(|(text, used)| used.words(text.len().div_ceil(8))).sum();
        let threads: usize = self.threads.values().map(|used| used.words(2)).sum();
        texts + threads
    }
}

// The words of a record without the texts and threads that it uses.
fn fixed_words(read: &Record, arguments: &[Argument]) -> usize {
    match read {
        Record::Nothing => 0,
        Record::Magic | Record::Section { .. } | Record::ProviderEvent { .. } => 1,
        Record::Initialization { .. } => 2,
        Record::ProviderInfo { name, .. } => 1 + name.len().div_ceil(8),
        Record::Event(event) => {
            let words = arguments.iter().filter(|argument| matches!(argument.value, Value::Word(_))).count();
            2 + arguments.len() + words + event.extra.is_some() as usize
        }
        Record::Log { message, .. } => 2 + message.len().div_ceil(8),
    }
}

// The first pass: the uses of each context and the length that will be written.
fn count(archive: &[u8]) -> Result<(Vec<Uses<'_>>, usize), Stop> {
    let mut reader = Reader::new(archive);
    let mut uses: Vec<Uses> = (0..9).map(|_| Uses::default()).collect();
    let mut words = 0;
    let mut found = [None; 3];
    while reader.place < archive.len() {
        let place = reader.place;
        let (read, lost) = reader.next().map_err(|number| Stop { number, place })?;
        words += fixed_words(&read, &reader.arguments);
        if lost {
            found[0].get_or_insert(place);
        }
        if unresolved(&read, &reader.arguments) {
            found[1].get_or_insert(place);
        } else if found == [None; 3] && !uses[reader.current].count(&read, &reader.arguments) {
            found[2].get_or_insert(place);
        }
    }
    for (number, place) in (10..).zip(found) {
        if let Some(place) = place {
            return Err(Stop { number, place });
        }
    }
    words += uses.iter().map(Uses::words).sum::<usize>();
    Ok((uses, 8 * words))
}

// The output, and where the next word goes.
struct Writer<'o> {
    output: &'o mut [u8],
    at: usize,
}

impl Writer<'_> {
    fn word(&mut self, word: u64) {
        self.output[self.at..self.at + 8].copy_from_slice(&word.to_le_bytes());
        self.at += 8;
    }

    fn stream(&mut self, bytes: &[u8]) {
        let (text, padding) = self.output[self.at..self.at + stream_bytes(bytes.len())].split_at_mut(bytes.len());
        text.copy_from_slice(bytes);
        padding.fill(0);
        self.at += stream_bytes(bytes.len());
    }

    // How a text is referred to; it is registered before where it is to be and is not.
    fn text(&mut self, uses: &mut Uses, text: &[u8]) -> u64 {
        if text.is_empty() {
            return 0;
        }
        let words = text.len().div_ceil(8);
        let used = uses.texts.get_mut(text).unwrap();
        if !used.registered(words) {
            return 0x8000 | text.len() as u64;
        }
        if used.index == 0 {
            uses.text_indexes += 1;
            used.index = uses.text_indexes;
            self.word(2 | (1 + words as u64) << 4 | used.index << 16 | (text.len() as u64) << 32);
            self.stream(text);
        }
        used.index
    }

    fn thread(&mut self, uses: &mut Uses, thread: [u64; 2]) -> u64 {
        let used = uses.threads.get_mut(&thread).unwrap();
        if !used.registered(2) {
            return 0;
        }
        if used.index == 0 {
            uses.thread_indexes += 1;
            used.index = uses.thread_indexes;
            self.word(3 | 3 << 4 | used.index << 16);
            self.word(thread[0]);
            self.word(thread[1]);
        }
        used.index
    }

    fn inline(&mut self, reference: u64, text: Text) {
        if reference >= 0x8000 {
            self.stream(text.unwrap());
        }
    }

    fn inline_thread(&mut self, reference: u64, thread: Thread) {
        if reference == 0 {
            for word in thread.unwrap() {
                self.word(word);
            }
        }
    }

    fn argument(&mut self, argument: &Argument, name: u64, value: u64) {
        let start = self.at;
        self.word(0);
        self.inline(name, argument.name);
        let mut high = 0;
        match argument.value {
            Value::InHeader(half) => high = half,
            Value::Word(word) => self.word(word),
            Value::Text(text) => {
                high = value;
                self.inline(value, text);
            }
        }
        let size = (self.at - start) as u64 / 8;
        self.header(start, argument.kind | size << 4 | name << 16 | high << 32);
    }

    fn header(&mut self, start: usize, header: u64) {
        self.output[start..start + 8].copy_from_slice(&header.to_le_bytes());
    }

    fn event(&mut self, uses: &mut Uses, event: &Event, arguments: &[Argument], references: &mut Vec<u64>) {
        let thread = self.thread(uses, event.thread.unwrap());
        references.clear();
        for text in texts(event, arguments) {
            references.push(self.text(uses, text.unwrap()));
        }
        let (category, name) = (references[0], references[1]);
        let start = self.at;
        self.word(0);
        self.word(event.timestamp);
        self.inline_thread(thread, event.thread);
        self.inline(category, event.category);
        self.inline(name, event.name);
        for (argument, pair) in arguments.iter().zip(references[2..].chunks_exact(2)) {
            self.argument(argument, pair[0], pair[1]);
        }
        if let Some(extra) = event.extra {
            self.word(extra);
        }
        let size = (self.at - start) as u64 / 8;
        let count = arguments.len() as u64;
        self.header(start, 4 | size << 4 | event.kind << 16 | count << 20 | thread << 24 | category << 32 | name << 48);
    }

    fn log(&mut self, uses: &mut Uses, timestamp: u64, thread: Thread, message: &[u8]) {
        let reference = self.thread(uses, thread.unwrap());
        let start = self.at;
        self.word(0);
        self.word(timestamp);
        self.inline_thread(reference, thread);
        self.stream(message);
        let size = (self.at - start) as u64 / 8;
        self.header(start, 9 | size << 4 | (message.len() as u64) << 16 | reference << 32);
    }
}

// The second pass: every item's record again, behind the registrations that it is the first to use.
fn write(archive: &[u8], mut uses: Vec<Uses>, output: &mut [u8]) -> usize {
    let mut reader = Reader::new(archive);
    let mut writer = Writer { output, at: 0 };
    let mut references = vec![];
    while reader.place < archive.len() {
        let Ok((read, _)) = reader.next() else { break };
        match read {
            Record::Nothing => {}
            Record::Magic => writer.word(u64::from_le_bytes(MAGIC)),
            Record::ProviderInfo { id, name } => {
                writer.word((1 + name.len().div_ceil(8) as u64) << 4 | 1 << 16 | (id as u64) << 20 | (name.len() as u64) << 52);
                writer.stream(name);
            }
            Record::Section { id } => writer.word(1 << 4 | 2 << 16 | (id as u64) << 20),
            Record::ProviderEvent { id, event } => writer.word(1 << 4 | 3 << 16 | (id as u64) << 20 | event << 52),
            Record::Initialization { rate } => {
                writer.word(1 | 2 << 4);
                writer.word(rate);
            }
            Record::Event(event) => writer.event(&mut uses[reader.current], &event, &reader.arguments, &mut references),
            Record::Log { timestamp, thread, message } => writer.log(&mut uses[reader.current], timestamp, thread, message),
        }
    }
    writer.at
}

fn pack(archive: &[u8], output: &mut [u8]) -> Result<usize, Stop> {
    let (uses, length) = count(archive)?;
    if output.len() < length {
        return Err(Stop { number: 14, place: 0 });
    }
    let written = write(archive, uses, output);
    assert_eq!(written, length, "the length was measured wrong");
    Ok(length)
}

// Repacks an archive. The room is not needed here, but is checked and cleared as document 01 says.
pub fn repack(archive: &[u8], room: &mut [u32], output: &mut [u8]) -> Result<usize, Stop> {
    let number = if archive.len() > LONGEST_ARCHIVE {
        2
    } else if !archive.starts_with(&MAGIC) {
        1
    } else if room.len() < ROOM_WORDS {
        13
    } else {
        let packed = pack(archive, output);
        room[..ROOM_WORDS].fill(0);
        return packed;
    };
    Err(Stop { number, place: 0 })
}
