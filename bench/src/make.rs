// Archives for the timing and for the tests, made from a seed.
use std::ops::Range;

pub const MAGIC: u64 = 0x0016547846040010;

pub struct Random(pub u64);

impl Random {
    pub fn next(&mut self) -> u64 {
        self.0 ^= self.0 << 13;
        self.0 ^= self.0 >> 7;
        self.0 ^= self.0 << 17;
        self.0.wrapping_mul(0x9e3779b97f4a7c15).rotate_left(23)
    }

    pub fn below(&mut self, n: usize) -> usize {
        (self.next() % n as u64) as usize
    }

    pub fn within(&mut self, range: Range<usize>) -> usize {
        range.start + self.below(range.end - range.start)
    }

    // true so many times of a hundred
    pub fn chance(&mut self, percent: usize) -> bool {
        self.below(100) < percent
    }
}

fn stream(bytes: &[u8]) -> Vec<u64> {
    bytes
        .chunks(8)
        .map(|chunk| {
            let mut word = [0; 8];
            word[..chunk.len()].copy_from_slice(chunk);
            u64::from_le_bytes(word)
        })
        .collect()
}

pub fn bytes_of(words: &[u64]) -> Vec<u8> {
    words.iter().flat_map(|word| word.to_le_bytes()).collect()
}

fn name(random: &mut Random, lengths: Range<usize>) -> Vec<u8> {
    let length = random.within(lengths);
    (0..length).map(|_| b'a' + random.below(26) as u8).collect()
}

fn string_record(index: usize, text: &[u8]) -> Vec<u64> {
    let body = stream(text);
    let header = 2 | (1 + body.len() as u64) << 4 | (index as u64) << 16 | (text.len() as u64) << 32;
    [vec![header], body].concat()
}

fn thread_record(index: usize, words: [u64; 2]) -> Vec<u64> {
    vec![3 | 3 << 4 | (index as u64) << 16, words[0], words[1]]
}

fn provider_record(id: u32, text: &[u8]) -> Vec<u64> {
    let body = stream(text);
    [vec![(1 + body.len() as u64) << 4 | 1 << 16 | (id as u64) << 20 | (text.len() as u64) << 52], body].concat()
}

fn section_record(id: u32) -> Vec<u64> {
    vec![1 << 4 | 2 << 16 | (id as u64) << 20]
}

pub fn rate(random: &mut Random) -> u64 {
    match random.below(8) {
        0 => [0, 1, 1_000_000_000, u64::MAX][random.below(4)],
        1 => random.next(),
        _ => random.next() % 5_000_000_000,
    }
}

fn initialization_record(random: &mut Random) -> Vec<u64> {
    vec![1 | 2 << 4, rate(random)]
}

// A log of a thread by its index, or of one that is spelled where the index is 0.
fn log_record(time: u64, index: usize, words: [u64; 2], message: &[u8]) -> Vec<u64> {
    let mut body = vec![time];
    if index == 0 {
        body.extend(words);
    }
    body.extend(stream(message));
    let header = 9 | (1 + body.len() as u64) << 4 | (message.len() as u64) << 16 | (index as u64) << 32;
    [vec![header], body].concat()
}

// A record type that is skipped.
fn skipped_type(random: &mut Random) -> u64 {
    [5, 6, 7, 8, 10, 11, 12, 13, 14, 15][random.below(10)]
}

// What the events and logs of an archive are drawn from.
pub struct Style {
    pub texts: Vec<Vec<u8>>,
    pub threads: Vec<[u64; 2]>,
    // how many of the texts and of the threads, from the first, can be named by an index
    pub registered: [usize; 2],
    // of a hundred, how many references spell what they mean
    pub inline: usize,
    pub arguments: usize,
}

impl Style {
    // A reference to a text, with its stream.
    fn text(&self, random: &mut Random) -> (u64, Vec<u64>) {
        let i = random.below(self.texts.len());
        if random.chance(self.inline) || self.registered[0] <= i {
            return (0x8000 | self.texts[i].len() as u64, stream(&self.texts[i]));
        }
        (1 + i as u64, vec![])
    }

    fn argument(&self, random: &mut Random, kind: u64) -> Vec<u64> {
        let (reference, mut body) = self.text(random);
        let mut high = 0;
        match kind {
            1 | 2 => high = random.next() >> 32,
            3 | 4 | 5 | 7 | 8 => body.push(random.next() >> random.below(64)),
            6 => {
                let (value, stream) = self.text(random);
                high = value;
                body.extend(stream);
            }
            9 => high = random.next() & 1,
            _ => {}
        }
        let header = kind | (1 + body.len() as u64) << 4 | reference << 16 | high << 32;
        [vec![header], body].concat()
    }

    // The index of a thread, 0 where it is spelled, and its words.
    fn thread(&self, random: &mut Random) -> (usize, [u64; 2]) {
        let i = random.below(self.threads.len());
        let spelled = random.chance(self.inline) || self.registered[1] <= i;
        (if spelled { 0 } else { 1 + i }, self.threads[i])
    }

    pub fn event(&self, random: &mut Random, time: u64) -> Vec<u64> {
        let kind = random.below(11) as u64;
        let count = random.below(self.arguments + 1) as u64;
        let (thread, words) = self.thread(random);
        let mut body = vec![time];
        if thread == 0 {
            body.extend(words);
        }
        let (category, category_stream) = self.text(random);
        let (name, name_stream) = self.text(random);
        body.extend(category_stream);
        body.extend(name_stream);
        for _ in 0..count {
            let kind = random.below(10) as u64;
            body.extend(self.argument(random, kind));
        }
        if kind == 1 || kind > 3 {
            body.push(random.next());
        }
        let header = 4 | (1 + body.len() as u64) << 4 | kind << 16 | count << 20 | (thread as u64) << 24 | category << 32 | name << 48;
        [vec![header], body].concat()
    }

    // A log with a message of its own, of any length that is taken, or with the bytes of a text.
    pub fn log(&self, random: &mut Random, time: u64) -> Vec<u64> {
        let (index, words) = self.thread(random);
        let message = match random.below(8) {
            0..=2 => self.texts[random.below(self.texts.len())].clone(),
            3 => {
                let length = [0, 1, 8, 9, 248, 249, 255, 256][random.below(8)];
                name(random, length..length + 1)
            }
            _ => name(random, 0..80),
        };
        log_record(time, index, words, &message)
    }

    // A log with something that is refused, ignored or unresolved, or with two.
    fn odd_log(&self, random: &mut Random, time: u64) -> Vec<u64> {
        let mut words = self.log(random, time);
        for _ in 0..random.within(1..3) {
            match random.below(6) {
                // a message over the limit, with its stream
                0 => {
                    let (index, thread) = self.thread(random);
                    words = log_record(time, index, thread, &name(random, 255..260));
                }
                // another length in the same record
                1 if random.chance(50) => words[0] |= 1 << random.within(16..31),
                1 => {
                    let length = [random.below(20), random.within(250..270), 300, random.below(0x8000)][random.below(4)];
                    words[0] = words[0] & !0x7fff0000 | (length as u64) << 16;
                }
                2 => words.truncate(random.within(1..words.len() + 1).min(random.within(1..6))),
                // any thread
                3 => words[0] = words[0] & !(0xff << 32) | (random.next() & 0xff & random.next()) << 32,
                // reserved bits
                4 => words[0] |= 1 << [31, random.within(40..64)][random.below(2)],
                // words beyond those listed; a bit of padding, where there is some
                _ => {
                    if random.chance(50) {
                        words.push(random.next() % 2);
                    }
                    *words.last_mut().unwrap() |= 1 << random.within(56..64);
                }
            }
        }
        words[0] = words[0] & !0xfff0 | (words.len() as u64) << 4;
        words
    }
}

// The text of a number, for the texts of a long archive.
pub type Spelling = fn(&mut Random, usize) -> Vec<u8>;

fn any_letters(random: &mut Random, _: usize) -> Vec<u8> {
    name(random, 3..33)
}

pub fn worker_and_phase(_: &mut Random, i: usize) -> Vec<u8> {
    format!("com.vendor.charger.worker-{i:04}.phase.{}.completed", i % 10).into_bytes()
}

pub fn part_of_nine(_: &mut Random, i: usize) -> Vec<u8> {
    format!("c{i:03}of9").into_bytes()
}

pub fn tens(_: &mut Random, i: usize) -> Vec<u8> {
    format!("{:06}", 10 * i).into_bytes()
}

pub fn number_in_front(_: &mut Random, i: usize) -> Vec<u8> {
    format!("{i:04}.battery.charge.completed").into_bytes()
}

pub fn counter_in_the_middle(_: &mut Random, i: usize) -> Vec<u8> {
    format!("display.frame.{i}.presented-to-the-compositor").into_bytes()
}

// 256 bytes that differ at 240 to 243.
pub fn late_number(_: &mut Random, i: usize) -> Vec<u8> {
    format!("{:240}{i:04}{:12}", "com.vendor", ".completed").into_bytes()
}

// What a long archive is made of: of a hundred references so many are spelled, an event has up to so many arguments, of a hundred
// events and logs so many are logs, and each provider has so many texts of one spelling and so many threads, all registered.
#[derive(Clone, Copy)]
pub struct Long {
    pub inline: usize,
    pub arguments: usize,
    pub logs: usize,
    pub providers: usize,
    pub texts: usize,
    pub threads: usize,
    pub spelling: Spelling,
}

impl Long {
    pub const fn new(inline: usize, arguments: usize) -> Self {
        Long { inline, arguments, logs: 0, providers: 5, texts: 100, threads: 20, spelling: any_letters }
    }
}

// A long archive, with events and logs in turns of a few hundred for each provider.
pub fn long(bytes: usize, seed: u64, of: Long) -> Vec<u8> {
    let mut random = Random(seed);
    let ids = &[7, 11, 900, 12_345, u32::MAX, 1, 2, 3][..of.providers];
    let mut words = vec![MAGIC, 1 | 2 << 4, 24_000_000];
    let mut styles = vec![];
    for &id in ids {
        let texts: Vec<Vec<u8>> = (0..of.texts).map(|i| (of.spelling)(&mut random, i)).collect();
        let threads: Vec<[u64; 2]> = (0..of.threads as u64).map(|i| [1000 + i, 2000 + i]).collect();
        words.extend(provider_record(id, &name(&mut random, 3..20)));
        for (i, text) in texts.iter().enumerate() {
            words.extend(string_record(i + 1, text));
        }
        for (i, thread) in threads.iter().enumerate() {
            words.extend(thread_record(i + 1, *thread));
        }
        let registered = [texts.len(), threads.len()];
        styles.push(Style { texts, threads, registered, inline: of.inline, arguments: of.arguments });
    }
    let mut time = 1_000_000;
    while words.len() * 8 < bytes {
        let provider = random.below(ids.len());
        words.extend(section_record(ids[provider]));
        for _ in 0..random.within(100..400) {
            time += random.below(1000) as u64;
            // no number is drawn for logs where there are none, so that their coming changed no other archive
            let log = of.logs != 0 && random.chance(of.logs);
            let style = &styles[provider];
            words.extend(if log { style.log(&mut random, time) } else { style.event(&mut random, time) });
        }
    }
    bytes_of(&words)
}

// The records of a short archive of every kind, right ones and odd ones.
pub fn records(random: &mut Random) -> Vec<Vec<u64>> {
    let many = random.within(1..12);
    let style = Style {
        texts: (0..many).map(|_| name(random, 0..20)).collect(),
        threads: (0..random.within(1..5)).map(|i| [i as u64, random.next() % 10]).collect(),
        registered: [usize::MAX; 2],
        inline: random.below(101),
        arguments: random.below(16),
    };
    let long_names = random.chance(10);
    let odd_logs = random.chance(40);
    let many_rates = random.chance(40);
    let ids = if random.chance(25) { 40 } else if many_rates { 3 } else { 5 };
    let mut records = vec![vec![MAGIC]];
    if random.chance(20) {
        records.push(initialization_record(random));
    }
    for _ in 0..random.within(1..40) {
        let index = random.within(1..many + 2);
        let id = random.below(ids) as u32;
        records.push(match random.below(40) {
            0 => initialization_record(random),
            1 | 2 => provider_record(id, &name(random, 0..12)),
            3..=5 => section_record(id),
            6 => vec![1 << 4 | 3 << 16 | (id as u64) << 20 | (random.next() & 15) << 52],
            7..=16 => string_record(index, &style.texts[index.min(many) - 1]),
            17 if long_names => string_record(index, &name(random, 250..260)),
            18..=21 => thread_record(random.within(1..6), [random.next() % 9, random.next() % 9]),
            22 => string_record(0, b"ignored"),
            23 => thread_record(0, [1, 2]),
            24 => {
                // a type, metadata kind or event type that is skipped
                let size = random.within(1..5);
                let mut words = vec![random.next() % 100; size];
                words[0] = skipped_type(random) | (size as u64) << 4;
                if random.chance(30) {
                    words[0] = (size as u64) << 4 | (random.within(4..16) as u64) << 16 | (random.within(1..16) as u64) << 20;
                } else if random.chance(30) {
                    words[0] = 4 | (size as u64) << 4 | (random.within(11..16) as u64) << 16 | random.next() << 20;
                }
                words
            }
            25 => vec![MAGIC],
            26..=28 => style.log(random, records.len() as u64),
            29 | 30 if odd_logs => style.odd_log(random, records.len() as u64),
            // contexts with rates of their own, and back to them
            31..=33 if many_rates => initialization_record(random),
            34..=36 if many_rates => section_record(id),
            _ => {
                let mut words = style.event(random, records.len() as u64);
                if random.chance(5) {
                    // words beyond those listed
                    words.push(random.next());
                    words[0] += 1 << 4;
                }
                words
            }
        });
    }
    if random.chance(5) {
        records.push(string_record(random.within(505..520), &name(random, 0..9)));
    }
    records
}

// What a context is, for an archive that repacking takes, and the records that start it.
fn context(random: &mut Random, provider: Option<u32>) -> (Style, Vec<Vec<u64>>) {
    let mut texts: Vec<Vec<u8>> = (0..random.within(1..10)).map(|_| name(random, 0..20)).collect();
    if random.chance(30) {
        let length = [8, 16, 24, 248, 255, 256][random.below(6)];
        texts.push(name(random, length..length + 1));
    }
    // one text as two, so that equal texts stand under two indexes
    if random.chance(30) {
        texts.push(texts[0].clone());
    }
    let threads: Vec<[u64; 2]> = (0..random.within(1..5)).map(|_| [random.next() % 3, random.next() % 3]).collect();
    let registered = [random.below(texts.len() + 1), random.below(threads.len() + 1)];
    let mut start = vec![];
    if let Some(id) = provider {
        start.push(if random.chance(60) { provider_record(id, &name(random, 0..12)) } else { section_record(id) });
    }
    if random.chance(50) {
        start.push(initialization_record(random));
    }
    start.extend((0..registered[0]).map(|i| string_record(i + 1, &texts[i])));
    start.extend((0..registered[1]).map(|i| thread_record(i + 1, threads[i])));
    let style = Style { texts, threads, registered, inline: random.below(101), arguments: random.below(16) };
    (style, start)
}

// The records of an archive that repacking takes: several contexts, texts under an index, under two, and spelled.
pub fn sound(random: &mut Random) -> Vec<Vec<u64>> {
    let mut records = vec![vec![MAGIC]];
    let ids: Vec<u32> = (0..random.within(1..7) as u32).map(|i| i * 1_000_003).collect();
    let mut styles: Vec<Option<Style>> = (0..=ids.len()).map(|_| None).collect();
    let mut current = 0;
    for turn in 0..random.within(1..60) {
        if random.chance(10) {
            current = random.within(1..styles.len());
            if styles[current].is_some() {
                records.push(section_record(ids[current - 1]));
            }
        }
        if styles[current].is_none() {
            let (style, start) = context(random, current.checked_sub(1).map(|slot| ids[slot]));
            records.extend(start);
            styles[current] = Some(style);
        }
        let style = styles[current].as_mut().unwrap();
        records.push(match random.below(40) {
            0 => initialization_record(random),
            1 => vec![1 << 4 | 3 << 16 | random.next() % 9 << 20 | (random.next() & 15) << 52],
            2 => string_record(0, b"ignored"),
            3 => thread_record(0, [1, 2]),
            4 => vec![MAGIC],
            5 => string_record(500, &name(random, 0..40)),
            // an index that comes to stand for another text
            6 if 0 < style.registered[0] => {
                let index = random.below(style.registered[0]);
                style.texts[index] = name(random, 0..20);
                string_record(index + 1, &style.texts[index])
            }
            7 if 0 < style.registered[1] => {
                let index = random.below(style.registered[1]);
                style.threads[index][0] += 1;
                thread_record(index + 1, style.threads[index])
            }
            8..=15 => style.log(random, turn as u64),
            _ => style.event(random, turn as u64),
        });
    }
    records
}

// An archive that repacking takes, with a record of every kind and, in one event, an argument of every type.
pub fn every_kind(random: &mut Random) -> Vec<u8> {
    let style = Style {
        texts: vec![b"one".to_vec(), b"nine byte".to_vec(), b"spelled".to_vec()],
        threads: vec![[1, 2], [3, 4]],
        registered: [2, 1],
        inline: 0,
        arguments: 0,
    };
    let mut words = vec![MAGIC, 1 | 2 << 4, 24_000_000];
    words.extend(provider_record(7, b"provider"));
    words.extend([1 | 2 << 4, 19_200_000]);
    words.extend(section_record(9));
    words.push(1 << 4 | 3 << 16 | 9 << 20 | 2 << 52);
    words.extend((0..2).flat_map(|i| string_record(i + 1, &style.texts[i])));
    words.extend(thread_record(1, style.threads[0]));
    words.extend(string_record(0, b"ignored"));
    words.extend((0..3).flat_map(|i| style.event(random, i)));
    let arguments: Vec<u64> = (0..10).flat_map(|kind| style.argument(random, kind)).collect();
    words.extend([4 | (3 + arguments.len() as u64) << 4 | 1 << 16 | 10 << 20 | 1 << 24 | 1 << 32 | 2 << 48, 5]);
    words.extend(arguments);
    words.push(6);
    words.extend(log_record(7, 1, [0, 0], b"one"));
    words.extend(log_record(8, 0, [3, 4], b"log message"));
    words.extend(log_record(9, 0, [1, 2], b""));
    words.extend(section_record(7));
    words.extend(log_record(10, 0, [1, 2], b"met again"));
    bytes_of(&words)
}

// An archive that repacking would take but for a bit, a byte or a word that it would lose, or a thread that is not registered.
pub fn lossy(random: &mut Random) -> Vec<u8> {
    let mut records = sound(random);
    let at = random.below(records.len());
    let last = records[at].len() - 1;
    match random.below(7) {
        0 => records[at][0] |= 1 << random.within(16..64),
        1 => records[at][last] |= 1 << random.within(32..64),
        2 => {
            let word = random.below(last + 1);
            records[at][word] |= random.next() & random.next() << 32;
        }
        3 => {
            records[at].push(0);
            records[at][0] += 1 << 4;
        }
        4 => records.insert(at + 1, vec![skipped_type(random) | 1 << 4]),
        5 => {
            let length = random.within(1..40);
            let message = name(random, length..length + 1);
            let mut log = log_record(5, 0, [1, 1], &message);
            let padding = message.len().next_multiple_of(8) - message.len();
            match random.below(3) {
                0 if padding != 0 => *log.last_mut().unwrap() |= 1 << random.within(64 - 8 * padding..64),
                1 => {
                    log.push(random.next() % 2);
                    log[0] += 1 << 4;
                }
                _ => log[0] |= 1 << [31, random.within(40..64)][random.below(2)],
            }
            records.insert(at + 1, log);
        }
        _ => records.insert(at + 1, log_record(5, random.within(6..256), [0, 0], b"unresolved")),
    }
    bytes_of(&records.concat())
}

// An archive with so many distinct texts and threads in its last context. Some threads are first used by a log; messages are more.
pub fn many(random: &mut Random, texts: usize, threads: usize) -> Vec<u8> {
    let mut words = vec![MAGIC];
    words.extend(section_record(7));
    for i in 0..texts.max(threads) + random.below(40) {
        let text = (i % texts).to_string();
        let thread = [1, (i % threads) as u64];
        if random.chance(50) {
            words.extend(log_record(i as u64, 0, thread, format!("message {i}").as_bytes()));
        }
        let body = [vec![i as u64], thread.to_vec(), stream(text.as_bytes())].concat();
        words.push(4 | (1 + body.len() as u64) << 4 | (0x8000 | text.len() as u64) << 32);
        words.extend(body);
    }
    bytes_of(&words)
}

// How many events and logs an archive has.
pub fn events(archive: &[u8]) -> usize {
    let (mut place, mut count) = (0, 0);
    while place + 8 <= archive.len() {
        let header = u64::from_le_bytes(archive[place..place + 8].try_into().unwrap());
        count += matches!(header & 15, 4 | 9) as usize;
        place += 8 * (header as usize >> 4 & 0xfff);
    }
    count
}

// One damage to an archive: a cut, bytes, words, fields, sizes, records that change places.
pub fn damaged(random: &mut Random, mut records: Vec<Vec<u64>>) -> Vec<u8> {
    match random.below(6) {
        0 => {
            let mut bytes = bytes_of(&records.concat());
            bytes.truncate(random.below(bytes.len() + 1));
            bytes
        }
        1 => {
            let mut bytes = bytes_of(&records.concat());
            for _ in 0..random.within(1..5) {
                let at = random.below(bytes.len());
                bytes[at] = random.next() as u8;
            }
            bytes
        }
        2 => {
            let mut words = records.concat();
            for _ in 0..random.within(1..4) {
                let at = random.below(words.len());
                words[at] = match random.below(4) {
                    0 => random.next(),
                    1 => 0,
                    2 => words[at] ^ 1 << random.below(64),
                    _ => words[random.below(words.len())],
                };
            }
            bytes_of(&words)
        }
        3 => {
            for _ in 0..random.within(1..5) {
                let (a, b) = (random.within(0..records.len()), random.within(0..records.len()));
                records.swap(a, b);
            }
            if random.chance(80) {
                records.insert(0, vec![MAGIC]);
            }
            bytes_of(&records.concat())
        }
        4 => {
            // a size that is wrong, by a little or by much
            let at = random.below(records.len());
            let header = records[at][0];
            let size = header >> 4 & 0xfff;
            let wrong = match random.below(4) {
                0 => random.next() & 0xfff,
                1 => size + 1 + random.next() % 4,
                2 => size.saturating_sub(1 + random.next() % 3),
                _ => 0xfff,
            } & 0xfff;
            records[at][0] = header & !0xfff0 | wrong << 4;
            bytes_of(&records.concat())
        }
        _ => {
            // a header's field, or an argument's
            let at = random.below(records.len());
            let word = random.below(records[at].len().min(9));
            let low = [0, 4, 16, 20, 24, 32, 48][random.below(7)];
            let mask = 0xffff << low;
            records[at][word] = records[at][word] & !mask | (random.next() & mask) & random.next();
            if random.chance(30) {
                records[at][0] = records[at][0] & !15 | random.next() & 15;
            }
            bytes_of(&records.concat())
        }
    }
}

// An archive with an event or a log, and entries of the first context that name records where no reading would have left them:
// in the body of a skipped record, aligned or not, or in the words behind the event's own.
pub struct Planted {
    pub archive: Vec<u8>,
    pub entries: Vec<(usize, u32)>,
    pub event: usize,
    pub end: usize,
}

pub fn planted(random: &mut Random) -> Planted {
    let many = random.within(1..5);
    let style = Style {
        texts: vec![b"text".to_vec(); many],
        threads: vec![[1, 2]; many],
        registered: [usize::MAX; 2],
        inline: random.below(50),
        arguments: random.below(6),
    };
    let mut entries = vec![];
    let mut body = vec![];
    let log = random.chance(25);
    let mut event = if log { style.log(random, 5) } else { style.event(random, 5) };
    let listed = event.len();
    let base = if random.chance(20) { random.within(1..8) } else { 0 };
    for i in 1..=many {
        let (mut record, position) = if random.chance(if log { 20 } else { 70 }) {
            let length = if random.chance(40) { random.within(250..264) } else { random.within(0..20) };
            (string_record(i, &name(random, length..length + 1)), i)
        } else {
            (thread_record(i, [3, 4]), 512 + i)
        };
        match random.below(12) {
            0 => record[0] += 1 << 16,
            1 => record[0] ^= 1,
            2 => record[0] -= 1 << 4,
            3 => record[0] += (random.next() % 200) << 4,
            4 => record[0] &= !0xfff0,
            _ => {}
        }
        if random.chance(25) {
            entries.push((position, false, event.len() * 8));
            event.extend(record);
        } else {
            entries.push((position, true, body.len()));
            body.extend(bytes_of(&record));
        }
    }
    event[0] += ((event.len() - listed) as u64) << 4;
    let mut inside = vec![0; base];
    inside.extend(body);
    let skipped = [vec![5], stream(&inside)].concat();
    let mut words = vec![MAGIC];
    words.extend(&skipped);
    words[1] |= (skipped.len() as u64) << 4;
    let place = words.len() * 8;
    words.extend(&event);
    Planted {
        end: words.len() * 8,
        archive: bytes_of(&words),
        entries: entries
            .into_iter()
            .map(|(position, skipped, at)| (position, if skipped { 16 + base + at } else { place + at } as u32))
            .collect(),
        event: place,
    }
}
