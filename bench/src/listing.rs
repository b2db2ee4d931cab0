// The listing of document 01, with the lines of requests W1 (logs) and W2 (nine rates in a state), by the plain reader, to compare it
// with the expected answers of the test vectors.
use crate::plain::{self, Argument, Item, State, Stop, Text, Thread, Value};

fn text(archive: &[u8], t: Text) -> Vec<u8> {
    match t {
        Text::Unresolved(index) => format!("?{index}").into_bytes(),
        Text::At { place, length } => [format!("{length}:").as_bytes(), plain::text(archive, place, length)].concat(),
    }
}

fn provider(id: Option<u32>) -> String {
    id.map_or("-".to_string(), |id| id.to_string())
}

fn thread(t: Thread) -> String {
    match t {
        Thread::Words { process, thread } => format!("{process} {thread}"),
        Thread::Unresolved(index) => format!("?{index}"),
    }
}

pub fn item_line(archive: &[u8], item: &Item) -> Vec<u8> {
    let mut line = match item {
        Item::Magic => b"M".to_vec(),
        Item::ProviderInfo { id, place, length } => {
            [format!("P {id} ").into_bytes(), text(archive, Text::At { place: *place, length: *length })].concat()
        }
        Item::Section { id } => format!("S {id}").into_bytes(),
        Item::ProviderEvent { id, event } => format!("V {id} {event}").into_bytes(),
        Item::Initialization { rate } => format!("I {rate}").into_bytes(),
        Item::Skipped { kind, size } => format!("K {kind} {size}").into_bytes(),
        Item::Event(e) => {
            let extra = e.extra.map_or(String::new(), |extra| format!(" {extra}"));
            [
                format!("E {} {} {} {} {} ", e.kind, provider(e.provider), e.timestamp, e.rate, thread(e.thread)).into_bytes(),
                text(archive, e.category),
                b" ".to_vec(),
                text(archive, e.name),
                format!(" {}{extra}", e.count).into_bytes(),
            ]
            .concat()
        }
        Item::Log(l) => [
            format!("L {} {} {} {} ", provider(l.provider), l.timestamp, l.rate, thread(l.thread)).into_bytes(),
            text(archive, Text::At { place: l.message, length: l.length }),
        ]
        .concat(),
    };
    line.push(b'\n');
    line
}

pub fn argument_line(archive: &[u8], a: &Argument) -> Vec<u8> {
    let (kind, value) = match a.value {
        Value::Null => (0, b"-".to_vec()),
        Value::Signed32(v) => (1, v.to_string().into_bytes()),
        Value::Unsigned32(v) => (2, v.to_string().into_bytes()),
        Value::Signed64(v) => (3, v.to_string().into_bytes()),
        Value::Unsigned64(v) => (4, v.to_string().into_bytes()),
        Value::Double(v) => (5, format!("{v:016x}").into_bytes()),
        Value::Text(t) => (6, text(archive, t)),
        Value::Pointer(v) => (7, v.to_string().into_bytes()),
        Value::KernelObject(v) => (8, v.to_string().into_bytes()),
        Value::Boolean(v) => (9, (v as u8).to_string().into_bytes()),
        Value::Unknown(kind) => (kind, b"?".to_vec()),
    };
    [format!("A {kind} ").into_bytes(), text(archive, a.name), b" ".to_vec(), value, b"\n".to_vec()].concat()
}

pub fn stop_line(stop: &Stop) -> Vec<u8> {
    format!("end {} {}\n", stop.number, stop.place).into_bytes()
}

pub fn state_line(s: &State) -> Vec<u8> {
    let rates = s.rates.map(|rate| rate.to_string()).join(" ");
    let ids = s.ids.map(|id| id.to_string()).join(" ");
    format!("s {} {rates} {ids} {} {}\n", s.place, s.count, s.current).into_bytes()
}

pub fn listing(archive: &[u8]) -> Vec<u8> {
    let mut tables = vec![0; plain::TABLE_WORDS];
    let mut out = b"trace 1\n".to_vec();
    let mut state = match plain::open(archive, &mut tables) {
        Ok(state) => state,
        Err(stop) => return [out, stop_line(&stop)].concat(),
    };
    loop {
        match plain::step(archive, &mut state, &mut tables) {
            Err(stop) => return [out, stop_line(&stop)].concat(),
            Ok(None) => {}
            Ok(Some(item)) => {
                out.extend(item_line(archive, &item));
                if let Item::Event(event) = item {
                    for number in 0..event.count {
                        let argument = plain::argument(archive, &state, &tables, event.place, number).unwrap();
                        out.extend(argument_line(archive, &argument));
                    }
                }
            }
        }
    }
}
