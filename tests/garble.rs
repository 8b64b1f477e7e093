//! Random scripts: calls that meet each other, and lines broken in many ways.
use crate::listing::{self, FIRST};
use crate::model::{self, Window, SIZE};
use crate::perform::{perform, Call, NAMES};
use crate::random::{self, Kind, Random};

/// Any byte but a newline, mostly one that a line could hold.
fn byte(r: &mut Random) -> u8 {
    match r.below(4) {
        0 => r.pick(b",,,\r \t\0+-"),
        1 | 2 => r.pick(b"0123456789abcdeilmnoprstuvw"),
        _ => Some(r.next() as u8).filter(|b| *b != b'\n').unwrap_or(b','),
    }
}

/// A field that is a number at an edge, or none.
fn field(r: &mut Random) -> Vec<u8> {
    let any = r.next();
    match r.below(8) {
        0 => (any as u32 % 300).to_string(),
        1 => (any as u32).to_string(),
        2 => ((1 << 32) - 3 + any % 6).to_string(),
        3 => any.to_string(),
        4 => format!("0{}", any % 100),
        5 => "9".repeat(1 + r.below(21)),
        6 => "0".repeat(r.below(12)),
        _ => String::from_utf8_lossy(&[r.pick(b"+- .x"), r.pick(b"0129")]).into(),
    }
    .into_bytes()
}

/// Another field, or another name, in a line.
fn exchange(r: &mut Random, line: &[u8]) -> Vec<u8> {
    let mut fields: Vec<Vec<u8>> = line.split(|b| *b == b',').map(|f| f.to_vec()).collect();
    let at = r.below(fields.len());
    fields[at] = match at {
        0 if r.one_in(2) => fields[0].to_ascii_uppercase(),
        0 => r.pick(&NAMES).into(),
        _ => field(r),
    };
    fields.join(&b',')
}

/// A line made otherwise, mostly a broken one.
fn garble(r: &mut Random, mut line: Vec<u8>) -> Vec<u8> {
    let at = r.below(line.len());
    match r.below(12) {
        0..=3 => return exchange(r, &line),
        4 => line[at] = byte(r),
        5 => line.insert(at, byte(r)),
        6 => drop(line.remove(at)),
        7 => line.push(byte(r)),
        8 => line.truncate(at),
        9 => {
            let length = r.pick(&[63, 64, 65, 66, 100, 200, 5_000]);
            let filling = byte(r);
            line.resize(length, filling);
        }
        10 => line = (0..r.below(80)).map(|_| byte(r)).collect(),
        _ => line.extend(r.pick(&[",0", ",", "\r", " ", "0", "\0"]).bytes()),
    }
    line
}

/// The window that the lines so far have left.
struct State {
    memory: Vec<u8>,
    now: Window,
}

impl State {
    fn take(&mut self, line: &[u8]) {
        if let Some(call) = listing::call(line) {
            if perform(&mut self.memory, call).0 == 0 {
                self.now = model::window(&self.memory).expect("a window");
            }
        }
    }
}

/// Lines without a first line, each ended by a newline; the first opens a window. One in `often` is garbled.
pub fn lines(r: &mut Random, kind: &Kind, length: usize, often: usize) -> Vec<u8> {
    let mut state = State { memory: vec![0; SIZE], now: Window::default() };
    let mut script = vec![];
    for place in 0..length {
        let call = if place == 0 { Call::Open(kind.entries) } else { random::call(r, kind, &state.now) };
        let mut line = call.to_string().into_bytes();
        if place > 0 && r.one_in(often) {
            line = garble(r, line);
        }
        state.take(&line);
        script.extend(line);
        script.push(b'\n');
    }
    script
}

/// A whole script; now and then its open, its last newline or a good first line is absent.
pub fn script(r: &mut Random, kind: &Kind, length: usize) -> Vec<u8> {
    let mut first = FIRST.as_bytes().to_vec();
    if r.one_in(25) {
        first = garble(r, first);
    }
    let often = r.pick(&[2, 5, 20]);
    let mut later = lines(r, kind, length, often);
    if r.one_in(25) {
        let open = later.iter().position(|b| *b == b'\n').map_or(0, |end| end + 1);
        later = later.split_off(open);
    }
    match r.below(8) {
        0 | 1 => drop(later.pop()),
        2 => later.push(b'\n'),
        _ => {}
    }
    [first, later].concat()
}
