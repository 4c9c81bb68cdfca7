//! Messages and frames, written plainly.

use std::collections::VecDeque;

const CAP: u64 = 1 << 62;
const MAX_VARIABLES: u32 = 1_000;
const MAX_SIZE: u16 = 1_024;
const MAX_CELLS: u32 = 1 << 20;
const MAX_PAYLOAD: usize = 1 << 24;

pub type Context = Vec<(u32, u16)>;

pub enum Message {
    Token { path: Vec<u32> },
    Done { visited: Vec<u32> },
    Util { scope: Vec<u32>, cells: Vec<u64> },
    ValueAll { values: Context },
    Value { value: u16 },
    Cost { context: Context, lower: u64, upper: Option<u64> },
    Threshold { amount: u64, context: Context },
    Terminate { context: Context },
}

pub struct Envelope {
    pub stamp: u64,
    pub message: Message,
}

fn list_len<T>(items: &[T], width: usize) -> usize {
    4 + items.len() * width
}

fn put_variables(out: &mut Vec<u8>, variables: &[u32]) {
    out.extend_from_slice(&(variables.len() as u32).to_be_bytes());
    for variable in variables {
        out.extend_from_slice(&variable.to_be_bytes());
    }
}

fn put_cells(out: &mut Vec<u8>, cells: &[u64]) {
    out.extend_from_slice(&(cells.len() as u32).to_be_bytes());
    for cell in cells {
        out.extend_from_slice(&cell.to_be_bytes());
    }
}

fn put_context(out: &mut Vec<u8>, context: &[(u32, u16)]) {
    out.extend_from_slice(&(context.len() as u32).to_be_bytes());
    for (variable, value) in context {
        out.extend_from_slice(&variable.to_be_bytes());
        out.extend_from_slice(&value.to_be_bytes());
    }
}

pub fn encode(envelope: &Envelope) -> Vec<u8> {
    let len = 9 + match &envelope.message {
        Message::Token { path } => list_len(path, 4),
        Message::Done { visited } => list_len(visited, 4),
        Message::Util { scope, cells } => list_len(scope, 4) + list_len(cells, 8),
        Message::ValueAll { values } => list_len(values, 6),
        Message::Value { .. } => 2,
        Message::Cost { context, .. } => list_len(context, 6) + 17,
        Message::Threshold { context, .. } => list_len(context, 6) + 8,
        Message::Terminate { context } => list_len(context, 6),
    };
    let mut out = Vec::with_capacity(len);
    out.extend_from_slice(&envelope.stamp.to_be_bytes());
    match &envelope.message {
        Message::Token { path } => {
            out.push(1);
            put_variables(&mut out, path);
        }
        Message::Done { visited } => {
            out.push(2);
            put_variables(&mut out, visited);
        }
        Message::Util { scope, cells } => {
            out.push(3);
            put_variables(&mut out, scope);
            put_cells(&mut out, cells);
        }
        Message::ValueAll { values } => {
            out.push(4);
            put_context(&mut out, values);
        }
        Message::Value { value } => {
            out.push(5);
            out.extend_from_slice(&value.to_be_bytes());
        }
        Message::Cost { context, lower, upper } => {
            out.push(6);
            put_context(&mut out, context);
            out.extend_from_slice(&lower.to_be_bytes());
            match upper {
                None => out.push(0),
                Some(upper) => {
                    out.push(1);
                    out.extend_from_slice(&upper.to_be_bytes());
                }
            }
        }
        Message::Threshold { amount, context } => {
            out.push(7);
            out.extend_from_slice(&amount.to_be_bytes());
            put_context(&mut out, context);
        }
        Message::Terminate { context } => {
            out.push(8);
            put_context(&mut out, context);
        }
    }
    out
}

/// What is still to be read; a refusal tells how much that is.
struct Reader<'a> {
    rest: &'a [u8],
}

impl<'a> Reader<'a> {
    fn field<const N: usize>(&mut self) -> Result<[u8; N], usize> {
        let (field, rest) = self.rest.split_first_chunk::<N>().ok_or(self.rest.len())?;
        self.rest = rest;
        Ok(*field)
    }

    fn within<T>(&self, number: T, holds: bool, width: usize) -> Result<T, usize> {
        if holds { Ok(number) } else { Err(self.rest.len() + width) }
    }

    fn variable(&mut self, least: u32) -> Result<u32, usize> {
        let variable = u32::from_be_bytes(self.field()?);
        self.within(variable, least <= variable && variable < MAX_VARIABLES, 4)
    }

    fn count(&mut self, most: u32) -> Result<usize, usize> {
        let count = u32::from_be_bytes(self.field()?);
        self.within(count as usize, count <= most, 4)
    }

    fn value(&mut self) -> Result<u16, usize> {
        let value = u16::from_be_bytes(self.field()?);
        self.within(value, value < MAX_SIZE, 2)
    }

    fn amount(&mut self) -> Result<u64, usize> {
        let amount = u64::from_be_bytes(self.field()?);
        self.within(amount, amount <= CAP, 8)
    }

    fn variables(&mut self) -> Result<Vec<u32>, usize> {
        let count = self.count(MAX_VARIABLES)?;
        let mut variables = Vec::with_capacity(count);
        for _ in 0..count {
            variables.push(self.variable(0)?);
        }
        Ok(variables)
    }

    fn cells(&mut self) -> Result<Vec<u64>, usize> {
        let count = self.count(MAX_CELLS)?;
        let whole = count.min(self.rest.len() / 8);
        let (front, rest) = self.rest.split_at(8 * whole);
        let mut cells = Vec::with_capacity(count);
        for (k, field) in front.chunks_exact(8).enumerate() {
            let cell = u64::from_be_bytes(field.try_into().unwrap());
            if CAP < cell {
                return Err(self.rest.len() - 8 * k);
            }
            cells.push(cell);
        }
        self.rest = rest;
        if whole < count { Err(rest.len()) } else { Ok(cells) }
    }

    fn context(&mut self) -> Result<Context, usize> {
        let count = self.count(MAX_VARIABLES)?;
        let mut context = Vec::with_capacity(count);
        let mut least = 0;
        for _ in 0..count {
            let variable = self.variable(least)?;
            context.push((variable, self.value()?));
            least = variable + 1;
        }
        Ok(context)
    }

    fn bound(&mut self) -> Result<Option<u64>, usize> {
        let [flag] = self.field()?;
        match self.within(flag, flag < 2, 1)? {
            0 => Ok(None),
            _ => Ok(Some(self.amount()?)),
        }
    }

    fn envelope(&mut self) -> Result<Envelope, usize> {
        let stamp = self.amount()?;
        let [tag] = self.field()?;
        let message = match tag {
            1 => Message::Token { path: self.variables()? },
            2 => Message::Done { visited: self.variables()? },
            3 => Message::Util { scope: self.variables()?, cells: self.cells()? },
            4 => Message::ValueAll { values: self.context()? },
            5 => Message::Value { value: self.value()? },
            6 => Message::Cost { context: self.context()?, lower: self.amount()?, upper: self.bound()? },
            7 => Message::Threshold { amount: self.amount()?, context: self.context()? },
            8 => Message::Terminate { context: self.context()? },
            _ => return Err(self.rest.len() + 1),
        };
        if self.rest.is_empty() { Ok(Envelope { stamp, message }) } else { Err(self.rest.len()) }
    }
}

/// The envelope of a code, or the place of the first field that is bad.
pub fn decode(bytes: &[u8]) -> Result<Envelope, usize> {
    Reader { rest: bytes }.envelope().map_err(|left| bytes.len() - left)
}

pub fn frame(payload: &[u8]) -> Vec<u8> {
    let mut out = Vec::with_capacity(4 + payload.len());
    out.extend_from_slice(&(payload.len() as u32).to_be_bytes());
    out.extend_from_slice(payload);
    out
}

/// Takes a stream in pieces and hands out the payloads of its frames.
#[derive(Default)]
pub struct FrameReader {
    ready: VecDeque<Vec<u8>>,
    rest: Vec<u8>,
    place: u64,
    too_long: Option<u64>,
}

impl FrameReader {
    pub fn feed(&mut self, piece: &[u8]) -> Result<(), u64> {
        if let Some(place) = self.too_long {
            return Err(place);
        }
        self.rest.extend_from_slice(piece);
        let mut bytes = &self.rest[..];
        while let Some((field, behind)) = bytes.split_first_chunk::<4>() {
            let length = u32::from_be_bytes(*field) as usize;
            if MAX_PAYLOAD < length {
                self.too_long = Some(self.place + (self.rest.len() - bytes.len()) as u64);
                break;
            }
            let Some((payload, rest)) = behind.split_at_checked(length) else {
                break;
            };
            self.ready.push_back(payload.to_vec());
            bytes = rest;
        }
        let used = self.rest.len() - bytes.len();
        self.place += used as u64;
        self.rest.drain(..used);
        match self.too_long {
            Some(place) => Err(place),
            None => Ok(()),
        }
    }

    pub fn next(&mut self) -> Option<Vec<u8>> {
        self.ready.pop_front()
    }
}
