//! S-records, from 02 §2 alone: a text is loaded, a span of memory is written. Simple comes before fast.

use crate::machine::MEMORY;

/// Why a text is refused, and the line at fault, from 1; 0 where the memory is none.
#[derive(Clone, Copy, Debug, PartialEq, Eq)]
pub struct Fault {
    pub number: u8,
    pub line: u64,
}

/// A line of the right form: its type, and the bytes after its count.
pub struct Record {
    pub kind: u8,
    pub count: u8,
    pub bytes: Vec<u8>,
}

/// The lines of a text: each ends in LF or CR LF, the last perhaps in nothing.
pub fn lines(text: &[u8]) -> Vec<&[u8]> {
    let bare = |line: &'_ [u8]| match line {
        [.., b'\r', b'\n'] => line.len() - 2,
        [.., b'\n'] => line.len() - 1,
        _ => line.len(),
    };
    text.split_inclusive(|&b| b == b'\n').map(|line| &line[..bare(line)]).collect()
}

/// A line as a record, where it is one of S0, S1 and S9 and its count is right.
pub fn record(line: &[u8]) -> Option<Record> {
    let (&kind, digits) = line.strip_prefix(b"S")?.split_first()?;
    let known = matches!(kind, b'0' | b'1' | b'9');
    if !known || digits.len() % 2 != 0 || !digits.iter().all(u8::is_ascii_hexdigit) {
        return None;
    }
    let value = |digit: u8| char::from(digit).to_digit(16).expect("a digit") as u8;
    let mut bytes: Vec<u8> = digits.chunks(2).map(|pair| 16 * value(pair[0]) + value(pair[1])).collect();
    if bytes.is_empty() {
        return None;
    }
    let count = bytes.remove(0);
    let right = usize::from(count) == bytes.len() && count >= 3 && (kind != b'9' || count == 3);
    right.then_some(Record { kind, count, bytes })
}

impl Record {
    pub fn address(&self) -> u16 {
        u16::from_be_bytes([self.bytes[0], self.bytes[1]])
    }

    pub fn data(&self) -> &[u8] {
        &self.bytes[2..self.bytes.len() - 1]
    }

    /// Count, address, data and checksum add up to #FF, modulo 256.
    pub fn summed(&self) -> bool {
        self.bytes.iter().fold(self.count, |sum, &b| sum.wrapping_add(b)) == 0xFF
    }

    /// The data of an S1 goes past #FFFF.
    pub fn passes(&self) -> bool {
        self.kind == b'1' && usize::from(self.address()) + self.data().len() > MEMORY
    }
}

/// The records of a text that nothing is wrong with, S9 the last.
pub fn judge(text: &[u8]) -> Result<Vec<Record>, Fault> {
    let lines = lines(text);
    let mut records = Vec::new();
    for (i, line) in lines.iter().enumerate() {
        let fault = |number| Fault { number, line: i as u64 + 1 };
        let record = record(line).ok_or(fault(10))?;
        if record.kind == b'9' && i + 1 < lines.len() {
            return Err(fault(10));
        }
        if !record.summed() {
            return Err(fault(11));
        }
        if record.passes() {
            return Err(fault(12));
        }
        records.push(record);
    }
    match records.last() {
        Some(last) if last.kind == b'9' => Ok(records),
        _ => Err(Fault { number: 10, line: lines.len() as u64 + 1 }),
    }
}

/// Loads a text and gives the PC, or changes nothing.
pub fn load(memory: &mut [u8], text: &[u8]) -> Result<u16, Fault> {
    if memory.len() != MEMORY {
        return Err(Fault { number: 1, line: 0 });
    }
    let records = judge(text)?;
    for record in records.iter().filter(|record| record.kind == b'1') {
        let at = usize::from(record.address());
        memory[at..at + record.data().len()].copy_from_slice(record.data());
    }
    Ok(records.last().expect("S9").address())
}

/// The reply of xm23_load_srec.
pub fn load_reply(result: Result<u16, Fault>, pc: u16) -> u64 {
    match result {
        Ok(pc) => u64::from(pc) << 16,
        Err(Fault { number, line }) => u64::from(number) | u64::from(pc) << 16 | line.min(u32::MAX.into()) << 32,
    }
}

/// One line: type, count, address, data, checksum, LF.
fn line(kind: char, address: u16, data: &[u8]) -> String {
    let mut bytes = vec![data.len() as u8 + 3];
    bytes.extend(address.to_be_bytes());
    bytes.extend(data);
    let sum = bytes.iter().fold(0u8, |sum, &b| sum.wrapping_add(b));
    bytes.push(0xFF - sum);
    format!("S{kind}{}\n", bytes.iter().map(|b| format!("{b:02X}")).collect::<String>())
}

/// The text of a span that ends in memory.
pub fn text(memory: &[u8], start: u16, length: u32, pc: u16) -> String {
    let from = usize::from(start);
    let data = memory[from..from + length as usize].chunks(16).enumerate();
    data.map(|(i, data)| line('1', start + 16 * i as u16, data)).collect::<String>() + &line('9', pc, &[])
}

/// Writes the text of a span at the start of a buffer and gives its length, or changes nothing.
pub fn write(memory: &[u8], start: u16, length: u32, pc: u16, buffer: &mut [u8]) -> Result<usize, u8> {
    if memory.len() != MEMORY {
        return Err(1);
    }
    if u64::from(start) + u64::from(length) > MEMORY as u64 {
        return Err(12);
    }
    let text = text(memory, start, length, pc);
    buffer.get_mut(..text.len()).ok_or(12u8)?.copy_from_slice(text.as_bytes());
    Ok(text.len())
}

/// The reply of xm23_write_srec.
pub fn write_reply(result: Result<usize, u8>) -> u64 {
    result.map_or_else(u64::from, |length| (length as u64) << 8)
}
