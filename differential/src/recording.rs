//! Recordings and replies as bytes, as records and in words.

pub const VERSION: u8 = 1;
pub const ANSWER_BYTES: usize = 5;
pub const FAULT_ANSWER: [u8; 3] = [0, 1, 5];

#[derive(Clone, Copy, Debug, PartialEq, Eq)]
pub enum Record {
    ReadRegister(u8),
    WriteRegister(u8, u8),
    ReadWord,
    WriteWord(u16),
    HardwareReset,
    PowerOn,
    AskLine,
}

impl Record {
    pub fn append_to(self, bytes: &mut Vec<u8>) {
        match self {
            Record::ReadRegister(register) => bytes.extend([0, 2, 1, register]),
            Record::WriteRegister(register, value) => bytes.extend([0, 3, 2, register, value]),
            Record::ReadWord => bytes.extend([0, 1, 3]),
            Record::WriteWord(word) => {
                let [high, low] = word.to_be_bytes();
                bytes.extend([0, 3, 4, high, low]);
            }
            Record::HardwareReset => bytes.extend([0, 1, 5]),
            Record::PowerOn => bytes.extend([0, 1, 6]),
            Record::AskLine => bytes.extend([0, 1, 7]),
        }
    }

    /// The record at the front of `bytes` and its length, if a good one stands there.
    fn parse(bytes: &[u8]) -> Option<(Record, usize)> {
        let length = usize::from(u16::from_be_bytes([*bytes.first()?, *bytes.get(1)?]));
        let record = match *bytes.get(2..2 + length)? {
            [1, register] => Record::ReadRegister(register),
            [2, register, value] => Record::WriteRegister(register, value),
            [3] => Record::ReadWord,
            [4, high, low] => Record::WriteWord(u16::from_be_bytes([high, low])),
            [5] => Record::HardwareReset,
            [6] => Record::PowerOn,
            [7] => Record::AskLine,
            _ => return None,
        };
        Some((record, 2 + length))
    }

    pub fn describe(self) -> String {
        match self {
            Record::ReadRegister(register) => format!("read register {register}"),
            Record::WriteRegister(7, code) => format!("write register 7: command {code:02X}h"),
            Record::WriteRegister(register, value) => {
                format!("write register {register}: {value:02X}h")
            }
            Record::ReadWord => "read word".to_string(),
            Record::WriteWord(word) => format!("write word {word:04X}h"),
            Record::HardwareReset => "hardware reset".to_string(),
            Record::PowerOn => "power-on".to_string(),
            Record::AskLine => "ask the interrupt line".to_string(),
        }
    }
}

/// Good records after an optional version byte, then whatever follows the last good one.
#[derive(Clone, Debug, PartialEq, Eq)]
pub struct Recording {
    pub version: Option<u8>,
    pub records: Vec<Record>,
    pub tail: Vec<u8>,
}

impl Recording {
    pub fn of(records: Vec<Record>) -> Recording {
        Recording {
            version: Some(VERSION),
            records,
            tail: Vec::new(),
        }
    }

    pub fn parse(bytes: &[u8]) -> Recording {
        let version = bytes.first().copied();
        let mut recording = Recording::of(Vec::new());
        recording.version = version;
        let mut rest = bytes.get(1..).unwrap_or(&[]);
        if version == Some(VERSION) {
            while let Some((record, length)) = Record::parse(rest) {
                recording.records.push(record);
                rest = &rest[length..];
            }
        }
        recording.tail = rest.to_vec();
        recording
    }

    pub fn to_bytes(&self) -> Vec<u8> {
        let mut bytes = Vec::with_capacity(1 + self.records.len() * 5 + self.tail.len());
        bytes.extend(self.version);
        for record in &self.records {
            record.append_to(&mut bytes);
        }
        bytes.extend(&self.tail);
        bytes
    }
}

/// The answer to record `index` as far as the reply holds it.
pub fn answer_at(reply: &[u8], index: usize) -> &[u8] {
    let start = (1 + index * ANSWER_BYTES).min(reply.len());
    let end = (start + ANSWER_BYTES).min(reply.len());
    &reply[start..end]
}

pub fn describe_answer(answer: &[u8]) -> String {
    match *answer {
        [] => "nothing".to_string(),
        [0, 3, number, high, low] => format!("answer {number}, value {high:02X}{low:02X}h"),
        [0, 1, 5] => "answer 5, the end".to_string(),
        _ => format!("bytes {answer:02X?}"),
    }
}

#[cfg(test)]
mod tests {
    use super::*;

    #[test]
    fn every_record_kind_survives_writing_and_parsing() {
        let recording = Recording::of(vec![
            Record::ReadRegister(9),
            Record::WriteRegister(7, 0xEC),
            Record::ReadWord,
            Record::WriteWord(0x1234),
            Record::HardwareReset,
            Record::PowerOn,
            Record::AskLine,
        ]);
        assert_eq!(Recording::parse(&recording.to_bytes()), recording);
    }

    #[test]
    fn damage_lands_in_the_tail() {
        let bytes = [1, 0, 1, 3, 0, 2, 3, 3];
        let recording = Recording::parse(&bytes);
        assert_eq!(recording.records, vec![Record::ReadWord]);
        assert_eq!(recording.tail, vec![0, 2, 3, 3]);
        assert_eq!(recording.to_bytes(), bytes);
        assert_eq!(Recording::parse(&[]).to_bytes(), Vec::<u8>::new());
        assert_eq!(Recording::parse(&[2, 0, 1, 3]).to_bytes(), vec![2, 0, 1, 3]);
    }
}
