//! What a guest sees, in words.

const STATUS_BITS: [(u8, &str); 5] = [
    (0x80, " BSY"),
    (0x40, " DRDY"),
    (0x10, " DSC"),
    (0x08, " DRQ"),
    (0x01, " ERR"),
];

const ERROR_BITS: [(u8, &str); 2] = [(0x10, " IDNF"), (0x04, " ABRT")];

const SECURITY_BITS: [(u16, &str); 6] = [
    (0x0001, "supported"),
    (0x0002, "enabled"),
    (0x0004, "locked"),
    (0x0008, "frozen"),
    (0x0010, "expired (no attempts left)"),
    (0x0100, "maximum"),
];

fn names(value: u8, bits: &[(u8, &'static str)]) -> String {
    let set = bits.iter().filter(|(bit, _)| value & bit != 0);
    set.map(|(_, name)| *name).collect()
}

pub fn status(value: u8) -> String {
    format!("Status {value:02X}h{}", names(value, &STATUS_BITS))
}

pub fn error(value: u8) -> String {
    format!("Error {value:02X}h{}", names(value, &ERROR_BITS))
}

/// IDENTIFY's word on the lock.
pub fn security(word: u16) -> String {
    let set = SECURITY_BITS.iter().filter(|(bit, _)| word & bit != 0);
    let names: Vec<&str> = set.map(|(_, name)| *name).collect();
    format!("word 128 is {word:04X}h: {}", names.join(", "))
}
