//! States made by hand: in shape, and with one clause broken.

use super::judge::{made_by_91h, Clause, MARKS};
use super::random::Random;
use super::view::*;

/// Small enough that all their sectors can be lent and compared.
const SMALL: [(u32, u32, u32); 6] = [
    (4, 2, 8),
    (1, 1, 1),
    (1, 16, 4),
    (1, 1, 63),
    (61, 1, 1),
    (3, 3, 5),
];

/// A state in shape, of any geometry, transfer and lock.
pub fn sound(random: &mut Random) -> State {
    let mut state = [0; thinnarom::lent::STATE_BYTES];
    random.fill(&mut state);
    for mark in MARKS {
        state[mark] &= 1;
    }
    for byte in &mut state[IDENTITY] {
        *byte = 0x20 + *byte % 0x5F;
    }
    let (cylinders, heads, sectors) = match random.one_in(4) {
        true => (up_to(1_024, random), up_to(16, random), up_to(63, random)),
        false => random.pick(&SMALL),
    };
    let geometry = Counts {
        cylinders,
        heads,
        sectors,
    };
    geometry.put(&mut state, GEOMETRY);
    translate(&mut state, random);
    state[ATTEMPTS] %= 6;
    state[LOCK] %= LOCKS.len() as u8;
    let kind = random.below(KINDS.len()) as u8;
    begin(&mut state, kind, random);
    state
}

/// From 1 to a ceiling, which is drawn often.
fn up_to(ceiling: u32, random: &mut Random) -> u32 {
    match random.one_in(2) {
        true => ceiling,
        false => random.between(1, ceiling as usize) as u32,
    }
}

/// A translation that 91h makes, or the factory's.
fn translate(state: &mut State, random: &mut Random) {
    let factory = Counts::of(state, GEOMETRY);
    let (heads, sectors) = (random.between(1, 16) as u32, up_to(255, random));
    let made = made_by_91h(factory.product(), heads, sectors);
    made.unwrap_or(factory).put(state, TRANSLATION);
}

/// Begins a transfer, or none, and changes whatever does not go with it.
fn begin(state: &mut State, kind: u8, random: &mut Random) {
    state[KIND] = kind;
    state[CURRENT].fill(0);
    state[AFTER] = 0;
    state[PLACE] = match (kind, random.below(3)) {
        (IDLE, _) => 0,
        (_, 0) => random.byte(),
        (_, 1) => 0,
        _ => 255,
    };
    if kind == SECTORS_READ || kind == SECTORS_WRITTEN {
        stand_on_a_sector(state, random);
    }
    state[HELD] = u8::from(kind == IDLE && random.one_in(4));
    if kind != IDLE || state[HELD] == 1 {
        state[DEVICE_HEAD] &= !DEV;
    }
    make_the_lock_fit(state);
}

/// Any sector, the last one often.
fn stand_on_a_sector(state: &mut State, random: &mut Random) {
    let lba = random.one_in(2);
    let counts = Counts::of(state, if lba { GEOMETRY } else { TRANSLATION });
    let last = counts.product() - 1;
    let number = match random.one_in(2) {
        true => last,
        false => random.below(last as usize + 1) as u32,
    };
    let registers = match lba {
        true => by_lba(number),
        false => by_chs(number, counts),
    };
    put_current(state, registers, random);
    state[AFTER] = match random.one_in(2) {
        true => 255,
        false => random.byte(),
    };
}

/// The current sector's registers, the spare bits of Device/Head drawn.
fn put_current(state: &mut State, registers: [u8; 4], random: &mut Random) {
    state[CURRENT].copy_from_slice(&registers);
    state[CURRENT.end - 1] |= random.byte() & 0xB0;
}

fn make_the_lock_fit(state: &mut State) {
    let kind = state[KIND];
    let barred = match state[LOCK] {
        LOCKED => matches!(kind, SECTORS_READ | SECTORS_WRITTEN | SET | DISABLE),
        FROZEN => (SET..=DISABLE).contains(&kind),
        _ => false,
    };
    if barred {
        state[LOCK] = OPEN;
    }
    if state[LOCK] == LOCKED {
        state[ENABLED] = 1;
    }
    if kind == UNLOCK || kind == ERASE {
        state[ATTEMPTS] = state[ATTEMPTS].max(1);
    }
    if kind == ERASE {
        state[PREPARED] = 1;
    }
}

/// Breaks a clause of a state in shape, and mostly no other.
pub fn break_clause(state: &mut State, clause: Clause, random: &mut Random) {
    use Clause::*;
    let transfers = [1, 2, 3, 4, 5, 6, 7, 8];
    match clause {
        GeometryOutsideTheLimits => break_geometry(state, random),
        IdentityOutsideTheLimits => {
            let place = random.between(IDENTITY.start, IDENTITY.end - 1);
            state[place] = random.pick(&[0x00, 0x1F, 0x7F, 0x80, 0xFF]);
        }
        TranslationNotAllowed => {
            let place = random.between(TRANSLATION.start, TRANSLATION.end - 1);
            state[place] = state[place].wrapping_add(random.pick(&[1, 255]));
        }
        AttemptsAboveFive => state[ATTEMPTS] = random.between(6, 255) as u8,
        CurrentSectorFaults => break_address(state, random),
        MarkNeither0Nor1 => state[random.pick(&MARKS)] = random.between(2, 255) as u8,
        NoSuchLockState => state[LOCK] = random.between(3, 255) as u8,
        LockedWithoutSecurity => (state[LOCK], state[ENABLED]) = (LOCKED, 0),
        TransferWithDev => {
            begin(state, random.pick(&transfers), random);
            state[DEVICE_HEAD] |= DEV;
        }
        TransferWithResetHeld => {
            begin(state, random.pick(&transfers), random);
            state[HELD] = 1;
        }
        DevWithResetHeld => {
            begin(state, IDLE, random);
            (state[HELD], state[DEVICE_HEAD]) = (1, state[DEVICE_HEAD] | DEV);
        }
        _ => break_transfer(state, clause, random),
    }
}

/// The clauses on what does not go with a transfer's kind.
fn break_transfer(state: &mut State, clause: Clause, random: &mut Random) {
    use Clause::*;
    let kinds: &[u8] = match clause {
        SectorsWhileLocked => &[SECTORS_READ, SECTORS_WRITTEN],
        SetOrDisableWhileLocked => &[SET, DISABLE],
        PasswordWhileFrozen => &[SET, UNLOCK, ERASE, DISABLE],
        NoAttemptsLeft => &[UNLOCK, ERASE],
        EraseWithoutPreparation => &[ERASE],
        NoSuchTransfer => &[BUFFER_READ],
        SectorWithoutTransfer => &[0, 3, 4, 5, 6, 7, 8],
        _ => &[IDLE],
    };
    begin(state, random.pick(kinds), random);
    let any = random.between(1, 255) as u8;
    match clause {
        SectorsWhileLocked | SetOrDisableWhileLocked => (state[LOCK], state[ENABLED]) = (LOCKED, 1),
        PasswordWhileFrozen => state[LOCK] = FROZEN,
        NoAttemptsLeft => state[ATTEMPTS] = 0,
        EraseWithoutPreparation => state[PREPARED] = 0,
        NoSuchTransfer => state[KIND] = any.max(9),
        SectorWithoutTransfer => state[random.between(CURRENT.start, AFTER)] = any,
        _ => state[PLACE] = any,
    }
}

/// One count outside its limits, and a translation that would be allowed of such a geometry.
fn break_geometry(state: &mut State, random: &mut Random) {
    begin(state, random.pick(&[0, 3, 4]), random);
    let mut geometry = Counts::of(state, GEOMETRY);
    match random.below(6) {
        0 => geometry.cylinders = random.between(1_025, 65_535) as u32,
        1 => geometry.heads = random.between(17, 255) as u32,
        2 => geometry.sectors = random.between(64, 255) as u32,
        3 => geometry.cylinders = 0,
        4 => geometry.heads = 0,
        _ => geometry.sectors = 0,
    }
    geometry.put(state, GEOMETRY);
    translate(state, random);
}

/// A number past the end in LBA; in CHS a sector, head or cylinder that is not there.
fn break_address(state: &mut State, random: &mut Random) {
    begin(state, random.pick(&[SECTORS_READ, SECTORS_WRITTEN]), random);
    let translation = Counts::of(state, TRANSLATION);
    if random.one_in(2) {
        let end = Counts::of(state, GEOMETRY).product();
        let past = end + random.pick(&[0, 1, 1 << 24]);
        put_current(state, by_lba(past), random);
        return;
    }
    put_current(state, by_chs(0, translation), random);
    let [sector, low, high, device_head] = [0, 1, 2, 3].map(|place| CURRENT.start + place);
    match random.below(4) {
        0 => state[sector] = 0,
        1 => state[sector] = (translation.sectors + 1) as u8,
        2 => state[device_head] |= (translation.heads & 0x0F) as u8,
        _ => state[low..=high].copy_from_slice(&(translation.cylinders as u16).to_le_bytes()),
    }
}
