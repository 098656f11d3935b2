//! Whether a state is in shape, written from document 01's list ("Out of shape means") and the
//! table of a state's bytes, and not from the library's sources.

use super::view::*;

/// An enum of these cases, and the list of them all.
macro_rules! clauses {
    ($(#[$about:meta])* $($clause:ident),+ $(,)?) => {
        $(#[$about])*
        #[derive(Clone, Copy, Debug, PartialEq, Eq)]
        pub enum Clause {
            $($clause),+
        }

        pub const CLAUSES: [Clause; [$(Clause::$clause),+].len()] = [$(Clause::$clause),+];
    };
}

clauses! {
    /// The clauses of document 01's list, as far as the bytes can break them: they have no way to write
    /// a word place above 255, 0 or more than 256 sectors left, locked and frozen together, or a
    /// one-block command with more than one block left. The last five are what the table asks of the
    /// bytes, so that every device has just one form.
    GeometryOutsideTheLimits,
    IdentityOutsideTheLimits,
    TranslationNotAllowed,
    AttemptsAboveFive,
    LockedWithoutSecurity,
    CurrentSectorFaults,
    TransferWithDev,
    TransferWithResetHeld,
    DevWithResetHeld,
    SectorsWhileLocked,
    SetOrDisableWhileLocked,
    PasswordWhileFrozen,
    NoAttemptsLeft,
    EraseWithoutPreparation,
    MarkNeither0Nor1,
    NoSuchTransfer,
    NoSuchLockState,
    SectorWithoutTransfer,
    PlaceWithoutTransfer,
}

use Clause::*;

pub const MARKS: [usize; 7] = [HELD, MASKED, RAISED, FAILED, ENABLED, MAXIMUM, PREPARED];

/// Whether a state breaks a clause.
fn breaks(state: &State, clause: Clause) -> bool {
    let (kind, lock, held) = (state[KIND], state[LOCK], state[HELD] != 0);
    let transfer = kind != IDLE;
    let on_sectors = kind == SECTORS_READ || kind == SECTORS_WRITTEN;
    let printable = 0x20..=0x7E;
    match clause {
        GeometryOutsideTheLimits => !geometry_fits(Counts::of(state, GEOMETRY)),
        IdentityOutsideTheLimits => !state[IDENTITY].iter().all(|byte| printable.contains(byte)),
        TranslationNotAllowed => !translation_allowed(state),
        AttemptsAboveFive => state[ATTEMPTS] > 5,
        LockedWithoutSecurity => lock == LOCKED && state[ENABLED] == 0,
        CurrentSectorFaults => on_sectors && current_sector(state).is_none(),
        TransferWithDev => transfer && has_dev(state),
        TransferWithResetHeld => transfer && held,
        DevWithResetHeld => has_dev(state) && held,
        SectorsWhileLocked => on_sectors && lock == LOCKED,
        SetOrDisableWhileLocked => (kind == SET || kind == DISABLE) && lock == LOCKED,
        PasswordWhileFrozen => (SET..=DISABLE).contains(&kind) && lock == FROZEN,
        NoAttemptsLeft => (kind == UNLOCK || kind == ERASE) && state[ATTEMPTS] == 0,
        EraseWithoutPreparation => kind == ERASE && state[PREPARED] == 0,
        MarkNeither0Nor1 => MARKS.iter().any(|mark| state[*mark] > 1),
        NoSuchTransfer => usize::from(kind) >= KINDS.len(),
        NoSuchLockState => usize::from(lock) >= LOCKS.len(),
        SectorWithoutTransfer => !on_sectors && (state[CURRENT] != [0; 4] || state[AFTER] != 0),
        PlaceWithoutTransfer => !transfer && state[PLACE] != 0,
    }
}

pub fn broken(state: &State) -> Vec<Clause> {
    let clauses = CLAUSES.into_iter();
    clauses.filter(|clause| breaks(state, *clause)).collect()
}

pub fn in_shape(state: &State) -> bool {
    !CLAUSES.iter().any(|clause| breaks(state, *clause))
}

/// Whether a state in shape comes as near to breaking a clause as it can.
pub fn keeps_barely(state: &State, clause: Clause) -> bool {
    let (kind, lock) = (state[KIND], state[LOCK]);
    let on_sectors = kind == SECTORS_READ || kind == SECTORS_WRITTEN;
    let factory = Counts::of(state, GEOMETRY);
    match clause {
        GeometryOutsideTheLimits => {
            (factory.cylinders, factory.heads, factory.sectors) == (1_024, 16, 63)
        }
        IdentityOutsideTheLimits => [0x20, 0x7E]
            .iter()
            .all(|byte| state[IDENTITY].contains(byte)),
        TranslationNotAllowed => Counts::of(state, TRANSLATION) != factory,
        AttemptsAboveFive => state[ATTEMPTS] == 5,
        LockedWithoutSecurity => lock == LOCKED,
        CurrentSectorFaults => on_sectors && current_sector(state) == last_sector(state),
        TransferWithDev | DevWithResetHeld => has_dev(state),
        TransferWithResetHeld => state[HELD] == 1,
        SectorsWhileLocked => lock == LOCKED && kind == BUFFER_READ,
        SetOrDisableWhileLocked => lock == LOCKED && kind == UNLOCK,
        PasswordWhileFrozen => lock == FROZEN && on_sectors,
        NoAttemptsLeft => state[ATTEMPTS] == 0 && kind == DISABLE,
        EraseWithoutPreparation => kind == ERASE,
        MarkNeither0Nor1 => [MASKED, RAISED, FAILED]
            .iter()
            .all(|mark| state[*mark] == 1),
        NoSuchTransfer => kind == DISABLE,
        NoSuchLockState => lock == FROZEN,
        SectorWithoutTransfer => on_sectors && state[AFTER] == 255,
        PlaceWithoutTransfer => state[PLACE] == 255,
    }
}

/// "Cylinders C 1 to 1,024, heads H 1 to 16, sectors per track S 1 to 63."
fn geometry_fits(counts: Counts) -> bool {
    (1..=1_024).contains(&counts.cylinders)
        && (1..=16).contains(&counts.heads)
        && (1..=63).contains(&counts.sectors)
}

/// "S = Sector Count 1 to 255, H = head nibble + 1, cylinders = capacity / (H x S) rounded down, at
/// most 65,535; abort if S or cylinders is 0."
pub fn made_by_91h(capacity: u32, heads: u32, sectors: u32) -> Option<Counts> {
    if !(1..=16).contains(&heads) || !(1..=255).contains(&sectors) {
        return None;
    }
    let cylinders = (capacity / (heads * sectors)).min(65_535);
    (cylinders != 0).then_some(Counts {
        cylinders,
        heads,
        sectors,
    })
}

fn translation_allowed(state: &State) -> bool {
    let counts = Counts::of(state, TRANSLATION);
    let capacity = Counts::of(state, GEOMETRY).product();
    made_by_91h(capacity, counts.heads, counts.sectors) == Some(counts)
}

/// The sector that a sector transfer stands on. "LBA (Device/Head bit 6): 28 bits, Sector Number
/// lowest, head nibble highest, below capacity. CHS: (c x H + h) x S + s - 1 in the current
/// translation, s from 1 to S, h below H, c below cylinders."
pub fn current_sector(state: &State) -> Option<u32> {
    let [number, low, high, device_head] = state[CURRENT].try_into().unwrap();
    let cylinder = u32::from(u16::from_le_bytes([low, high]));
    let (number, head) = (u32::from(number), u32::from(device_head & 0x0F));
    if device_head & LBA != 0 {
        let lba = head << 24 | cylinder << 8 | number;
        return (lba < Counts::of(state, GEOMETRY).product()).then_some(lba);
    }
    let Counts {
        cylinders,
        heads,
        sectors,
    } = Counts::of(state, TRANSLATION);
    let good = (1..=sectors).contains(&number) && head < heads && cylinder < cylinders;
    good.then(|| (cylinder * heads + head) * sectors + number - 1)
}

fn last_sector(state: &State) -> Option<u32> {
    let by_lba = state[CURRENT.end - 1] & LBA != 0;
    let counts = if by_lba { GEOMETRY } else { TRANSLATION };
    Counts::of(state, counts).product().checked_sub(1)
}
