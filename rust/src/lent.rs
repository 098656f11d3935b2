//! The library's ten calls as they are, over memory that the caller lends; all that is unsafe in
//! this crate.
//!
//! Most hosts want [`Device`](crate::Device), which keeps a device's bytes and gives typed answers.
//! This is for a host that keeps them elsewhere, such as a page of its guest's saved state, and
//! wants the papers' numbers:
//!
//! ```
//! use thinnarom::lent::{setup, Lent, Reply, BUFFER_BYTES, STATE_BYTES};
//!
//! let (mut state, mut buffer) = ([0; STATE_BYTES], [0; BUFFER_BYTES]);
//! let mut sectors = vec![0; 512 * 4 * 2 * 8];
//! let reply = setup(&mut state, &mut buffer, (4, 2, 8), &[b' '; 68], &[0x5A; 32]);
//! assert_eq!(reply, Reply { answer: 0, value: 0 });
//!
//! let mut disk = Lent { state: &mut state, buffer: &mut buffer, sectors: &mut sectors };
//! assert_eq!(disk.read_register(7), Reply { answer: 0, value: 0x50 });
//! assert_eq!(disk.read_register(9), Reply { answer: 1, value: 0 });
//! ```
//!
//! Every function here is safe for whatever bytes it is given: the library takes any bytes as a
//! state and refuses what is no device, and it refuses a state or sectors of wrong length.
//!
//! # Why each call is sound
//!
//! The library reads and writes the lent pieces and nothing else, keeps no pointer after it
//! returns, and allocates nothing; that is proved of its code. What it needs from its caller holds
//! because of the types here:
//!
//! - each pointer is a slice's or an array's, handed over with that slice's length, or to exactly
//!   512 bytes where the call takes no length; so it is valid for as many bytes as the library may
//!   touch, and never null;
//! - what the library writes to (state, buffer, sectors, the room for words) is borrowed mutably,
//!   so none of these overlaps another or anything that it only reads, and no other thread looks at
//!   them during the call;
//! - bytes have no alignment and no invalid values.

#![allow(unsafe_code)]

/// The bytes of a device's state. Which byte is what is a matter of the library's;
/// docs/EMBEDDING.md has the table.
pub const STATE_BYTES: usize = 163;

/// The bytes of the sector buffer.
pub const BUFFER_BYTES: usize = 512;

/// The bytes of an identity: serial 20, firmware 8, model 40.
pub const IDENTITY_BYTES: usize = 68;

/// What a call gives: the paper's number and a value, which is 0 where the number is not.
#[derive(Clone, Copy, Debug, PartialEq, Eq)]
#[repr(C)]
pub struct Reply {
    /// 0 done, 1 no such register, 2 state out of shape, 3 sectors of wrong length, 4 no transfer
    /// that way, 6 setup outside the limits.
    pub answer: u32,
    /// What was read, how many words have passed, or 0.
    pub value: u32,
}

/// The three pieces of memory that a host lends to a call.
pub struct Lent<'a> {
    /// The device, [`STATE_BYTES`] long; of any other length it is refused with 2.
    pub state: &'a mut [u8],
    /// The sector buffer. It may hold what the last guest read.
    pub buffer: &'a mut [u8; BUFFER_BYTES],
    /// All sectors, 512 x capacity bytes; of any other length they are refused with 3.
    pub sectors: &'a mut [u8],
}

mod library {
    use super::Reply;

    /// Declares calls that take the three lent pieces first, as all but setup do.
    macro_rules! calls {
        ($($name:ident($($argument:ident: $kind:ty),*);)+) => {
            extern "C" {
                $(pub fn $name(
                    state: *mut u8,
                    state_length: usize,
                    buffer: *mut u8,
                    sectors: *mut u8,
                    sectors_length: usize,
                    $($argument: $kind),*
                ) -> Reply;)+
            }
        };
    }

    calls! {
        thinnarom_read_register(n: u8);
        thinnarom_write_register(n: u8, v: u8);
        thinnarom_read_word();
        thinnarom_write_word(w: u16);
        thinnarom_read_words(out: *mut u8, out_length: usize);
        thinnarom_write_words(bytes: *const u8, bytes_length: usize);
        thinnarom_hardware_reset();
        thinnarom_power_on();
        thinnarom_line();
    }

    extern "C" {
        pub fn thinnarom_setup(
            state: *mut u8,
            state_length: usize,
            buffer: *mut u8,
            cylinders: u16,
            heads: u8,
            sectors_per_track: u8,
            identity: *const u8,
            identity_length: usize,
            master: *const u8,
            master_length: usize,
        ) -> Reply;
    }
}

/// Makes a disk just powered on, in `state` and `buffer`, from its three counts (cylinders, heads,
/// sectors per track), the identity's 68 bytes and the master password's 32.
///
/// Answer 2 where `state` is not [`STATE_BYTES`] long, and nothing has changed. Answer 6 for
/// counts, bytes or lengths outside the limits: state and buffer are then all zero, which no other
/// call takes for a device.
pub fn setup(
    state: &mut [u8],
    buffer: &mut [u8; BUFFER_BYTES],
    (cylinders, heads, sectors_per_track): (u16, u8, u8),
    identity: &[u8],
    master: &[u8],
) -> Reply {
    // SAFETY: see "Why each call is sound" above; so at every call below.
    unsafe {
        library::thinnarom_setup(
            state.as_mut_ptr(),
            state.len(),
            buffer.as_mut_ptr(),
            cylinders,
            heads,
            sectors_per_track,
            identity.as_ptr(),
            identity.len(),
            master.as_ptr(),
            master.len(),
        )
    }
}

/// Hands the three pieces over as pointers and lengths, then whatever else the call takes.
macro_rules! call {
    ($lent:ident, $name:ident $(, $argument:expr)*) => {
        // SAFETY: the pointers and lengths are those of three slices borrowed mutably for the call,
        // the arguments numbers or another slice's pointer and length.
        unsafe {
            library::$name(
                $lent.state.as_mut_ptr(),
                $lent.state.len(),
                $lent.buffer.as_mut_ptr(),
                $lent.sectors.as_mut_ptr(),
                $lent.sectors.len(),
                $($argument),*
            )
        }
    };
}

impl Lent<'_> {
    /// Reads register `n`.
    pub fn read_register(&mut self, n: u8) -> Reply {
        call!(self, thinnarom_read_register, n)
    }

    /// Writes `v` to register `n`.
    pub fn write_register(&mut self, n: u8, v: u8) -> Reply {
        call!(self, thinnarom_write_register, n, v)
    }

    /// Reads a data word.
    pub fn read_word(&mut self) -> Reply {
        call!(self, thinnarom_read_word)
    }

    /// Writes a data word.
    pub fn write_word(&mut self, w: u16) -> Reply {
        call!(self, thinnarom_write_word, w)
    }

    /// Reads as many data words as `out` has room for, low byte first; the value is how many have
    /// passed.
    pub fn read_words(&mut self, out: &mut [u8]) -> Reply {
        call!(self, thinnarom_read_words, out.as_mut_ptr(), out.len())
    }

    /// Writes the data words in `bytes`, low byte first; the value is how many have passed.
    pub fn write_words(&mut self, bytes: &[u8]) -> Reply {
        call!(self, thinnarom_write_words, bytes.as_ptr(), bytes.len())
    }

    /// Hardware reset, which leaves what power-on leaves.
    pub fn hardware_reset(&mut self) -> Reply {
        call!(self, thinnarom_hardware_reset)
    }

    /// Powers the disk off and on.
    pub fn power_on(&mut self) -> Reply {
        call!(self, thinnarom_power_on)
    }

    /// Asks for the interrupt line: 1 when raised and not masked.
    pub fn line(&mut self) -> Reply {
        call!(self, thinnarom_line)
    }
}

/// Overwrites bytes with zeros, also where nothing reads them again and a plain write would be left
/// out.
pub(crate) fn wipe(bytes: &mut [u8]) {
    for byte in bytes {
        // SAFETY: a `&mut u8` is valid for a write of one byte.
        unsafe { std::ptr::write_volatile(byte, 0) };
    }
    std::sync::atomic::compiler_fence(std::sync::atomic::Ordering::SeqCst);
}

#[cfg(test)]
mod tests {
    use crate::device::Memory;
    use std::mem::{size_of, MaybeUninit};

    #[test]
    fn dropped_memory_is_zero() {
        let mut place = MaybeUninit::<Memory>::uninit();
        let memory = place.write(Memory::zeroed());
        memory.state.fill(0x5A);
        memory.buffer.fill(0xA5);
        // SAFETY: the memory was written above and is not used as one again; its bytes stay where
        // they are, and arrays of bytes have no padding between them, so all of them can be read.
        let left = unsafe {
            place.as_mut_ptr().drop_in_place();
            std::slice::from_raw_parts(place.as_ptr().cast::<u8>(), size_of::<Memory>())
        };
        assert!(left.iter().all(|byte| *byte == 0));
    }
}
