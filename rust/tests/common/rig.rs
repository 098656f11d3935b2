//! Three disks side by side: the crate's device, the library's bytes with every word passed alone,
//! and the second program's. Each action is done to all three, and whatever can be seen of them is
//! compared.

use super::action::{on_device, word_by_word, Action, Outcome, Raw};
use super::coverage::Coverage;
use super::judge::{broken, in_shape};
use super::random::Random;
use super::view::*;
use thinnarom::lent::{Reply, BUFFER_BYTES, STATE_BYTES};
use thinnarom::{Device, Geometry, Identity, Setup};

/// Above so many bytes sectors are compared where some may have changed, and not after each action.
const SMALL: usize = 1 << 15;

#[derive(Clone)]
pub struct Rig {
    device: Device,
    device_sectors: Vec<u8>,
    pub raw: Raw,
    second: second::Device,
    /// How many actions have been done, so that a difference can be found again.
    done: usize,
}

/// What a host keeps over a restart, and the second program in the same state.
pub struct Kept {
    bytes: [u8; Device::BYTES],
    sectors: Vec<u8>,
    second: second::Device,
}

fn identity(random: &mut Random) -> Identity {
    let mut character = |_| random.between(0x20, 0x7E) as u8;
    Identity {
        serial: std::array::from_fn(&mut character),
        firmware: std::array::from_fn(&mut character),
        model: std::array::from_fn(&mut character),
    }
}

fn second_of(setup: &Setup) -> second::Device {
    let identity = second::Identity {
        serial: setup.identity.serial,
        firmware: setup.identity.firmware,
        model: setup.identity.model,
    };
    let Geometry {
        cylinders,
        heads,
        sectors_per_track,
    } = setup.geometry;
    let (heads, sectors) = (heads.into(), sectors_per_track.into());
    second::Device::setup(
        cylinders.into(),
        heads,
        sectors,
        &identity,
        *setup.master_password,
    )
    .unwrap()
}

impl Rig {
    /// A new disk of this geometry, its identity and master password drawn.
    pub fn new(geometry: Geometry, random: &mut Random) -> Rig {
        let master_password = &random.bytes(32).try_into().unwrap();
        let setup = Setup {
            geometry,
            identity: &identity(random),
            master_password,
        };
        Rig::of(
            Device::new(&setup).unwrap(),
            vec![0; geometry.sector_bytes()],
            second_of(&setup),
        )
    }

    fn of(device: Device, sectors: Vec<u8>, second: second::Device) -> Rig {
        let bytes = device.to_bytes();
        let raw = Raw {
            state: bytes[..STATE_BYTES].try_into().unwrap(),
            buffer: bytes[STATE_BYTES..].try_into().unwrap(),
            sectors: sectors.clone(),
        };
        Rig {
            device,
            device_sectors: sectors,
            raw,
            second,
            done: 0,
        }
    }

    pub fn kept(&self) -> Kept {
        Kept {
            bytes: self.device.to_bytes(),
            sectors: self.device_sectors.clone(),
            second: self.second.clone(),
        }
    }

    pub fn resumed(kept: Kept) -> Rig {
        Rig::of(
            Device::from_bytes(&kept.bytes).unwrap(),
            kept.sectors,
            kept.second,
        )
    }

    pub fn state(&self) -> &State {
        &self.raw.state
    }

    /// Does one action to all three disks.
    pub fn act(&mut self, action: &Action, coverage: &mut Coverage) -> Reply {
        let before = (self.raw.state, self.raw.buffer);
        let expected = word_by_word(&mut self.second, action);
        let raw = word_by_word(&mut self.raw.lend(), action);
        let wrapped = on_device(&mut self.device, &mut self.device_sectors, action);
        self.done += 1;
        self.same("library", &raw, &expected, action);
        self.same("crate", &wrapped, &expected, action);
        self.still_one_disk(action);
        self.refusal_changed_nothing(&expected.reply, &before, action);
        coverage.count(&before.0, action, &expected.reply, &self.raw.state);
        expected.reply
    }

    fn same(&self, whose: &str, got: &Outcome, expected: &Outcome, action: &Action) {
        assert!(
            got == expected,
            "action {}, {action:02X?}: the {whose} gave {:?} and {:02X?}, the second program {:?} and {:02X?}",
            self.done,
            got.reply,
            got.room,
            expected.reply,
            expected.room
        );
    }

    /// State and buffer are those of both ways to call the library, and the sectors those of all
    /// three.
    fn still_one_disk(&self, action: &Action) {
        let bytes = self.device.to_bytes();
        let (done, state) = (self.done, &self.raw.state);
        assert_eq!(
            bytes[..STATE_BYTES],
            *state,
            "action {done}, {action:02X?}: states differ"
        );
        assert_eq!(
            bytes[STATE_BYTES..],
            self.raw.buffer,
            "action {done}, {action:02X?}: buffers differ"
        );
        assert!(
            in_shape(state),
            "action {done}, {action:02X?} left {:?}",
            broken(state)
        );
        let block_ended = matches!(action, Action::WriteWords(_)) || state[PLACE] == 0;
        if self.raw.sectors.len() <= SMALL || block_ended {
            self.compare_sectors();
        }
    }

    pub fn compare_sectors(&self) {
        assert!(
            self.raw.sectors == self.second.memory(),
            "action {}: sectors of the library differ",
            self.done
        );
        assert!(
            self.device_sectors == self.second.memory(),
            "action {}: sectors of the crate differ",
            self.done
        );
    }

    fn refusal_changed_nothing(
        &self,
        reply: &Reply,
        before: &(State, [u8; BUFFER_BYTES]),
        action: &Action,
    ) {
        if reply.answer != 0 {
            assert_eq!(reply.value, 0);
            let after = (self.raw.state, self.raw.buffer);
            assert!(
                after == *before,
                "action {}, {action:02X?}: refused, and something changed",
                self.done
            );
        }
    }

    /// Looks at all that a guest can look at, on copies, so that nothing hidden stays different for
    /// long.
    pub fn examine(&self) {
        let (mut copies, mut uncounted) = (self.clone(), Coverage::default());
        let mut act = |action| copies.act(&action, &mut uncounted);
        for register in 0..=9 {
            act(Action::ReadRegister(register));
        }
        act(Action::Line);
        act(Action::WriteRegister(8, 0));
        act(Action::WriteRegister(7, 0x90));
        for code in [0xE4, 0xEC] {
            act(Action::WriteRegister(7, code));
            act(Action::ReadWords(513));
        }
    }
}
