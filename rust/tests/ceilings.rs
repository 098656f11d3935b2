//! The largest disk, 1,024 x 16 x 63, where every register of an address counts. Its half gigabyte
//! is memory that the system hands out page by page as sectors are written.

mod common;

use common::action::{on_device, word_by_word, Action};
use common::judge::made_by_91h;
use common::random::Random;
use common::view::{by_chs, by_lba};
use thinnarom::{Device, Geometry, Identity, Setup};

const GEOMETRY: Geometry = Geometry {
    cylinders: 1_024,
    heads: 16,
    sectors_per_track: 63,
};

struct Largest {
    device: Device,
    sectors: Vec<u8>,
    second: second::Device,
}

impl Largest {
    fn new() -> Largest {
        let identity = &Identity::new("", "", "").unwrap();
        let setup = Setup {
            geometry: GEOMETRY,
            identity,
            master_password: &[0; 32],
        };
        let spaces = &second::Identity::SPACES;
        Largest {
            device: Device::new(&setup).unwrap(),
            sectors: vec![0; GEOMETRY.sector_bytes()],
            second: second::Device::setup(1_024, 16, 63, spaces, [0; 32]).unwrap(),
        }
    }

    fn act(&mut self, action: Action) -> u32 {
        let expected = word_by_word(&mut self.second, &action);
        let got = on_device(&mut self.device, &mut self.sectors, &action);
        assert_eq!(got, expected, "{action:02X?}");
        got.reply.value
    }

    fn write_registers(&mut self, values: [u8; 5]) {
        for (register, value) in (2..).zip(values) {
            self.act(Action::WriteRegister(register, value));
        }
    }

    fn command(&mut self, code: u8) {
        self.act(Action::WriteRegister(7, code));
        for register in 1..=8 {
            self.act(Action::ReadRegister(register));
        }
    }

    /// The sectors from `first` on, in both memories.
    fn compare(&self, first: usize, count: usize) {
        let end = (first + count).min(GEOMETRY.capacity());
        let bytes = 512 * first.min(end)..512 * end;
        assert!(
            self.sectors[bytes.clone()] == self.second.memory()[bytes],
            "sectors from {first} on"
        );
    }

    /// Writes sectors from an address on and reads them again; how many words passed.
    fn write_and_read(&mut self, address: [u8; 4], count: u8, random: &mut Random) -> [u32; 2] {
        let [sector, low, high, head] = address;
        self.write_registers([count, sector, low, high, head]);
        self.command(0x30);
        let written = self.act(Action::WriteWords(random.bytes(512 * usize::from(count))));
        self.write_registers([count, sector, low, high, head]);
        self.command(0x20);
        let read = self.act(Action::ReadWords(512 * usize::from(count)));
        self.command(0x40);
        [written, read]
    }
}

#[test]
fn sectors_all_over_the_largest_disk() {
    let (mut disk, mut random) = (Largest::new(), Random::new(4, 0));
    let capacity = GEOMETRY.capacity();
    assert_eq!(capacity, 1_032_192);
    let factory = made_by_91h(capacity as u32, 16, 63).unwrap();
    let mut numbers = vec![0, 255, 256, 65_535, 65_536, 1 << 24];
    numbers.extend(capacity - 3..capacity + 2);
    numbers.extend((0..100).map(|_| random.below(capacity)));
    for number in numbers {
        let count = random.between(1, 4);
        let good = capacity.saturating_sub(number).min(count) as u32;
        for address in [by_lba(number as u32), by_chs(number as u32, factory)] {
            let passed = disk.write_and_read(address, count as u8, &mut random);
            assert_eq!(passed, [256 * good; 2], "{number}, {address:02X?}");
            disk.compare(number.saturating_sub(2), count + 4);
        }
    }
}

#[test]
fn translations_of_the_largest_disk() {
    let (mut disk, mut random) = (Largest::new(), Random::new(4, 1));
    // Heads and sectors per track; with one of each, cylinders stop at 65,535.
    for (heads, sectors) in [(1, 1), (16, 255), (16, 1), (1, 255), (3, 7), (16, 63)] {
        disk.write_registers([sectors as u8, 1, 0, 0, (heads - 1) as u8]);
        disk.command(0x91);
        let made = made_by_91h(GEOMETRY.capacity() as u32, heads, sectors).unwrap();
        let reach = made.product();
        for number in [0, heads * sectors, reach / 2, reach - 2, reach - 1, reach] {
            let good = (reach - number).min(3);
            let passed = disk.write_and_read(by_chs(number, made), 3, &mut random);
            assert_eq!(passed, [256 * good; 2], "{made:?}, {number}");
            disk.compare(number.saturating_sub(2) as usize, 8);
        }
    }
}
