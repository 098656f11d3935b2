//! What the crate adds to the library: types, copies, bytes that are kept, and what it does not
//! show.

use thinnarom::{Device, Error, Geometry, Identity, Register, Setup};

const GEOMETRY: Geometry = Geometry {
    cylinders: 4,
    heads: 2,
    sectors_per_track: 8,
};
const MASTER: &[u8; 32] = b"the master password, 32 bytes...";
const USER: &[u8; 32] = b"the user's password, 32 bytes...";
const TOKEN: &[u8] = b"rider 1041, token 9f27";

/// A disk with a user password, and a token in its buffer.
fn disk() -> (Device, Vec<u8>) {
    let identity = &Identity::new("SERIAL-0001", "1.0", "MINIBUS DISK").unwrap();
    let mut sectors = vec![0; GEOMETRY.sector_bytes()];
    sectors[..TOKEN.len()].copy_from_slice(TOKEN);
    let setup = Setup {
        geometry: GEOMETRY,
        identity,
        master_password: MASTER,
    };
    let mut disk = Device::new(&setup).unwrap();
    send_password(&mut disk, &mut sectors, 0xF1, USER);
    disk.write_register(&mut sectors, Register::Command, 0x20)
        .unwrap();
    (disk, sectors)
}

fn send_password(disk: &mut Device, sectors: &mut [u8], code: u8, password: &[u8; 32]) {
    let mut block = [0; 512];
    block[2..34].copy_from_slice(password);
    disk.write_register(sectors, Register::Command, code)
        .unwrap();
    assert_eq!(disk.write_words(sectors, &block), Ok(256));
}

fn holds(bytes: &[u8], part: &[u8]) -> bool {
    bytes.windows(part.len()).any(|window| window == part)
}

#[test]
fn nothing_that_is_shown_holds_a_secret() {
    let (disk, _) = disk();
    let kept = disk.to_bytes();
    let secrets: [&[u8]; 4] = [MASTER, USER, TOKEN, b"SERIAL-0001"];
    for secret in secrets {
        assert!(holds(&kept, secret), "the device has it");
        let bytes = format!("{secret:?}");
        let numbers = bytes.trim_matches(['[', ']']);
        for shown in [format!("{disk:?}"), format!("{disk:#?}")] {
            assert!(
                !holds(shown.as_bytes(), secret) && !shown.contains(numbers),
                "{shown}"
            );
        }
    }
    let identity = &Identity::new("SERIAL-0001", "1.0", "MINIBUS DISK").unwrap();
    let setup = Setup {
        geometry: GEOMETRY,
        identity,
        master_password: MASTER,
    };
    for shown in [format!("{setup:?}"), format!("{identity:?}")] {
        assert!(
            !holds(shown.as_bytes(), MASTER) && !shown.contains("SERIAL-0001"),
            "{shown}"
        );
    }
}

#[test]
fn the_geometry_stays_the_factorys() {
    let geometry = Geometry {
        cylinders: 1_000,
        heads: 3,
        sectors_per_track: 5,
    };
    let identity = &Identity::new("", "", "").unwrap();
    let mut disk = Device::new(&Setup {
        geometry,
        identity,
        master_password: MASTER,
    })
    .unwrap();
    let mut sectors = vec![0; geometry.sector_bytes()];
    assert_eq!(disk.geometry(), geometry);
    disk.write_register(&mut sectors, Register::SectorCount, 7)
        .unwrap();
    disk.write_register(&mut sectors, Register::DeviceHead, 1)
        .unwrap();
    disk.write_register(&mut sectors, Register::Command, 0x91)
        .unwrap();
    assert_eq!(disk.read_register(&mut sectors, Register::Status), Ok(0x50));
    assert_eq!(disk.geometry(), geometry);
}

#[test]
fn a_clone_goes_its_own_way() {
    let (mut disk, mut sectors) = disk();
    let mut clone = disk.clone();
    assert_eq!(clone.to_bytes(), disk.to_bytes());
    clone.power_on(&mut sectors).unwrap();
    assert_ne!(clone.to_bytes(), disk.to_bytes());
    let mut block = [0; 512];
    assert_eq!(
        clone.read_words(&mut sectors, &mut block),
        Err(Error::NoTransfer)
    );
    drop(clone);
    assert_eq!(disk.read_words(&mut sectors, &mut block), Ok(256));
    assert!(block.starts_with(TOKEN));
}

#[test]
fn kept_bytes_go_on_in_the_middle_of_a_sector() {
    let (mut disk, mut sectors) = disk();
    let mut block = [0; 512];
    assert_eq!(disk.read_words(&mut sectors, &mut block[..10]), Ok(5));
    let mut again = Device::from_bytes(&disk.to_bytes()).unwrap();
    assert_eq!(again.read_words(&mut sectors, &mut block[10..]), Ok(251));
    assert!(block.starts_with(TOKEN));
}

#[test]
fn bytes_of_any_other_length_are_no_device() {
    let (disk, _) = disk();
    let bytes = [&disk.to_bytes()[..], &[0; 100]].concat();
    for length in 0..bytes.len() {
        let kept = Device::from_bytes(&bytes[..length]);
        let expected = (length != Device::BYTES).then_some(Error::OutOfShape);
        assert_eq!(kept.err(), expected, "{length}");
    }
}

#[test]
fn sectors_of_another_length_are_refused_by_every_call() {
    let (mut disk, mut sectors) = disk();
    let before = disk.to_bytes();
    for length in [0, 512, sectors.len() - 1] {
        let (lent, mut out) = (&mut sectors[..length], [7; 8]);
        assert_eq!(
            disk.read_register(lent, Register::Status),
            Err(Error::WrongLength)
        );
        assert_eq!(
            disk.write_register(lent, Register::Command, 0),
            Err(Error::WrongLength)
        );
        assert_eq!(disk.read_word(lent), Err(Error::WrongLength));
        assert_eq!(disk.write_word(lent, 0), Err(Error::WrongLength));
        assert_eq!(disk.read_words(lent, &mut out), Err(Error::WrongLength));
        assert_eq!(disk.write_words(lent, &out), Err(Error::WrongLength));
        assert_eq!(disk.hardware_reset(lent), Err(Error::WrongLength));
        assert_eq!(disk.power_on(lent), Err(Error::WrongLength));
        assert_eq!(disk.line(lent), Err(Error::WrongLength));
        assert_eq!((out, disk.to_bytes()), ([7; 8], before));
    }
}

#[test]
fn every_number_is_a_register_or_none() {
    let (mut disk, mut sectors) = disk();
    for number in 0..=255 {
        let read = disk.read_register(&mut sectors, number);
        match Register::try_from(number) {
            Ok(register) => {
                assert_eq!(u8::from(register), number);
                assert_eq!(read, disk.read_register(&mut sectors, register));
            }
            Err(error) => assert_eq!((error, read), (Error::NoSuchRegister, Err(error))),
        }
    }
}

#[test]
fn refusals_say_their_number() {
    let numbered: Vec<Error> = (0..100).filter_map(Error::numbered).collect();
    assert_eq!(numbered.len(), 5);
    for error in numbered {
        assert_eq!(Error::numbered(error.number().into()), Some(error));
        let text = Box::<dyn std::error::Error>::from(error).to_string();
        assert!(
            text.starts_with(&format!("answer {}: ", error.number())),
            "{text}"
        );
    }
}

#[test]
fn a_device_may_go_to_another_thread() {
    let (mut disk, mut sectors) = disk();
    let word = std::thread::spawn(move || disk.read_word(&mut sectors))
        .join()
        .unwrap();
    assert_eq!(word, Ok(u16::from_le_bytes([TOKEN[0], TOKEN[1]])));
}
