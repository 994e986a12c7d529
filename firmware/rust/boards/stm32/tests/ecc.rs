//! Torn and faint words behind a cut, by the NMI's handler that the head of the library shows.

use ee_store::nor::{Ecc, Reading};
use ee_store::Address;
use ee_store_on_stm32::{settings, take_ecc_error, Noted};
use embassy_stm32::flash::{Blocking, Flash};
use embassy_stm32::pac::FLASH;

/// Where a slot of the first page begins.
fn slot(number: u32) -> u32 {
    508 * 1024 + 8 * (4 + number)
}

#[test]
fn a_cut_word_is_told_and_an_error_elsewhere_is_not_taken() {
    Flash::<'static, Blocking>::handle_nmi_by(|| assert!(take_ecc_error()));
    let address = Address::at(1);
    let mut store = settings(Flash::of_stub()).unwrap();
    store.write(address, 10).unwrap();
    store.write(address, 11).unwrap();
    Flash::tear(slot(2));
    Flash::fade(slot(3));
    for _ in 0..2 {
        let mut store = settings(Flash::of_stub()).unwrap();
        assert_eq!(store.read(address), Ok(Some(11)));
        assert_eq!(store.torn_slots(), Ok(2));
        assert!(!store.clean_step().unwrap());
    }
    let mut store = settings(Flash::of_stub()).unwrap();
    store.write(address, 12).unwrap();
    assert_eq!(store.read(address), Ok(Some(12)));

    let mut flash = Flash::of_stub();
    for (number, told) in [(1, Reading::Whole), (2, Reading::Torn), (3, Reading::Torn)] {
        let read = Noted.read_bytes(&mut flash, slot(number), &mut [0; 8]);
        assert_eq!(read, Ok(told), "slot {number}");
    }
    assert!(!FLASH.eccr().read().eccd());
    Flash::err_elsewhere();
    assert!(!take_ecc_error());
    assert!(FLASH.eccr().read().eccd());
}
