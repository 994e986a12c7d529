//! The settings over a flash whose data cache keeps what it read: the product reads the pages by it too.

use ee_store::Address;
use ee_store_on_stm32::settings;
use embassy_stm32::flash::{Blocking, Flash};
use embassy_stm32::pac::FLASH;
use embedded_storage::nor_flash::ReadNorFlash;

/// What the product reads of the pages by the cache, and what stands there.
fn looked() -> ([u8; 4096], [u8; 4096]) {
    let mut flash: Flash<'static, Blocking> = Flash::of_stub();
    let (mut cached, mut cells) = ([0; 4096], [0; 4096]);
    flash.read(508 * 1024, &mut cached).unwrap();
    FLASH.acr().modify(|acr| acr.set_dcen(false));
    flash.read(508 * 1024, &mut cells).unwrap();
    FLASH.acr().modify(|acr| acr.set_dcen(true));
    (cached, cells)
}

#[test]
fn nobody_reads_an_old_line() {
    let address = Address::new(1).unwrap();
    let (cached, cells) = looked();
    assert_eq!(cached, cells);
    for start in 0..3 {
        let mut store = settings(Flash::of_stub()).unwrap();
        for n in 0..300 {
            store.write(address, start * 1000 + n).unwrap();
            assert_eq!(store.read(address), Ok(Some(start * 1000 + n)));
            let (cached, cells) = looked();
            assert!(cached == cells, "the cache has an old line");
            assert!(FLASH.acr().read().dcen());
        }
    }
}
