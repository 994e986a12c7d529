//! A plain loop: it erases what waits while there is nothing else to do.
#![no_std]
#![no_main]

use cortex_m_rt::entry;
use ee_store_on_nrf::settings;
use ee_store_programs::count_start;
use embassy_nrf::nvmc::Nvmc;
use panic_halt as _;

#[entry]
fn main() -> ! {
    let part = embassy_nrf::init(Default::default());
    let mut settings = settings(Nvmc::new(part.NVMC)).expect("the last two pages are the store's");
    count_start(&mut settings).expect("the flash works");
    loop {
        // An erase stalls the core for 85 ms. `false`: no page waits.
        if matches!(settings.clean_step(), Ok(false)) {
            cortex_m::asm::wfi();
        }
    }
}
