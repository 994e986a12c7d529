//! Tasks of RTIC, which share a store as a resource: while one has it locked, no other that takes it runs.
#![no_std]
#![no_main]

use panic_halt as _;

#[rtic::app(device = embassy_nrf, peripherals = false, dispatchers = [EGU0_SWI0])]
mod app {
    use ee_store_on_nrf::{settings, Settings};
    use ee_store_programs::count_start;
    use embassy_nrf::nvmc::Nvmc;

    #[shared]
    struct Shared {
        settings: Settings,
    }

    #[local]
    struct Local {}

    #[init]
    fn init(_: init::Context) -> (Shared, Local) {
        let part = embassy_nrf::init(Default::default());
        let settings = settings(Nvmc::new(part.NVMC)).expect("the last two pages are the store's");
        count::spawn().expect("it runs once");
        (Shared { settings }, Local {})
    }

    #[task(priority = 1, shared = [settings])]
    async fn count(mut context: count::Context) {
        let counted = context.shared.settings.lock(count_start);
        counted.expect("the flash works");
    }

    /// Erases what waits while nothing else runs: each page stalls the core for 85 ms.
    #[idle(shared = [settings])]
    fn idle(mut context: idle::Context) -> ! {
        loop {
            let cleaned = context
                .shared
                .settings
                .lock(|settings| settings.clean_step());
            if matches!(cleaned, Ok(false)) {
                cortex_m::asm::wfi();
            }
        }
    }
}
