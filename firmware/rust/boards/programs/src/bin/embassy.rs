//! Tasks of embassy's executor, which share a store behind one mutex.
#![no_std]
#![no_main]

use ee_store_on_nrf::{settings, Settings};
use ee_store_programs::count_start;
use embassy_executor::Spawner;
use embassy_nrf::nvmc::Nvmc;
use embassy_sync::blocking_mutex::raw::NoopRawMutex;
use embassy_sync::mutex::Mutex;
use embassy_time::Timer;
use panic_halt as _;
use static_cell::StaticCell;

/// Tasks of one executor alone take it, so the mutex turns off no interrupts.
type Shared = Mutex<NoopRawMutex, Settings>;

#[embassy_executor::main]
async fn main(spawner: Spawner) {
    static SETTINGS: StaticCell<Shared> = StaticCell::new();
    let part = embassy_nrf::init(Default::default());
    let opened = settings(Nvmc::new(part.NVMC)).expect("the last two pages are the store's");
    let shared: &'static Shared = SETTINGS.init(Mutex::new(opened));
    spawner.spawn(clean(shared)).expect("it is the only one");
    count_start(&mut *shared.lock().await).expect("the flash works");
}

/// Erases what waits, a page a second: each stalls the core for 85 ms.
#[embassy_executor::task]
async fn clean(shared: &'static Shared) {
    loop {
        Timer::after_secs(1).await;
        // A flash that fails fails in the next write too, which tells it.
        let _ = shared.lock().await.clean_step();
    }
}
