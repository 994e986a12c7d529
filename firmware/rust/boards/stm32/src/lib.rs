//! Settings in the last pages of an STM32 of the families G0, G4, L4, L5, WB or WL, by embassy's HAL.
//!
//! In `main`: `settings(Flash::new_blocking(p.FLASH))`, where `p` is what `embassy_stm32::init` gives. And the handler of the
//! NMI, without which the first torn word hangs the device, by `cortex-m` and `cortex-m-rt`:
//!
//! ```ignore
//! #[cortex_m_rt::exception]
//! unsafe fn NonMaskableInt() {
//!     if !ee_store_on_stm32::take_ecc_error() {
//!         cortex_m::peripheral::SCB::sys_reset(); // an error in the program's own code: the NMI would come again at once
//!     }
//! }
//! ```
//!
//! It takes the feature `unstable-pac` of `embassy-stm32`, for two registers: that by which a data cache is turned off (on a G0
//! the one cache: put `icen`, `icrst` in place of `dcen`, `dcrst`), and the ECC register (of the second bank of a G0 `ecc2r`; a
//! G4 with one bank has `eccd2` and `eccc2` too).
#![no_std]
#![forbid(unsafe_code)]

use core::ops::Range;
use core::sync::atomic::{compiler_fence, AtomicBool, AtomicU32, AtomicUsize, Ordering};
use ee_store::nor::{Ecc, NorDriver, Reading};
use ee_store::{Kind, NorError, OpenError, Store};
use embassy_stm32::flash::{Blocking, Error, Flash};
use embassy_stm32::pac::flash::regs::Eccr;
use embassy_stm32::pac::FLASH;
use embedded_storage::nor_flash::ReadNorFlash;

/// Two pages of 2 KiB, behind 508 KiB of program.
const RANGE: Range<u32> = 508 * 1024..512 * 1024;

static IS_READING: AtomicBool = AtomicBool::new(false);
static IS_NOTED: AtomicBool = AtomicBool::new(false);
/// Where the last torn words begin, each as one more, and 0 for none; and which place is the next one's. A second read may
/// come from a cache, which raises no NMI.
static TORN: [AtomicU32; 8] = [NONE; 8];
#[allow(clippy::declare_interior_mutable_const)] // It is what each place of `TORN` begins as.
const NONE: AtomicU32 = AtomicU32::new(0);
static NEXT: AtomicUsize = AtomicUsize::new(0);

/// The handler of the NMI calls it. It answers whether an uncorrectable ECC error came while the store was reading: that is
/// noted, and its flag and no other taken away. Any other cause is not the store's, and stays as it is.
pub fn take_ecc_error() -> bool {
    let is_ours = FLASH.eccr().read().eccd() && IS_READING.load(Ordering::Relaxed);
    if is_ours {
        IS_NOTED.store(true, Ordering::Relaxed);
        clear_flag(|eccr| eccr.set_eccd(true));
    }
    is_ours
}

/// Takes a flag away, which is done by writing it as 1. The interrupt of corrected errors stays on or off.
fn clear_flag(flag: impl FnOnce(&mut Eccr)) {
    let is_told = FLASH.eccr().read().eccie();
    FLASH.eccr().write(|eccr| {
        eccr.set_eccie(is_told);
        flag(eccr);
    });
}

/// The turns in which an NMI has come and its handler has taken the flag.
const NMI_TURNS: usize = 100;

/// Turns the data cache off and empties it, and turns it on again where it was on when it is dropped. It may hold old lines
/// behind a write, and gives a torn word with no new NMI. A word that was written is read back by this too, so nobody finds an
/// old line behind a call. No interrupt writes `FLASH_ACR` meanwhile.
struct PastTheCache(bool);

impl PastTheCache {
    fn begin() -> Self {
        let was_on = FLASH.acr().read().dcen();
        FLASH.acr().modify(|acr| acr.set_dcen(false));
        FLASH.acr().modify(|acr| acr.set_dcrst(true));
        FLASH.acr().modify(|acr| acr.set_dcrst(false));
        PastTheCache(was_on)
    }
}

impl Drop for PastTheCache {
    fn drop(&mut self) {
        FLASH.acr().modify(|acr| acr.set_dcen(self.0));
    }
}

/// Reads past the cache, and looks whether an error was noted meanwhile, or in an earlier read of the same word. All ones by a
/// correction count as torn too, since the part may not program such a word.
#[derive(Clone, Copy, Debug)]
pub struct Noted;

impl Ecc<Flash<'static, Blocking>> for Noted {
    fn read_bytes(
        &self,
        flash: &mut Flash<'static, Blocking>,
        byte: u32,
        bytes: &mut [u8],
    ) -> Result<Reading, Error> {
        let _past = PastTheCache::begin();
        clear_flag(|eccr| eccr.set_eccc(true)); // of an older correction
        IS_NOTED.store(false, Ordering::Relaxed);
        IS_READING.store(true, Ordering::Relaxed);
        compiler_fence(Ordering::SeqCst);
        let read = ReadNorFlash::read(flash, byte, bytes);
        // On the part `cortex_m::asm::dsb` stands here. The NMI may come some cycles later.
        compiler_fence(Ordering::SeqCst);
        let _ = (0..NMI_TURNS).find(|_| !FLASH.eccr().read().eccd());
        IS_READING.store(false, Ordering::Relaxed);
        let is_kept = TORN
            .iter()
            .any(|torn| torn.load(Ordering::Relaxed) == byte + 1);
        let is_faint =
            read.is_ok() && FLASH.eccr().read().eccc() && bytes.iter().all(|byte| *byte == 0xff);
        if (IS_NOTED.load(Ordering::Relaxed) || is_faint) && !is_kept {
            let place = NEXT.load(Ordering::Relaxed);
            TORN[place].store(byte + 1, Ordering::Relaxed);
            NEXT.store((place + 1) % TORN.len(), Ordering::Relaxed);
            return Ok(Reading::Torn);
        }
        read?;
        match is_kept {
            true => Ok(Reading::Torn),
            false => Ok(Reading::Whole),
        }
    }

    fn erases(&self, bytes: Range<u32>) {
        for torn in &TORN {
            if bytes.contains(&torn.load(Ordering::Relaxed).wrapping_sub(1)) {
                torn.store(0, Ordering::Relaxed);
            }
        }
    }
}

/// The store, as it stands in a `static` or in a resource.
pub type Settings = Store<NorDriver<Flash<'static, Blocking>, Noted>>;

/// Opens the settings, or makes them on a new part. Where there is a store of `Kind::Words` from before, that kind stays.
///
/// # Errors
///
/// Why there are none: the flash doesn't fit, or the store isn't opened.
pub fn settings(flash: Flash<'static, Blocking>) -> Result<Settings, OpenError<NorError<Error>>> {
    let driver = NorDriver::over_ecc(flash, RANGE, Kind::Coded, Noted)?;
    Store::open_or_format(driver)
}
