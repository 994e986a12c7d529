//! As much of `embassy-stm32` as `firmware/rust/boards` uses, by its documentation: the last two pages of 512 KiB behind a
//! data cache that keeps what it read, and the ECC register, with the NMI that a torn word raises.
#![forbid(unsafe_code)]

use core::sync::atomic::{AtomicBool, AtomicU32, AtomicU8, Ordering};
use std::sync::OnceLock;

const FIRST: u32 = 508 * 1024;
const SIZE: usize = 4096;

/// The cells, as their complements, so that they begin erased; what the cache has of each; and whether it has it.
static CELLS: [AtomicU8; SIZE] = [ZERO; SIZE];
static KEPT: [AtomicU8; SIZE] = [ZERO; SIZE];
static IS_KEPT: [AtomicBool; SIZE] = [NO; SIZE];
#[allow(clippy::declare_interior_mutable_const)] // They are what each place above begins as.
const ZERO: AtomicU8 = AtomicU8::new(0);
#[allow(clippy::declare_interior_mutable_const)]
const NO: AtomicBool = AtomicBool::new(false);
static DCEN: AtomicBool = AtomicBool::new(true);
/// The bytes that stand in a torn word, and those in one of all ones that takes a correction; the ECC register; and the handler of
/// the NMI.
static IS_TORN: [AtomicBool; SIZE] = [NO; SIZE];
static IS_FAINT: [AtomicBool; SIZE] = [NO; SIZE];
static ECCR: AtomicU32 = AtomicU32::new(0);
const ECCIE: u32 = 1 << 24;
const ECCC: u32 = 1 << 30;
const ECCD: u32 = 1 << 31;
static HANDLER: OnceLock<fn()> = OnceLock::new();

/// A byte of the pages, by the cache where it is on.
fn read_byte(at: usize) -> u8 {
    let cell = !CELLS[at].load(Ordering::Relaxed);
    if !DCEN.load(Ordering::Relaxed) {
        return cell;
    }
    if !IS_KEPT[at].swap(true, Ordering::Relaxed) {
        KEPT[at].store(cell, Ordering::Relaxed);
    }
    KEPT[at].load(Ordering::Relaxed)
}

/// What the ECC does behind a read of these bytes.
fn look_at_errors(from: usize, behind: usize) {
    let is_any = |bytes: &[AtomicBool; SIZE]| {
        bytes[from..behind]
            .iter()
            .any(|byte| byte.load(Ordering::Relaxed))
    };
    if is_any(&IS_FAINT) {
        ECCR.fetch_or(ECCC, Ordering::Relaxed);
    }
    if is_any(&IS_TORN) {
        ECCR.fetch_or(ECCD, Ordering::Relaxed);
        HANDLER.get().expect("a handler of the NMI")();
        assert_eq!(
            ECCR.load(Ordering::Relaxed) & ECCD,
            0,
            "the NMI comes again"
        );
    }
}

/// The registers, which the feature `unstable-pac` shows.
pub mod pac {
    use super::{DCEN, ECCC, ECCD, ECCIE, ECCR, IS_KEPT};
    use core::sync::atomic::Ordering;

    /// As the registers of the chips are named.
    pub mod flash {
        /// The values of registers.
        pub mod regs {
            pub use super::super::Eccr;
        }
    }

    /// The registers of the flash.
    pub const FLASH: Flash = Flash;

    /// The registers of the flash.
    #[derive(Clone, Copy, Debug)]
    pub struct Flash;

    /// `FLASH_ACR`.
    #[derive(Clone, Copy, Debug)]
    pub struct AcrRegister;

    /// What `FLASH_ACR` has.
    #[derive(Clone, Copy, Debug)]
    pub struct Acr {
        dcen: bool,
        dcrst: bool,
    }

    impl Flash {
        /// `FLASH_ACR`.
        #[must_use]
        pub fn acr(self) -> AcrRegister {
            AcrRegister
        }

        /// `FLASH_ECCR`.
        #[must_use]
        pub fn eccr(self) -> EccrRegister {
            EccrRegister
        }
    }

    /// `FLASH_ECCR`.
    #[derive(Clone, Copy, Debug)]
    pub struct EccrRegister;

    /// What `FLASH_ECCR` has, or what is written to it.
    #[derive(Clone, Copy, Debug)]
    pub struct Eccr(u32);

    impl EccrRegister {
        /// Reads the register.
        #[must_use]
        pub fn read(self) -> Eccr {
            Eccr(ECCR.load(Ordering::Relaxed))
        }

        /// Writes the register: a flag that is written as 1 is taken away.
        pub fn write(self, change: impl FnOnce(&mut Eccr)) {
            let mut written = Eccr(0);
            change(&mut written);
            let flags = self.read().0 & (ECCC | ECCD) & !written.0;
            ECCR.store(flags | (written.0 & ECCIE), Ordering::Relaxed);
        }
    }

    impl Eccr {
        /// Whether an error was that can't be corrected.
        #[must_use]
        pub fn eccd(&self) -> bool {
            self.0 & ECCD != 0
        }

        /// Writes that flag.
        pub fn set_eccd(&mut self, is_set: bool) {
            self.set(ECCD, is_set);
        }

        /// Whether an error was corrected.
        #[must_use]
        pub fn eccc(&self) -> bool {
            self.0 & ECCC != 0
        }

        /// Writes that flag.
        pub fn set_eccc(&mut self, is_set: bool) {
            self.set(ECCC, is_set);
        }

        /// Whether a corrected error raises an interrupt.
        #[must_use]
        pub fn eccie(&self) -> bool {
            self.0 & ECCIE != 0
        }

        /// Says whether it does.
        pub fn set_eccie(&mut self, is_set: bool) {
            self.set(ECCIE, is_set);
        }

        fn set(&mut self, flag: u32, is_set: bool) {
            self.0 = self.0 & !flag | if is_set { flag } else { 0 };
        }
    }

    impl AcrRegister {
        /// Reads the register.
        #[must_use]
        pub fn read(self) -> Acr {
            Acr {
                dcen: DCEN.load(Ordering::Relaxed),
                dcrst: false,
            }
        }

        /// Reads the register, changes it and writes it.
        pub fn modify(self, change: impl FnOnce(&mut Acr)) {
            let mut acr = self.read();
            change(&mut acr);
            if acr.dcrst {
                assert!(!acr.dcen, "the cache is emptied while it is on");
                for byte in &IS_KEPT {
                    byte.store(false, Ordering::Relaxed);
                }
            }
            DCEN.store(acr.dcen, Ordering::Relaxed);
        }
    }

    impl Acr {
        /// Whether the data cache is on.
        #[must_use]
        pub fn dcen(&self) -> bool {
            self.dcen
        }

        /// Turns the data cache on or off.
        pub fn set_dcen(&mut self, is_on: bool) {
            self.dcen = is_on;
        }

        /// Empties the data cache.
        pub fn set_dcrst(&mut self, is_reset: bool) {
            self.dcrst = is_reset;
        }
    }
}

/// The flash of the part.
pub mod flash {
    use super::{
        look_at_errors, read_byte, CELLS, DCEN, ECCD, ECCR, FIRST, HANDLER, IS_FAINT, IS_TORN,
    };
    use core::marker::PhantomData;
    use core::sync::atomic::Ordering;
    use embedded_storage::nor_flash::{
        ErrorType, NorFlash, NorFlashError, NorFlashErrorKind, ReadNorFlash,
    };

    /// Why the flash failed.
    #[derive(Clone, Copy, Debug, PartialEq, Eq)]
    pub struct Error;

    impl NorFlashError for Error {
        fn kind(&self) -> NorFlashErrorKind {
            NorFlashErrorKind::Other
        }
    }

    /// Its calls wait.
    #[derive(Debug)]
    pub struct Blocking;

    /// The flash.
    #[derive(Debug)]
    pub struct Flash<'d, M>(PhantomData<(&'d (), M)>);

    impl Flash<'static, Blocking> {
        /// The flash of the stub: each such value reads and writes the same cells.
        #[must_use]
        pub fn of_stub() -> Self {
            Flash(PhantomData)
        }

        /// What is called where a torn word is read past the cache.
        ///
        /// # Panics
        ///
        /// There is a handler.
        pub fn handle_nmi_by(handler: fn()) {
            HANDLER.set(handler).expect("one handler");
        }

        /// A cut leaves the word torn that begins at this byte.
        ///
        /// # Panics
        ///
        /// The flash has no such word.
        pub fn tear(byte: u32) {
            let at = place(byte).expect("a word of the pages");
            IS_TORN[at..at + 8]
                .iter()
                .for_each(|byte| byte.store(true, Ordering::Relaxed));
        }

        /// A cut leaves the word faint that begins at this byte: it reads as all ones by a correction.
        ///
        /// # Panics
        ///
        /// The flash has no such word.
        pub fn fade(byte: u32) {
            let at = place(byte).expect("a word of the pages");
            IS_FAINT[at..at + 8]
                .iter()
                .for_each(|byte| byte.store(true, Ordering::Relaxed));
        }

        /// An error in the program's own code.
        pub fn err_elsewhere() {
            ECCR.fetch_or(ECCD, Ordering::Relaxed);
        }
    }

    /// Where a byte stands among the cells.
    fn place(offset: u32) -> Result<usize, Error> {
        let place = offset.checked_sub(FIRST).ok_or(Error)? as usize;
        if place < CELLS.len() {
            Ok(place)
        } else {
            Err(Error)
        }
    }

    impl<M> ErrorType for Flash<'_, M> {
        type Error = Error;
    }

    impl<M> ReadNorFlash for Flash<'_, M> {
        const READ_SIZE: usize = 1;

        fn read(&mut self, offset: u32, bytes: &mut [u8]) -> Result<(), Error> {
            for (byte, at) in bytes.iter_mut().zip(offset..) {
                *byte = read_byte(place(at)?);
            }
            if !DCEN.load(Ordering::Relaxed) {
                let from = place(offset)?;
                look_at_errors(from, from + bytes.len());
            }
            Ok(())
        }

        fn capacity(&self) -> usize {
            512 * 1024
        }
    }

    impl<M> NorFlash for Flash<'_, M> {
        const WRITE_SIZE: usize = 8;
        const ERASE_SIZE: usize = 2048;

        fn erase(&mut self, from: u32, to: u32) -> Result<(), Error> {
            for at in from..to {
                CELLS[place(at)?].store(0, Ordering::Relaxed);
                IS_TORN[place(at)?].store(false, Ordering::Relaxed);
                IS_FAINT[place(at)?].store(false, Ordering::Relaxed);
            }
            Ok(())
        }

        fn write(&mut self, offset: u32, bytes: &[u8]) -> Result<(), Error> {
            for (byte, at) in bytes.iter().zip(offset..) {
                CELLS[place(at)?].fetch_or(!byte, Ordering::Relaxed);
            }
            Ok(())
        }
    }
}
