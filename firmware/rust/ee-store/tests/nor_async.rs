//! The driver over a flash in memory whose writes and erases take several polls: its calls, dropped at each of them.

use ee_store::asynch::nor::{NorDriver, Plain};
use ee_store::asynch::{Address, Error, Kind, Shape, Store, Unfit};
use embedded_storage_async::nor_flash::{
    ErrorType, NorFlash, NorFlashError, NorFlashErrorKind, ReadNorFlash,
};
use std::cell::RefCell;
use std::future::{poll_fn, Future};
use std::pin::pin;
use std::rc::Rc;
use std::sync::Arc;
use std::task::{Context, Poll, Wake, Waker};

#[derive(Clone, Copy, Debug, PartialEq, Eq)]
struct Broken;

impl NorFlashError for Broken {
    fn kind(&self) -> NorFlashErrorKind {
        NorFlashErrorKind::Other
    }
}

/// A flash that writes so many bytes at a time and erases 128.
#[derive(Clone, Debug)]
struct Memory<const WRITE: usize>(Rc<RefCell<Vec<u8>>>);

impl<const W: usize> ErrorType for Memory<W> {
    type Error = Broken;
}

impl<const W: usize> ReadNorFlash for Memory<W> {
    const READ_SIZE: usize = 4;

    async fn read(&mut self, offset: u32, bytes: &mut [u8]) -> Result<(), Broken> {
        if bytes.len() > 16 {
            a_while().await;
        }
        let start = offset as usize;
        bytes.copy_from_slice(&self.0.borrow()[start..start + bytes.len()]);
        Ok(())
    }

    fn capacity(&self) -> usize {
        self.0.borrow().len()
    }
}

impl<const W: usize> NorFlash for Memory<W> {
    const WRITE_SIZE: usize = W;
    const ERASE_SIZE: usize = 128;

    async fn erase(&mut self, from: u32, to: u32) -> Result<(), Broken> {
        for sector in (from as usize..to as usize).step_by(128) {
            a_while().await;
            self.0.borrow_mut()[sector..sector + 128].fill(0xff);
        }
        Ok(())
    }

    async fn write(&mut self, offset: u32, bytes: &[u8]) -> Result<(), Broken> {
        for (count, unit) in bytes.chunks(W).enumerate() {
            a_while().await;
            let start = offset as usize + count * W;
            let mut all = self.0.borrow_mut();
            let old = &mut all[start..start + W];
            assert!(old.iter().all(|byte| *byte == 0xff));
            old.copy_from_slice(unit);
        }
        Ok(())
    }
}

/// Waits for one poll.
async fn a_while() {
    let mut is_over = false;
    poll_fn(|_| match std::mem::replace(&mut is_over, true) {
        true => Poll::Ready(()),
        false => Poll::Pending,
    })
    .await;
}

struct Nobody;

impl Wake for Nobody {
    fn wake(self: Arc<Self>) {}
}

fn polled<T>(future: impl Future<Output = T>, polls: u64) -> Option<T> {
    let waker = Waker::from(Arc::new(Nobody));
    let mut future = pin!(future);
    for _ in 0..polls {
        if let Poll::Ready(answer) = future.as_mut().poll(&mut Context::from_waker(&waker)) {
            return Some(answer);
        }
    }
    None
}

fn whole<T>(future: impl Future<Output = T>) -> T {
    polled(future, u64::MAX).unwrap()
}

type Opened<const W: usize> = Store<NorDriver<Memory<W>>>;

fn kind<const W: usize>() -> Kind {
    match W {
        1..=4 => Kind::Pairs,
        _ => Kind::Words,
    }
}

fn opened<const W: usize>(memory: &Memory<W>) -> Opened<W> {
    let shape = Shape::new(1, 7).unwrap();
    let driver = NorDriver::new(memory.clone(), 128, shape, kind::<W>(), Plain);
    whole(Store::open_or_format(driver.unwrap())).unwrap()
}

fn calls<const W: usize>() {
    let bytes = NorDriver::<Memory<W>>::WORD_BYTES * 7;
    let page = bytes.div_ceil(128) * 128;
    let mut memory = Memory::<W>(Rc::new(RefCell::new(vec![0xff; 128 + 2 * page])));
    let address = Address::at(7);
    let mut old = None;
    for value in 0..12 {
        for polls in 0.. {
            let copy = Memory(Rc::new(RefCell::new(memory.0.borrow().clone())));
            let mut store = opened(&copy);
            let answer = polled(store.write(address, value), polls);
            assert_eq!(store.is_on(), answer.is_some() || polls == 0);
            if !store.is_on() {
                assert_eq!(whole(store.read(address)), Err(Error::NotOpen));
            }
            assert_eq!(whole(store.reopen()), Ok(()));
            let found = whole(store.read(address)).unwrap();
            assert!(found == old || found == Some(value));
            if answer.is_some() {
                assert_eq!(found, Some(value));
                memory = copy;
                break;
            }
        }
        old = Some(value);
    }
}

#[test]
fn dropped_calls_lose_nothing() {
    calls::<1>();
    calls::<4>();
    calls::<8>();
    calls::<16>();
    calls::<32>();
}

#[test]
fn what_does_not_fit_is_refused() {
    let memory = Memory::<8>(Rc::new(RefCell::new(vec![0; 256])));
    let shape = Shape::new(1, 7).unwrap();
    let refused = NorDriver::new(memory, 4, shape, Kind::Words, Plain).err();
    assert_eq!(refused, Some(Unfit::Offset));
}

/// Two reads of one store, polled in turn: the second waits for the first, and a read that is dropped costs nothing.
#[test]
fn reads_wait_for_each_other() {
    let memory = Memory::<4>(Rc::new(RefCell::new(vec![0xff; 384])));
    let mut store = whole(Store::over(memory, 128..384, Kind::Pairs)).unwrap();
    whole(store.write(Address::at(1), 10)).unwrap();
    whole(store.write(Address::at(2), 20)).unwrap();
    let (mut first, mut second) = (
        pin!(store.read(Address::at(1))),
        pin!(store.read(Address::at(2))),
    );
    let waker = Waker::from(Arc::new(Nobody));
    let mut context = Context::from_waker(&waker);
    let (mut one, mut two) = (None, None);
    while one.is_none() || two.is_none() {
        for (future, answer) in [(&mut first, &mut one), (&mut second, &mut two)] {
            if answer.is_none() {
                if let Poll::Ready(found) = future.as_mut().poll(&mut context) {
                    *answer = Some(found);
                }
            }
        }
    }
    assert_eq!((one, two), (Some(Ok(Some(10))), Some(Ok(Some(20)))));
    assert!(polled(store.read(Address::at(1)), 1).is_none());
    assert_eq!(whole(store.read(Address::at(1))), Ok(Some(10)));
}
