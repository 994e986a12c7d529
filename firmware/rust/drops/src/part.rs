//! A part in memory whose steps take several polls. A step whose future is dropped leaves what a cut leaves.

use ee_store::asynch::Driver;
use ee_store_differ::{Kind, Part, PowerCut, Shape, Tear, Word, TEARS};
use std::cell::{Cell, RefCell};
use std::future::{poll_fn, Future};
use std::pin::Pin;
use std::rc::Rc;
use std::task::{Context, Poll};

/// How many polls a step takes.
pub const POLLS: u64 = 2;

/// A part that a store and its test share, and what a dropped step leaves of it.
#[derive(Clone)]
pub struct Shared {
    pub part: Rc<RefCell<Part>>,
    pub tear: Rc<Cell<Tear>>,
}

impl Shared {
    pub fn new(part: &Part) -> Shared {
        let part = Part {
            fuse: None,
            ..part.clone()
        };
        Shared {
            part: Rc::new(RefCell::new(part)),
            tear: Rc::new(Cell::new(Tear::Torn)),
        }
    }

    pub fn left(&self) -> Part {
        self.part.borrow().clone()
    }

    /// Sets what the next step that is dropped leaves.
    pub fn draw(&self, number: u64) {
        self.tear.set(TEARS[number as usize % 4].1);
        self.part.borrow_mut().dice = (number + 1).wrapping_mul(0x9e37_79b9_7f4a_7c15) | 1;
    }

    async fn step(
        &self,
        step: impl Fn(&mut Part) -> Result<(), PowerCut> + Unpin,
    ) -> Result<(), PowerCut> {
        Step {
            shared: self,
            step,
            polls: 0,
        }
        .await
    }
}

/// A step that is under way.
struct Step<'a, F: Fn(&mut Part) -> Result<(), PowerCut>> {
    shared: &'a Shared,
    step: F,
    polls: u64,
}

impl<F: Fn(&mut Part) -> Result<(), PowerCut> + Unpin> Future for Step<'_, F> {
    type Output = Result<(), PowerCut>;

    fn poll(mut self: Pin<&mut Self>, _: &mut Context<'_>) -> Poll<Self::Output> {
        self.polls += 1;
        match self.polls < POLLS {
            true => Poll::Pending,
            false => Poll::Ready((self.step)(&mut self.shared.part.borrow_mut())),
        }
    }
}

impl<F: Fn(&mut Part) -> Result<(), PowerCut>> Drop for Step<'_, F> {
    fn drop(&mut self) {
        if (1..POLLS).contains(&self.polls) {
            let mut part = self.shared.part.borrow_mut();
            part.fuse = Some((0, self.shared.tear.get()));
            assert_eq!((self.step)(&mut part), Err(PowerCut));
        }
    }
}

impl Driver for Shared {
    type Error = PowerCut;

    fn shape(&self) -> Shape {
        self.part.borrow().shape
    }

    fn kind(&self) -> Kind {
        self.part.borrow().kind()
    }

    async fn word(&self, page: usize, at: usize) -> Result<Word, PowerCut> {
        a_look().await;
        Ok(self.part.borrow().word(page, at))
    }

    async fn program(&mut self, page: usize, at: usize, value: u64) -> Result<(), PowerCut> {
        self.step(|part| part.program(page, at, value)).await
    }

    async fn erase(&mut self, page: usize) -> Result<(), PowerCut> {
        self.step(|part| part.erase(page)).await
    }
}

thread_local! {
    static LOOKS: Cell<u64> = const { Cell::new(0) };
}

/// A look at a word takes a second poll, now and then.
async fn a_look() {
    let look = LOOKS.get() + 1;
    LOOKS.set(look);
    let mut is_over = look % 16 != 0;
    poll_fn(|_| match std::mem::replace(&mut is_over, true) {
        true => Poll::Ready(()),
        false => Poll::Pending,
    })
    .await;
}
