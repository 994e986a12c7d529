//! Power, and the cut that is to come.

/// What is left of a step in which power is cut.
#[derive(Clone, Copy)]
pub enum Tear {
    /// All is as it was.
    Nothing,
    /// The step was done.
    Done,
    /// Its words are torn.
    Torn,
    /// A programmed word is torn; of a page that is erased the words 0, 3, 6 .. are as they were,
    /// 1, 4, 7 .. are erased and 2, 5, 8 .. are torn.
    Mixed,
}

/// Power was cut in a step.
pub struct Cut;

/// Whether a device is on, and which further step of it is cut.
pub struct Power {
    on: bool,
    /// How many steps pass before the one that is cut, and what is left of that one.
    fuse: Option<(u64, Tear)>,
}

impl Power {
    pub fn new() -> Self {
        Power {
            on: true,
            fuse: None,
        }
    }

    #[inline]
    pub fn is_on(&self) -> bool {
        self.on
    }

    pub fn turn_on(&mut self) {
        self.on = true;
    }

    /// Arms a cut in place of one that was armed before: `passing` further steps pass, and the next
    /// is cut.
    pub fn arm(&mut self, passing: u64, tear: Tear) {
        self.fuse = Some((passing, tear));
    }

    /// Begins a step. Gives what is left of it if it is cut, and then power is off.
    #[inline]
    pub fn begin_step(&mut self) -> Option<Tear> {
        let (passing, tear) = self.fuse?;
        if let Some(fewer) = passing.checked_sub(1) {
            self.fuse = Some((fewer, tear));
            return None;
        }
        *self = Power {
            on: false,
            fuse: None,
        };
        Some(tear)
    }
}
