//! Every word of every image of random histories made bad, one at a time, and the store rescued, cut in each step.
//!
//!     rescues COUNT SEED
//!
//! plays so many histories of stores of one and of two pages, with cuts that leave torn words and torn marks. Each image
//! that a call, an opening or a cut leaves is taken once. Each of its words is made torn, and two numbers that no store
//! wrote. Then an opening must give the map, or refuse, and a rescue must give it: each address has what it had, but for the
//! one of which that word was the newest. The rescue is cut in each step, in sixteen mixtures, and the openings and rescues
//! behind it are cut by chance up to four times. What is left out is counted: a word that commits a set, where the set is
//! not told apart without it, or where a rescue is cut; but for one cut, where the other set was blank. The first
//! difference ends the program with a panic; without one it ends with a line `N passed, 0 failed`.
#![forbid(unsafe_code)]

use ee_store::proved::{
    bad_words, format, open, rescue, Cut, Flash, OpenFault, RescueFault, Variables,
};
use ee_store::{Address, Shape, Word};
use std::collections::{BTreeMap, BTreeSet};
use std::{env, process};

const MARK: u64 = 0xaaaa_aaaa_aaaa_aaaa;
const RECEIVE: u64 = 0xaaaa_aaaa_0000_0000;
const HEADER: usize = 4;

type Map = BTreeMap<u16, u32>;
type Image = Vec<Vec<Word>>;

/// Numbers that look random.
#[derive(Clone, Debug)]
struct Dice(u64);

impl Dice {
    fn next(&mut self) -> u64 {
        self.0 ^= self.0 << 13;
        self.0 ^= self.0 >> 7;
        self.0 ^= self.0 << 17;
        self.0.wrapping_mul(0x9e37_79b9_7f4a_7c15) >> 16
    }

    fn below(&mut self, end: u64) -> u64 {
        self.next() % end
    }
}

/// A device in memory, of which the step after so many is cut. What that leaves is drawn.
#[derive(Clone, Debug)]
struct Device {
    shape: Shape,
    image: Image,
    on: bool,
    fuse: Option<u64>,
    dice: Dice,
}

impl Device {
    fn of(shape: Shape, image: Image) -> Device {
        let dice = Dice(1);
        Device {
            shape,
            image,
            on: true,
            fuse: None,
            dice,
        }
    }

    fn cut_after(&self, steps: u64, seed: u64) -> Device {
        let dice = Dice(seed.wrapping_mul(0x2545_f491_4f6c_dd1d) | 1);
        Device {
            fuse: Some(steps),
            on: true,
            dice,
            ..self.clone()
        }
    }

    /// Whether the step that begins now is cut.
    fn is_cut(&mut self) -> bool {
        match self.fuse {
            None => false,
            Some(0) => {
                self.fuse = None;
                self.on = false;
                true
            }
            Some(more) => {
                self.fuse = Some(more - 1);
                false
            }
        }
    }
}

impl Flash for Device {
    fn shape(&self) -> Shape {
        self.shape
    }

    fn wear(&self, _: usize) -> u64 {
        0
    }

    fn is_on(&self) -> bool {
        self.on
    }

    fn word(&self, page: usize, at: usize) -> Word {
        self.image[page][at]
    }

    fn run<'a>(&'a self, page: usize, at: usize, room: &'a mut [u64]) -> &'a [u64] {
        for (place, number) in (at..).zip(room.iter_mut()) {
            *number = self.word(page, place).number();
        }
        room
    }

    fn number(&self, reading: u64) -> u64 {
        reading
    }

    fn in_clear(&self, reading: u64) -> u64 {
        reading
    }

    fn program(&mut self, page: usize, at: usize, value: u64) -> Result<(), Cut> {
        if !self.on {
            return Err(Cut);
        }
        assert_eq!(self.image[page][at], Word::Erased, "the word is written");
        let cut = self.is_cut();
        let left = if cut { self.dice.below(3) } else { 1 };
        self.image[page][at] = [Word::Erased, Word::Held(value), Word::Torn][left as usize];
        if cut {
            Err(Cut)
        } else {
            Ok(())
        }
    }

    fn erase(&mut self, page: usize) -> Result<(), Cut> {
        if !self.on {
            return Err(Cut);
        }
        let cut = self.is_cut();
        for at in 0..self.image[page].len() {
            let left = if cut { self.dice.below(3) } else { 1 };
            let word = self.image[page][at];
            self.image[page][at] = [word, Word::Erased, Word::Torn][left as usize];
        }
        if cut {
            Err(Cut)
        } else {
            Ok(())
        }
    }

    fn cuts(&self) -> u64 {
        0
    }

    fn cuts_left(&self) -> Option<u64> {
        None
    }

    fn power_on(&mut self) {
        self.on = true;
    }
}

/// What an opening or a rescue came to.
enum End {
    Made(Map),
    Cut(Image),
    Refused,
}

fn map_of(store: &impl Variables) -> Map {
    let mut map = Map::new();
    let mut after = None;
    while let Some((address, value)) = store.next_live(after) {
        map.insert(address.get(), value);
        after = Some(address);
    }
    map
}

fn opened(device: Device) -> End {
    match open(device) {
        Ok(store) => End::Made(map_of(&store)),
        Err((device, OpenFault::Cut)) => End::Cut(device.image),
        Err((_, OpenFault::Scan(_))) => End::Refused,
    }
}

fn rescued(device: Device) -> End {
    let bad = bad_words(&device);
    match rescue(device) {
        Ok((store, told)) => {
            let map = map_of(&store);
            assert_eq!(
                (told.bad_words, told.live),
                (bad, map.len()),
                "what a rescue tells"
            );
            End::Made(map)
        }
        Err((device, RescueFault::Cut)) => End::Cut(device.image),
        Err((_, _)) => End::Refused,
    }
}

/// The set that is live, by its number, where one is.
fn live_set(shape: Shape, image: &Image) -> Option<usize> {
    let generation =
        |set: usize| match (image[set * shape.pages()][0], image[set * shape.pages()][1]) {
            (Word::Held(number), Word::Held(MARK))
                if (RECEIVE + 1..RECEIVE + 0xffff_ffff).contains(&number) =>
            {
                Some(number - RECEIVE)
            }
            _ => None,
        };
    match (generation(0), generation(1)) {
        (None, None) => None,
        (Some(first), Some(second)) => Some(usize::from(first < second)),
        (first, _) => Some(usize::from(first.is_none())),
    }
}

fn slots(
    shape: Shape,
    image: &Image,
    set: usize,
) -> impl Iterator<Item = (usize, usize, Word)> + '_ {
    let pages = set * shape.pages()..(set + 1) * shape.pages();
    pages.flat_map(move |page| (HEADER..shape.words()).map(move |at| (page, at, image[page][at])))
}

/// The map of a set without one of its words, by plain reading.
fn meaning(shape: Shape, image: &Image, set: usize, without: (usize, usize)) -> Map {
    let mut map = Map::new();
    for (page, at, word) in slots(shape, image, set) {
        let Word::Held(number) = word else { continue };
        let (address, middle) = (number as u16, (number >> 16) as u16);
        if (page, at) == without || address == 0 || address == u16::MAX {
            continue;
        }
        match middle {
            0 => map.insert(address, (number >> 32) as u32),
            1 => map.remove(&address),
            _ => None,
        };
    }
    map
}

#[derive(Default)]
struct Counts {
    damages: u64,
    cuts: u64,
    not_told: u64,
    lost_untold: u64,
    cut_untold: u64,
    lost_cut: u64,
}

/// Tries again behind a cut, by openings and rescues, which are cut too by chance: the map at the end.
fn tried(shape: Shape, mut image: Image, cuts: usize, dice: &mut Dice) -> Option<Map> {
    for turn in 0..8 {
        let plain = Device::of(shape, image.clone());
        let device = match turn < cuts && dice.below(2) == 0 {
            true => plain.cut_after(dice.below(4), dice.next()),
            false => plain,
        };
        let end = match dice.below(2) {
            0 => rescued(device),
            _ => match opened(device.clone()) {
                End::Refused => rescued(device),
                end => end,
            },
        };
        match end {
            End::Made(map) => return Some(map),
            End::Cut(left) => image = left,
            End::Refused => return None,
        }
    }
    None
}

struct Damage<'a> {
    shape: Shape,
    image: &'a Image,
    page: usize,
    at: usize,
    word: Word,
}

/// One word is bad: an opening or a rescue gives the map.
fn look(damage: &Damage, dice: &mut Dice, counts: &mut Counts) {
    let &Damage {
        shape,
        image,
        page,
        at,
        word,
    } = damage;
    let Some(live) = live_set(shape, image) else {
        return;
    };
    let set = page / shape.pages();
    let other = (1 - live) * shape.pages();
    let wanted = match set == live && at >= HEADER {
        true => meaning(shape, image, live, (page, at)),
        false => meaning(shape, image, live, (usize::MAX, 0)),
    };
    let commits = page % shape.pages() == 0 && at < 2;
    let others = &image[other..other + shape.pages()];
    let told =
        others[0][1] == Word::Erased || others.iter().any(|words| words[3] == Word::Held(MARK));
    let blank = others.iter().flatten().all(|word| *word == Word::Erased);
    let mut bad = image.clone();
    bad[page][at] = word;
    counts.damages += 1;
    let by_opening = opened(Device::of(shape, bad.clone()));
    let by_rescue = rescued(Device::of(shape, bad.clone()));
    let first = match by_opening {
        End::Made(map) => {
            let End::Made(same) = by_rescue else {
                panic!("no rescue")
            };
            (map == wanted && same == wanted).then_some(())
        }
        _ => matches!(by_rescue, End::Made(map) if map == wanted).then_some(()),
    };
    if commits && !told {
        counts.not_told += 1;
        counts.lost_untold += u64::from(first.is_none());
        return;
    }
    assert!(
        first.is_some(),
        "page {page} at {at}: {word:?} of {image:?}"
    );
    for steps in 0..64 {
        let mut was_cut = false;
        for mixture in 0..16 {
            let device =
                Device::of(shape, bad.clone()).cut_after(steps, 16 * dice.next() + mixture);
            let End::Cut(left) = rescued(device) else {
                break;
            };
            was_cut = true;
            counts.cuts += 1;
            if commits {
                let map = tried(shape, left.clone(), 4, dice);
                counts.cut_untold += 1;
                counts.lost_cut += u64::from(map.as_ref() != Some(&wanted));
                if !blank {
                    continue;
                }
            }
            let map = tried(shape, left.clone(), if commits { 0 } else { 4 }, dice);
            assert_eq!(
                map.as_ref(),
                Some(&wanted),
                "page {page} at {at}: {word:?} of {image:?}, cut to {left:?}"
            );
        }
        if !was_cut {
            break;
        }
    }
}

/// Random calls with cuts: the images that they leave, each of which is legal or opens again.
fn history(shape: Shape, dice: &mut Dice, seen: &mut BTreeSet<String>) -> Vec<Image> {
    let mut images = Vec::new();
    let blank = vec![vec![Word::Erased; shape.words()]; 2 * shape.pages()];
    let Ok(store) = format(Device::of(shape, blank)) else {
        panic!("no format")
    };
    let mut image = store.into_flash().image;
    for _ in 0..12 {
        let cut = dice.below(2) == 0;
        let plain = Device::of(shape, image.clone());
        // Marks that are left are set here, and so cut too.
        let device = if cut {
            plain.cut_after(dice.below(9), dice.next())
        } else {
            plain
        };
        image = match open(device) {
            Err((device, _)) => device.image,
            Ok(mut store) => {
                let address = Address::new(1 + dice.below(3) as u16).expect("an address");
                match dice.below(8) {
                    0 => drop(store.forget(address)),
                    1 => drop(store.clean_step()),
                    _ => drop(store.write(address, dice.below(9) as u32)),
                }
                store.into_flash().image
            }
        };
        if seen.insert(format!("{image:?}")) {
            images.push(image.clone());
        }
    }
    images
}

fn main() {
    let numbers: Vec<u64> = env::args()
        .skip(1)
        .map_while(|word| word.parse().ok())
        .collect();
    let [count, seed] = numbers[..] else {
        eprintln!("rescues COUNT SEED");
        process::exit(2);
    };
    let mut dice = Dice(seed | 1);
    let mut counts = Counts::default();
    let mut seen = BTreeSet::new();
    for turn in 0..count {
        let (pages, words) = [(1, 5), (1, 6), (1, 7), (2, 5), (2, 6)][turn as usize % 5];
        let shape = Shape::new(pages, words).expect("a shape");
        for image in history(shape, &mut dice, &mut seen) {
            for page in 0..2 * pages {
                for at in 0..words {
                    let foreign = if at < HEADER {
                        RECEIVE + 1 + dice.below(5)
                    } else {
                        MARK
                    };
                    for word in [
                        Word::Torn,
                        Word::Held(0x0000_0007_00ff_0001),
                        Word::Held(foreign),
                    ] {
                        let reads_as_mark = at < HEADER && word == Word::Held(MARK);
                        if image[page][at] != word && !reads_as_mark {
                            look(
                                &Damage {
                                    shape,
                                    image: &image,
                                    page,
                                    at,
                                    word,
                                },
                                &mut dice,
                                &mut counts,
                            );
                        }
                    }
                }
            }
        }
    }
    println!("{} damages, {} rescues cut", counts.damages, counts.cuts);
    println!(
        "{} of {} lost where the sets are not told apart",
        counts.lost_untold, counts.not_told
    );
    println!(
        "{} of {} lost where a commit word was bad and a rescue cut",
        counts.lost_cut, counts.cut_untold
    );
    println!("{} passed, 0 failed", counts.damages + counts.cuts);
}
