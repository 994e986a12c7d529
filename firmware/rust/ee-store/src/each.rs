//! What a store is to a `for` loop: of calls that wait none can be made.

use crate::driver::Driver;
use crate::ee_codec::Address;
use crate::error::Error;
use crate::iter::Iter;
use crate::store::{Finds, Store};
use core::iter::FusedIterator;

impl<D: Driver, L: Finds> Iterator for Iter<'_, D, L> {
    type Item = Result<(Address, u32), Error<D::Error>>;

    fn next(&mut self) -> Option<Self::Item> {
        Iter::next(self)
    }
}

impl<D: Driver, L: Finds> FusedIterator for Iter<'_, D, L> {}

impl<'a, D: Driver, L: Finds> IntoIterator for &'a Store<D, L> {
    type Item = Result<(Address, u32), Error<D::Error>>;
    type IntoIter = Iter<'a, D, L>;

    fn into_iter(self) -> Iter<'a, D, L> {
        self.iter()
    }
}
