//! Promises of iterators.

use crate::cal_schedule::Steps;
use crate::cal_units::{Cycle, iter::CycleIter};
use crate::iter::{DateIter, Rev};
use core::iter::FusedIterator;

impl ExactSizeIterator for DateIter {}
impl FusedIterator for DateIter {}
impl FusedIterator for Steps {}
impl FusedIterator for crate::cal_zoned::Steps {}
impl FusedIterator for crate::cal_zoned::ZonedSteps<'_> {}
impl<C: Cycle> FusedIterator for CycleIter<C> {}
impl<C: Cycle> FusedIterator for Rev<CycleIter<C>> {}
