//! Waves of map tasks, planned and checked by `libmrjob`, whose functions are proved: a safe wrapper of its
//! header, `mrjob.h`, which says what each field and each status means.
//!
//! The library asks nothing of numbers, so all that a caller in C owes is what slices are by their type.
use std::error::Error;
use std::fmt::{self, Display, Formatter};
use std::mem::size_of;

/// A worker: the number of its rack, how many of its slots are free, and whether it lives, where 0 says no.
#[repr(C)]
#[derive(Clone, Copy, Debug)]
pub struct Worker {
    pub rack: u16,
    pub free: u8,
    pub live: u8,
}

/// A split: its bytes, the place of its first holder, how many it has, and whether it waits, where 0 says no.
#[repr(C)]
#[derive(Clone, Copy, Debug)]
pub struct Split {
    pub bytes: u64,
    pub first_holder: u32,
    pub holder_count: u16,
    pub pending: u16,
}

/// A split and a worker on which it may not start.
#[repr(C)]
#[derive(Clone, Copy, Debug)]
pub struct Pair {
    pub split: u16,
    pub worker: u16,
}

/// A cluster as one wave sees it.
#[derive(Clone, Copy, Debug, Default)]
pub struct Wave<'a> {
    pub centres: usize,
    /// The data centre of each rack.
    pub centre_of: &'a [u16],
    pub workers: &'a [Worker],
    pub splits: &'a [Split],
    /// The workers that hold the splits.
    pub holders: &'a [u16],
    pub barred: &'a [Pair],
}

/// Over which network a plan is made. Either gives a best plan, `Racks` in less time. `Direct` takes at most
/// 1,024 splits and 256 workers.
#[derive(Clone, Copy, Debug, PartialEq, Eq)]
pub enum Network {
    Racks = 0,
    Direct = 1,
}

/// A plan, and prices that certify it.
#[derive(Clone, Debug, PartialEq, Eq)]
pub struct Plan {
    /// The worker on which each split starts.
    pub starts: Vec<Option<u16>>,
    pub split_prices: Vec<u64>,
    pub worker_prices: Vec<u64>,
    /// How many splits start.
    pub count: u64,
    /// Their byte-distance together.
    pub cost: u64,
}

/// What a check finds.
#[derive(Clone, Copy, Debug, PartialEq, Eq)]
pub enum Verdict {
    /// The prices certify the starts, which are then best.
    Certified { count: u64, cost: u64 },
    /// The first condition that fails, 1 to 8, and where.
    Refused { condition: u32, split: Option<u16>, worker: Option<u16> },
}

/// Why a call has no answer, in the order in which it is tested.
#[derive(Clone, Copy, Debug, PartialEq, Eq)]
pub enum Fault {
    Racks,
    Workers,
    Splits,
    Barred,
    Holders,
    Length,
    Starts,
    Network,
    Memory,
}

impl Display for Fault {
    fn fmt(&self, f: &mut Formatter<'_>) -> fmt::Result {
        f.write_str(match self {
            Fault::Racks => "there are too many data centres or racks, or a rack is in no data centre",
            Fault::Workers => "there are too many workers, or one is in no rack",
            Fault::Splits => {
                "there are too many splits, or one has too many bytes or holders, or a holder past the last"
            }
            Fault::Barred => "a barred pair is of no split or of no worker",
            Fault::Holders => "a holder is no worker, or stands twice at one split",
            Fault::Length => "there is not one start and price for each split and one price for each worker",
            Fault::Starts => "a split starts on no worker",
            Fault::Network => {
                "there is no such network, or more than 1,024 splits or 256 workers for the direct one"
            }
            Fault::Memory => "there is no memory",
        })
    }
}

impl Error for Fault {}

// No worker, no split.
const NONE: u16 = 65535;

/// As C lends an array.
#[repr(C)]
struct Array<T> {
    first: *const T,
    length: usize,
}

impl<T> Array<T> {
    fn of(slice: &[T]) -> Array<T> {
        Array { first: slice.as_ptr(), length: slice.len() }
    }
}

#[repr(C)]
struct Rows {
    centres: usize,
    centre_of: Array<u16>,
    workers: Array<Worker>,
    splits: Array<Split>,
    holders: Array<u16>,
    barred: Array<Pair>,
}

#[repr(C)]
#[derive(Default)]
struct Total {
    count: u64,
    cost: u64,
}

#[repr(C)]
#[derive(Default)]
struct VerdictRow {
    total: Total,
    condition: u32,
    split: u16,
    worker: u16,
}

const _: () = assert!(size_of::<Worker>() == 4 && size_of::<Split>() == 16 && size_of::<Pair>() == 4);
const _: () = assert!(size_of::<Rows>() == 88 && size_of::<Total>() == 16 && size_of::<VerdictRow>() == 24);

extern "C" {
    fn mrjob_plan(
        wave: *const Rows,
        network: u32,
        starts: *mut u16,
        starts_len: usize,
        split_prices: *mut u64,
        split_prices_len: usize,
        worker_prices: *mut u64,
        worker_prices_len: usize,
        total: *mut Total,
    ) -> u32;
    fn mrjob_check(
        wave: *const Rows,
        starts: *const u16,
        starts_len: usize,
        split_prices: *const u64,
        split_prices_len: usize,
        worker_prices: *const u64,
        worker_prices_len: usize,
        verdict: *mut VerdictRow,
    ) -> u32;
}

fn fault_of(status: u32) -> Fault {
    match status {
        2 => Fault::Racks,
        3 => Fault::Workers,
        4 => Fault::Splits,
        5 => Fault::Barred,
        6 => Fault::Holders,
        7 => Fault::Length,
        8 => Fault::Starts,
        9 => Fault::Network,
        _ => Fault::Memory,
    }
}

fn place_of(number: u16) -> Option<u16> {
    (number != NONE).then_some(number)
}

impl Wave<'_> {
    fn rows(&self) -> Rows {
        Rows {
            centres: self.centres,
            centre_of: Array::of(self.centre_of),
            workers: Array::of(self.workers),
            splits: Array::of(self.splits),
            holders: Array::of(self.holders),
            barred: Array::of(self.barred),
        }
    }

    /// A best plan with its prices.
    pub fn plan(&self, network: Network) -> Result<Plan, Fault> {
        let mut starts = vec![NONE; self.splits.len()];
        let mut split_prices = vec![0; self.splits.len()];
        let mut worker_prices = vec![0; self.workers.len()];
        let mut total = Total::default();
        // SAFETY: each pointer with its length is a slice's, which is never null; those that are written are
        // of this function's own vectors and total, and all others are lent until the call returns.
        let status = unsafe {
            mrjob_plan(
                &self.rows(),
                network as u32,
                starts.as_mut_ptr(),
                starts.len(),
                split_prices.as_mut_ptr(),
                split_prices.len(),
                worker_prices.as_mut_ptr(),
                worker_prices.len(),
                &mut total,
            )
        };
        if status != 0 {
            return Err(fault_of(status));
        }
        Ok(Plan {
            starts: starts.into_iter().map(place_of).collect(),
            split_prices,
            worker_prices,
            count: total.count,
            cost: total.cost,
        })
    }

    /// What the prices say of the starts.
    pub fn check(
        &self,
        starts: &[Option<u16>],
        split_prices: &[u64],
        worker_prices: &[u64],
    ) -> Result<Verdict, Fault> {
        let starts: Vec<u16> =
            starts.iter().map(|it| it.map_or(NONE, |worker| worker.min(NONE - 1))).collect();
        let mut row = VerdictRow::default();
        // SAFETY: as in `plan`; the verdict alone is written, and it is this function's own.
        let status = unsafe {
            mrjob_check(
                &self.rows(),
                starts.as_ptr(),
                starts.len(),
                split_prices.as_ptr(),
                split_prices.len(),
                worker_prices.as_ptr(),
                worker_prices.len(),
                &mut row,
            )
        };
        match status {
            0 => Ok(Verdict::Certified { count: row.total.count, cost: row.total.cost }),
            1 => Ok(Verdict::Refused {
                condition: row.condition,
                split: place_of(row.split),
                worker: place_of(row.worker),
            }),
            _ => Err(fault_of(status)),
        }
    }
}
