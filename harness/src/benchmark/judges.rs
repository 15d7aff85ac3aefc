//! Who judges, by which route, files of which layout.

use std::hint::black_box;

use harness::baseline::{by_levels, one_sided, whole};
use harness::{ffi, Answer};

/// Who judges.
#[derive(Clone, Copy, Debug, PartialEq)]
pub enum Judge {
    Engine,
    /// Rust with a whole query at each leaf.
    Whole,
    /// Rust with the engine's own algorithm.
    Levels,
    /// The engine of an earlier commit. It may read old files alone.
    #[cfg(earlier_engine)]
    Earlier,
}

pub const JUDGES: &[Judge] = &[
    Judge::Engine,
    Judge::Whole,
    Judge::Levels,
    #[cfg(earlier_engine)]
    Judge::Earlier,
];

/// Those who judge files of this layout.
pub fn judges_of(layout: Layout) -> &'static [Judge] {
    match layout {
        Layout::Old => JUDGES,
        Layout::New => &[Judge::Engine, Judge::Whole, Judge::Levels],
    }
}

impl Judge {
    pub fn name(self) -> &'static str {
        match self {
            Judge::Engine => "engine",
            Judge::Whole => "whole",
            Judge::Levels => "levels",
            #[cfg(earlier_engine)]
            Judge::Earlier => "earlier",
        }
    }

    pub fn plain(self, file: &[u8], a: u64, b: u64, ceiling: u64) -> Answer {
        match self {
            Judge::Engine => ffi::plain(file, a, b, ceiling),
            Judge::Whole => whole::plain(file, a, b, ceiling),
            Judge::Levels => by_levels::plain(file, a, b, ceiling),
            #[cfg(earlier_engine)]
            Judge::Earlier => ffi::earlier::plain(file, a, b, ceiling),
        }
    }

    /// Under a ceiling that no forecast is over.
    pub fn built(self, file: &[u8], a: u64, b: u64) -> Answer {
        let ceiling = black_box(u64::MAX);
        match self {
            Judge::Engine => ffi::built(file, a, b, ceiling),
            Judge::Whole => whole::built(file, a, b, ceiling),
            Judge::Levels => by_levels::built(file, a, b, ceiling),
            #[cfg(all(earlier_engine, not(earlier_without_ceiling)))]
            Judge::Earlier => ffi::earlier::built(file, a, b, ceiling),
            #[cfg(earlier_without_ceiling)]
            Judge::Earlier => ffi::earlier::built(file, a, b),
        }
    }

    pub fn lent(self, file: &[u8], a: u64, b: u64, u: &[u8], v: &[u8]) -> Answer {
        match self {
            Judge::Engine => ffi::lent(file, a, b, u, v),
            Judge::Whole => whole::lent(file, a, b, u, v),
            Judge::Levels => by_levels::lent(file, a, b, u, v),
            #[cfg(earlier_engine)]
            Judge::Earlier => ffi::earlier::lent(file, a, b, u, v),
        }
    }

    /// An earlier engine, which may not have the route, is today's engine here.
    pub fn one_sided(self, file: &[u8], v: &[u8], words: &mut [u64]) -> Answer {
        match self {
            Judge::Whole => whole::one_sided(file, v, words),
            Judge::Levels => one_sided::one_sided(file, v, words),
            _ => ffi::one_sided(file, v, words),
        }
    }
}

#[derive(Clone, Copy, Debug, PartialEq)]
pub enum Route {
    Built,
    Lent,
    Plain,
    OneSided,
}

impl Route {
    pub fn name(self) -> &'static str {
        match self {
            Route::Built => "built",
            Route::Lent => "lent",
            Route::Plain => "plain",
            Route::OneSided => "one-sided",
        }
    }
}

/// Of a file.
#[derive(Clone, Copy, PartialEq)]
pub enum Layout {
    /// Without thresholds, and so without votes.
    Old,
    New,
}
