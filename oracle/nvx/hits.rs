//! Counts how often each side of each branch is taken. As the program ends, the counts go to the
//! file that the variable HITS names: a branch a line, its number, then how often it held or gave
//! a value, and how often not.

use std::io::Write;
use std::sync::Once;
use std::sync::atomic::{AtomicU64, Ordering::Relaxed};

const BRANCHES: usize = 512;
static TAKEN: [[AtomicU64; 2]; BRANCHES] = [const { [const { AtomicU64::new(0) }; 2] }; BRANCHES];

/// What has two sides.
pub trait Side {
    fn holds(&self) -> bool;
}

impl Side for bool {
    fn holds(&self) -> bool {
        *self
    }
}

impl<T> Side for Option<T> {
    fn holds(&self) -> bool {
        self.is_some()
    }
}

impl<T, E> Side for Result<T, E> {
    fn holds(&self) -> bool {
        self.is_ok()
    }
}

pub fn side<T: Side>(branch: usize, value: T) -> T {
    count(branch, value.holds());
    value
}

/// An arm of a match, which has one side.
pub fn hit(branch: usize) {
    count(branch, true);
}

fn count(branch: usize, holds: bool) {
    static AT_EXIT: Once = Once::new();
    AT_EXIT.call_once(|| {
        // SAFETY: it takes any function that neither unwinds nor returns a value.
        unsafe { atexit(report) };
    });
    TAKEN[branch][usize::from(!holds)].fetch_add(1, Relaxed);
}

unsafe extern "C" {
    fn atexit(function: extern "C" fn()) -> i32;
}

extern "C" fn report() {
    let Some(file) = std::env::var_os("HITS") else {
        return;
    };
    let mut text = Vec::new();
    for (branch, [held, not]) in TAKEN.iter().enumerate() {
        let [held, not] = [held, not].map(|count| count.load(Relaxed));
        writeln!(text, "{branch} {held} {not}").expect("a vector takes all");
    }
    std::fs::write(file, text).expect("the file of the counts can be written");
}
