//! One count: what the measured functions run while something is done.

use crate::c::mark;

/// Done under callgrind. The name and the number of bytes, keys or cells that
/// the count is divided by go to who started it.
pub fn counted(name: &str, units: usize, work: impl FnOnce()) {
    mark::from_here();
    work();
    mark::to_here();
    println!("{name}\t{units}");
}
