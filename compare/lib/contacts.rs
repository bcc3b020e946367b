//! The arguments of the contacts in renders of the logged Rust.

use std::cell::RefCell;

thread_local!(static LOG: RefCell<Vec<[f64; 5]>> = const { RefCell::new(Vec::new()) });

/// `p` is the felt's word, as a float.
pub fn log(stiffness: f64, p: f64, eps_r: f64, c0: f64, c1: f64) {
    LOG.with(|log| log.borrow_mut().push([stiffness, p, eps_r, c0, c1]));
}

/// Those since the last call.
pub fn taken() -> Vec<[f64; 5]> {
    LOG.with(RefCell::take)
}
