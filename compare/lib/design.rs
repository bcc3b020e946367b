//! What the Rust renderer reads of a string's design, with φ in place of the filter delay.

#[derive(Clone, Default)]
pub struct LoopDesign {
    pub n_total: usize,
    pub ap_count: usize,
    pub phi: f64,
    pub thiran_a: f64,
    pub ap_a: f64,
    pub loss_g: f64,
    pub loss_c: f64,
}
