//! The bill in every way it is shown: exact for small bills, and what must hold
//! for large ones.

mod large;
mod sample;
mod small;
#[path = "../command/xml.rs"]
mod xml;
