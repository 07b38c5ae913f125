//! A second simulator of the X4323 and X4325 and their larger sisters X4283 and
//! X4285, written from the rules page, the requests and the parts' sheets alone,
//! to be compared with another one. Beside it readers of images and of value
//! change dumps.

pub mod chip;
pub mod disagree;
pub mod dump;
pub mod dump_faults;
pub mod dump_text;
pub mod dump_wires;
pub mod form;
pub mod image;
pub mod parts;
pub mod put;
pub mod register;
pub mod wire;
