//! What quant.rs needs of vitni-tensor's `error`: the one case that it makes.

#[derive(Debug, Clone, Copy, PartialEq, Eq)]
pub enum Error {
    Internal(&'static str),
}

pub type Result<T> = core::result::Result<T, Error>;
