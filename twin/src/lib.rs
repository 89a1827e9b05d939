//! A second implementation of paper 01 with requests F-1 to F-14, written from the papers alone: a store over lent
//! buffers, the plain machine of demand 3, a generator of calls, and the means to run the two side by side.

pub mod best;
pub mod block;
pub mod call;
pub mod calllog;
pub mod digest;
pub mod dispatch;
pub mod forge;
pub mod generator;
pub mod logs;
pub mod marks;
pub mod pair;
pub mod plain;
pub mod recorder;
pub mod replay;
pub mod request;
pub mod scripts;
pub mod split;
pub mod state;
pub mod store;
pub mod tally;
pub mod trace;
pub mod traces;
pub mod vectors;

#[cfg(test)]
mod corners;
#[cfg(test)]
mod logged;
#[cfg(test)]
mod situations;
