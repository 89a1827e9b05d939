//! `timeline`: a trace, or a log of calls, as one HTML page. The accounts of a replay are gathered (`gather`, with calls in
//! `words`) into a `model`, which gets its places (`layout`) and is written as HTML (`html`, its upper part in `head`).
//! `hash` names its style and its script in the page's policy; `options`, `output` and `run` make the program.

mod gather;
mod hash;
mod head;
mod html;
mod layout;
mod model;
mod options;
mod output;
mod run;
mod words;

pub use run::run;
