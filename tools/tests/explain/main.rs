//! The program `explain`, run and held to stored outputs, to `trace`, and to the plain machine of the twin.

mod answers;
mod bad_inputs;
mod hostile;
mod logs;
mod notes;
mod options;
mod plain;
mod reasons;
mod run;
mod stored;
