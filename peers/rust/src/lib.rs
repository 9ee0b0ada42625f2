//! What the Rust programs share. Each runs drawn sessions of reservations (`drive`) or transactions on words (`words::run`), checks
//! what is left, and prints one line. How sessions are kept apart is each program's own: it gives a `Peer`, or `words::Words`.

mod actions;
mod options;
mod run;
mod sessions;
mod tables;
pub mod tl2;
pub mod words;

pub use actions::{act, Store};
pub use options::{die, Args, Options};
pub use run::{attempts, drive, in_threads, share, Counts, Logged, Peer, Transaction};
pub use sessions::{Action, Booking, Generator, Item, Sessions, What};
pub use tables::{Final, Fx, Plain};
