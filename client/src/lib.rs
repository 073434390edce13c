//! The drive engine, from Rust. An [`Engine`] holds one drive and has a method for each call of
//! document 01; a [`List`] makes many calls in one request. docs/PROTOCOL.md has the bytes.
//!
//! With the feature `linked` the proved library `libarchive.a` is linked in, and `Engine::start`
//! runs an engine in a thread. Without it, [`Engine::spawn`] runs a program that speaks the
//! protocol: `crates/engine/out/engine`, which is proved, or `reference serve`, the second implementation.
//!
//! ```
//! use cuminhamper::{Engine, List, Seen};
//!
//! # let program = std::env::var("REFERENCE")
//! #     .unwrap_or("../reference/target/release/reference".into());
//! let mut engine = Engine::spawn(program, ["serve"])?;
//! assert_eq!(engine.string(b"00WN,100,11,05,+300,x1,000\r")?, b"00Y\r");
//! assert_eq!(engine.string(b"00PS,100\r")?, b"00Y\r");
//!
//! // A host's millisecond in one request: the drive takes cell 100, and makes its first steps.
//! let mut list = List::new();
//! list.millisecond()?.travel(96)?.order()?;
//! let seen = engine.perform(&list)?;
//! assert_eq!(seen[1], Seen::Travel(96));
//! let Seen::Order(shown) = seen[2] else { panic!("the third word is an order") };
//! assert_eq!(shown.order.run().map(|run| (run.hertz, run.rest)), Some((500, 204)));
//!
//! assert_eq!(engine.string(b"00EE\r")?, b"00Y\r");
//! assert_eq!(engine.string(b"00QR\r")?, b"00QR,100,+204,0\r");
//! # Ok::<(), cuminhamper::Error>(())
//! ```

mod channel;
mod engine;
mod error;
#[cfg(feature = "linked")]
mod linked;
mod list;
mod refusal;
mod seen;
mod server;
mod shown;

pub use engine::{Engine, VERSION};
pub use error::Error;
pub use list::{List, ANSWER_ROOM, LIST_BYTES, SEEN_BYTES};
pub use refusal::Refusal;
pub use seen::{Answer, End, Seen, Waited};
pub use shown::{Motion, Order, Outputs, Run, Shown};
