//! The proved core of a WebGPU device, for callers in Rust, over its C interface (`include/wethlorn.h`, `docs/embedding.md`).
//!
//! What the C interface asks of its caller and types can keep is kept by types here: a [`Device`] is open as long as it lives and is
//! closed by its drop, one call at a time is made on it, since each takes `&mut self`, it may move to another thread and may not be
//! shared by two, no pointer is null, and no two devices have one serial. What is left is that `complete` and `drop_object` are true,
//! that a driver does each item that is drained, in order, and that each number of an object goes to the device that gave it: a number
//! says nothing of its device, and one of another device is taken for this device's own object of that number.
//!
//! ```
//! use wethlorn::{Answer, BufferDesc, BufferUsage, Device};
//!
//! # fn main() -> Result<(), wethlorn::Error> {
//! let mut device = Device::open(1024, &[], &[])?;
//! let buffer = device.create_buffer(&BufferDesc { size: 16, usage: BufferUsage::COPY_DST, mapped: 0 })?;
//! assert_eq!(buffer.answer, Answer::Made { number: 0, is_valid: true });
//! # Ok(())
//! # }
//! ```
//!
//! Threads share a device by a `RwLock` around it: a recording call takes `&Device`, so that many may record at once, each on an encoder of its
//! own, and all other calls take `&mut Device`. Held for writing the lock spans a call, the drain of what comes of it and the doing of its items:
//! the barriers hold of the order in which the items are told.
//!
//! ```
//! fn shared<T: Sync>() {}
//! shared::<wethlorn::Device>();
//! ```
//!
//! ```compile_fail
//! fn shared<T: Sync>() {}
//! shared::<wethlorn::Encoder>();
//! ```

mod defaults;
mod device;
mod raw;
mod rules;
mod told;
mod values;

pub use device::{version, Device, Encoder};
pub use rules::{rule_section, rule_text};
pub use told::{
    Access, Answer, Aspect, Cells, Error, Fault, FaultKind, How, Item, Left, Part, Place, Reply, Settlement, StepName, Use,
};
pub use values::*;
