//! What a device tells: replies, settlements and items of the trace, as enums.

use crate::raw;
use std::fmt;

/// Why a call was not made. The device is then as it was before.
#[derive(Clone, Copy, Debug, PartialEq, Eq)]
pub enum Error {
    /// No memory on the host. The call may be made again.
    NoMemory,
    /// A number that was never given, or was let go by a drop.
    NoObject,
    /// A value out of its range.
    BadValue,
    /// Of an open: the place of the first limit that no adapter supports as its best.
    BadBest(u64),
    /// Of an open: the place of the first limit that one cannot ask of the adapter.
    BadLimit(u64),
    /// No pass with this number was begun on the encoder.
    NoPass,
    /// A command came after the end of its encoder or of its pass: [`crate::Device::late`] tells the device.
    Late,
    /// A status that the interface has not, or not of this call.
    Status(u32),
}

impl fmt::Display for Error {
    fn fmt(&self, out: &mut fmt::Formatter<'_>) -> fmt::Result {
        match self {
            Error::NoMemory => out.write_str("no memory on the host"),
            Error::NoObject => out.write_str("no object has this number"),
            Error::BadValue => out.write_str("a value is out of its range"),
            Error::BadBest(place) => write!(out, "no adapter supports the limit at place {place}"),
            Error::BadLimit(place) => write!(out, "the limit at place {place} cannot be asked of the adapter"),
            Error::NoPass => out.write_str("no pass has this number"),
            Error::Late => out.write_str("the encoder or the pass has ended"),
            Error::Status(status) => write!(out, "status {status}"),
        }
    }
}

impl std::error::Error for Error {}

pub(crate) const OK: u32 = 0;
pub(crate) const BAD_VALUE: u32 = 4;
pub(crate) const END: u32 = 6;
pub(crate) const NO_ROOM: u32 = 8;

pub(crate) fn error(status: u32) -> Error {
    match status {
        1 => Error::NoMemory,
        2 => Error::NoObject,
        BAD_VALUE => Error::BadValue,
        5 => Error::NoPass,
        9 => Error::Late,
        other => Error::Status(other),
    }
}

pub(crate) fn bad_limit(it: &raw::BadLimit) -> Error {
    match it.list {
        1 => Error::BadBest(it.place),
        _ => Error::BadLimit(it.place),
    }
}

/// What a call made.
#[derive(Clone, Copy, Debug, PartialEq, Eq)]
pub enum Answer {
    Made {
        number: u64,
        is_valid: bool,
    },
    /// An operation was queued; they count from 1.
    Queued(u64),
    /// A promise, which goes by the number of the call's entry.
    Promised(u64),
    Plain,
    /// Of operations that are complete already, or were never queued.
    BadCompletion,
}

#[derive(Clone, Copy, Debug, PartialEq, Eq)]
pub enum FaultKind {
    Validation,
    OutOfMemory,
}

/// The first rule that a call broke, which [`rule_text`](crate::rule_text) has in words.
#[derive(Clone, Copy, Debug, PartialEq, Eq)]
pub struct Fault {
    pub kind: FaultKind,
    pub rule: u32,
    /// Which error scope caught it, 0 being the outermost; none did where it is an uncaptured error.
    pub scope: Option<u64>,
}

/// The reply to a call.
#[derive(Clone, Copy, Debug, PartialEq, Eq)]
pub struct Reply {
    /// The number of the call's entry in the history.
    pub entry: u64,
    pub answer: Answer,
    pub fault: Option<Fault>,
    /// How many promises it settles, which `next_settlement` tells.
    pub settles: u64,
}

impl Reply {
    /// The object that was made and is valid.
    pub fn object(&self) -> Option<u64> {
        match self.answer {
            Answer::Made { number, is_valid: true } => Some(number),
            _ => None,
        }
    }
}

fn fault_kind(number: u32) -> Option<FaultKind> {
    match number {
        1 => Some(FaultKind::Validation),
        2 => Some(FaultKind::OutOfMemory),
        _ => None,
    }
}

pub(crate) fn reply(it: &raw::Reply) -> Reply {
    let answer = match it.answer {
        1 => Answer::Made {
            number: it.number,
            is_valid: it.valid == 1,
        },
        2 => Answer::Queued(it.number),
        3 => Answer::Promised(it.number),
        5 => Answer::BadCompletion,
        _ => Answer::Plain,
    };
    let scope = if it.caught == 1 { Some(it.scope) } else { None };
    let fault = fault_kind(it.fault).map(|kind| Fault {
        kind,
        rule: it.rule,
        scope,
    });
    Reply {
        entry: it.entry,
        answer,
        fault,
        settles: it.settles,
    }
}

/// What was not told of a device that was closed.
#[derive(Clone, Copy, Debug, PartialEq, Eq)]
pub struct Left {
    pub items: u64,
    pub settlements: u64,
}

pub(crate) fn left(it: &raw::Left) -> Left {
    Left {
        items: it.items,
        settlements: it.settlements,
    }
}

/// How a promise was settled.
#[derive(Clone, Copy, Debug, PartialEq, Eq)]
pub enum How {
    Mapped,
    Done,
    Aborted,
    Rejected,
    /// Of an error scope that received nothing.
    Null,
    /// Of an error scope, with what it received first.
    Error {
        kind: FaultKind,
        rule: u32,
    },
}

#[derive(Clone, Copy, Debug, PartialEq, Eq)]
pub struct Settlement {
    pub promise: u64,
    pub how: How,
}

pub(crate) fn settlement(it: &raw::Settlement) -> Settlement {
    let how = match (it.how, fault_kind(it.fault)) {
        (1, _) => How::Mapped,
        (2, _) => How::Done,
        (3, _) => How::Aborted,
        (5, _) => How::Null,
        (6, Some(kind)) => How::Error { kind, rule: it.rule },
        _ => How::Rejected,
    };
    Settlement {
        promise: it.promise,
        how,
    }
}

#[derive(Clone, Copy, Debug, PartialEq, Eq)]
pub enum Aspect {
    Color,
    Depth,
    Stencil,
}

/// A part of memory, as barriers and uses name it.
#[derive(Clone, Copy, Debug, PartialEq, Eq)]
pub enum Part {
    Buffer(u64),
    QuerySet(u64),
    /// Layers, from `lo` to below `hi`, of one aspect and mip level.
    Layers {
        texture: u64,
        aspect: Aspect,
        mip: u32,
        lo: u64,
        hi: u64,
    },
}

/// Cells, as accesses name them, each from `lo` to below `hi`.
#[derive(Clone, Copy, Debug, PartialEq, Eq)]
pub enum Cells {
    Bytes {
        buffer: u64,
        lo: u64,
        hi: u64,
    },
    Queries {
        set: u64,
        lo: u64,
        hi: u64,
    },
    Layers {
        texture: u64,
        aspect: Aspect,
        mip: u32,
        lo: u64,
        hi: u64,
    },
    /// Depth slices of a mip level of a 3D texture.
    Slices {
        texture: u64,
        mip: u32,
        lo: u64,
        hi: u64,
    },
}

fn aspect(number: u32) -> Aspect {
    match number {
        2 => Aspect::Depth,
        3 => Aspect::Stencil,
        _ => Aspect::Color,
    }
}

fn part(it: &raw::Range) -> Part {
    match it.sort {
        1 => Part::Buffer(it.object),
        2 => Part::QuerySet(it.object),
        _ => Part::Layers {
            texture: it.object,
            aspect: aspect(it.aspect),
            mip: it.mip,
            lo: it.lo,
            hi: it.hi,
        },
    }
}

fn cells(it: &raw::Range) -> Cells {
    match it.sort {
        1 => Cells::Bytes {
            buffer: it.object,
            lo: it.lo,
            hi: it.hi,
        },
        2 => Cells::Queries {
            set: it.object,
            lo: it.lo,
            hi: it.hi,
        },
        3 => Cells::Layers {
            texture: it.object,
            aspect: aspect(it.aspect),
            mip: it.mip,
            lo: it.lo,
            hi: it.hi,
        },
        _ => Cells::Slices {
            texture: it.object,
            mip: it.mip,
            lo: it.lo,
            hi: it.hi,
        },
    }
}

#[derive(Clone, Copy, Debug, PartialEq, Eq)]
pub enum StepName {
    Clear,
    WriteBuffer,
    WriteTexture,
    CopyBufferToBuffer,
    CopyBufferToTexture,
    CopyTextureToBuffer,
    CopyTextureToTexture,
    ClearBuffer,
    ResolveQuerySet,
    Dispatch,
    RenderPass,
    HostRead,
    HostWrite,
}

const STEPS: [StepName; 13] = [
    StepName::Clear,
    StepName::WriteBuffer,
    StepName::WriteTexture,
    StepName::CopyBufferToBuffer,
    StepName::CopyBufferToTexture,
    StepName::CopyTextureToBuffer,
    StepName::CopyTextureToTexture,
    StepName::ClearBuffer,
    StepName::ResolveQuerySet,
    StepName::Dispatch,
    StepName::RenderPass,
    StepName::HostRead,
    StepName::HostWrite,
];

/// Where a step happens.
#[derive(Clone, Copy, Debug, PartialEq, Eq)]
pub enum Place {
    Operation(u64),
    /// On the host, at the entry of this number.
    Host(u64),
}

/// A set of usages, by the bits `USAGE_..`, of a part.
#[derive(Clone, Copy, Debug, PartialEq, Eq)]
pub struct Use {
    pub part: Part,
    pub usages: u32,
}

#[derive(Clone, Copy, Debug, PartialEq, Eq)]
pub enum Access {
    Read(Cells),
    Write(Cells),
    /// Reads and then writes.
    ReadWrite(Cells),
    /// Leaves the cells unset, and reads nothing.
    Discard(Cells),
    /// Reads and then leaves the cells unset.
    ReadDiscard(Cells),
}

/// An item of the trace. A driver does them in the order in which they are told.
#[derive(Clone, Debug, PartialEq, Eq)]
pub enum Item {
    /// From a set of usages, or from none where no step used the part before, to another.
    Barrier { part: Part, from: Option<u32>, to: u32 },
    Step {
        name: StepName,
        place: Place,
        uses: Vec<Use>,
        accesses: Vec<Access>,
    },
    /// The memory of a buffer, a texture or a query set may be given back.
    Release(u64),
}

pub(crate) fn told_use(it: &raw::Use) -> Use {
    Use {
        part: part(&it.part),
        usages: it.usages,
    }
}

pub(crate) fn told_access(it: &raw::Access) -> Access {
    let cells = cells(&it.cells);
    match it.kind {
        1 => Access::Read(cells),
        2 => Access::Write(cells),
        3 => Access::ReadWrite(cells),
        4 => Access::Discard(cells),
        _ => Access::ReadDiscard(cells),
    }
}

/// An item, with what a step uses and accesses.
pub(crate) fn item(it: &raw::Item, uses: Vec<Use>, accesses: Vec<Access>) -> Item {
    match it.what {
        1 => Item::Barrier {
            part: part(&it.part),
            from: if it.fresh == 1 { None } else { Some(it.from) },
            to: it.to,
        },
        2 => {
            let name = STEPS[(it.name as usize).wrapping_sub(1).min(STEPS.len() - 1)];
            let place = if it.host == 1 {
                Place::Host(it.place)
            } else {
                Place::Operation(it.place)
            };
            Item::Step {
                name,
                place,
                uses,
                accesses,
            }
        }
        _ => Item::Release(it.part.object),
    }
}
