//! K4: "Models now put value 0 as a spacer between feed tanks, and planners
//! don't want those counted as waiting."

/// A spacer's value. A spacer is put, held and taken like any other item.
pub const SPACER: u32 = 0;
