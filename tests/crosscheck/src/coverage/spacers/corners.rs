//! The corners of a take beside spacers (K4): what is passed over and what of it is
//! reported, and items by which a value and a stamp taken for one another would be
//! seen.

use crate::take::Take;
use second::worst_distance;

pub struct Corner {
    pub name: &'static str,
    pub is_so: fn(&Take) -> bool,
    /// The shares of spacers that lead to it.
    pub shares: &'static [u32],
    /// Whether runs from make come to it, and images.
    pub from_make: bool,
    pub in_images: bool,
}

const ALL: &[u32] = &[0, 10, 50, 100];
const WITH_SPACERS: &[u32] = &[10, 50, 100];
const WITH_OTHERS: &[u32] = &[0, 10, 50];
const WITH_BOTH: &[u32] = &[10, 50];

const fn corner(name: &'static str, shares: &'static [u32], is_so: fn(&Take) -> bool) -> Corner {
    Corner {
        name,
        is_so,
        shares,
        from_make: true,
        in_images: true,
    }
}

/// Images have no bound.
const fn of_runs(name: &'static str, shares: &'static [u32], is_so: fn(&Take) -> bool) -> Corner {
    Corner {
        in_images: false,
        ..corner(name, shares, is_so)
    }
}

/// From make no item has stamp 0 or 2^32 - 1, and few have the taken stamp as value.
const fn of_images(name: &'static str, shares: &'static [u32], is_so: fn(&Take) -> bool) -> Corner {
    Corner {
        from_make: false,
        ..corner(name, shares, is_so)
    }
}

/// The foremost stamp is 0 in a queue and 2^32 - 1 in a stack, the hindmost one the
/// other way round.
pub const CORNERS: [Corner; 21] = [
    corner("others alone passed over", WITH_OTHERS, others_alone),
    corner("spacers alone passed over", WITH_SPACERS, spacers_alone),
    corner("spacers and others passed over", WITH_BOTH, both),
    corner(
        "a spacer taken, others alone passed over",
        WITH_BOTH,
        |take| take.takes_spacer() && others_alone(take),
    ),
    corner(
        "a spacer taken, spacers alone passed over",
        WITH_SPACERS,
        |take| take.takes_spacer() && spacers_alone(take),
    ),
    corner(
        "a spacer taken, spacers and others passed over",
        WITH_BOTH,
        |take| take.takes_spacer() && both(take),
    ),
    corner(
        "no spacer taken, spacers alone passed over",
        WITH_BOTH,
        |take| !take.takes_spacer() && spacers_alone(take),
    ),
    of_runs("the worst distance, all reported", WITH_OTHERS, |take| {
        is_at_worst(take) && take.reported == take.passed_over
    }),
    of_runs(
        "the worst distance, nothing reported",
        WITH_SPACERS,
        |take| is_at_worst(take) && take.reported == 0,
    ),
    corner(
        "beside the held cells one would count",
        WITH_OTHERS,
        |take| {
            let mut subs = take.subs.iter();
            subs.any(|sub| sub.beside_held().any(|cell| sub.counts(cell)))
        },
    ),
    corner(
        "beside the held cells a spacer is ahead",
        WITH_SPACERS,
        |take| {
            let mut subs = take.subs.iter();
            subs.any(|sub| {
                let mut beside = sub.beside_held();
                beside.any(|cell| sub.is_ahead(cell) && sub.is_spacer(cell) && sub.stamp(cell) != 0)
            })
        },
    ),
    corner(
        "counted, by its value it would not be",
        WITH_OTHERS,
        |take| take.some_held(|sub, cell| sub.counts(cell) && !sub.is_ahead_by_value(cell)),
    ),
    corner("behind, by its value it would count", WITH_OTHERS, |take| {
        take.some_held(|sub, cell| {
            !sub.is_ahead(cell) && !sub.is_spacer(cell) && sub.is_ahead_by_value(cell)
        })
    }),
    corner("a spacer behind", WITH_SPACERS, |take| {
        take.some_held(|sub, cell| {
            !sub.is_ahead(cell) && sub.is_spacer(cell) && sub.stamp(cell) != take.stamp
        })
    }),
    of_images("the foremost stamp counts", WITH_OTHERS, |take| {
        let foremost = take.foremost_stamp();
        take.some_held(|sub, cell| sub.counts(cell) && sub.stamp(cell) == foremost)
    }),
    of_images(
        "a spacer of the foremost stamp passed over",
        WITH_SPACERS,
        |take| {
            let foremost = take.foremost_stamp();
            take.some_held(|sub, cell| {
                sub.is_ahead(cell) && sub.is_spacer(cell) && sub.stamp(cell) == foremost
            })
        },
    ),
    of_images("the hindmost stamp held, no spacer", WITH_OTHERS, |take| {
        let hindmost = take.hindmost_stamp();
        take.some_held(|sub, cell| !sub.is_spacer(cell) && sub.stamp(cell) == hindmost)
    }),
    of_images(
        "a spacer of the hindmost stamp held",
        WITH_SPACERS,
        |take| {
            let hindmost = take.hindmost_stamp();
            take.some_held(|sub, cell| sub.is_spacer(cell) && sub.stamp(cell) == hindmost)
        },
    ),
    of_images("the foremost stamp taken beside others", ALL, |take| {
        let foremost = take.foremost_stamp();
        take.stamp == foremost && take.some_held(|sub, cell| sub.stamp(cell) != foremost)
    }),
    of_images("the hindmost stamp taken, items passed over", ALL, |take| {
        take.stamp == take.hindmost_stamp() && take.passed_over > 0
    }),
    of_images(
        "counted with the taken stamp as its value",
        WITH_OTHERS,
        |take| take.some_held(|sub, cell| sub.counts(cell) && sub.value(cell) == take.stamp),
    ),
];

fn others_alone(take: &Take) -> bool {
    take.passed_over > 0 && !take.passes_spacers()
}

fn spacers_alone(take: &Take) -> bool {
    take.passed_over > 0 && take.reported == 0
}

fn both(take: &Take) -> bool {
    take.passes_spacers() && take.reported > 0
}

/// In a pool of one sub nothing is passed over.
fn is_at_worst(take: &Take) -> bool {
    take.passed_over > 0 && take.passed_over == worst_distance(&take.settings)
}
