//! The corners of a size call (K8).

use super::super::fitness;
use second::phase::IDLE;
use second::{layout, Edition, Settings, Size};
use second::{MOVING, NO_SUCH_SIZE, NO_WORKER, QUEUE, STACK, STEP_LIMIT, TOO_SHORT, UNFIT};

/// What it got, and its answer's number.
pub struct Given<'a> {
    pub size: Size,
    pub number: u32,
    pub words: &'a [u32],
}

impl Given<'_> {
    fn settings(&self) -> Settings {
        Settings::of_words(self.words)
    }

    fn half(&self) -> u32 {
        self.settings().rows / 2
    }

    fn is_set(&self) -> bool {
        self.number == MOVING
    }

    fn size_word(&self, which: usize) -> u32 {
        self.words[self.settings().sizes_at_in(Edition::CURRENT) + which]
    }

    /// Of a fit pool.
    fn some_worker_is_busy(&self) -> bool {
        let settings = self.settings();
        let workers = &self.words[settings.workers_at()..settings.cells_at()];
        let mut workers = workers.chunks(layout::WORKER_WORDS);
        workers.any(|worker| worker[layout::PHASE] != IDLE)
    }

    /// 32 for this alone: with these numbers in their place it is within limits.
    fn is_refused_but_for(&self, size: Size) -> bool {
        self.number == NO_SUCH_SIZE
            && self.settings().kind == QUEUE
            && size.within_limits(&self.settings())
    }

    fn is_refused_for_width(&self) -> bool {
        let width = self.settings().width;
        self.is_refused_but_for(Size { width, ..self.size })
    }

    fn is_refused_for_depth(&self) -> bool {
        self.is_refused_but_for(Size {
            depth: 1,
            ..self.size
        })
    }
}

pub struct Corner {
    pub name: &'static str,
    pub is_so: fn(&Given) -> bool,
    pub from_make: bool,
}

const fn corner(name: &'static str, is_so: fn(&Given) -> bool) -> Corner {
    Corner {
        name,
        is_so,
        from_make: true,
    }
}

const fn of_images(name: &'static str, is_so: fn(&Given) -> bool) -> Corner {
    Corner {
        from_make: false,
        ..corner(name, is_so)
    }
}

pub const CALLS: [Corner; 25] = [
    corner("width 1 of more", |given| {
        given.is_set() && given.size.width == 1 && given.settings().width > 1
    }),
    corner("width w", |given| {
        given.is_set() && given.size.width == given.settings().width
    }),
    corner("depth 1", |given| given.is_set() && given.size.depth == 1),
    corner("depth 64", |given| given.is_set() && given.size.depth == 64),
    corner("half of R", |given| {
        given.is_set() && given.size.depth == given.half() && given.half() < 64
    }),
    corner("half of an odd R", |given| {
        given.is_set() && given.size.depth == given.half() && given.settings().rows % 2 == 1
    }),
    corner("deeper than the pool's", |given| {
        given.is_set() && given.size.depth > given.settings().depth
    }),
    corner("the same size again", |given| {
        given.is_set()
            && given.size.width == given.size_word(layout::NEXT_WIDTH)
            && given.size.depth == given.size_word(layout::NEXT_DEPTH)
    }),
    corner("the first size", |given| {
        given.is_set() && given.size_word(layout::SIZE_SET) == 0
    }),
    corner("a size after others", |given| {
        given.is_set() && given.size_word(layout::SIZE_SET) == 1
    }),
    corner("with 16 live windows", |given| {
        given.is_set() && given.size_word(layout::LIVE) == 16
    }),
    corner("beside a busy worker", |given| {
        given.is_set() && given.some_worker_is_busy()
    }),
    of_images("at the step limit", |given| {
        given.is_set() && given.words[layout::STEPS_COUNTED] >= STEP_LIMIT
    }),
    corner("32 for width 0", |given| {
        given.is_refused_for_width() && given.size.width == 0
    }),
    corner("32 for width w + 1", |given| {
        given.is_refused_for_width() && given.size.width == given.settings().width + 1
    }),
    corner("32 for a far greater width", |given| {
        given.is_refused_for_width() && given.size.width > 1 << 30
    }),
    corner("32 for depth 0", |given| {
        given.is_refused_for_depth() && given.size.depth == 0
    }),
    corner("32 for depth 65 of many rows", |given| {
        given.is_refused_for_depth() && given.size.depth == 65 && given.half() >= 65
    }),
    corner("32 for one above half of R", |given| {
        given.is_refused_for_depth() && given.size.depth == given.half() + 1 && given.half() < 64
    }),
    corner("32 for a far greater depth", |given| {
        given.is_refused_for_depth() && given.size.depth > 1 << 30
    }),
    corner("32 for a stack", |given| {
        given.number == NO_SUCH_SIZE
            && given.settings().kind == STACK
            && given.size.within_limits(&given.settings())
    }),
    of_images("23 before 32", |given| {
        given.number == UNFIT && !given.size.within_limits(&given.settings())
    }),
    of_images("21 before 32", |given| {
        given.number == TOO_SHORT && !given.size.within_limits(&given.settings())
    }),
    of_images("23 for a stack before 32", |given| {
        given.number == UNFIT && given.settings().kind == STACK
    }),
    of_images("32 for a queue that is fit", |given| {
        given.number == NO_SUCH_SIZE && fitness(given.words) == NO_WORKER
    }),
];
