//! The faults: small edits of the second implementation's text.

pub struct Fault {
    pub name: &'static str,
    /// In second/src.
    pub file: &'static str,
    /// Must stand in the file exactly once.
    pub old: &'static str,
    pub new: &'static str,
    /// A wrong pool or figure also by the runs one at a time, without a
    /// comparison: the paper's "traps in the published text", and their like;
    /// or by the count of failed commits over them.
    pub seen_alone: bool,
    /// The program that shows it, where only what is printed of run files does.
    pub shown_by: Option<&'static str>,
}

pub const LISTER: &str = "lister";
pub const SUMMARY: &str = "summary";

const fn fault(
    name: &'static str,
    file: &'static str,
    old: &'static str,
    new: &'static str,
) -> Fault {
    Fault {
        name,
        file,
        old,
        new,
        seen_alone: false,
        shown_by: None,
    }
}

const fn trap(
    name: &'static str,
    file: &'static str,
    old: &'static str,
    new: &'static str,
) -> Fault {
    Fault {
        seen_alone: true,
        ..fault(name, file, old, new)
    }
}

const fn lister_fault(
    name: &'static str,
    file: &'static str,
    old: &'static str,
    new: &'static str,
) -> Fault {
    Fault {
        shown_by: Some(LISTER),
        ..fault(name, file, old, new)
    }
}

const fn summary_fault(name: &'static str, old: &'static str, new: &'static str) -> Fault {
    Fault {
        shown_by: Some(SUMMARY),
        ..fault(name, "listing/summary.rs", old, new)
    }
}

pub const FAULTS: [Fault; 98] = [
    trap(
        "empty after one pass, without confirm",
        "stages/read.rs",
        "side == Side::Take && worker.extra != 0",
        "side == Side::Take && worker.extra > pool.settings.width",
    ),
    trap(
        "a stack put without the check phase",
        "stages/read.rs",
        "let next = if pool.is_queue() {",
        "let next = if pool.is_queue() || side == Side::Put {",
    ),
    trap(
        "a stack shift that compares G alone",
        "stages/shift.rs",
        "pool.words[layout::WINDOW_VERSION] == worker.extra",
        "pool.words[layout::WINDOW] == worker.seen_window",
    ),
    trap(
        "the framework paper's figure for a stack",
        "bounds.rs",
        "depth + 2 * shift + back_in_reach",
        "depth + 2 * shift",
    ),
    trap(
        "the worst distance, less a row of each other sub",
        "bounds.rs",
        "depth + 2 * shift + back_in_reach",
        "depth + 2 * shift + back_in_reach - 1",
    ),
    fault(
        "the worst distance, without R's limit",
        "bounds.rs",
        "thesis_figure(settings).min(in_other_subs(settings, highest_window))",
        "thesis_figure(settings)",
    ),
    fault(
        "a solo stack operation's figure, one step less",
        "solo.rs",
        "2 * w + 8",
        "2 * w + 7",
    ),
    fault(
        "a solo queue put's figure, one step more",
        "solo.rs",
        "w + 5",
        "w + 6",
    ),
    fault(
        "a dispatch that begins after the named worker",
        "dispatch.rs",
        "let mut turn = named;",
        "let mut turn = (named + 1) % settings.workers;",
    ),
    fault(
        "a count of 0 that ran out where nobody is busy",
        "dispatch.rs",
        "if busy_from(edition, words, turn).is_none() {",
        "if count > 0 && busy_from(edition, words, turn).is_none() {",
    ),
    fault(
        "a next turn that passes over idle workers",
        "dispatch.rs",
        "Dispatched::RanOut { next: turn }",
        "Dispatched::RanOut { next: busy_from(edition, words, turn).unwrap_or(turn) }",
    ),
    fault(
        "the longest stretch, one step less",
        "stretch.rs",
        "let put = w + 4;",
        "let put = w + 3;",
    ),
    fault(
        "the longest stretch, one step more",
        "stretch.rs",
        "let put = w + 4;",
        "let put = w + 5;",
    ),
    trap(
        "a stack's version stays at a take",
        "stages/commit.rs",
        "        pool.set_sub(sub, layout::ITEMS_HELD, row - 1);\n    }\n    grow_version(pool, sub);",
        "        pool.set_sub(sub, layout::ITEMS_HELD, row - 1);\n    }",
    ),
    trap(
        "a distance that leaves out the last sub",
        "stages/distance.rs",
        "(0..pool.settings.width)",
        "(0..pool.settings.width.max(2) - 1)",
    ),
    fault(
        "a distance that does not go on from the first cell",
        "stages/distance.rs",
        "(1..=rows)",
        "(1..=rows.min(pool.settings.rows - below % pool.settings.rows))",
    ),
    fault(
        "a distance that goes on from cell 1",
        "stages/distance.rs",
        "map(move |k| below + k)",
        "map(move |k| below + k).filter({\n        let rows = pool.settings.rows;\n        move |row| row - below == 1 || (row - 1) % rows != 0\n    })",
    ),
    trap(
        "a distance that leaves out the last cell",
        "stages/distance.rs",
        "map(move |k| below + k)",
        "map(move |k| below + k).filter({\n        let rows = pool.settings.rows;\n        move |row| row % rows != 0\n    })",
    ),
    trap(
        "a full sub whose lowest row counts twice",
        "stages/distance.rs",
        "(1..=rows)",
        "(1..=rows + rows / pool.settings.rows)",
    ),
    trap(
        "spacers counted in the distance",
        "stages/distance.rs",
        "is_ahead && value != SPACER",
        "is_ahead",
    ),
    trap(
        "a spacer's own take reports 0",
        "stages/commit.rs",
        "distance: distance(pool, stamp),",
        "distance: match pool.cell(sub, row, layout::CELL_VALUE) {\n            0 => 0,\n            _ => distance(pool, stamp),\n        },",
    ),
    trap(
        "a distance that compares values with the stamp",
        "stages/distance.rs",
        "let other = pool.cell(j, row, layout::CELL_STAMP);",
        "let other = pool.cell(j, row, layout::CELL_VALUE);",
    ),
    trap(
        "a distance that leaves out stamp 0 for value 0",
        "stages/distance.rs",
        "let value = pool.cell(j, row, layout::CELL_VALUE);",
        "let value = pool.cell(j, row, layout::CELL_STAMP);",
    ),
    trap(
        "a distance that leaves out value 1 too",
        "stages/distance.rs",
        "value != SPACER",
        "value > SPACER + 1",
    ),
    trap(
        "a one-at-a-time list that reports spacers",
        "one_at_a_time/sequential.rs",
        "ahead.filter(|item| item.value != SPACER).count()",
        "ahead.count()",
    ),
    trap(
        "a one-at-a-time list whose limit leaves out spacers",
        "one_at_a_time/sequential.rs",
        "self.passed_over(at) <= most_passed",
        "self.reported(at) <= most_passed",
    ),
    fault(
        "a failed commit keeps its index",
        "stages/commit.rs",
        "        hop(pool, worker);\n",
        "",
    ),
    fault(
        "a failed commit that hops by 1 whatever the stride",
        "stages/commit.rs",
        "pool.settings.stride.max(1)",
        "1",
    ),
    fault(
        "a miss that hops by the stride",
        "stages/read.rs",
        "    next_index(pool, worker);\n    if",
        "    for _ in 0..pool.settings.stride.max(1) {\n        next_index(pool, worker);\n    }\n    if",
    ),
    fault(
        "a stride of w within limits",
        "pool/settings.rs",
        "self.stride < self.width",
        "self.stride <= self.width",
    ),
    trap(
        "a begin that clears the failed commits",
        "calls.rs",
        "        ..pool.worker(number).idle()",
        "        failed_commits: 0,\n        ..pool.worker(number).idle()",
    ),
    trap(
        "a final answer that clears the failed commits",
        "calls.rs",
        "worker = worker.idle();",
        "worker = Worker {\n            failed_commits: 0,\n            ..worker.idle()\n        };",
    ),
    trap(
        "a commit that succeeds counts as failed",
        "stages/commit.rs",
        "    match side {\n        Side::Put if",
        "    count_failed(worker);\n    match side {\n        Side::Put if",
    ),
    trap(
        "a check that restarts counts as a failed commit",
        "stages/check.rs",
        "restart(worker, side);",
        "worker.failed_commits += 1;\n        restart(worker, side);",
    ),
    trap(
        "a take's failed commit that counts none",
        "stages/commit.rs",
        "        count_failed(worker);\n",
        "        if side == Side::Put {\n            count_failed(worker);\n        }\n",
    ),
    fault(
        "a commit refused with 23 counts as failed",
        "calls.rs",
        "    if answer.is_refusal() {\n",
        "    if answer.is_refusal() {\n        let mut counted = pool.worker(number);\n        counted.failed_commits = counted.failed_commits.wrapping_add(1);\n        pool.set_worker(number, counted);\n",
    ),
    fault(
        "failed commits that stay at 2^32 - 1",
        "stages/commit.rs",
        "worker.failed_commits.wrapping_add(1)",
        "worker.failed_commits.saturating_add(1)",
    ),
    fault(
        "an idle worker fit with no failed commits alone",
        "pool/fit.rs",
        "\n        && worker.index < pool.settings.width",
        "\n        && (worker.phase != phase::IDLE || worker.failed_commits == 0)\n        && worker.index < pool.settings.width",
    ),
    fault(
        "eight words for each worker enough",
        "pool/fit.rs",
        "words.len() < settings.needed_words_in(edition)",
        "words.len() + (settings.workers as usize) < settings.needed_words_in(edition)",
    ),
    fault(
        "a make that leaves the edition at 0",
        "calls.rs",
        "    words[layout::EDITION] = edition.word();\n",
        "",
    ),
    fault(
        "edition 0 fit too",
        "pool/fit.rs",
        "words[layout::EDITION] != edition.word()",
        "words[layout::EDITION] > edition.word()",
    ),
    fault(
        "every later edition fit too",
        "pool/fit.rs",
        "words[layout::EDITION] != edition.word()",
        "words[layout::EDITION] < edition.word()",
    ),
    fault(
        "the edition looked at after the needed words",
        "pool/fit.rs",
        "words[layout::EDITION] != edition.word()",
        "words.len() >= settings.needed_words_in(edition) && words[layout::EDITION] != edition.word()",
    ),
    fault(
        "a move that looks at the needed words before the edition",
        "pool/fit.rs",
        "words[layout::EDITION] != edition.word()",
        "words[layout::EDITION] != edition.word()\n        && (if_another == UNFIT || words.len() >= settings.needed_words_in(edition))",
    ),
    fault(
        "a move that looks at the edition before the settings",
        "pool/fit.rs",
        "    if !settings.within_limits_in(edition) {\n",
        "    if if_another != UNFIT && words[layout::EDITION] != edition.word() {\n        return Err(if_another);\n    }\n    if !settings.within_limits_in(edition) {\n",
    ),
    fault(
        "a move of edition 7 refused with 23",
        "pool/fit.rs",
        "return Err(if_another);",
        "return Err(if words[layout::EDITION] == 7 { UNFIT } else { if_another });",
    ),
    fault(
        "a move that looks at the target before subs and workers",
        "moves/mod.rs",
        "    let source = match fit_to_move",
        "    if from.len() >= layout::HEADER_WORDS {\n        let settings = crate::pool::settings::Settings::of_words(from);\n        let head_fits = settings.within_limits_in(old) && from[layout::EDITION] == old.word();\n        if head_fits && to.len() < settings.needed_words_in(new) {\n            return TOO_SHORT;\n        }\n    }\n    let source = match fit_to_move",
    ),
    fault(
        "a move that looks at the target before all else",
        "moves/mod.rs",
        "    let source = match fit_to_move",
        "    if from.len() >= layout::HEADER_WORDS {\n        let settings = crate::pool::settings::Settings::of_words(from);\n        if to.len() < settings.needed_words_in(new) {\n            return TOO_SHORT;\n        }\n    }\n    let source = match fit_to_move",
    ),
    fault(
        "a move back that asks for nine words for each worker",
        "moves/mod.rs",
        "needed_words_in(new)",
        "needed_words_in(Edition::One)",
    ),
    fault(
        "a move that keeps the source's edition",
        "moves/mod.rs",
        "target.edition.word()",
        "source.edition.word()",
    ),
    fault(
        "a move on that leaves the target's old ninth words",
        "moves/mod.rs",
        "target.set_worker(number, with_seen_size(source, source.worker(number)));",
        "let moved = crate::pool::Worker {\n            failed_commits: target.worker(number).failed_commits,\n            ..with_seen_size(source, source.worker(number))\n        };\n        target.set_worker(number, moved);",
    ),
    fault(
        "a move back whose cells begin with the last ninth word",
        "moves/mod.rs",
        "    target.words[cells].copy_from_slice(&source.words[source.cells()]);\n",
        "    let early = usize::from(source.edition == Edition::One);\n    let from = source.cells().start - early..source.cells().end - early;\n    target.words[cells].copy_from_slice(&source.words[from]);\n",
    ),
    fault(
        "a move that clears the words beyond the needed ones",
        "moves/mod.rs",
        "    copy_pool(&source, &mut target);\n",
        "    copy_pool(&source, &mut target);\n    let needed = target.cells().end;\n    target.words[needed..].fill(0);\n",
    ),
    fault(
        "a move that ends the operations under way",
        "moves/mod.rs",
        "with_seen_size(source, source.worker(number))",
        "source.worker(number).idle()",
    ),
    fault(
        "a failed commit in edition 0 that hops by 1",
        "stages/commit.rs",
        "pool.settings.stride.max(1)",
        "match pool.edition {\n        crate::pool::edition::Edition::Zero => 1,\n        _ => pool.settings.stride.max(1),\n    }",
    ),
    fault(
        "spacers counted in edition 0's distance",
        "stages/distance.rs",
        "is_ahead && value != SPACER",
        "is_ahead && (value != SPACER || pool.edition == crate::pool::edition::Edition::Zero)",
    ),
    fault(
        "a stack take that reads >= for >",
        "stages/read.rs",
        "held > worker.seen_window",
        "held >= worker.seen_window",
    ),
    fault(
        "a queue full one window early",
        "stages/shift.rs",
        "if reach <= pool.settings.rows",
        "if reach < pool.settings.rows",
    ),
    fault(
        "the step limit off by one",
        "calls.rs",
        "[layout::STEPS_COUNTED] >= STEP_LIMIT",
        "[layout::STEPS_COUNTED] > STEP_LIMIT",
    ),
    fault(
        "fit without the scan",
        "pool/fit.rs",
        "\n        && worker.scan < pool.settings.width",
        "",
    ),
    fault(
        "a begin that keeps the idle worker's words",
        "calls.rs",
        "..pool.worker(number).idle()",
        "..pool.worker(number)",
    ),
    fault(
        "row 0 stored in cell 0",
        "pool/view.rs",
        "row.wrapping_sub(1)",
        "row.saturating_sub(1)",
    ),
    fault(
        "a bare count that stays at 2^32 - 1",
        "stages/read.rs",
        "worker.extra.wrapping_add(1)",
        "worker.extra.saturating_add(1)",
    ),
    lister_fault(
        "a lone byte after the end passes",
        "listing/reader.rs",
        "self.fill(&mut [0])? > 0",
        "self.fill(&mut [0, 0])? > 1",
    ),
    lister_fault(
        "the framework paper's figure as the listing's bound",
        "bounds.rs",
        "2 * settings.depth + 2 * settings.shift)",
        "settings.depth + 2 * settings.shift)",
    ),
    lister_fault(
        "the stride's top bit is spare",
        "listing/decode.rs",
        "bits(word, 24, 27) != 0",
        "bits(word, 23, 27) != 0",
    ),
    lister_fault(
        "a spare bit of a step passes",
        "listing/decode.rs",
        "5 if bits(word, 0, 21) == 0",
        "5 if bits(word, 0, 20) == 0",
    ),
    summary_fault(
        "lost commits without the last worker's",
        "(0..pool.settings.workers)",
        "(0..pool.settings.workers - 1)",
    ),
    summary_fault(
        "counts that begin anew with each 65,536 bytes",
        "replay.next_call()? {",
        "replay.next_call()? {
            if replay.words_read() % 0x4000 == 0 {
                [self.put, self.taken, self.empty, self.full, self.refused] = [0; 5];
            }",
    ),
    trap(
        "a put that goes to the row above the last put one",
        "stages/commit.rs",
        "(true, Side::Put) => above(layout::ITEMS_PUT),",
        "(true, Side::Put) => u64::from(pool.sub(worker.index, layout::ITEMS_PUT)) + 1,",
    ),
    trap(
        "a take that goes to the row above the last taken one",
        "stages/commit.rs",
        "(true, Side::Take) => above(layout::ITEMS_TAKEN),",
        "(true, Side::Take) => u64::from(pool.sub(worker.index, layout::ITEMS_TAKEN)) + 1,",
    ),
    fault(
        "a take's sums of last put rows alone",
        "stages/mod.rs",
        "pool.higher(put, worker.seen_bottom)",
        "put",
    ),
    fault(
        "a confirm that does not look at the put window",
        "stages/confirm.rs",
        "worker.sum != 0 || has_put_window_moved(pool, worker)",
        "worker.sum != 0 || false && has_put_window_moved(pool, worker)",
    ),
    fault(
        "a hop modulo the seen width",
        "stages/commit.rs",
        "% pool.settings.width",
        "% super::width(pool, worker)",
    ),
    fault(
        "an index beyond the window's width starts at 0",
        "stages/window.rs",
        "worker.index %= size.width;",
        "if worker.index >= size.width {\n        worker.index = 0;\n    }",
    ),
    fault(
        "a pass over all subs of the pool",
        "stages/mod.rs",
        "    if pool.has_sizes() {\n        worker.seen_width\n    } else {\n        pool.settings.width\n    }",
        "    let _ = worker;\n    pool.settings.width",
    ),
    fault(
        "a put shift that needs fewer than 15 live windows",
        "pool/windows.rs",
        "self.live() < layout::MOST_LIVE",
        "self.live() < layout::MOST_LIVE - 1",
    ),
    fault(
        "a put window raised with the size of the last one",
        "pool/windows.rs",
        "        let size = self.next_size();\n        let top",
        "        let size = self.window_size(Side::Put);\n        let top",
    ),
    fault(
        "a take window dropped by its own depth",
        "pool/windows.rs",
        "let depth = self.live_size(1).depth;",
        "let depth = self.live_size(0).depth;",
    ),
    trap(
        "a take's bound by the pool's sizes",
        "one_at_a_time/sequential.rs",
        "self.most_passed.min(size.distance_bound())",
        "{\n                let _ = size;\n                self.most_passed.min(crate::bounds::distance_bound(&self.settings))\n            }",
    ),
    trap(
        "a full that counts the take window's places too",
        "bounds.rs",
        "(1..pool.live())",
        "(0..pool.live())",
    ),
    fault(
        "rows outside a window's width held",
        "pool/held.rs",
        ".filter(|window| j < window.size.width)",
        ".filter(|window| j < window.size.width.max(self.settings.width))",
    ),
    fault(
        "a size of one above half of an odd R",
        "pool/size.rs",
        "self.depth <= settings.rows / 2",
        "self.depth <= settings.rows.div_ceil(2)",
    ),
    fault(
        "a size call that leaves the set word at 0",
        "calls.rs",
        "pool.words[set] = 1;",
        "pool.words[set] = pool.words[set].min(1);",
    ),
    fault(
        "a size call refused at the step limit",
        "calls.rs",
        "    if !pool.is_queue() || !size.within_limits(&pool.settings) {",
        "    if pool.words[layout::STEPS_COUNTED] >= STEP_LIMIT {\n        return Answer::of(SPENT);\n    }\n    if !pool.is_queue() || !size.within_limits(&pool.settings) {",
    ),
    fault(
        "windows that lead up to P modulo 2^32 fit too",
        "pool/fit.rs",
        "lead_up_to == top(layout::PUT_WINDOW)",
        "lead_up_to as u32 == pool.words[layout::PUT_WINDOW]",
    ),
    fault(
        "a sub fit by its last taken row alone",
        "pool/fit.rs",
        "let higher = taken.max(take_bottom);",
        "let higher = taken.max(take_bottom.min(0));",
    ),
    fault(
        "a stack's worker fit with words of a seen window",
        "pool/fit.rs",
        "return worker.seen_bottom == 0 && worker.seen_width == 0;",
        "return true;",
    ),
    lister_fault(
        "a spare bit of a size passes",
        "listing/decode.rs",
        "bits(word, 12, 27) == 0",
        "bits(word, 13, 27) == 0",
    ),
    summary_fault(
        "a summary's bound by the pool's sizes alone",
        "self.bound = self.bound.max(size.distance_bound());",
        "self.bound = self.bound.max(size.distance_bound().min(0));",
    ),
    fault(
        "a move that looks at the target before it is excepted",
        "moves/mod.rs",
        "    if !may_move(&source, new) {",
        "    if to.len() < source.settings.needed_words_in(new) {\n        return TOO_SHORT;\n    }\n    if !may_move(&source, new) {",
    ),
    fault(
        "a move on with 17 windows",
        "moves/excepted.rs",
        "between / depth < layout::MOST_LIVE",
        "between / depth <= layout::MOST_LIVE",
    ),
    fault(
        "a move back of a pool in which a size was set",
        "moves/excepted.rs",
        "source.words[source.size_word(layout::SIZE_SET)] == 0",
        "source.words[source.size_word(layout::SIZE_SET)] <= 1",
    ),
    fault(
        "a move back with a depth seen modulo 2^32",
        "moves/excepted.rs",
        "worker.seen_window.checked_sub(worker.seen_bottom) == Some(size.depth)",
        "worker.seen_window.wrapping_sub(worker.seen_bottom) == size.depth",
    ),
    fault(
        "a move on that gives every worker the pool's size",
        "moves/given.rs",
        "!is_past_window(worker.phase)",
        "worker.phase == 0 && !is_past_window(worker.phase)",
    ),
    lister_fault(
        "a listing that stops at the bound, where it is not 0",
        "listing/lister.rs",
        "answer.distance > bound",
        "answer.distance >= bound.max(1)",
    ),
    lister_fault(
        "a listing's stop by the pool's own bound",
        "listing/replay.rs",
        "Some(size) => size.distance_bound(),",
        "Some(_) => distance_bound(&settings),",
    ),
    lister_fault(
        "a listing's stop by the framework paper's figure",
        "listing/replay.rs",
        "None => distance_bound(&settings),",
        "None => crate::bounds::framework_figure(&settings),",
    ),
];
