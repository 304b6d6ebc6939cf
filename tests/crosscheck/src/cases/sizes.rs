//! Windows with sizes of their own (K8): each sentence of their fitness broken by itself,
//! and runs from make with windows of every width of a pool of this width, with as many
//! windows as can be live, whose put window moves beside a confirm, and whose take comes to
//! the bound of its own window, above that of the pool's sizes or below it.

use super::from_make::FromMake;
use super::play::play;
use super::segments::a_take;
use super::{fit_faults, images};
use crate::failure::Failure;
use crate::make_up::settings::{of_width, with_two_workers, Size as Sort};
use crate::make_up::values::Values;
use crate::make_up::{
    held_cells, image, lost_commit, most_live, own_bound, put_window_moves, sizes,
};
use crate::rng::Rng;
use crate::side_by_side::{Checks, SideBySide};
use crate::take::Take;
use second::phase::Side;
use second::{layout, Settings, Size};
use second::{FULL, MOVING, NO_SUCH_SIZE, QUEUE, STACK, TAKEN};
use sides::Call;

/// They are short.
const IMAGES: u32 = 20;

pub fn run(rng: &mut Rng, width: u32, checks: &mut Checks) -> Result<(), Failure> {
    fit_faults::run(rng, checks)?;
    every_width(rng, width, checks)?;
    most_windows(rng, width, checks)?;
    deepest(rng, width, checks)?;
    for _ in 0..IMAGES {
        on_images(rng, width, checks)?;
    }
    for seen_width in 1..=width {
        a_take_of(rng, width, seen_width, checks)?;
    }
    if width > 1 {
        lost_commits(rng, width, checks)?;
        beside_a_confirm(rng, width, checks)?;
        to_the_bound(rng, width, checks)?;
    }
    Ok(())
}

/// Size calls about the limits of few rows and of many, and a put's shift beside so many
/// windows that one more may be live, or none.
fn on_images(rng: &mut Rng, width: u32, checks: &mut Checks) -> Result<(), Failure> {
    let sort = rng.pick(&[Sort::Small, Sort::Large]);
    let kind = rng.pick(&[QUEUE, QUEUE, STACK]);
    let settings = of_width(rng, kind, width, sort);
    let words = image::of(rng, &settings);
    let mut pools = SideBySide::new(&words, checks);
    for _ in 0..8 {
        let call = images::set_size(rng, pools.words());
        pools.call(call, checks)?;
    }
    let settings = Settings {
        depth: 1,
        shift: 1,
        rows: rng.between(16, 24),
        ..of_width(rng, QUEUE, width, Sort::Small)
    };
    let (words, worker) = most_live::image(rng, &settings);
    let mut pools = SideBySide::new(&words, checks);
    for _ in 0..4 {
        pools.call(Call::Step { worker }, checks)?;
    }
    Ok(())
}

/// Puts until the put window is raised and one lands in it; where the pool is full, takes
/// until there is room. Of each width one window, in any order.
fn every_width(rng: &mut Rng, width: u32, checks: &mut Checks) -> Result<(), Failure> {
    let settings = of_width(rng, QUEUE, width, Sort::Small);
    let mut run = FromMake::new("run of every width", rng, settings, checks)?;
    let first = rng.below(width);
    for k in 0..width {
        let size = Size {
            width: 1 + (first + k) % width,
            depth: rng.between(1, sizes::deepest(&settings).min(3)),
        };
        set_size(&mut run, size, checks)?;
        let raised = run.words()[layout::PUT_WINDOW];
        while run.words()[layout::PUT_WINDOW] == raised {
            put_or_make_room(rng, &mut run, checks)?;
        }
        put_or_make_room(rng, &mut run, checks)?;
    }
    drain(rng, &mut run, checks)?;
    run.one_at_a_time()?;
    Ok(())
}

/// As many as can be live, of the least depth and any width, with rows for more or not.
fn most_windows(rng: &mut Rng, width: u32, checks: &mut Checks) -> Result<(), Failure> {
    let settings = Settings {
        depth: 1,
        shift: 1,
        rows: rng.pick(&[15, 16, 17, 24]),
        ..of_width(rng, QUEUE, width, Sort::Small)
    };
    let mut run = FromMake::new("run of most windows", rng, settings, checks)?;
    let mut worker = 0;
    loop {
        let size = Size {
            width: rng.between(1, width),
            depth: 1,
        };
        set_size(&mut run, size, checks)?;
        let value = run.values.word(rng);
        let begin = Call::BeginPut { worker, value };
        if operation(&mut run, begin, worker, checks)? == FULL {
            break;
        }
        worker = rng.below(settings.workers);
    }
    drain(rng, &mut run, checks)?;
    run.one_at_a_time()?;
    Ok(())
}

/// A window of the deepest that there is, 64 or half of R.
fn deepest(rng: &mut Rng, width: u32, checks: &mut Checks) -> Result<(), Failure> {
    let most = (4096 / width).min(1024);
    let rows = rng.pick(&[7, 127, 128, 129, most]).min(most);
    let settings = Settings {
        depth: 1,
        shift: 1,
        rows,
        ..of_width(rng, QUEUE, width, Sort::Small)
    };
    let mut run = FromMake::new("run of a deep window", rng, settings, checks)?;
    let deepest = sizes::deepest(&settings);
    let size = Size {
        width: rng.between(1, width.min(3)),
        depth: deepest,
    };
    for depth in [0, deepest + 1, 65, u32::MAX] {
        let answer = run.call(Call::SetSize(Size { depth, ..size }), checks)?;
        if answer.number != NO_SUCH_SIZE {
            return Err(run.said(&format!("a depth of {depth} is answered {answer:?}")));
        }
    }
    set_size(&mut run, size, checks)?;
    while run.words()[layout::PUT_WINDOW] == 1 {
        put_or_make_room(rng, &mut run, checks)?;
    }
    for _ in 0..rng.between(1, 2 * size.width * size.depth) {
        put_or_make_room(rng, &mut run, checks)?;
    }
    drain(rng, &mut run, checks)?;
    run.one_at_a_time()?;
    Ok(())
}

fn set_size(run: &mut FromMake, size: Size, checks: &mut Checks) -> Result<(), Failure> {
    let answer = run.call(Call::SetSize(size), checks)?;
    match answer.is_refusal() {
        true => Err(run.said(&format!("{size:?} is answered {answer:?}"))),
        false => Ok(()),
    }
}

fn put_or_make_room(rng: &mut Rng, run: &mut FromMake, checks: &mut Checks) -> Result<(), Failure> {
    let worker = rng.below(run.settings.workers);
    let value = run.values.word(rng);
    let begin = Call::BeginPut { worker, value };
    if operation(run, begin, worker, checks)? != FULL {
        return Ok(());
    }
    let taken_up_to = run.words()[layout::TAKE_WINDOW];
    while run.words()[layout::TAKE_WINDOW] == taken_up_to {
        operation(run, Call::BeginTake { worker }, worker, checks)?;
    }
    Ok(())
}

/// All items are taken, by any workers.
fn drain(rng: &mut Rng, run: &mut FromMake, checks: &mut Checks) -> Result<(), Failure> {
    loop {
        let worker = rng.below(run.settings.workers);
        if operation(run, Call::BeginTake { worker }, worker, checks)? != TAKEN {
            return Ok(());
        }
    }
}

/// From its begin to its final answer's number.
fn operation(
    run: &mut FromMake,
    begin: Call,
    worker: u32,
    checks: &mut Checks,
) -> Result<u32, Failure> {
    run.call(begin, checks)?;
    to_its_answer(run, worker, checks)
}

/// Of a busy worker.
fn to_its_answer(run: &mut FromMake, worker: u32, checks: &mut Checks) -> Result<u32, Failure> {
    loop {
        let answer = run.call(Call::Step { worker }, checks)?;
        if answer.is_final() {
            return Ok(answer.number);
        }
        if answer.is_refusal() {
            return Err(run.said(&format!("a step is refused, {answer:?}")));
        }
    }
}

/// A worker that has seen a window of this width takes an item of an image.
fn a_take_of(
    rng: &mut Rng,
    width: u32,
    seen_width: u32,
    checks: &mut Checks,
) -> Result<(), Failure> {
    let settings = of_width(rng, QUEUE, width, Sort::Small);
    let values = Values::new(rng);
    let image = held_cells::of_seen_width(rng, &settings, values, seen_width);
    a_take(image, values, checks)
}

/// In a window narrower than the pool or as wide, with each stride, where the hop is
/// modulo the pool's w all the same.
fn lost_commits(rng: &mut Rng, width: u32, checks: &mut Checks) -> Result<(), Failure> {
    for stride in 0..width {
        for side in [Side::Put, Side::Take] {
            let settings = Settings {
                stride,
                ..with_two_workers(of_width(rng, QUEUE, width, Sort::Small))
            };
            let size = sizes::within(rng, &settings);
            let mut run = FromMake::new("run with a lost commit", rng, settings, checks)?;
            set_size(&mut run, size, checks)?;
            let script = lost_commit::script_in(rng, settings, size, side);
            play(rng, &mut run, script, checks)?;
            run.one_at_a_time()?;
        }
    }
    Ok(())
}

/// K8: its "confirm answers empty only if the put window's top also equals the seen one".
fn beside_a_confirm(rng: &mut Rng, width: u32, checks: &mut Checks) -> Result<(), Failure> {
    let settings = with_two_workers(of_width(rng, QUEUE, width, Sort::Small));
    let mut run = FromMake::new("run with a put window raised", rng, settings, checks)?;
    play(rng, &mut run, put_window_moves::script(settings), checks)?;
    let worker = put_window_moves::TAKER;
    let answer = run.call(Call::Step { worker }, checks)?;
    if answer.number != MOVING {
        return Err(run.said(&format!("its take is answered {answer:?}")));
    }
    to_its_answer(&mut run, worker, checks)?;
    to_its_answer(&mut run, put_window_moves::FILLER, checks)?;
    drain(rng, &mut run, checks)?;
    run.one_at_a_time()?;
    Ok(())
}

/// Of a deep window as wide as the pool, and of a shallow one.
fn to_the_bound(rng: &mut Rng, width: u32, checks: &mut Checks) -> Result<(), Failure> {
    let (settings, sizes) = own_bound::settings(rng, width);
    for size in sizes {
        let mut run = FromMake::new("script", rng, settings, checks)?;
        set_size(&mut run, size, checks)?;
        let last = play(rng, &mut run, own_bound::script(settings, size), checks)?;
        Take::of_script_to(size.distance_bound(), run.words(), &last)
            .map_err(|what| run.said(&format!("{what}, in a window of {size:?}")))?;
        run.one_at_a_time()?;
    }
    Ok(())
}
