//! The settings of scripts, by what decides how far their takes come.

use second::{closer_distance_bound, framework_figure, thesis_figure, worst_distance, Settings};

pub type Script = (&'static str, fn(&Settings) -> bool);

pub const SCRIPTS: [Script; 9] = [
    ("a script to K14's bound", |settings| {
        settings.width > 1 && worst_distance(settings) == closer_distance_bound(settings)
    }),
    ("a script: s does not divide d - 1", |settings| {
        settings.width > 1 && !(settings.depth - 1).is_multiple_of(settings.shift)
    }),
    ("a script: R has room for one shift alone", |settings| {
        settings.width > 1 && has_one_shift(settings)
    }),
    (
        "a script: R is the limit of two shifts or more",
        |settings| worst_distance(settings) < thesis_figure(settings) && !has_one_shift(settings),
    ),
    ("a script to above source 001's figure", |settings| {
        worst_distance(settings) > framework_figure(settings)
    }),
    ("a script: two workers", |settings| settings.workers == 2),
    ("a script: more workers than subs", |settings| {
        settings.workers > settings.width && settings.width > 1
    }),
    ("a script: one sub", |settings| settings.width == 1),
    ("a script: a stride above 1", |settings| settings.stride > 1),
];

fn has_one_shift(settings: &Settings) -> bool {
    settings.rows < settings.depth + 2 * settings.shift
}
