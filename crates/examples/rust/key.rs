use indicatif::{ProgressBar, ProgressState, ProgressStyle};
use std::fmt::Write;

fn left(state: &ProgressState, out: &mut dyn Write) {
    write!(out, "{} left", 400u64.saturating_sub(state.pos())).unwrap();
}

fn main() {
    let style = ProgressStyle::with_template("{wide_bar} {left}").unwrap();
    let bar = ProgressBar::new(400).with_style(style.with_key("left", left));
    for _ in 0..400 {
        bar.inc(1);
    }
    bar.finish();
}
