use indicatif::{MultiProgress, ProgressBar};
use std::thread::scope;

fn copy(bar: &ProgressBar, parts: u32) {
    for _ in 0..parts {
        bar.inc(1);
    }
    bar.finish();
}

fn main() {
    let board = MultiProgress::new();
    let [a, b, c] = [8, 250, 4000].map(|parts| board.add(ProgressBar::new(parts)));
    scope(|threads| {
        threads.spawn(|| copy(&a, 8));
        threads.spawn(|| copy(&b, 250));
        threads.spawn(|| copy(&c, 4000));
    });
}
