use indicatif::{ProgressBar, ProgressStyle};
use std::thread::sleep;
use std::time::Duration;

const TEMPLATE: &str =
    "{spinner:.green} [{elapsed_precise}] [{wide_bar:.cyan/blue}] {bytes}/{total_bytes} ({bytes_per_sec}, {eta})";

const TOTAL: u64 = 23_123_123;
const PIECE: u64 = 223_211;
const PIECES: u64 = 104;

fn main() {
    let style = ProgressStyle::with_template(TEMPLATE).unwrap();
    let bar = ProgressBar::new(TOTAL).with_style(style.progress_chars("#>-"));
    for piece in 1..=PIECES {
        bar.set_position((piece * PIECE).min(TOTAL));
        sleep(Duration::from_millis(12));
    }
    bar.finish_with_message("downloaded");
}
