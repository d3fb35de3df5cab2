use indicatif::{MultiProgress, ProgressBar, ProgressStyle};
use std::thread::{sleep, spawn};
use std::time::Duration;

const TEMPLATE: &str = "[{elapsed_precise}] {bar:40.cyan/blue} {pos:>7}/{len:7} {msg}";

fn work(bar: &ProgressBar, steps: u64) {
    for _ in 0..steps {
        bar.inc(1);
        sleep(Duration::from_millis(5));
    }
    bar.println("a bar is done");
    bar.finish_with_message("done");
}

fn main() {
    let style = ProgressStyle::with_template(TEMPLATE).unwrap();
    let style = style.progress_chars("##-");
    let board = MultiProgress::new();
    let first = board.add(ProgressBar::new(200)).with_style(style.clone());
    let second = board.add(ProgressBar::new(400)).with_style(style);
    board.println("starting!").unwrap();
    let other = spawn(move || work(&second, 400));
    work(&first, 200);
    other.join().unwrap();
    board.clear().unwrap();
}
