use indicatif::{ProgressBar, ProgressFinish, ProgressStyle};
use std::thread::sleep;
use std::time::Duration;

const TICKS: [&str; 6] = [">    ", " >   ", "  >  ", "   > ", "    >", "done "];

fn add_up(bar: &ProgressBar) -> u64 {
    bar.enable_steady_tick(Duration::from_millis(120));
    let mut sum = 0;
    for item in bar.wrap_iter(0..100) {
        sum += item;
        sleep(Duration::from_millis(20));
    }
    sum
}

fn main() {
    let style = ProgressStyle::with_template("{spinner:.blue} {msg} {pos}").unwrap();
    let bar = ProgressBar::new_spinner()
        .with_style(style.tick_strings(&TICKS))
        .with_message("calculating")
        .with_finish(ProgressFinish::WithMessage("ready".into()));
    println!("sum {}", add_up(&bar));
}
