use indicatif::{ProgressBar, ProgressStyle};
use std::thread::sleep;
use std::time::Duration;

const TICKS: [&str; 5] = ["-", "\\", "|", "/", "ok"];

fn main() {
    let style = ProgressStyle::with_template("{spinner:.blue} {msg}").unwrap();
    let spinner = ProgressBar::new_spinner().with_style(style.tick_strings(&TICKS));
    spinner.enable_steady_tick(Duration::from_millis(100));
    spinner.set_message("copying");
    sleep(Duration::from_millis(500));
    spinner.finish_with_message("copied");
}
