use indicatif::{ProgressBar, ProgressStyle};
use std::io;

fn main() -> io::Result<()> {
    let style = ProgressStyle::with_template("{spinner} {bytes} ({bytes_per_sec})").unwrap();
    let bar = ProgressBar::new_spinner().with_style(style);
    let mut reader = bar.wrap_read(io::stdin());
    io::copy(&mut reader, &mut io::stdout())?;
    bar.finish();
    Ok(())
}
