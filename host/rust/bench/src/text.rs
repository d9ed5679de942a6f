//! Figures as text, and the machine that they are from.

use crate::spread::Spread;
use std::fs;

/// Few digits where they would be noise.
pub fn nanoseconds(spread: Spread) -> String {
    let Spread { low, median, high } = spread;
    let digits = usize::from(median < 100.0);
    format!("{median:.digits$} [{low:.digits$} {high:.digits$}]")
}

pub fn ratio(spread: Spread) -> String {
    let Spread { low, median, high } = spread;
    format!("{median:.2} [{low:.2} {high:.2}]")
}

pub fn processor() -> String {
    let info = fs::read_to_string("/proc/cpuinfo").unwrap_or_default();
    let line = info.lines().find(|line| line.starts_with("model name"));
    let name = line.and_then(|line| line.split(':').nth(1));
    name.map_or("unknown".into(), |name| name.trim().to_owned())
}
