//! Charts beside a plain fill of as many bytes.

use crate::groups;
use crate::timing::{best, best_of_each, shown};
use image_gen::{Size, extremes};
use sir_analyses::calls;
use sir_image::Image;
use std::hint::black_box;
use std::time::Duration;

/// As much as the longest chart takes.
const ROOM: usize = 86_408_640;

/// Prints the times of charts: of typical and of full-size images, each as a mean, and of the longest chart of a legal image.
pub fn table() {
    println!("\ncharts beside a fill of as many bytes");
    println!("{:36} {:>12} {:>14} {:>14} {:>16}", "", "bytes", "chart", "fill", "chart / fill");
    // No byte is 0, so that all pages are there before anything is timed.
    let mut slices = [vec![b' '; ROOM], vec![b' '; ROOM]];
    for group in ["typical", "full"].into_iter().flat_map(groups) {
        row(&group.name, &group.images, &mut slices);
    }
    row("the longest chart", &[extremes::charted(Size::FULL)], &mut slices);
    println!(
        "the longest chart, refused in a slice one byte too short: {}",
        shown(refusal(&extremes::charted(Size::FULL)))
    );
}

fn row(name: &str, images: &[Image], [chart, filled]: &mut [Vec<u8>; 2]) {
    let (mut bytes, mut sums) = (0, [Duration::ZERO; 2]);
    for image in images {
        let image = image.pages();
        let answer = calls::chart(&image, chart);
        let length = answer.length().expect("there is room for every chart") as usize;
        let (drawn, fill) =
            best_of_each(|| _ = black_box(calls::chart(&image, chart)), || black_box(&mut filled[..length]).fill(b'.'));
        bytes += length;
        sums = [sums[0] + drawn, sums[1] + fill];
    }
    let count = images.len() as u32;
    let [drawn, fill] = sums.map(|sum| shown(sum / count));
    let ratio = sums[0].as_secs_f64() / sums[1].as_secs_f64();
    println!("{name:36} {:>12} {drawn:>14} {fill:>14} {ratio:>16.1}", bytes / images.len());
}

/// The time in which a slice that is one byte too short for the longest chart is refused.
fn refusal(image: &Image) -> Duration {
    let (image, mut slice) = (image.pages(), vec![0; ROOM - 1]);
    best(|| _ = black_box(calls::chart(&image, &mut slice)))
}
