// Times the proved analysis beside the published one in plain Rust, on the same sheets, in one run.
mod heap;
mod plain;
mod shapes;

use std::time::Duration;
use std::time::Instant;

unsafe extern "C" {
    // From the proved static library; its heap parameter takes no bytes.
    fn jemmaril_listing(sheet: *const u8, bytes: usize, out: *mut u8, room: usize) -> usize;
}

fn proved(sheet: &str) -> String {
    let mut out = vec![0; 20_000];
    let length = unsafe { jemmaril_listing(sheet.as_ptr(), sheet.len(), out.as_mut_ptr(), out.len()) };
    out.truncate(length);
    String::from_utf8(out).unwrap()
}

fn published(sheet: &str, round: plain::Round) -> String {
    let plan = plain::read(sheet);
    plain::list(&plan, &plain::dates(&plan, round))
}

// The shortest of several runs, which other work on the machine disturbs least.
fn shortest<T>(mut job: impl FnMut() -> T) -> Duration {
    let mut best = Duration::MAX;
    let mut spent = Duration::ZERO;
    let mut runs = 0;
    while runs < 5 || (spent < Duration::from_millis(300) && runs < 2_000) {
        let start = Instant::now();
        std::hint::black_box(job());
        let time = start.elapsed();
        best = best.min(time);
        spent += time;
        runs += 1;
    }
    best
}

fn line(name: &str, shape: shapes::Shape, tasks: u64, banks: u64) {
    let seed = shapes::seed(shape, tasks, banks);
    let sheet = shapes::sheet(shape, tasks, banks, seed);
    let listing = proved(&sheet);
    assert_eq!(listing, published(&sheet, plain::together));
    assert_eq!(listing, published(&sheet, plain::in_order));
    let together = shortest(|| published(&sheet, plain::together));
    let in_order = shortest(|| published(&sheet, plain::in_order));
    let ours = shortest(|| proved(&sheet));
    let micros = |d: Duration| d.as_secs_f64() * 1e6;
    println!(
        "{:<12}{:>6}{:>6}{:>8}{:>14.1}{:>14.1}{:>14.1}{:>8.2}{:>8.2}",
        name,
        tasks,
        banks,
        listing[1..11].trim_start(),
        micros(together),
        micros(in_order),
        micros(ours),
        micros(ours) / micros(together),
        micros(ours) / micros(in_order)
    );
}

fn main() {
    println!("From a sheet to its listing, in microseconds, the shortest of several runs.");
    println!("together: the published iteration of all responses; in order: in the order of release. Neither is proved.\n");
    println!(
        "{:<12}{:>6}{:>6}{:>8}{:>14}{:>14}{:>14}{:>8}{:>8}",
        "shape", "tasks", "banks", "rounds", "together", "in order", "proved", "p/t", "p/o"
    );
    for (name, shape) in shapes::SHAPES {
        for banks in [1, 16] {
            for tasks in [9, 50, 200, 256] {
                line(name, shape, tasks, banks);
            }
        }
    }
}
