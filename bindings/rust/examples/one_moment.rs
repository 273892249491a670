//! One thread raises `a` and hands over, another raises `b` and hands back: at each moment a is b,
//! or one more. How many scrapes show something else? An argument says for how many seconds each
//! way of lending is looked at.

use dirgwako::{register_int_counter_with_registry, IntCounter, Registry};
use std::sync::atomic::{AtomicBool, AtomicU64, Ordering::SeqCst};
use std::thread;
use std::time::{Duration, Instant};

fn number(text: &str, series: &str) -> Option<i64> {
    let value = |line: &str| line.strip_prefix(series)?.strip_prefix(' ')?.parse().ok();
    text.lines().find_map(value)
}

/// Raises a counter each time that the ball is this player's.
fn play(own: u64, raised: &IntCounter, ball: &AtomicU64, stop: &AtomicBool) {
    while !stop.load(SeqCst) {
        if ball.load(SeqCst) % 2 == own {
            raised.inc();
            ball.fetch_add(1, SeqCst);
        } else {
            std::hint::spin_loop();
        }
    }
}

fn look(way: &str, registry: &Registry, time: Duration) -> dirgwako::Result<()> {
    let a = register_int_counter_with_registry!("a_total", "Raised first.", registry)?;
    let b = register_int_counter_with_registry!("b_total", "Raised second.", registry)?;
    let (ball, stop) = (AtomicU64::new(0), AtomicBool::new(false));
    let (mut scrapes, mut impossible) = (0, 0);
    thread::scope(|scope| {
        scope.spawn(|| play(0, &a, &ball, &stop));
        scope.spawn(|| play(1, &b, &ball, &stop));
        let start = Instant::now();
        while start.elapsed() < time {
            let Ok(text) = registry.gather_text() else {
                continue;
            };
            let ahead = number(&text, "a_total").zip(number(&text, "b_total"));
            scrapes += 1;
            impossible += usize::from(!ahead.is_some_and(|(a, b)| (0..=1).contains(&(a - b))));
        }
        stop.store(true, SeqCst);
    });
    let passes = ball.into_inner();
    println!("{way}: {scrapes} scrapes, {impossible} of them impossible, {passes} passes");
    Ok(())
}

fn main() -> dirgwako::Result<()> {
    let seconds = std::env::args().nth(1).and_then(|word| word.parse().ok());
    let time = Duration::from_secs_f64(seconds.unwrap_or(1.0));
    look("striped", &Registry::new(), time)?;
    look("tallied", &Registry::builder().tallied().build()?, time)
}
