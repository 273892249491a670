//! Tasks of tokio that hop between its threads in the middle of their work, and of its threads that
//! block: whichever thread counts, nothing is lost. It prints the totals, and fails where one is
//! wrong.

use prometheus::{register_int_counter_with_registry, Batch, IntCounter, Registry};
use std::error::Error;
use std::sync::atomic::{AtomicU64, Ordering::Relaxed};
use std::sync::Arc;
use std::thread;

const TASKS: u64 = 64;
const TURNS: u64 = 500;

/// What a task counts with, and how often one was found on another thread than before.
struct Counts {
    registry: Registry,
    a: IntCounter,
    b: IntCounter,
    hops: AtomicU64,
}

async fn work(counts: Arc<Counts>) -> Result<(), Box<dyn Error + Send + Sync>> {
    for turn in 0..TURNS {
        let before = thread::current().id();
        counts.a.inc();
        tokio::task::yield_now().await;
        counts.registry.publish(|batch: &mut Batch| {
            batch.inc(&counts.a);
            batch.inc_by(&counts.b, 2);
        })?;
        let hopped = before != thread::current().id();
        counts.hops.fetch_add(u64::from(hopped), Relaxed);
        if turn % 100 == 0 {
            let a = counts.a.clone();
            tokio::task::spawn_blocking(move || a.inc()).await?;
        }
    }
    Ok(())
}

fn run(way: &str, registry: Registry) -> Result<(), Box<dyn Error + Send + Sync>> {
    let a = register_int_counter_with_registry!("a_total", "A.", registry)?;
    let b = register_int_counter_with_registry!("b_total", "B.", registry)?;
    let counts = Arc::new(Counts { registry, a, b, hops: AtomicU64::new(0) });
    let runtime = tokio::runtime::Builder::new_multi_thread().worker_threads(8).build()?;
    runtime.block_on(async {
        let tasks: Vec<_> = (0..TASKS).map(|_| tokio::spawn(work(counts.clone()))).collect();
        for task in tasks {
            task.await??;
        }
        Ok::<_, Box<dyn Error + Send + Sync>>(())
    })?;
    let totals = (counts.a.get(), counts.b.get());
    println!("{way}: {} and {}, {} hops", totals.0, totals.1, counts.hops.load(Relaxed));
    if totals != (TASKS * (2 * TURNS + TURNS / 100), TASKS * 2 * TURNS) {
        return Err("a total is wrong".into());
    }
    Ok(())
}

fn main() -> Result<(), Box<dyn Error + Send + Sync>> {
    run("striped", Registry::new())?;
    run("tallied", Registry::builder().tallied().build()?)
}
