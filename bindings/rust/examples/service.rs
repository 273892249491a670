//! A service whose stock never seems to leak: what is taken, what is sold and what is left become
//! one version, so that each scrape shows taken = sold = 1,000,000 - left. It serves its metrics,
//! prints them at its end, and with the argument `stay` serves on.

use dirgwako::*;
use std::thread;

/// What a sale changes.
struct Shop {
    taken: IntCounter,
    sold: IntCounter,
    left: IntGauge,
    sale: Histogram,
}

impl Shop {
    fn new() -> Result<Shop> {
        let shop = Shop {
            taken: register_int_counter!("items_taken_total", "Items taken from the stock.")?,
            sold: register_int_counter!("items_sold_total", "Items sold.")?,
            left: register_int_gauge!("items_left", "Items in the stock.")?,
            sale: register_histogram!("sale_seconds", "How long sales took.")?,
        };
        shop.left.set(1_000_000);
        Ok(shop)
    }

    fn sell(&self) -> Result<()> {
        let timer = self.sale.start_timer();
        default_registry().publish(|batch| {
            batch.inc(&self.taken);
            batch.inc(&self.sold);
            batch.sub(&self.left, 1);
        })?;
        timer.observe_duration();
        Ok(())
    }
}

fn main() -> std::result::Result<(), Box<dyn std::error::Error>> {
    let words: Vec<String> = std::env::args().skip(1).collect();
    let port = words.iter().find_map(|word| word.parse::<u16>().ok());
    let shop = Shop::new()?;
    let server = default_registry().serve(("127.0.0.1", port.unwrap_or(0)), 2)?;
    println!("http://{}/metrics", server.addr());
    thread::scope(|scope| {
        let sellers: Vec<_> =
            (0..4).map(|_| scope.spawn(|| (0..10_000).try_for_each(|_| shop.sell()))).collect();
        let ends = sellers.into_iter().map(|seller| seller.join());
        ends.collect::<Vec<_>>()
    })
    .into_iter()
    .try_for_each(|end| end.unwrap_or_else(|_| Err(Error::Msg("a seller panicked".into()))))?;
    print!("{}", default_registry().gather_text()?);
    if words.iter().any(|word| word == "stay") {
        server.join();
    }
    Ok(())
}
