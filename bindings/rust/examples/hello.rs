//! One counter, counted and printed.
use dirgwako::{gather, register_int_counter, TextEncoder};

fn main() -> dirgwako::Result<()> {
    let visits = register_int_counter!("visits_total", "Visits so far.")?;
    visits.inc_by(3);
    print!("{}", TextEncoder::new().encode_to_string(&gather())?);
    Ok(())
}
