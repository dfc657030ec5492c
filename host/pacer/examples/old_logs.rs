//! A log on file whose last record was written twice: refused as it is, and answered without the twin.

use pacer::{Bound, Kind, Query, Refusal, SLOT_BYTES};

fn main() -> Result<(), Refusal> {
    // The log stands behind the four bytes of the sample's query.
    let log = &include_bytes!("../../../samples/restarted.query")[4..];
    let query = Query::new(Kind::SUM, Bound::Rows(4));
    let mut slot = [0; SLOT_BYTES];
    if let Err(refusal) = pacer::query(query, log, &mut slot) {
        println!("{refusal}");
    }

    let mut buffer = vec![0; log.len()];
    let length = pacer::without_twins(log, &mut buffer)?;
    println!("{length} of {} bytes are kept", log.len());
    pacer::query(query, &buffer[..length], &mut slot)?;
    for row in &pacer::read(&slot)? {
        println!("{} {} {} {}", row.group, row.first, row.last, row.value);
    }
    Ok(())
}
