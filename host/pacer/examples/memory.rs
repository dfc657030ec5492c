//! Heat follows the last seconds of play: the rows of one log without a memory, and with longer ones.

use pacer::{Kind, Query, Record, Refusal, Rule, SLOT_BYTES};

fn record((group, first, last, load): (u8, u16, u16, u16)) -> Record {
    Record {
        group,
        first,
        last,
        load,
    }
}

fn main() -> Result<(), Refusal> {
    // Bursts of one second, of 60 frames, with two seconds between them, and one frame much later.
    let log = pacer::log(&[(0, 0, 59, 400), (0, 180, 239, 900), (0, 480, 480, 700)].map(record))?;
    let query = Query::new(Kind::SUM, Rule::Rows(4));
    let mut slot = [0; SLOT_BYTES];
    for width in [1, 120, 180] {
        pacer::query(query.with_memory(width), &log, &mut slot)?;
        println!("width {width}");
        for row in &pacer::read(&slot)? {
            println!("{} {} {} {}", row.group, row.first, row.last, row.value);
        }
    }

    // A slot does not say which width it was made with: the check has to be told.
    for width in [180, 179, 1, 0] {
        match pacer::check_with_memory(&log, width, &slot) {
            Ok(()) => println!("the last slot with width {width}: passes"),
            Err(refusal) => println!("the last slot with width {width}: {refusal}"),
        }
    }
    Ok(())
}
