//! A slot that came with its log, made by another tool: held to the log, and to the best rows.

use pacer::{Kind, Query, Record, Refusal, Rule, SLOT_BYTES};

fn record((group, first, last, load): (u8, u16, u16, u16)) -> Record {
    Record {
        group,
        first,
        last,
        load,
    }
}

/// The bytes of a slot by a bound with rows of group 0: first frame, last frame and value.
fn slot(kind: Kind, error: u64, rows: &[(u16, u16, u32)]) -> [u8; SLOT_BYTES] {
    let mut bytes = vec![0x50, 0x48, kind.0, rows.len() as u8];
    bytes.extend(error.to_le_bytes());
    for (first, last, value) in rows {
        bytes.extend([0x50, 0x52, 0]);
        bytes.extend(first.to_le_bytes());
        bytes.extend(last.to_le_bytes());
        bytes.extend(value.to_le_bytes());
    }
    bytes.resize(SLOT_BYTES, 0);
    bytes.try_into().expect("a slot has at most 64 rows")
}

fn main() -> Result<(), Refusal> {
    // A load of 200 over four seconds of 60 frames, with 20 frames of 900 and 20 of 700 from frame 60 on.
    let log = pacer::log(&[(0, 0, 239, 200), (0, 60, 79, 900), (0, 80, 99, 700)].map(record))?;

    // The licensee's tool cuts at full seconds: 900 is 200 above 20 frames and 700 above 20 others.
    let error = 20 * 200 * 200 + 20 * 700 * 700;
    let sent = [
        ("by the second", error, 900, 239),
        ("one frame short", error, 900, 238),
        ("below the peak", error, 899, 239),
        ("no error told", 0, 900, 239),
    ];
    for (name, error, peak, last) in sent {
        let rows = [(0, 59, 200), (60, 119, peak), (120, last, 200)];
        match pacer::check(&log, &slot(Kind::GREATEST, error, &rows)) {
            Ok(()) => println!("{name}: passes, error {error}"),
            Err(refusal) => println!("{name}: {refusal}"),
        }
    }

    // What passes is not yet the best that as many rows can give.
    let mut best = [0; SLOT_BYTES];
    let query = Query::new(Kind::GREATEST, Rule::Rows(3));
    let answer = pacer::query(query, &log, &mut best)?;
    pacer::check(&log, &best)?;
    println!("the best {} rows: error {}", answer.rows, answer.error);
    for row in &pacer::read(&best)? {
        println!("{} {} {} {}", row.group, row.first, row.last, row.value);
    }
    Ok(())
}
