//! Eight groups for one frame, as the pacer mixes them: looked up as a set, so that none is set alone.

use pacer::{Kind, Query, Record, Refusal, Rule, SLOT_BYTES};

fn record((group, first, last, load): (u8, u16, u16, u16)) -> Record {
    Record {
        group,
        first,
        last,
        load,
    }
}

/// Prints the loads of the eight groups at a frame, - where there is none, and their sum.
fn print(frame: u16, loads: &[Option<u32>; 8]) {
    let words = loads.map(|load| load.map_or("-".to_string(), |load| load.to_string()));
    let mixed: u32 = loads.iter().flatten().sum();
    println!("frame {frame}: {}, together {mixed}", words.join(" "));
}

fn main() -> Result<(), Refusal> {
    let records = [
        (0, 0, 119, 200),
        (2, 30, 89, 350),
        (3, 0, 59, 0),
        (6, 60, 119, 90),
    ];
    let log = pacer::log(&records.map(record))?;
    let mut slot = [0; SLOT_BYTES];
    pacer::query(Query::new(Kind::SUM, Rule::Rows(8)), &log, &mut slot)?;

    // What the pacer runs by, set for one frame after the other.
    let mut loads = [None; 8];
    for frame in [0, 45, 75] {
        let pairs = [0, 1, 2, 3, 4, 5, 6, 7].map(|group| (group, frame));
        pacer::lookups_into(&slot, &pairs, &mut loads)?;
        print(frame, &loads);
    }

    // There is no group 8: all loads stay those of frame 75.
    let pairs = [0, 1, 2, 3, 8, 5, 6, 7].map(|group| (group, 100));
    if let Err(refusal) = pacer::lookups_into(&slot, &pairs, &mut loads) {
        println!("{refusal}");
    }
    print(75, &loads);

    // The first frame of each row of the slot, into a list that is made for the answers.
    let profile = pacer::read(&slot)?;
    let firsts: Vec<(u8, u16)> = profile
        .rows()
        .iter()
        .map(|row| (row.group, row.first))
        .collect();
    println!("{:?}", profile.lookups(&firsts)?);
    Ok(())
}
