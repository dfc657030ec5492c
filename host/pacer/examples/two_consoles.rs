//! Two consoles feed one log: console by console and as they arrived, its records give the same slot.

use pacer::{Bound, Kind, Query, Record, Refusal, Rule, SLOT_BYTES};

fn record((group, first, last, load): (u8, u16, u16, u16)) -> Record {
    Record {
        group,
        first,
        last,
        load,
    }
}

fn main() -> Result<(), Refusal> {
    // Group, first frame, last frame and load. The consoles have groups and frames in common.
    let one = [(0, 0, 59, 200), (0, 50, 89, 350), (1, 0, 89, 120)].map(record);
    let two = [(0, 20, 79, 310), (0, 20, 39, 90), (1, 80, 99, 480)].map(record);
    let by_console = pacer::log(&[one, two].concat())?;
    let arrived = pacer::log(&[two[2], one[0], two[1], one[2], two[0], one[1]])?;

    let beats = Rule::Every {
        length: 60,
        start: 0,
    };
    for (name, bound) in [("bound", Bound::Rows(5)), ("beats", beats)] {
        let query = Query::new(Kind::SUM, bound);
        let mut slot = [0; SLOT_BYTES];
        let mut other = [0xFF; SLOT_BYTES];
        let answer = pacer::query(query, &by_console, &mut slot)?;
        assert_eq!(pacer::query(query, &arrived, &mut other)?, answer);
        assert_eq!(other, slot);
        println!("{name}: equal answers, equal slots");
        for row in &pacer::read(&slot)? {
            println!("{} {} {} {}", row.group, row.first, row.last, row.value);
        }
    }
    Ok(())
}
