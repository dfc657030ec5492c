//! The rows of log G by beats of four frames and by two scenes.

use pacer::{Kind, Query, Refusal, Rule, Scene, SLOT_BYTES};

fn main() -> Result<(), Refusal> {
    // The log stands behind the four bytes of the sample's query.
    let log = &include_bytes!("../../../samples/log-g.query")[4..];
    let beats = Rule::Every {
        length: 4,
        start: 0,
    };
    let scenes = [Scene::new(0, 5), Scene::new(6, 10)];
    for (name, bound) in [("beats", beats), ("scenes", Rule::Scenes(&scenes))] {
        let mut slot = [0; SLOT_BYTES];
        pacer::query(Query::new(Kind::SUM, bound), log, &mut slot)?;
        println!("{name}");
        for row in &pacer::read(&slot)? {
            println!("{} {} {} {}", row.group, row.first, row.last, row.value);
        }
    }
    Ok(())
}
