//! A night at the desk: alarms are taken in by time and by pen, one is struck out, at five the round is listed, and it is walked with a handheld.
//!
//!     ALARM_LIB="$PWD/$(link/archive)" cargo run --manifest-path rust/alarm-index/Cargo.toml --example round
use alarm_index::{
    pool_len, Action, Direction, Expectation, Limits, Listing, Pool, Reference, Refusal, Settings, Sift, Tree, ENTRY_LEN, LINE_LEN,
};

const BY_TIME: Tree = Tree::First;
const BY_PEN: Tree = Tree::Second;
const SETTINGS: Settings = Settings { nodes: 64, first: Limits { order: 8, minimum: 4 }, second: Limits { order: 4, minimum: 2 } };

fn main() -> Result<(), Refusal> {
    let mut bytes = vec![0; pool_len(64, 8, 4)];
    let mut pool = Pool::open(&mut bytes, SETTINGS)?;

    // a key is the second of the alarm, its reference where the register keeps the text
    let counts = pool.set_each(BY_TIME, &[3600, 7260, 9000, 12_345], &[0x1000, 0x1040, 0x10a0, 0x1100], &[60, 90, 80, 120])?;
    println!("taken in: {}", counts.added);

    // the same alarms by pen: the pen in the upper half of the key, the second in the lower
    let pens = [2 << 32 | 7260, 2 << 32 | 12_345, 5 << 32 | 3600, 5 << 32 | 9000];
    pool.set_each(BY_PEN, &pens, &[0x1040, 0x1100, 0x1000, 0x10a0], &[90, 120, 60, 80])?;

    // struck out, but only if nobody has changed it since
    let seen = Reference { place: 0x1040, size: 90 };
    let counts = pool.compare(BY_TIME, &[7260], Expectation::Holds(seen), Action::Remove)?;
    println!("struck out: {}", counts.removed);
    pool.compare(BY_PEN, &[2 << 32 | 7260], Expectation::Holds(seen), Action::Remove)?;

    // the round: what came after the last one, two to a page, the newest first
    let mut out = [0; 2 * ENTRY_LEN];
    let mut before = u64::MAX;
    loop {
        let mut page = pool.view().scan(BY_TIME, 3600..before, Direction::Down, Sift::All, &mut out)?;
        for alarm in page.entries.clone() {
            println!("at {}: {} bytes at {:#x}", alarm.key, alarm.size, alarm.place);
        }
        match page.entries.next_back() {
            Some(last) if page.more => before = last.key,
            _ => break,
        }
    }

    for alarm in pool.view().list(BY_PEN, 5 << 32..6 << 32, Sift::All, &mut out) {
        let alarm = alarm?;
        println!("pen 5 at {}: {} bytes at {:#x}", alarm.key & 0xffff_ffff, alarm.size, alarm.place);
    }

    // on the round: the handheld shows two alarms and then two more, the oldest first, and one comes in while the first two are read
    let mut handheld = Listing::new(BY_TIME, 3600.., Sift::All);
    let mut coming = Some(14_000);
    while let Some(screen) = handheld.next(pool.view(), &mut out)? {
        println!("on the handheld: {:?}", screen.entries.map(|alarm| alarm.key).collect::<Vec<_>>());
        if let Some(second) = coming.take() {
            pool.set(BY_TIME, &[second], Reference { place: 0x1180, size: 70 })?;
        }
    }

    let totals = pool.view().totals(BY_TIME)?;
    println!("live {}, dead {}, {} bytes", totals.live, totals.dead, totals.size);

    let mut line = [0; LINE_LEN];
    let node = pool.view().frame(BY_TIME, 0, &mut line)?;
    println!("{}", String::from_utf8_lossy(node));
    Ok(())
}
