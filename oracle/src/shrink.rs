//! A script that shows a difference, made smaller as long as it still shows one.
use crate::library::{words, Library};
use crate::script::{Cursor, Script, Step};
use crate::session::{Difference, Session};
use plain::Operation;

fn fails(lib: &dyn Library, s: &Script) -> Option<(usize, Difference)> {
    Session::run(lib, s).err()
}

/// The same step with one key less, or one step less for the target of a packing, in every way; a portion with a start in plain words.
fn smaller(step: &Step) -> Vec<Step> {
    match step {
        Step::Batch { tree, call } => (0..call.keys.len())
            .map(|i| {
                let mut c = call.clone();
                c.keys.remove(i);
                if c.operation == Operation::SetEach && i < c.places.len() && i < c.sizes.len() {
                    c.places.remove(i);
                    c.sizes.remove(i);
                }
                Step::batch(*tree, c)
            })
            .collect(),
        Step::Get { tree, keys, room } => (0..keys.len())
            .map(|i| {
                let mut keys = keys.clone();
                keys.remove(i);
                Step::Get { tree: *tree, keys, room: *room }
            })
            .collect(),
        Step::Pack { target, onward } => (0..target.steps.len())
            .map(|i| {
                let mut target = target.clone();
                target.steps.remove(i);
                Step::Pack { target, onward: *onward }
            })
            .collect(),
        Step::Portion { tree, cursor, room } => {
            let plain = Cursor { from: words(cursor.request().start), ..*cursor };
            (plain != *cursor).then_some(Step::Portion { tree: *tree, cursor: plain, room: *room }).into_iter().collect()
        }
        _ => vec![],
    }
}

pub fn shrink(lib: &dyn Library, mut s: Script) -> (Script, Difference) {
    let (last, mut why) = fails(lib, &s).expect("a script that shows a difference");
    s.steps.truncate(last + 1);
    loop {
        let mut changed = false;
        let mut part = (s.steps.len() / 2).max(1);
        while part > 0 && !s.steps.is_empty() {
            let mut at = 0;
            while at < s.steps.len() {
                let mut t = s.clone();
                t.steps.drain(at..(at + part).min(s.steps.len()));
                match fails(lib, &t) {
                    Some((last, d)) => {
                        t.steps.truncate(last + 1);
                        (s, why, changed) = (t, d, true);
                    }
                    None => at += part,
                }
            }
            part /= 2;
        }
        for i in 0..s.steps.len() {
            while let Some((t, d)) = smaller(&s.steps[i]).into_iter().find_map(|step| {
                let mut t = s.clone();
                t.steps[i] = step;
                fails(lib, &t).map(|(_, d)| (t, d))
            }) {
                (s, why, changed) = (t, d, true);
            }
        }
        if !changed {
            return (s, why);
        }
    }
}
