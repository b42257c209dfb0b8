//! A walk by several threads: its parts are walked by whoever is free, and joined to the table of one walk.

use super::join::{WalkedPart, joined};
use super::parts::{Part, Parts};
use super::progress::Progress;
use crate::order::Order;
use gyroid_cells::{Bounds, Refusal, SLOT, walk as walk_part};
use std::sync::atomic::{AtomicUsize, Ordering};
use std::sync::mpsc::{self, Sender};
use std::thread;

/// The most slots that a walk can want: 2^24 cells and the head.
const MOST_SLOTS: usize = (1 << 24) + 1;

/// A part that is to be walked, and its place among all parts.
struct Task {
    place: usize,
    bounds: Bounds,
    depth: u8,
}

fn task((place, part): (usize, &Part)) -> Option<Task> {
    match *part {
        Part::Unwalked { bounds, depth } => Some(Task { place, bounds, depth }),
        Part::Cell(_) => None,
    }
}

/// The table of an order, with a slot for every cell and none more: the bytes that one call of the library leaves in a
/// table of this length.
pub fn walk(order: &Order, threads: usize, progress: &mut Progress) -> Result<Vec<u8>, Refusal> {
    let Parts { parts, halved } = Parts::of(order, threads)?;
    let tasks: Vec<Task> = parts.iter().enumerate().filter_map(task).collect();
    let mut walked: Vec<WalkedPart> = parts.iter().map(WalkedPart::of).collect();
    progress.start(tasks.iter().filter_map(|task| task.bounds.volume()).sum());
    let next = AtomicUsize::new(0);
    thread::scope(|scope| {
        let (sender, receiver) = mpsc::channel();
        for _ in 0..threads.min(tasks.len()) {
            let (sender, tasks, next) = (sender.clone(), &tasks, &next);
            scope.spawn(move || work(order, tasks, next, &sender));
        }
        drop(sender);
        for (place, part) in receiver {
            walked[place] = part?;
            progress.more(&walked[place]);
        }
        Ok::<(), Refusal>(())
    })?;
    progress.end();
    Ok(joined(&walked, halved, threads))
}

/// Walks the next part that nobody has taken, until there is none.
fn work(order: &Order, tasks: &[Task], next: &AtomicUsize, sender: &Sender<(usize, Result<WalkedPart, Refusal>)>) {
    let mut lent = vec![0; 1024 * SLOT];
    while let Some(task) = tasks.get(next.fetch_add(1, Ordering::Relaxed)) {
        // Nobody listens any more where another part was refused.
        if sender.send((task.place, walked(order, task, &mut lent))).is_err() {
            return;
        }
    }
}

/// Walks a part, in a table that grows until its cells fit.
fn walked(order: &Order, task: &Task, lent: &mut Vec<u8>) -> Result<WalkedPart, Refusal> {
    let left = order.depth - i64::from(task.depth);
    loop {
        let head = walk_part(&order.description, task.bounds, left, order.rule, lent).map(|table| table.head());
        match head {
            Ok(head) => {
                let records = &lent[SLOT..][..head.cells as usize * SLOT];
                return Ok(WalkedPart::new(head, task.depth, records));
            }
            Err(refusal) if refusal.number() == 13 && lent.len() < MOST_SLOTS * SLOT => {
                lent.resize((4 * lent.len()).min(MOST_SLOTS * SLOT), 0);
            }
            Err(refusal) => return Err(refusal),
        }
    }
}
