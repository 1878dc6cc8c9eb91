//! Commits by one thread, by what they survive.
use super::Size;
use super::durable::{due, ours, theirs};
use crate::figures::{Figures, Line, Unit};
use crate::room::Room;
use crate::timing::{least, way};
use narthexmace::SyncMode;

pub const NAME: &str = "syncs";

pub fn run(size: &Size) -> Figures {
    let room = Room::new();
    let syncs = [
        ("full", "the machine", SyncMode::Full, "FULL"),
        ("normal", "the process", SyncMode::Normal, "NORMAL"),
        ("off", "neither", SyncMode::Off, "OFF"),
    ];
    let lines = syncs.map(|(word, ends, sync, synchronous)| {
        let rows = if sync == SyncMode::Full { size.durable } else { 10 * size.durable };
        let ways = vec![
            way(rows, due(rows), || ours(&room.empty("ours"), sync, 1, rows).turn),
            way(rows, due(rows), || theirs(&room.empty("theirs"), synchronous, 1, rows)),
        ];
        Line::new(&[&word, &ends], least(NAME, size.rounds, ways))
    });
    Figures {
        name: NAME,
        question: "how long does a commit of one row take, by its sync?".to_string(),
        unit: Unit::Time,
        heads: &["sync", "survives the end of"],
        ways: &["ours", "SQLite in a file"],
        lines: lines.into(),
    }
}
