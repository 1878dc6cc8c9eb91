//! The change feed: what each commit changed, followed by copies that see nothing else.
#[path = "fixtures/feed.rs"]
mod replay;
use narthexmace::{Cell, Change, Entry, Error, ErrorKind, Options, Table, Transaction, cells};
use replay::apply;
use std::path::{Path, PathBuf};
use std::sync::atomic::{AtomicBool, Ordering};
use std::sync::mpsc;
use std::time::{Duration, Instant};
use std::{fs, thread};

const LONG: Duration = Duration::from_secs(60);

type Rows = Vec<Vec<Cell>>;

fn rows_of(txn: &Transaction<'_>) -> Rows {
    (0..txn.rows()).map(|position| txn.row_at(position).unwrap().unwrap().into()).collect()
}

fn opened(options: &Options) -> Table {
    let newest = "id:int:key,name:text,ok:bool,qty:int\n10,Ann,false,1\n20,Bob,true,2\n30,Cid,true,3\n";
    Table::open(newest, options).unwrap()
}

/// Commits a set of one quantity, and answers the number.
fn set(table: &Table, qty: i64) -> u64 {
    let mut txn = table.begin().unwrap();
    txn.set([10], 3, qty).unwrap();
    txn.commit().unwrap()
}

/// Numbers from a seed (Knuth's multiplier and increment of 64 bits).
struct Draw(u64);

impl Draw {
    fn below(&mut self, end: u64) -> u64 {
        self.0 = self.0.wrapping_mul(6_364_136_223_846_793_005).wrapping_add(1_442_695_040_888_963_407);
        (self.0 >> 33) % end
    }
}

/// Some writes, drawn: those that are refused change nothing.
fn write(draw: &mut Draw, txn: &mut Transaction<'_>) {
    for _ in 0..draw.below(20) {
        let key = draw.below(60) as i64;
        let text = ["", "x", "é€𐍈"][draw.below(3) as usize].repeat([1, 90, 400][draw.below(3) as usize]);
        let _ = match draw.below(5) {
            0 | 1 => txn.insert(cells![key, &text, draw.below(2) == 1, draw.below(1000) as i64]),
            2 => txn.delete([key]),
            3 => txn.set([key], 1, &text),
            _ => txn.set([key], 2, draw.below(2) == 1),
        };
    }
}

/// Follows a table until it has seen what is committed when `is_over` is set, and answers the tables that it has made.
fn follow(table: &Table, mut rows: Rows, is_over: &AtomicBool) -> Vec<Rows> {
    let mut tables = vec![rows.clone()];
    loop {
        let last = is_over.load(Ordering::SeqCst);
        let seen = tables.len() as u64 - 1;
        match table.wait(seen, Duration::from_millis(5)) {
            Some(newest) => assert!(newest > seen, "a wait for what comes after {seen} ended at {newest}"),
            None if last => return tables,
            None => {}
        }
        for change in table.changes_after(seen) {
            let (number, layer) = change.unwrap();
            assert_eq!(tables.len() as u64, number);
            apply(&mut rows, &layer, 1);
            tables.push(rows.clone());
        }
    }
}

#[test]
fn drawn_histories_are_made_again_of_the_feed_alone() {
    for seed in 0..10 {
        let (mut draw, table, is_over) = (Draw(seed), opened(&Options::default()), AtomicBool::new(false));
        let mut tables = vec![rows_of(&table.begin().unwrap())];
        let first = tables[0].clone();
        let made = thread::scope(|threads| {
            let follows = threads.spawn(|| follow(&table, first, &is_over));
            for _ in 0..60 {
                let mut txn = table.begin().unwrap();
                write(&mut draw, &mut txn);
                let number = txn.commit().unwrap() as usize;
                let newest = rows_of(&table.begin().unwrap());
                if number == tables.len() {
                    tables.push(newest);
                }
                match draw.below(12) {
                    0 => table.fold().unwrap(),
                    1 => table.checkpoint_to(|_, _| Ok::<(), ()>(())).unwrap(),
                    _ => {}
                }
            }
            is_over.store(true, Ordering::SeqCst);
            follows.join().unwrap()
        });
        assert!(tables.len() > 40);
        assert_eq!(tables, made);
    }
}

#[test]
fn entries_say_what_they_change_and_where() {
    let table = opened(&Options::default());
    let long = "é".repeat(2048);
    let mut txn = table.begin().unwrap();
    txn.delete([10]).unwrap();
    txn.insert(cells![25, &long, true, -7]).unwrap();
    txn.set([30], 3, 9).unwrap();
    txn.set([30], 2, false).unwrap();
    txn.set([30], 1, &long).unwrap();
    txn.commit().unwrap();
    let layer = table.changes(1).unwrap().unwrap();
    assert_eq!((5, false), (layer.len(), layer.is_empty()));
    assert_eq!("Layer { entries: 5, .. }", format!("{layer:?}"));
    drop(table);
    let entries =
        thread::spawn(move || layer.entries().collect::<Result<Vec<Entry>, Error>>()).join().unwrap().unwrap();
    assert_eq!(Entry { sid: 0, rid: 0, change: Change::Delete(vec![Cell::Int(10)]) }, entries[0]);
    let Entry { sid: 2, rid: 1, change: Change::Insert(row) } = &entries[1] else { panic!("{:?}", entries[1]) };
    assert_eq!([Cell::Int(25), Cell::Text(long.clone()), Cell::Bool(true), Cell::Int(-7)], row[..]);
    let modify = |column, cell| Entry { sid: 2, rid: 2, change: Change::Modify { column, cell } };
    for wanted in [modify(1, Cell::Text(long)), modify(2, Cell::Bool(false)), modify(3, Cell::Int(9))] {
        assert!(entries[2..].contains(&wanted), "{wanted:?}");
    }
}

/// The numbers that the change feed gives after one, and what it ends with where it isn't the newest commit.
fn fed(table: &Table, after: u64) -> (Vec<u64>, Option<Error>) {
    let (mut numbers, mut changes) = (Vec::new(), table.changes_after(after));
    let end = loop {
        match changes.next() {
            Some(Ok((number, _))) => numbers.push(number),
            Some(Err(refused)) => break Some(refused),
            None => break None,
        }
    };
    assert!(changes.next().is_none() && changes.next().is_none());
    (numbers, end)
}

#[test]
fn a_gap_is_told_and_nothing_comes_after_it() {
    let table = opened(&Options { recent: 4, ..Options::default() });
    assert_eq!((vec![], None), fed(&table, 0));
    assert_eq!(10, (1..=10).map(|qty| set(&table, qty)).max().unwrap());
    let kept: Vec<bool> = (0..=11).map(|number| table.changes(number).unwrap().is_some()).collect();
    assert_eq!([[false; 7].as_slice(), &[true; 4], &[false]].concat(), kept);
    assert_eq!((vec![7, 8, 9, 10], None), fed(&table, 6));
    for gone in 0..=5 {
        assert_eq!((vec![], Some(ErrorKind::Missing.into())), fed(&table, gone));
    }
    assert_eq!((vec![10], None), fed(&table, 9));
    for newer in [10, 11, u64::MAX] {
        assert_eq!((vec![], None), fed(&table, newer));
    }
    table.trim();
    assert_eq!((vec![], Some(ErrorKind::Missing.into())), fed(&table, 9));
    assert_eq!((vec![], None), fed(&table, 10));
    set(&table, 0);
    assert_eq!((vec![11], None), fed(&table, 10));
}

#[test]
fn a_gap_that_comes_while_it_is_followed_is_told() {
    let table = opened(&Options::default());
    assert_eq!(5, (1..=5).map(|qty| set(&table, qty)).max().unwrap());
    let mut changes = table.changes_after(1);
    assert_eq!(2, changes.next().unwrap().unwrap().0);
    table.trim();
    assert_eq!(6, set(&table, 6));
    assert_eq!(Some(ErrorKind::Missing.into()), changes.next().unwrap().err());
    assert!(changes.next().is_none());
}

#[test]
fn what_is_committed_after_the_feed_was_asked_comes_the_next_time() {
    let table = opened(&Options::default());
    assert_eq!(2, (1..=2).map(|qty| set(&table, qty)).max().unwrap());
    let changes = table.changes_after(0);
    assert_eq!(3, set(&table, 3));
    let numbers: Vec<u64> = changes.map(|change| change.unwrap().0).collect();
    assert_eq!(vec![1, 2], numbers);
    assert_eq!((vec![3], None), fed(&table, 2));
}

#[test]
fn a_commit_of_nothing_is_no_part_of_the_feed() {
    let table = opened(&Options::default());
    assert_eq!(0, table.begin().unwrap().commit().unwrap());
    assert_eq!((None, None), (table.wait(0, Duration::ZERO), fed(&table, 0).1));
    assert_eq!(1, set(&table, 5));
    assert_eq!((vec![1], None), fed(&table, 0));
}

#[test]
fn a_wait_lasts_as_long_as_is_said() {
    let table = opened(&Options::default());
    for time in [Duration::from_millis(40), Duration::from_micros(1_900), Duration::ZERO] {
        let start = Instant::now();
        assert_eq!(None, table.wait(0, time));
        let lasted = start.elapsed();
        assert!(lasted >= time && lasted < time + LONG, "a wait of {time:?} ended after {lasted:?}");
    }
    let start = Instant::now();
    assert_eq!(1, set(&table, 5));
    assert_eq!((Some(1), Some(1)), (table.wait(0, LONG), table.wait(0, Duration::MAX)));
    assert!(start.elapsed() < LONG);
    assert_eq!(None, table.wait(1, Duration::from_millis(1)));
}

/// Where Linux tells what this thread does.
fn place_of_this_thread() -> PathBuf {
    Path::new("/proc").join(fs::read_link("/proc/thread-self").unwrap()).join("stat")
}

/// Looks until a thread sleeps, as in a wait, for so long at most.
fn sleeps(place: &Path) {
    let start = Instant::now();
    let is_asleep = || fs::read_to_string(place).is_ok_and(|told| told.contains(") S "));
    while !is_asleep() && start.elapsed() < LONG {
        thread::sleep(Duration::from_millis(1));
    }
}

#[test]
fn a_commit_wakes_all_that_wait_for_its_number() {
    let (start, table) = (Instant::now(), opened(&Options::default()));
    thread::scope(|threads| {
        let waits = [0, 1, 2].map(|after| {
            let (table, (tells, told)) = (&table, mpsc::channel());
            let wait = threads.spawn(move || {
                tells.send(place_of_this_thread()).unwrap();
                table.wait(after, 2 * LONG)
            });
            (after, told.recv().unwrap(), wait)
        });
        for (after, place, _) in &waits {
            sleeps(place);
            assert_eq!(after + 1, set(&table, *after as i64));
        }
        for (after, _, wait) in waits {
            let number = wait.join().unwrap();
            assert!(number.is_some_and(|number| number > after && number <= 3), "{after}: {number:?}");
        }
    });
    assert!(start.elapsed() < LONG); // none was told at its end alone
}
