//! A table, a transaction that moves five pieces from one row to another, and a scan.
use narthexmace::{Error, Options, Table, cells};

fn main() -> Result<(), Error> {
    let table = Table::open("id:int:key,name:text,qty:int\n10,Ann,7\n20,Bob,2\n", &Options::default())?;
    let mut txn = table.begin()?; // over the newest table
    txn.set([10], 2, 2)?; // column 2 of the row of key 10
    txn.set([20], 2, 7)?;
    txn.insert(cells![30, "Cid", 0])?;
    txn.commit()?; // or ErrorKind::Conflict, where another one changed these cells first
    let reader = table.begin()?;
    let batch = reader.batch(&[1, 2], ..)?; // two columns, all rows: numbers borrowed, texts copied
    for (name, qty) in batch.texts(0).unwrap().iter().zip(batch.ints(1).unwrap().iter()) {
        println!("{name} {qty}");
    }
    Ok(())
}
