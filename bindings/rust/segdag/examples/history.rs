//! A small history: two commits on top of one, stored, and asked: `cargo run --example history -- LOG`, of a new log.
use segdag::{Id, OpenOptions};
use std::env;
use std::thread;

fn main() -> Result<(), Box<dyn std::error::Error>> {
    let path = env::args()
        .nth(1)
        .unwrap_or_else(|| "example.log".to_string());
    let store = OpenOptions::new().create(true).open(&path)?;
    let session = store.session(0)?;
    let [first, second, third] = [1, 2, 3].map(|byte| Id::from([byte; 20]));
    session.add(&first, &[])?;
    session.add(&second, &[first])?;
    session.add(&third, &[first])?;
    println!("{:?}", session.flush(&[second])?);
    println!("merge bases: {:?}", session.merge_bases(&second, &third)?);
    for id in session.query("all")? {
        println!("{id} is {}", session.number(&id)?);
    }
    if let Err(refused) = session.add(&Id::from([9; 20]), &[Id::from([8; 20])]) {
        println!("refused: {refused}");
    }
    let is = thread::scope(|threads| {
        threads
            .spawn(|| {
                store
                    .session(1)?
                    .reload()
                    .and_then(|_| store.session(1)?.is_ancestor(&first, &third))
            })
            .join()
    });
    println!(
        "the first is an ancestor of the third: {}",
        is.expect("the thread ends")?
    );
    Ok(())
}
