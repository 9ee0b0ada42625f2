//! Transactions that take one item out of a queue, or the least element out of a priority queue, and put one in, by how much it holds.
//! Into a priority queue they put that element back, or a later one, as a queue of events does.
use crate::clock::seconds_since;
use crate::form::Form;
use seq_model::{Counts, QueueItems, Refusal};
use std::alloc::Global;
use std::io;
use std::rt::Runtime;
use std::time::Instant;
use wolimevar::{Body, Layout, PriorityQueue, Queue, Scope, Store, Transaction};

/// How many transactions each row makes, one after another.
const TRANSACTIONS: u32 = 20_000;

/// How many a row makes whose collection is empty after each dequeue, or each take of its least.
const EMPTYING: u32 = 1_000_000;

/// The columns of a row: what is put in is `it`, what was taken out, or `later`, an element that is later.
pub const COLUMNS: &str = "on,put,stripes,holds,microseconds,opened_ms,closed_ms";

/// What a transaction takes from and puts into.
#[derive(Clone, Copy)]
enum Turn {
    Queue(Queue),
    /// The least element comes back.
    Least(PriorityQueue),
    /// In its place comes one that is later by up to so much.
    Later(PriorityQueue, u64),
}

/// What element comes in place of this one, which is later by up to so much: scattered, and the same in each run.
fn later(element: u64, by: u64) -> u64 {
    let step = element.wrapping_mul(11_400_714_819_323_198_485) >> 20;
    element.wrapping_add(step % by.max(1)).wrapping_add(1)
}

impl Body<u64> for Turn {
    type Out = ();

    type Error = Refusal;

    fn run<S: Scope<u64>>(&self, tx: &mut Transaction<'_, u64, S>) -> Result<(), Refusal> {
        match self {
            Turn::Queue(queue) => {
                let item = queue.dequeue(tx)?;
                queue.enqueue(tx, item.unwrap_or(0))??;
            }
            Turn::Least(queue) => {
                let element = queue.take_least(tx)?;
                queue.insert(tx, element.unwrap_or(0))??;
            }
            Turn::Later(queue, by) => {
                let element = queue.take_least(tx)?;
                queue.insert(tx, later(element.unwrap_or(0), *by))??;
            }
        }
        Ok(())
    }
}

/// Prints what a transaction takes on 1,000 to 1,000,000 items or elements, then on 1,024 elements in 16 to 1,024 stripes, then where one
/// item or element goes round a million times; and how long the store took to open and to close.
pub fn measure(rt: &(impl Runtime + AllocGlobal), form: Form) -> io::Result<()> {
    for items in [1_000, 10_000, 100_000, 1_000_000] {
        report_queue(rt, form, items, TRANSACTIONS)?;
    }
    for elements in [1_000, 10_000, 100_000, 1_000_000] {
        report_priority_queue(rt, form, 1, elements, false)?;
    }
    for elements in [1_000, 10_000, 100_000, 1_000_000] {
        report_priority_queue(rt, form, 1, elements, true)?;
    }
    for stripes in [16, 256, 1_024] {
        report_priority_queue(rt, form, stripes, 1_024, false)?;
    }
    report_queue(rt, form, 1, EMPTYING)?;
    report_one_element(rt, form)
}

fn report_queue(
    rt: &(impl Runtime + AllocGlobal),
    form: Form,
    items: u64,
    transactions: u32,
) -> io::Result<()> {
    let (layout, turn) = queue_of(rt.alloc(), items).map_err(refused)?;
    let (opened, turned, closed) = timed(rt, layout, turn, transactions)?;
    match form {
        Form::Sentences => {
            println!(rt;
                "a queue of {items}: {turned:.1} microseconds a transaction, opened in {opened:.2} ms, closed in {closed:.2} ms"
            )
        }
        Form::Csv => { println!(rt; "queue,it,1,{items},{turned:.1},{opened:.2},{closed:.2}") }
    }
}

fn report_one_element(rt: &(impl Runtime + AllocGlobal), form: Form) -> io::Result<()> {
    let (layout, queue) = priority_queue_of(rt.alloc(), 1, 1).map_err(refused)?;
    let (opened, turned, closed) = timed(rt, layout, Turn::Later(queue, 1_000), EMPTYING)?;
    match form {
        Form::Sentences => {
            println!(rt;
                "a priority queue of 1, a later one put in: {turned:.1} microseconds a transaction"
            )
        }
        Form::Csv => {
            println!(rt; "priority queue,later,1,1,{turned:.1},{opened:.2},{closed:.2}")
        }
    }
}

fn report_priority_queue(
    rt: &(impl Runtime + AllocGlobal),
    form: Form,
    stripes: u32,
    elements: u64,
    later: bool,
) -> io::Result<()> {
    let (layout, queue) = priority_queue_of(rt.alloc(), stripes, elements).map_err(refused)?;
    let (turn, put, column) = if later {
        (
            Turn::Later(queue, elements),
            ", a later one put in",
            "later",
        )
    } else {
        (Turn::Least(queue), "", "it")
    };
    let (opened, turned, closed) = timed(rt, layout, turn, TRANSACTIONS)?;
    match form {
        Form::Sentences => {
            println!(rt;
                "a priority queue of {elements}, stripes {stripes}{put}: {turned:.1} microseconds a transaction, opened in {opened:.2} ms, closed in {closed:.2} ms"
            )
        }
        Form::Csv => {
            println!(rt;
                "priority queue,{column},{stripes},{elements},{turned:.1},{opened:.2},{closed:.2}"
            )
        }
    }
}

fn refused(_refusal: Refusal) -> io::Error {
    io::Error::other("what the calls are made on can't be opened")
}

fn queue_of(alloc: Global, items: u64) -> Result<(Layout<u64>, Turn), Refusal> {
    let mut held = QueueItems::new(alloc);
    for item in 0..items {
        held.push(item)?;
    }
    let mut layout = Layout::new(alloc);
    let queue = layout.queue(1, held)?;
    Ok((layout, Turn::Queue(queue)))
}

fn priority_queue_of(
    alloc: Global,
    stripes: u32,
    elements: u64,
) -> Result<(Layout<u64>, PriorityQueue), Refusal> {
    let mut held = Counts::new(alloc);
    for element in 0..elements {
        held.set_copies(element, 1)?;
    }
    let mut layout = Layout::new(alloc);
    let queue = layout.priority_queue(stripes, held)?;
    Ok((layout, queue))
}

/// The milliseconds in which the store opens, the microseconds of one of so many transactions, and the milliseconds in which it closes.
fn timed(
    rt: &(impl Runtime + AllocGlobal),
    layout: Layout<u64>,
    turn: Turn,
    transactions: u32,
) -> io::Result<(f64, f64, f64)> {
    let start = Instant::now(rt);
    let mut store = layout.open().map_err(refused)?;
    let opened = seconds_since(rt, start)?;
    let start = Instant::now(rt);
    let ended = turn_all(&mut store, turn, transactions);
    let turned = seconds_since(rt, start)?;
    let start = Instant::now(rt);
    close(store).map_err(refused)?;
    let closed = seconds_since(rt, start)?;
    ended.map_err(refused)?;
    let microseconds = turned * 1e6 / f64::from(transactions);
    Ok((opened * 1e3, microseconds, closed * 1e3))
}

fn turn_all(store: &mut Store<u64>, turn: Turn, transactions: u32) -> Result<(), Refusal> {
    for _ in 0..transactions {
        let _ = store.atomically(1, &turn)?;
    }
    Ok(())
}

fn close(store: Store<u64>) -> Result<(), Refusal> {
    let contents = store.close()?;
    drop(contents);
    Ok(())
}
