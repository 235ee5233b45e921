//! Two tenants have a heap each. Twice the first one fills its heap and is reset. The second one keeps its list.
use partmem::{Boxed, Client, Config, Error, Heap, Machine};

/// A node of a linked list in a heap: it holds the address of the next node.
struct Node<'h> {
    number: u64,
    next: Option<Boxed<'h, Node<'h>>>,
}

/// Makes a list of `most` numbers, or of as many as the heap has memory for. Returns the list and its length.
fn push<'h>(heap: &'h Heap<'h>, most: u64) -> (Option<Boxed<'h, Node<'h>>>, u64) {
    let mut list = None;
    for number in 0..most {
        let next = &mut list;
        match heap.boxed_with(|| Node { number, next: next.take() }) {
            Ok(node) => list = Some(node),
            Err(_) => return (list, number),
        }
    }
    (list, most)
}

/// Drops a list from its beginning on, without recursion. Returns the sum of its numbers.
fn clear<'h>(mut list: Option<Boxed<'h, Node<'h>>>) -> u64 {
    let mut sum = 0;
    while let Some(node) = list {
        let Node { number, next } = Boxed::into_inner(node);
        sum += number;
        list = next;
    }
    sum
}

/// Fills a client's heap with a list, and leaks the list. Returns its length.
fn exhaust(client: &Client<'_>) -> Result<u64, Error> {
    let heap = client.heap()?;
    let (list, length) = push(&heap, u64::MAX);
    std::mem::forget(list);
    Ok(length)
}

fn main() -> Result<(), Error> {
    let mut machine = Machine::boot(Config { order: 4, superblocks: 8, tenants: 2 })?;
    let (administrator, mut clients) = machine.split();
    let (mut first, second) = (clients.next().unwrap(), clients.next().unwrap());
    for _ in 0..4 {
        administrator.grant(first.number())?;
        administrator.grant(second.number())?;
    }
    let heap = second.heap()?;
    let (kept, length) = push(&heap, 1000);
    for _ in 0..2 {
        println!("the first tenant has memory for {} nodes", exhaust(&first)?);
        administrator.reset(&mut first)?;
        for _ in 0..4 {
            administrator.grant(first.number())?;
        }
    }
    println!("the second still has its {length}, with the sum {}", clear(kept));
    Ok(())
}
