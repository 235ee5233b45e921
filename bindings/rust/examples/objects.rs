//! Sessions are typed values in a client's cache. Taking an object writes a value to it. Dropping the object drops the value, and
//! gives the object back to the cache.
use partmem::{typed, Client, Config, Error, Machine};

struct Session<'k> {
    user: &'static str,
    hits: u32,
    before: Option<typed::Object<'k, Session<'k>>>,
}

impl Drop for Session<'_> {
    fn drop(&mut self) {
        println!("{} leaves after {} hits", self.user, self.hits);
    }
}

/// Takes an object for each number, from 0, until the client has no free frames. Returns how many objects it took.
fn fill(client: &Client<'_>) -> Result<usize, Error> {
    let numbers = client.cache_of::<u64>()?;
    let all: Vec<_> = (0..).map_while(|number| numbers.take(number).ok()).collect();
    assert!(all.iter().zip(0..).all(|(object, number)| **object == number));
    Ok(all.len())
}

fn main() -> Result<(), Error> {
    let mut machine = Machine::boot(Config { order: 3, superblocks: 2, tenants: 2 })?;
    let (administrator, mut clients) = machine.split();
    let (first, mut second) = (clients.next().unwrap(), clients.next().unwrap());
    administrator.grant(first.number())?;
    administrator.grant(second.number())?;

    let sessions = first.cache_of()?;
    let ada = sessions.take(Session { user: "ada", hits: 0, before: None })?;
    let mut bob = sessions.take(Session { user: "bob", hits: 0, before: Some(ada) })?;
    println!("the second client's frames have {} numbers", fill(&second)?);
    administrator.reset(&mut second)?;
    bob.hits += 2;
    println!("bob came behind {}", bob.before.as_ref().map_or("nobody", |session| session.user));
    Ok(())
}
