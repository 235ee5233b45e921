//! A server that keeps sessions as objects of its clients. Each client is a tenant. The machine and the handles are in one
//! struct.
use partmem::{Cache, Config, Error, Machine, Object, Place, Tenant};
use std::collections::HashMap;

struct Server {
    machine: Machine,
    caches: Vec<Cache>,
    sessions: HashMap<(Tenant, Place), Object>,
}

impl Server {
    fn new(clients: u32) -> Result<Server, Error> {
        let machine = Machine::boot(Config { order: 4, superblocks: 2 * clients, tenants: clients })?;
        let caches = (0..clients).map(|client| {
            machine.grant(Tenant(client))?;
            machine.make_cache(Tenant(client), 64, 8, b"\0")
        });
        Ok(Server { caches: caches.collect::<Result<_, _>>()?, machine, sessions: HashMap::new() })
    }

    /// Opens a session and returns its place, by which the client names the session.
    fn open(&mut self, client: Tenant, user: &str) -> Result<Place, Error> {
        let mut session = self.machine.take(&self.caches[client.0 as usize])?;
        let (place, bytes) = (session.place(), self.machine.lend_mut(&mut session)?);
        bytes.fill(0);
        bytes[8..][..user.len()].copy_from_slice(user.as_bytes());
        self.sessions.insert((client, place), session);
        Ok(place)
    }

    /// Counts a hit of the client's session at this place. Returns its hits and its user, or `None` if there is no such session.
    fn hit(&mut self, client: Tenant, place: Place) -> Option<(u64, String)> {
        let bytes = self.machine.lend_mut(self.sessions.get_mut(&(client, place))?).ok()?;
        let hits = u64::from_le_bytes(bytes[..8].try_into().ok()?) + 1;
        bytes[..8].copy_from_slice(&hits.to_le_bytes());
        Some((hits, String::from_utf8_lossy(&bytes[8..]).trim_end_matches('\0').into()))
    }

    fn close(&mut self, client: Tenant, place: Place) -> Result<(), Error> {
        self.sessions.remove(&(client, place)).map_or(Ok(()), |session| self.machine.give(session))
    }
}

fn main() -> Result<(), Error> {
    let (first, second) = (Tenant(0), Tenant(1));
    let mut server = Server::new(2)?;
    let (ada, bob) = (server.open(first, "ada")?, server.open(second, "bob")?);
    println!("ada at place {} of her client, bob at place {} of his: {:?}", ada.0, bob.0, server.hit(first, ada));
    println!("after a move to superblock {}: {:?}", server.machine.move_slot(first, 0)?.superblock, server.hit(first, ada));
    server.close(first, ada)?;
    println!("ada: {:?}, bob: {:?}", server.hit(first, ada), server.hit(second, bob));
    Ok(())
}
