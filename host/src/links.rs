//! The links among the parties: one connection for each sender and receiver, opened by the sender
//! with the link's token, and the mailbox that what arrives is put into.

use std::io::{Error, ErrorKind, Result};
use std::net::{Ipv4Addr, SocketAddr, TcpListener, TcpStream};
use std::sync::{Arc, Condvar, Mutex, MutexGuard, PoisonError};
use std::thread;
use std::time::{Duration, Instant};

use cipangohu::entries;

use crate::wire::{self, Hello, Token, EXCHANGES};

/// How long anything but an exchange may take before it counts as failed.
pub const PATIENCE: Duration = Duration::from_secs(10);

/// Listens on a free port of the loopback.
pub fn listen() -> Result<(TcpListener, u16)> {
    let listener = TcpListener::bind((Ipv4Addr::LOCALHOST, 0))?;
    let port = listener.local_addr()?.port();
    Ok((listener, port))
}

/// Connects and says hello.
pub fn connect(port: u16, hello: &Hello) -> Result<TcpStream> {
    let address = SocketAddr::from((Ipv4Addr::LOCALHOST, port));
    let mut stream = TcpStream::connect_timeout(&address, PATIENCE)?;
    stream.set_nodelay(true)?;
    stream.set_write_timeout(Some(PATIENCE))?;
    wire::write_hello(&mut stream, hello)?;
    Ok(stream)
}

/// The packets of an outbox by receiver.
pub fn packets_in(outbox: &[u8]) -> Vec<Vec<u8>> {
    let packets = entries(outbox).into_iter().flatten();
    packets.map(<[u8]>::to_vec).collect()
}

/// What arrived in an exchange, by sender.
type Arrived = Vec<Option<Vec<u8>>>;

/// What arrived, by exchange and sender. The first frame of each counts.
pub struct Mailbox {
    packets: Mutex<[Arrived; EXCHANGES]>,
    arrived: Condvar,
}

impl Mailbox {
    pub fn new(parties: usize) -> Mailbox {
        Mailbox {
            packets: Mutex::new(std::array::from_fn(|_| vec![None; parties])),
            arrived: Condvar::new(),
        }
    }

    fn lock(&self) -> MutexGuard<'_, [Arrived; EXCHANGES]> {
        self.packets.lock().unwrap_or_else(PoisonError::into_inner)
    }

    fn deliver(&self, exchange: usize, sender: usize, packet: Vec<u8>) {
        let mut packets = self.lock();
        if let Some(entry) = packets[exchange].get_mut(sender - 1) {
            entry.get_or_insert(packet);
        }
        self.arrived.notify_all();
    }

    /// The packets of an exchange in the senders' order, as soon as all others have sent or the
    /// time is up. Who sent nothing by then has sent no bytes.
    pub fn collect(&self, exchange: usize, own: usize, end: Instant) -> Vec<Vec<u8>> {
        self.wait(exchange, end, |sender| sender != own)
    }

    /// The packet of one sender in an exchange, as soon as it is there or the time is up.
    pub fn hear(&self, exchange: usize, from: usize, end: Instant) -> Vec<u8> {
        let mut packets = self.wait(exchange, end, |sender| sender == from);
        packets.swap_remove(from - 1)
    }

    /// The packets of an exchange once all senders that are awaited have sent, or the time is up.
    fn wait(&self, exchange: usize, end: Instant, awaited: impl Fn(usize) -> bool) -> Vec<Vec<u8>> {
        let mut packets = self.lock();
        loop {
            let mut senders = (1..).zip(&packets[exchange]);
            let left = end.saturating_duration_since(Instant::now());
            let complete = senders.all(|(sender, packet)| !awaited(sender) || packet.is_some());
            if complete || left.is_zero() {
                return packets[exchange]
                    .iter()
                    .map(|packet| packet.clone().unwrap_or_default())
                    .collect();
            }
            let waited = self.arrived.wait_timeout(packets, left);
            packets = waited.unwrap_or_else(PoisonError::into_inner).0;
        }
    }
}

/// Who may speak under which number: who knows the link's token.
pub struct Door {
    /// By sender from 1.
    pub tokens: Vec<Token>,
    /// Breaks the duty: a number is believed without its token.
    pub open: bool,
}

impl Door {
    fn admits(&self, hello: &Hello) -> bool {
        let token = self.tokens.get(hello.sender.wrapping_sub(1));
        token.is_some_and(|token| self.open || *token == hello.token)
    }
}

/// Takes in, in threads of its own, what others send to this party.
pub fn receive(listener: TcpListener, door: Door, mailbox: Arc<Mailbox>) {
    let door = Arc::new(door);
    thread::spawn(move || {
        for stream in listener.incoming().flatten() {
            let (door, mailbox) = (Arc::clone(&door), Arc::clone(&mailbox));
            thread::spawn(move || listen_to(stream, &door, &mailbox));
        }
    });
}

fn listen_to(mut stream: TcpStream, door: &Door, mailbox: &Mailbox) -> Result<()> {
    let hello = wire::read_hello(&mut stream)?;
    if !door.admits(&hello) {
        return Err(Error::from(ErrorKind::PermissionDenied));
    }
    loop {
        let frame = wire::read_frame(&mut stream)?;
        mailbox.deliver(frame.round, hello.sender, frame.body);
    }
}

/// This party's own links to the others, by number from 1; none to itself, nor to a party that
/// cannot be reached.
pub struct Links {
    pub own: usize,
    pub mailbox: Arc<Mailbox>,
    pub streams: Vec<Option<TcpStream>>,
}

impl Links {
    /// Sends each other party its packet. A link that fails is the receiver's loss: it may be a
    /// liar that has gone away.
    pub fn send(&mut self, exchange: usize, packets: &[Vec<u8>]) {
        for (place, packet) in packets.iter().enumerate() {
            self.send_to(place, exchange, packet);
        }
    }

    /// Sends a packet to the party at a place from 0.
    pub fn send_to(&mut self, place: usize, exchange: usize, packet: &[u8]) {
        if let Some(Some(stream)) = self.streams.get_mut(place) {
            wire::write_frame(stream, exchange, packet).ok();
        }
    }

    pub fn collect(&self, exchange: usize, end: Instant) -> Vec<Vec<u8>> {
        self.mailbox.collect(exchange, self.own, end)
    }

    pub fn hear(&self, exchange: usize, from: usize, end: Instant) -> Vec<u8> {
        self.mailbox.hear(exchange, from, end)
    }
}

#[cfg(test)]
mod tests {
    use super::*;

    #[test]
    fn the_first_frame_counts_and_the_missing_are_empty() {
        let mailbox = Mailbox::new(3);
        mailbox.deliver(0, 1, vec![1]);
        mailbox.deliver(0, 1, vec![2]);
        mailbox.deliver(1, 3, vec![3]);
        mailbox.deliver(0, 9, vec![4]);
        let now = Instant::now();
        assert_eq!(mailbox.collect(0, 2, now), [vec![1], vec![], vec![]]);
        assert_eq!(mailbox.collect(1, 2, now), [vec![], vec![], vec![3]]);
        mailbox.deliver(0, 3, vec![]);
        let late = now + PATIENCE;
        assert_eq!(mailbox.collect(0, 2, late), [vec![1], vec![], vec![]]);
        assert!(Instant::now() < late);
    }

    #[test]
    fn one_sender_is_awaited_alone() {
        let mailbox = Mailbox::new(3);
        mailbox.deliver(0, 1, vec![1]);
        mailbox.deliver(0, 3, vec![3]);
        let now = Instant::now();
        let late = now + PATIENCE;
        assert_eq!(mailbox.hear(0, 3, late), [3]);
        assert!(Instant::now() < late);
        assert_eq!(mailbox.hear(0, 2, now), []);
        assert_eq!(mailbox.hear(1, 3, now), []);
    }

    #[test]
    fn a_number_is_believed_with_its_token_only() {
        let hello = |sender, byte| Hello {
            sender,
            token: [byte; 16],
        };
        let mut door = Door {
            tokens: vec![[1; 16], [2; 16]],
            open: false,
        };
        assert!(door.admits(&hello(1, 1)) && door.admits(&hello(2, 2)));
        assert!(
            !door.admits(&hello(1, 2)) && !door.admits(&hello(0, 1)) && !door.admits(&hello(3, 1))
        );
        door.open = true;
        assert!(
            door.admits(&hello(1, 2)) && !door.admits(&hello(0, 1)) && !door.admits(&hello(3, 1))
        );
    }
}
