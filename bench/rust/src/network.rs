//! A network of one connection that reads messages straight from the words of an inbox. Nothing is
//! decoded ahead and nothing is allocated but what the trait asks for (a boxed iterator).

use crate::world::{Handle, TapeWorld};
use crystalorb::{
    clocksync::ClockSyncMessage,
    network_resource::{Connection, ConnectionHandleType, NetworkResource},
    timestamp::{Timestamp, Timestamped},
};
use std::fmt::Debug;

/// The words of an inbox, and the place that each kind of message has been read up to.
pub struct Inbox<'a> {
    words: &'a [u32],
    commands: usize,
    snapshots: usize,
    clocks: usize,
}

impl<'a> Inbox<'a> {
    pub fn new(words: &'a [u32]) -> Self {
        Self {
            words,
            commands: 0,
            snapshots: 0,
            clocks: 0,
        }
    }
}

/// The next message of a kind from a place on, its words, and the place moved past it.
fn next<'a>(words: &'a [u32], at: &mut usize, kind: u32) -> Option<&'a [u32]> {
    while let Some(head) = words.get(*at) {
        let found = head >> 28;
        let from = *at;
        *at += if found == 3 { 7 } else { 2 };
        if found == kind {
            return Some(&words[from..*at]);
        }
    }
    None
}

fn stamped(message: &[u32]) -> Timestamped<Handle> {
    Timestamped::new(
        Handle(message[1] & 0x00ff_ffff),
        Timestamp::default() + message[0] as u16 as i16,
    )
}

/// A float of 8, 28 and 28 bits.
fn float(words: &[u32]) -> f64 {
    let part = |word: u32| u64::from(word & 0x0fff_ffff);
    f64::from_bits(part(words[0]) << 56 | part(words[1]) << 28 | part(words[2]))
}

pub struct Link<'a, 'b>(&'a mut Inbox<'b>);

impl<'b> NetworkResource<TapeWorld> for Inbox<'b> {
    type ConnectionType<'a>
        = Link<'a, 'b>
    where
        Self: 'a;

    fn connections<'a>(
        &'a mut self,
    ) -> Box<dyn Iterator<Item = (ConnectionHandleType, Link<'a, 'b>)> + 'a> {
        Box::new(std::iter::once((0, Link(self))))
    }

    fn get_connection(&mut self, handle: ConnectionHandleType) -> Option<Link<'_, 'b>> {
        (handle == 0).then_some(Link(self))
    }
}

impl Connection<TapeWorld> for Link<'_, '_> {
    fn recv_command(&mut self) -> Option<Timestamped<Handle>> {
        next(self.0.words, &mut self.0.commands, 1).map(stamped)
    }

    fn recv_snapshot(&mut self) -> Option<Timestamped<Handle>> {
        next(self.0.words, &mut self.0.snapshots, 2).map(stamped)
    }

    fn recv_clock_sync(&mut self) -> Option<ClockSyncMessage> {
        next(self.0.words, &mut self.0.clocks, 3).map(|message| ClockSyncMessage {
            client_send_seconds_since_startup: float(&message[1..4]),
            server_seconds_since_startup: float(&message[4..7]),
            client_id: (message[0] & 0x0fff_ffff) as usize,
        })
    }

    fn send<MessageType>(&mut self, _message: MessageType) -> Option<MessageType>
    where
        MessageType: Debug + Clone + Send + Sync + 'static,
    {
        None
    }

    fn flush<MessageType>(&mut self)
    where
        MessageType: Debug + Clone + Send + Sync + 'static,
    {
    }
}
