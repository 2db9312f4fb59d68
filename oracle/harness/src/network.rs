//! A network of one connection that hands over the messages of one inbox and notes whether a
//! clock request goes out.

use crate::{inbox::Message, world::LoggingWorld};
use crystalorb::{
    clocksync::ClockSyncMessage,
    network_resource::{Connection, ConnectionHandleType, NetworkResource},
    timestamp::{Timestamp, Timestamped},
};
use observe::Handle;
use std::{any::TypeId, collections::VecDeque, fmt::Debug};

#[derive(Default)]
pub struct Network {
    clocks: VecDeque<ClockSyncMessage>,
    commands: VecDeque<Timestamped<Handle>>,
    snapshots: VecDeque<Timestamped<Handle>>,
    pub clock_request: bool,
}

fn stamped(handle: u32, stamp: i16) -> Timestamped<Handle> {
    Timestamped::new(Handle(handle), Timestamp::default() + stamp)
}

impl Network {
    pub fn new(messages: &[Message]) -> Self {
        let mut network = Self::default();
        for message in messages {
            match *message {
                Message::Command { stamp, handle } => {
                    network.commands.push_back(stamped(handle, stamp));
                }
                Message::Snapshot { stamp, handle } => {
                    network.snapshots.push_back(stamped(handle, stamp));
                }
                Message::Clock { id, send, server } => {
                    network.clocks.push_back(ClockSyncMessage {
                        client_send_seconds_since_startup: send,
                        server_seconds_since_startup: server,
                        client_id: id as usize,
                    });
                }
            }
        }
        network
    }
}

pub struct Link<'a>(&'a mut Network);

impl NetworkResource<LoggingWorld> for Network {
    type ConnectionType<'a> = Link<'a>;

    fn connections<'a>(
        &'a mut self,
    ) -> Box<dyn Iterator<Item = (ConnectionHandleType, Link<'a>)> + 'a> {
        Box::new(std::iter::once((0, Link(self))))
    }

    fn get_connection(&mut self, handle: ConnectionHandleType) -> Option<Link<'_>> {
        (handle == 0).then_some(Link(self))
    }
}

impl Connection<LoggingWorld> for Link<'_> {
    fn recv_command(&mut self) -> Option<Timestamped<Handle>> {
        self.0.commands.pop_front()
    }

    fn recv_snapshot(&mut self) -> Option<Timestamped<Handle>> {
        self.0.snapshots.pop_front()
    }

    fn recv_clock_sync(&mut self) -> Option<ClockSyncMessage> {
        self.0.clocks.pop_front()
    }

    fn send<MessageType>(&mut self, _message: MessageType) -> Option<MessageType>
    where
        MessageType: Debug + Clone + Send + Sync + 'static,
    {
        if TypeId::of::<MessageType>() == TypeId::of::<ClockSyncMessage>() {
            self.0.clock_request = true;
        }
        None
    }

    fn flush<MessageType>(&mut self)
    where
        MessageType: Debug + Clone + Send + Sync + 'static,
    {
    }
}
