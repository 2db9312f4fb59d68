//! Observes each buffer operation and holds it against 01's rule (`observe::rule`).
//! The build renames the operations of command.rs to `unobserved_*`; these stand in their place.

use super::{Command, CommandBuffer};
use crate::timestamp::{Timestamp, Timestamped};
use observe::{
    rule::{self, Entry},
    Deviation, Handle,
};
use std::{any::Any, cmp::Reverse};

impl Command for Handle {}

/// The handle inside a command or snapshot of the logging world.
pub(crate) fn handle_of<T: 'static>(value: &T) -> Handle {
    *(value as &dyn Any)
        .downcast_ref::<Handle>()
        .expect("the logging world's commands and snapshots are handles")
}

fn number(timestamp: Timestamp) -> i16 {
    i16::from(timestamp)
}

fn stamps<C>(entries: &[Entry<C>]) -> Vec<i16> {
    entries.iter().map(|(stamp, _)| *stamp).collect()
}

/// Whether two lists of entries have the same stamps and handles in the same order.
fn same<C: Command>(left: &[Entry<C>], right: &[Entry<C>]) -> bool {
    left.len() == right.len()
        && left
            .iter()
            .zip(right)
            .all(|(a, b)| a.0 == b.0 && handle_of(&a.1) == handle_of(&b.1))
}

/// Whether a drain returned the commands of these entries in this order.
fn same_commands<C: Command>(commands: &[C], entries: &[Entry<C>]) -> bool {
    commands.len() == entries.len()
        && commands
            .iter()
            .zip(entries)
            .all(|(a, b)| handle_of(a) == handle_of(&b.1))
}

impl<CommandType: Command> CommandBuffer<CommandType> {
    pub(crate) fn address(&self) -> usize {
        self as *const Self as usize
    }

    /// The entries, oldest first.
    pub(crate) fn entries(&self) -> Vec<Entry<CommandType>> {
        let mut entries = Vec::new();
        for (timestamp, commands) in self.iter() {
            for command in commands {
                entries.push((number(timestamp), command.clone()));
            }
        }
        entries
    }

    /// The number of commands (`len` counts the stamps that have some).
    pub(crate) fn command_count(&self) -> usize {
        self.map.values().map(Vec::len).sum()
    }

    /// Lays the map out anew from a list of entries.
    fn replace(&mut self, entries: &[Entry<CommandType>]) {
        self.map.clear();
        for (stamp, command) in entries {
            self.map
                .entry(Reverse(Timestamp::default() + *stamp))
                .or_default()
                .push(command.clone());
        }
    }

    /// Holds the buffer and a drain's result against the rule; goes on by the rule where they
    /// differ. Returns whether they agreed.
    fn settle(
        &mut self,
        operation: &'static str,
        argument: i16,
        before: &[Entry<CommandType>],
        rule_left: &[Entry<CommandType>],
        drained: Option<(&[CommandType], &[Entry<CommandType>])>,
    ) -> bool {
        let now = self.entries();
        let agrees = same(&now, rule_left)
            && drained.map_or(true, |(commands, taken)| same_commands(commands, taken));
        if !agrees {
            observe::deviated(Deviation {
                operation,
                argument,
                before: stamps(before),
                rust: stamps(&now),
                rule: stamps(rule_left),
            });
            self.replace(rule_left);
        }
        agrees
    }

    pub fn update_timestamp(&mut self, timestamp: Timestamp) {
        if self.map.is_empty() {
            return self.unobserved_update_timestamp(timestamp);
        }
        let before = self.entries();
        let (kept, dropped) = rule::moved(&before, number(timestamp));
        self.unobserved_update_timestamp(timestamp);
        self.settle("move", number(timestamp), &before, &kept, None);
        observe::left_out(self.address(), dropped.len());
    }

    pub fn insert(&mut self, command: &Timestamped<CommandType>) {
        let before = self.entries();
        let stamp = number(command.timestamp());
        let (after, taken) =
            rule::inserted(&before, number(self.timestamp), stamp, command.inner());
        self.unobserved_insert(command);
        self.settle("insert", stamp, &before, &after, None);
        if taken {
            observe::taken(self.address());
        }
    }

    pub fn drain_up_to(&mut self, newest_timestamp_to_drain: Timestamp) -> Vec<CommandType> {
        if self.map.is_empty() {
            return self.unobserved_drain_up_to(newest_timestamp_to_drain);
        }
        let newest = number(newest_timestamp_to_drain);
        let before = self.entries();
        let (taken, left) = rule::drained(&before, newest);
        let commands = self.unobserved_drain_up_to(newest_timestamp_to_drain);
        self.settle_drain("drain", newest, &before, &left, commands, taken)
    }

    pub fn drain_all(&mut self) -> Vec<CommandType> {
        let before = self.entries();
        let commands = self.unobserved_drain_all();
        let midpoint = number(self.timestamp);
        self.settle_drain(
            "drain all",
            midpoint,
            &before,
            &[],
            commands,
            before.clone(),
        )
    }

    fn settle_drain(
        &mut self,
        operation: &'static str,
        argument: i16,
        before: &[Entry<CommandType>],
        left: &[Entry<CommandType>],
        commands: Vec<CommandType>,
        taken: Vec<Entry<CommandType>>,
    ) -> Vec<CommandType> {
        if self.settle(operation, argument, before, left, Some((&commands, &taken))) {
            commands
        } else {
            taken.into_iter().map(|(_, command)| command).collect()
        }
    }
}
