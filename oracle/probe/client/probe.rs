//! Observes frames and shows the whole state of a client.

use super::{
    stage::StageOwned, ActiveClient, Client, ClientWorldSimulations, FastforwardingHealth,
    ReconciliationStatus,
};
use crate::{
    clocksync::ClockSyncer,
    command::{probe::handle_of, Command, CommandBuffer},
    timestamp::{Timestamp, Timestamped},
    world::{DisplayState, World},
};
use observe::{Handle, Shown, Side, Status};
use std::any::Any;

impl DisplayState for Shown {
    fn from_interpolation(_state1: &Self, _state2: &Self, t: f64) -> Self {
        Shown::Mix(t)
    }
}

/// A client's stage.
#[derive(Clone, Copy, Debug, PartialEq, Eq)]
pub enum StageName {
    SyncingClock,
    SyncingInitialState,
    Ready,
}

/// A command buffer: its midpoint and its entries, oldest first.
#[derive(Clone, Debug, PartialEq)]
pub struct BufferView {
    pub midpoint: i16,
    pub entries: Vec<(i16, Handle)>,
}

/// The state of a client's worlds.
#[derive(Clone, Debug, PartialEq)]
pub struct WorldsView {
    pub left_is_new: bool,
    pub sides: [BufferView; 2],
    pub initialised: [bool; 2],
    pub base: BufferView,
    pub queued: Option<(i16, Handle)>,
    pub last_queued: Option<i16>,
    pub last_received: Option<i16>,
    pub weight: f64,
    pub before: Option<i16>,
    pub after: Option<i16>,
    pub overshoot: f64,
    pub time: Option<f64>,
    pub status: Status,
}

impl WorldsView {
    pub fn old_stamp(&self) -> i16 {
        self.sides[usize::from(self.left_is_new)].midpoint
    }

    pub fn new_stamp(&self) -> i16 {
        self.sides[usize::from(!self.left_is_new)].midpoint
    }
}

/// The state of a client.
#[derive(Clone, Debug, PartialEq)]
pub struct View {
    pub stage: StageName,
    pub offset: Option<f64>,
    pub timer: f64,
    pub id: Option<usize>,
    pub samples: Vec<f64>,
    pub worlds: Option<WorldsView>,
}

fn status_of(status: &ReconciliationStatus) -> Status {
    match status {
        ReconciliationStatus::AwaitingSnapshot => Status::Awaiting,
        ReconciliationStatus::Blending(_) => Status::Blending,
        ReconciliationStatus::Fastforwarding(FastforwardingHealth::Healthy) => Status::Healthy,
        ReconciliationStatus::Fastforwarding(FastforwardingHealth::Obsolete) => Status::Obsolete,
        ReconciliationStatus::Fastforwarding(FastforwardingHealth::Overshot) => Status::Overshot,
    }
}

fn buffer_view<C: Command>(buffer: &CommandBuffer<C>) -> BufferView {
    BufferView {
        midpoint: buffer.timestamp().into(),
        entries: buffer
            .entries()
            .iter()
            .map(|(stamp, command)| (*stamp, handle_of(command)))
            .collect(),
    }
}

fn stamp_of(timestamp: Timestamp) -> i16 {
    timestamp.into()
}

fn state_stamp<T>(state: &Option<Timestamped<T>>) -> Option<i16> {
    state.as_ref().map(|state| stamp_of(state.timestamp()))
}

impl<WorldType: World> ClientWorldSimulations<WorldType> {
    pub(super) fn frame_begins(&self) {
        observe::frame_begins(status_of(&self.infer_current_reconciliation_status()));
    }

    /// Every frame publishes once, as its last word: the newest state is what it published.
    pub(super) fn frame_ended(&self) {
        let shown = self.states.get().new.as_ref().map(|state| {
            *(state.inner() as &dyn Any)
                .downcast_ref::<Shown>()
                .expect("the logging world shows itself as Shown")
        });
        observe::frame_ended(
            status_of(&self.infer_current_reconciliation_status()),
            shown,
        );
    }

    fn view(&self, overshoot: f64) -> WorldsView {
        let sides = self.world_simulations.sides();
        WorldsView {
            left_is_new: self.world_simulations.left_is_new(),
            sides: sides.map(|side| buffer_view(side.command_buffer())),
            initialised: sides.map(|side| side.has_initialized()),
            base: buffer_view(&self.base_command_buffer),
            queued: self
                .queued_snapshot
                .as_ref()
                .map(|snapshot| (stamp_of(snapshot.timestamp()), handle_of(snapshot.inner()))),
            last_queued: self.last_queued_snapshot_timestamp.map(stamp_of),
            last_received: self.last_received_snapshot_timestamp.map(stamp_of),
            weight: self.blend_old_new_interpolation_t,
            before: state_stamp(self.states.get().old),
            after: state_stamp(self.states.get().new),
            overshoot,
            time: self
                .display_state
                .as_ref()
                .map(|state| state.float_timestamp()),
            status: status_of(&self.infer_current_reconciliation_status()),
        }
    }
}

impl<WorldType: World> Client<WorldType> {
    fn active(&self) -> Option<&ActiveClient<WorldType>> {
        match &self.stage {
            StageOwned::SyncingClock(_) => None,
            StageOwned::SyncingInitialState(active) | StageOwned::Ready(active) => Some(active),
        }
    }

    fn clock(&self) -> &ClockSyncer {
        match &self.stage {
            StageOwned::SyncingClock(clock) => clock,
            StageOwned::SyncingInitialState(active) | StageOwned::Ready(active) => {
                &active.clocksyncer
            }
        }
    }

    pub fn stage_name(&self) -> StageName {
        match &self.stage {
            StageOwned::SyncingClock(_) => StageName::SyncingClock,
            StageOwned::SyncingInitialState(_) => StageName::SyncingInitialState,
            StageOwned::Ready(_) => StageName::Ready,
        }
    }

    /// The addresses of the left and the right world's buffers, 0 without worlds.
    pub fn side_buffers(&self) -> [usize; 2] {
        match self.active() {
            None => [0; 2],
            Some(active) => active
                .timekeeping_simulations
                .world_simulations
                .sides()
                .map(|side| side.command_buffer().address()),
        }
    }

    /// Tells each world which side it is.
    pub fn name_sides(&mut self, name: impl Fn(&mut WorldType, Side)) {
        let active = match &mut self.stage {
            StageOwned::SyncingClock(_) => return,
            StageOwned::SyncingInitialState(active) | StageOwned::Ready(active) => active,
        };
        let worlds = &mut active.timekeeping_simulations.world_simulations;
        let [left, right] = worlds.sides_mut();
        name(left.world_mut(), Side::Left);
        name(right.world_mut(), Side::Right);
    }

    pub fn view(&self) -> View {
        let clock = self.clock();
        View {
            stage: self.stage_name(),
            offset: *clock.server_seconds_offset(),
            timer: clock.request_timer(),
            id: *clock.client_id(),
            samples: clock.samples(),
            worlds: self.active().map(|active| {
                let keeper = &active.timekeeping_simulations;
                keeper.view(keeper.overshoot())
            }),
        }
    }
}
