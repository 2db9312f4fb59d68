//! A session played on the Rust client: `open`, `update`, `issue` and `report`.

use crate::{
    checks, limits,
    limits::Settings,
    network::Network,
    panics::{play, Stop, Stop26},
    world::LoggingWorld,
};
use crystalorb::{
    client::{
        probe::{StageName, View},
        stage::StageMut,
        Client,
    },
    clocksync::probe::samples_to_store,
    Config, TweeningMethod,
};
use observe::{Handle, Ledger, Record};

/// A side's ledger as an answer gives it.
#[derive(Clone, Copy, Debug, Default, PartialEq, Eq)]
pub struct SideLedger {
    pub held: usize,
    pub counts: Ledger,
}

/// What an accepted update gives back.
pub struct Updated {
    pub ledgers: [SideLedger; 2],
    pub clock_request: bool,
    pub record: Record,
    pub stage_before: StageName,
    pub stage_after: StageName,
}

/// What an accepted issue gives back.
pub struct Issued {
    pub stamp: i16,
    pub ledgers: [SideLedger; 2],
    pub record: Record,
}

/// Why a call gives no accepted answer.
pub enum Failure {
    /// Turned down with this number; 26 comes with its kind.
    Refused(u32, Option<Stop26>),
    /// A deviation from the rule, where the rule is not followed.
    Deviated(Record),
    /// Something that must not happen.
    Broken(String),
}

impl From<u32> for Failure {
    fn from(refusal: u32) -> Self {
        Failure::Refused(refusal, None)
    }
}

#[derive(Clone)]
pub struct Session {
    settings: Settings,
    config: Config,
    /// Whether the settings passed. A refused open returns a session that is unsound, and no call
    /// of the text makes a sound session unsound or the other way round.
    sound: bool,
    client: Box<Client<LoggingWorld>>,
}

fn config_of(settings: &Settings) -> Config {
    Config {
        lag_compensation_latency: settings.lag,
        blend_latency: settings.blend,
        timestep_seconds: settings.timestep,
        clock_sync_needed_sample_count: settings.needed as usize,
        clock_sync_assumed_outlier_rate: settings.rate,
        clock_sync_request_period: settings.period,
        max_tolerable_clock_deviation: settings.deviation,
        update_delta_seconds_max: settings.update_max,
        timestamp_skip_threshold_seconds: settings.skip,
        fastforward_max_per_step: settings.fastforward_max as usize,
        tweening_method: match settings.method {
            0 => TweeningMethod::MostRecentlyPassed,
            1 => TweeningMethod::Nearest,
            _ => TweeningMethod::Interpolated,
        },
        ..Config::new()
    }
}

fn held(view: &View) -> [usize; 2] {
    match &view.worlds {
        None => [0; 2],
        Some(worlds) => [worlds.sides[0].entries.len(), worlds.sides[1].entries.len()],
    }
}

/// Both ledgers, after checking that they add up.
fn ledgers(before: &View, after: &View, record: &Record) -> Result<[SideLedger; 2], Failure> {
    let (before, after) = (held(before), held(after));
    let mut result = [SideLedger::default(); 2];
    for (index, name) in ["left", "right"].into_iter().enumerate() {
        let counts = record.ledgers[index];
        checks::ledger(name, before[index], after[index], &counts).map_err(Failure::Broken)?;
        result[index] = SideLedger {
            held: after[index],
            counts,
        };
    }
    Ok(result)
}

fn stopped(stop: Stop, record: Record) -> Failure {
    match stop {
        Stop::FrameLimit => 25.into(),
        Stop::Status(kind) => Failure::Refused(26, Some(kind)),
        Stop::TweenWeight => 27.into(),
        Stop::Deviated => Failure::Deviated(record),
        Stop::Unexpected(text) => Failure::Broken(format!("unexpected panic at {text}")),
    }
}

impl Session {
    /// "Open refused returns the session it would have started from those settings, which is
    /// unsound."
    pub fn open(settings: Settings) -> Self {
        let config = config_of(&settings);
        Self {
            settings,
            sound: limits::settings_pass(&settings),
            client: Box::new(Client::new(config.clone())),
            config,
        }
    }

    pub fn is_sound(&self) -> bool {
        self.sound
    }

    pub fn view(&self) -> View {
        self.client.view()
    }

    /// Refusal 20.
    fn check_sound(&self) -> Result<(), u32> {
        if self.sound {
            Ok(())
        } else {
            Err(20)
        }
    }

    /// Plays on a copy of the client, so that a refused call leaves the client as it was.
    fn try_on_copy(
        &self,
        follow_rule: bool,
        call: impl FnOnce(&mut Client<LoggingWorld>),
    ) -> Result<(Box<Client<LoggingWorld>>, Record), Failure> {
        let mut client = self.client.clone();
        observe::begin(follow_rule, client.side_buffers());
        let result = play(|| call(&mut client));
        let record = observe::finish();
        match result {
            Ok(()) => Ok((client, record)),
            Err(stop) => Err(stopped(stop, record)),
        }
    }

    /// Checks what every accepted call must fulfil, and keeps the client that it returned.
    fn keep(&mut self, client: Box<Client<LoggingWorld>>, after: &View) -> Result<(), Failure> {
        checks::sound(after, &self.settings, samples_to_store(&self.config))
            .map_err(Failure::Broken)?;
        self.client = client;
        Ok(())
    }

    pub fn update(
        &mut self,
        follow_rule: bool,
        delta: f64,
        seconds: f64,
        tape_length: u64,
        words: &[u32],
    ) -> Result<Updated, Failure> {
        let messages = limits::update_input(delta, seconds, words)?;
        self.check_sound()?;
        let before = self.view();
        limits::update_session(&before, &messages)?;

        let mut network = Network::new(&messages);
        let (mut client, record) = self.try_on_copy(follow_rule, |client| {
            client.update(delta, seconds, &mut network);
        })?;
        // "28 words exceed the tape"
        if record.tape.len() as u64 > tape_length {
            return Err(28.into());
        }
        if before.worlds.is_none() {
            client.name_sides(LoggingWorld::name);
        }
        let after = client.view();
        checks::steps(&record).map_err(Failure::Broken)?;
        if let (Some(before), Some(after)) = (&before.worlds, &after.worlds) {
            let most = self.settings.fastforward_max;
            checks::stamps(before.old_stamp(), after.old_stamp(), &record, most)
                .map_err(Failure::Broken)?;
        }
        let ledgers = ledgers(&before, &after, &record)?;
        self.keep(client, &after)?;
        Ok(Updated {
            ledgers,
            clock_request: network.clock_request,
            record,
            stage_before: before.stage,
            stage_after: after.stage,
        })
    }

    pub fn issue(&mut self, follow_rule: bool, handle: u64) -> Result<Issued, Failure> {
        if !limits::handle_passes(handle) {
            return Err(7.into());
        }
        self.check_sound()?;
        let before = self.view();
        let Some(worlds) = &before.worlds else {
            return Err(24.into());
        };
        let stamp = worlds.old_stamp().wrapping_add(1);
        if !limits::commands_fit(worlds, std::iter::once(stamp)) {
            return Err(23.into());
        }
        if before.stage != StageName::Ready {
            return Err(24.into());
        }
        let mut network = Network::default();
        let mut issued_stamp = 0;
        let (client, record) = self.try_on_copy(follow_rule, |client| {
            if let StageMut::Ready(mut ready) = client.stage_mut() {
                issued_stamp = ready.simulating_timestamp().into();
                ready.issue_command(Handle(handle as u32), &mut network);
            }
        })?;
        let after = client.view();
        let ledgers = ledgers(&before, &after, &record)?;
        self.keep(client, &after)?;
        Ok(Issued {
            stamp: issued_stamp,
            ledgers,
            record,
        })
    }

    /// The view that a report is read from, or its refusal.
    pub fn report(&self) -> Result<View, Failure> {
        self.check_sound()?;
        let view = self.view();
        if view.worlds.is_none() {
            return Err(21.into());
        }
        Ok(view)
    }
}
