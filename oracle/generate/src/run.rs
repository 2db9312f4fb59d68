//! One run: an `open` and the calls after it, with a light model of the times that fit it.

use crate::{
    rng::Rng,
    text::{self, Out, Settings},
};

/// Ample for every update: 65 frames of at most 70 words, and the commands.
pub const TAPE: u64 = 8_192;

/// Timesteps that are powers of two keep every time of an exact run exact.
pub const EXACT_TIMESTEPS: [f64; 6] = [1.0, 0.5, 0.25, 1.0 / 64.0, 1.0 / 512.0, 1.0 / 1024.0];

pub const FASTFORWARD: [u64; 6] = [1, 2, 3, 64, 10, 5];

pub struct Run<'a> {
    pub out: &'a mut Out,
    pub rng: &'a mut Rng,
    pub settings: Settings,
    /// The client's own clock.
    pub seconds: f64,
    /// Server time less client time.
    pub offset: f64,
    pub id: u32,
}

impl<'a> Run<'a> {
    pub fn new(out: &'a mut Out, rng: &'a mut Rng, settings: Settings) -> Self {
        Self {
            out,
            rng,
            settings,
            seconds: 0.0,
            offset: 0.0,
            id: 7,
        }
    }

    pub fn open(&mut self) {
        self.out.call(&text::open_line(&self.settings));
    }

    pub fn update_at(&mut self, delta: f64, seconds: f64, tape: u64, inbox: &[u32]) {
        self.out
            .call(&text::update_line(delta, seconds, tape, inbox));
    }

    /// Lets the client's clock advance by `delta` and plays an update.
    pub fn update(&mut self, delta: f64, inbox: &[u32]) {
        self.seconds += delta;
        self.update_at(delta, self.seconds, TAPE, inbox);
    }

    pub fn issue(&mut self) {
        let handle = self.rng.handle();
        self.out.call(&format!("issue {handle}"));
    }

    pub fn report(&mut self) {
        self.out.call("report");
    }

    /// A clock message that arrives now and measures the run's offset.
    pub fn clock(&self) -> Vec<u32> {
        text::clock(self.id, self.seconds, self.seconds + self.offset)
    }

    /// Updates with clock messages until the clock is synced.
    pub fn sync(&mut self, delta: f64) {
        for _ in 0..text::samples_to_store(self.settings.needed, self.settings.rate) {
            self.seconds += delta;
            let inbox = self.clock();
            self.update_at(delta, self.seconds, TAPE, &inbox);
        }
    }

    /// The frame that the client's old world should be near now.
    pub fn frame(&self) -> i64 {
        ((self.seconds + self.offset + self.settings.lag) / self.settings.timestep).ceil() as i64
    }

    pub fn stamp(&self) -> i16 {
        self.frame() as i16
    }
}

/// A run whose frames are known: exact timestep, whole frames, offset 0.
pub struct Exact<'a> {
    pub run: Run<'a>,
    /// The old world's frame.
    pub old: i64,
    /// The frame that the last update aimed at.
    pub target: i64,
    pub max_frames: i64,
    pub skip_frames: i64,
}

/// Into the range of a signed stamp.
pub fn wrapped(frames: i64) -> i64 {
    i64::from(frames as i16)
}

impl<'a> Exact<'a> {
    /// Opens and syncs; the first update's target is `start`, the settings' maximum and skip
    /// threshold are whole frames.
    pub fn begin(
        out: &'a mut Out,
        rng: &'a mut Rng,
        mut settings: Settings,
        max_frames: i64,
        skip_frames: i64,
        start: i64,
    ) -> Self {
        let timestep = settings.timestep;
        settings.update_max = max_frames as f64 * timestep;
        settings.skip = skip_frames as f64 * timestep;
        let mut run = Run::new(out, rng, settings);
        let samples = text::samples_to_store(settings.needed, settings.rate) as i64;
        run.seconds = (start - samples) as f64 * timestep;
        run.open();
        run.sync(timestep);
        Self {
            run,
            old: start,
            target: start + (settings.lag / timestep) as i64,
            max_frames,
            skip_frames,
        }
    }

    /// An update of `delta` frames that aims at frame `target`.
    pub fn update(&mut self, delta: i64, target: i64, inbox: &[u32]) {
        self.update_tape(delta, target, TAPE, inbox);
    }

    pub fn update_tape(&mut self, delta: i64, target: i64, tape: u64, inbox: &[u32]) {
        let timestep = self.run.settings.timestep;
        let seconds = target as f64 * timestep - self.run.settings.lag;
        self.run
            .update_at(delta as f64 * timestep, seconds, tape, inbox);
        let drift = wrapped(self.old - (target - delta));
        let frames = (delta - drift).max(0).min(self.max_frames);
        self.old += frames;
        if wrapped(self.old - target).abs() >= self.skip_frames {
            self.old = target;
        }
        self.target = target;
        self.run.seconds = seconds;
    }

    /// An ordinary update of `frames` frames.
    pub fn play(&mut self, frames: i64, inbox: &[u32]) {
        self.update(frames, self.target + frames, inbox);
    }

    pub fn stamp(&self) -> i16 {
        self.old as i16
    }
}
