//! A rough runner by which the generator steers: what is open, waiting or due by now. Nothing is
//! compared with it, so where it errs a card is only less deep.

use std::collections::VecDeque;

/// How long a program may run whose TIMEOUT is missing, in nanoseconds.
pub const HOUR: u64 = 3_600_000_000_000;

/// What the line `open` says. Times are nanoseconds; sizes and chunk are u32.
#[derive(Clone, Default)]
pub struct Open {
    pub now: u64,
    pub id: u64,
    pub generation: u64,
    pub chunk: u64,
    pub input: Window,
    pub output: Window,
    pub shared: bool,
    pub timeout: Timeout,
    pub grace: u64,
    pub settlement: u64,
}

/// What the field TIMEOUT says.
#[derive(Clone, Copy, Default)]
pub enum Timeout {
    #[default]
    Missing,
    Never,
    After(u64),
}

impl Timeout {
    /// How long a program may run, where there is a limit.
    pub fn limit(self) -> Option<u64> {
        match self {
            Timeout::Missing => Some(HOUR),
            Timeout::Never => None,
            Timeout::After(limit) => Some(limit),
        }
    }
}

#[derive(Clone, Copy, Default)]
pub struct Window {
    pub frames: bool,
    pub size: u64,
}

impl Window {
    fn cost(self, length: u64) -> u64 {
        if self.frames { 1 } else { length }
    }
}

#[derive(Default)]
pub struct Stream {
    pub queued: u64,
    pub credit: u64,
    pub closed: bool,
    pub hung_up: bool,
    pub ended: bool,
    pub discarding: bool,
}

#[derive(Default)]
pub struct Model {
    pub open: Open,
    pub now: u64,
    timeout_at: Option<u64>,
    grace_until: Option<u64>,
    settle_by: Option<u64>,
    give_up_at: Option<u64>,
    abandon_at: Option<u64>,
    pub launched: bool,
    pub exited: bool,
    /// Settled, or fenced.
    pub settled: bool,
    fenced: bool,
    pub begun: bool,
    pub detached: bool,
    pub finished: bool,
    pub streams: [Stream; 2],
    /// Units that the peer may send, and units to be granted.
    pub granted: u64,
    returnable: u64,
    /// The lengths of the inputs that wait.
    waiting: VecDeque<u64>,
    pub peer_ended: bool,
    pub input_closed: bool,
    credited: bool,
    /// Started and InputClosed that wait to be sent.
    notices: u64,
}

impl Model {
    pub fn new(open: Open) -> Self {
        Self {
            now: open.now,
            timeout_at: open
                .timeout
                .limit()
                .and_then(|limit| open.now.checked_add(limit)),
            returnable: open.input.size,
            open,
            ..Self::default()
        }
    }

    /// The times at which something falls due, earliest first.
    pub fn deadlines(&self) -> Vec<u64> {
        let all = [
            self.timeout_at,
            self.grace_until,
            self.settle_by,
            self.give_up_at,
            self.abandon_at,
        ];
        let mut due: Vec<u64> = all.into_iter().flatten().collect();
        due.sort();
        due
    }

    pub fn waiting(&self) -> u64 {
        self.waiting.iter().sum()
    }

    /// The pool that a stream spends.
    pub fn pool_of(&self, stream: usize) -> usize {
        if self.open.shared { 0 } else { stream }
    }

    /// A call at a time, which may be below the last.
    pub fn tick(&mut self, now: u64) {
        self.now = now;
        let due = |at: &mut Option<u64>| at.take_if(|at| now >= *at).is_some();
        if due(&mut self.timeout_at) {
            self.terminate();
        }
        if due(&mut self.grace_until) {
            self.end_grace();
        }
        if due(&mut self.settle_by) {
            (self.settled, self.fenced) = (true, true);
        }
        let closed = self.streams.iter().all(|stream| stream.closed);
        let clean = self.launched && closed && self.settled && !self.fenced;
        if due(&mut self.give_up_at) && !clean {
            (self.launched, self.exited) = (true, true);
            (self.settled, self.fenced) = (true, true);
            self.end_grace();
            self.streams
                .iter_mut()
                .for_each(|stream| stream.closed = true);
        }
        if due(&mut self.abandon_at) && (self.fenced || !self.launched) {
            (self.launched, self.fenced) = (true, true);
            self.streams
                .iter_mut()
                .for_each(|stream| stream.closed |= !stream.hung_up);
        }
    }

    pub fn terminate(&mut self) {
        if self.begun || self.finished {
            return;
        }
        (self.begun, self.timeout_at) = (true, None);
        self.close_input();
        self.grace_until = self.now.checked_add(self.open.grace);
        let sum = self
            .grace_until
            .and_then(|at| at.checked_add(self.open.settlement));
        self.give_up_at = sum;
    }

    pub fn detach(&mut self) {
        if self.finished || self.detached {
            return;
        }
        self.terminate();
        (self.detached, self.notices) = (true, 0);
        self.end_grace();
        let sum = self.now.checked_add(self.open.settlement);
        self.give_up_at = self.give_up_at.into_iter().chain(sum).min();
    }

    fn end_grace(&mut self) {
        self.grace_until = None;
        for stream in &mut self.streams {
            (stream.queued, stream.discarding) = (0, !stream.closed);
        }
    }

    pub fn launch(&mut self, started: bool) {
        if !self.launched {
            self.launched = true;
            self.notices += u64::from(started);
            if !started {
                self.close_input();
            }
        }
    }

    pub fn exit(&mut self) {
        self.timeout_at = None;
        if !self.exited {
            self.exited = true;
            self.close_input();
            self.settle_by = self.now.checked_add(self.open.settlement);
            self.abandon_at = self
                .settle_by
                .and_then(|at| at.checked_add(self.open.grace));
        }
    }

    pub fn settle(&mut self, fenced: bool) {
        if self.exited && !self.settled {
            (self.settled, self.fenced, self.settle_by) = (true, fenced, None);
        }
    }

    pub fn close_input(&mut self) {
        if !self.input_closed {
            self.input_closed = true;
            self.notices += u64::from(!self.peer_ended);
            self.waiting.clear();
        }
    }

    pub fn input(&mut self, length: u64) {
        let cost = self.open.input.cost(length);
        if self.peer_ended || length == 0 || length > self.open.chunk || cost > self.granted {
            return;
        }
        self.granted -= cost;
        if !self.input_closed {
            self.waiting.push_back(length);
        }
    }

    pub fn written(&mut self, count: u64) {
        let mut left = count;
        while left > 0
            && let Some(frame) = self.waiting.front_mut()
        {
            let taken = left.min(*frame);
            *frame -= taken;
            left -= taken;
            self.returnable += if self.open.input.frames { 0 } else { taken };
            if *frame == 0 {
                self.waiting.pop_front();
                self.returnable += u64::from(self.open.input.frames);
            }
        }
        self.close_when_taken();
    }

    pub fn end_input(&mut self) {
        self.peer_ended = true;
        self.close_when_taken();
    }

    fn close_when_taken(&mut self) {
        self.input_closed |= self.peer_ended && self.waiting.is_empty();
    }

    pub fn credit(&mut self, pool: usize, units: u64) {
        let stream = &mut self.streams[pool];
        if stream.credit + units <= self.open.output.size {
            stream.credit += units;
        }
    }

    pub fn output(&mut self, stream: usize, length: u64) {
        let stream = &mut self.streams[stream];
        if !stream.closed && !stream.discarding {
            stream.queued = (stream.queued + length).min(self.open.chunk);
        }
    }

    /// Whether a message waits.
    pub fn ready(&self) -> bool {
        let sends = |stream: usize| {
            let Stream {
                queued,
                closed,
                ended,
                ..
            } = self.streams[stream];
            queued > 0 && self.streams[self.pool_of(stream)].credit > 0
                || closed && queued == 0 && !ended
        };
        let grants = self.returnable > 0 && !self.input_closed && !self.peer_ended;
        let open = grants || self.notices > 0 || self.launched && (sends(0) || sends(1));
        !self.finished && (!self.detached && open || self.known())
    }

    /// Whether nothing but the streams holds Terminal up.
    fn known(&self) -> bool {
        self.launched && self.exited && self.settled
    }

    pub fn message(&mut self, length: u64) {
        if !self.detached && (!self.credited && self.grant() || self.other(length)) {
            return;
        }
        let done = |stream: &Stream| {
            stream.closed && stream.queued == 0 && (stream.ended || self.detached)
        };
        self.finished |= self.known() && self.streams.iter().all(done);
    }

    fn grant(&mut self) -> bool {
        if self.input_closed || self.peer_ended || self.returnable == 0 {
            return false;
        }
        self.granted += std::mem::take(&mut self.returnable);
        self.credited = true;
        true
    }

    fn other(&mut self, length: u64) -> bool {
        self.credited = false;
        if self.notices > 0 {
            self.notices -= 1;
            return true;
        }
        if !self.launched {
            return self.grant();
        }
        let done = |stream: &&mut Stream| stream.closed && stream.queued == 0 && !stream.ended;
        if let Some(stream) = self.streams.iter_mut().find(done) {
            stream.ended = true;
            return true;
        }
        for stream in 0..2 {
            let pool = self.pool_of(stream);
            let credit = self.streams[pool].credit;
            let allowed = if self.open.output.frames && credit > 0 {
                length
            } else {
                credit
            };
            let sent = allowed.min(length).min(self.streams[stream].queued);
            if sent > 0 {
                self.streams[stream].queued -= sent;
                self.streams[pool].credit -= self.open.output.cost(sent);
                return true;
            }
        }
        self.grant()
    }
}
