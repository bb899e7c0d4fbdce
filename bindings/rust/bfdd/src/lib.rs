//! `libbfdd`, a proved engine for Bidirectional Forwarding Detection, without `unsafe`.
//!
//! The engine does no input, no output and no waiting: hand packets and ticks in, and send what comes out. After each event read
//! [`Engine::outputs`] and, if it matters, [`Engine::answer`]; then sleep until [`Engine::due`] or until a packet comes.
//! `docs/EMBEDDING.md` says when to call what. Moments and intervals are microseconds, ticks milliseconds, since one start that the
//! caller chooses.
//!
//! ```
//! use bfdd::{Answer, Engine, Error, Kind, Output, Packet, Port, Session, State};
//!
//! let (here, there) = ([10, 0, 0, 1].into(), [10, 0, 0, 2].into());
//! let mut engine = Engine::open_session(&Session::new(Kind::SingleHop, 1, 1, here, there))?;
//! let mut packet = [0; 24];
//! packet[..8].copy_from_slice(&[0x20, 0x40, 3, 24, 0, 0, 0, 7]); // of a peer in Down, with My Discriminator 7
//! engine.receive(&Packet { moment: 1500, port: Port::Single, iface: 1, src: there, dst: here, sport: 49152, ttl: 255 }, &packet)?;
//! let changed = engine.outputs().next();
//! assert!(matches!(changed, Some(Output::Changed { discr: 1, was: State::Down, state: State::Init, diag: 0 })));
//! assert_eq!(engine.answered_by(), Some(1));
//! let far = Packet { moment: 2000, port: Port::Single, iface: 1, src: there, dst: here, sport: 49152, ttl: 254 };
//! let mut answers = Vec::new();
//! engine.receive_many(&[(far, &packet), (far, &packet[..9])], &mut answers)?;
//! let names: Vec<_> = answers.iter().map(|it| if let Answer::Dropped(why) = it { why.name() } else { "" }).collect();
//! assert_eq!(names, ["Ttl", "LengthOver"]);
//! assert_eq!(engine.add(&Session::new(Kind::SingleHop, 2, 1, here, there)), Err(Error::TakenAddresses));
//! engine.add(&Session::new(Kind::SingleHop, 2, 2, here, there))?;
//! engine.remove(1)?;
//! assert_eq!(engine.remove(1), Err(Error::NotFound));
//! assert_eq!(engine.add_reflector(2, 50_000, true), Err(Error::TakenDiscr));
//! engine.add_reflector(1, 50_000, true)?;
//! engine.remove_reflector(1)?;
//! # Ok::<(), bfdd::Error>(())
//! ```

/// A look at a session, by [`Engine::look`]: the fields of the header's struct.
pub use bfdd_sys::bfdd_session_state as Look;

use bfdd_sys as sys;
use std::ffi::CStr;
use std::fmt;
use std::net::IpAddr;

/// Why a call did nothing. The engine is then as it was.
#[derive(Clone, Copy, Debug, PartialEq, Eq)]
#[non_exhaustive]
pub enum Error {
    /// Out of memory.
    Memory,
    /// A value is outside its range.
    Range,
    /// The text is no table: its first faulty line, from 1, and the fault by its number in `bfdd.h`.
    Text { line: u64, fault: u32 },
    /// The text has event lines.
    Events,
    /// A session or a reflector has the discriminator already.
    TakenDiscr,
    /// A session of the kind has the selecting addresses already.
    TakenAddresses,
    /// There are 65,536 sessions and reflectors already.
    Full,
    /// No session, or no reflector, has the discriminator.
    NotFound,
    /// Another code of `bfdd.h`.
    Code(u32),
}

impl fmt::Display for Error {
    fn fmt(&self, to: &mut fmt::Formatter<'_>) -> fmt::Result {
        match self {
            Error::Memory => write!(to, "out of memory"),
            Error::Range => write!(to, "a value is outside its range"),
            Error::Text { line, fault } => write!(to, "line {line} of the table has fault {fault}"),
            Error::Events => write!(to, "the table has event lines"),
            Error::TakenDiscr => write!(to, "the discriminator is in use"),
            Error::TakenAddresses => write!(to, "a session has the addresses already"),
            Error::Full => write!(to, "no session or reflector more can be held"),
            Error::NotFound => write!(to, "no session or reflector has the discriminator"),
            Error::Code(code) => write!(to, "code {code}"),
        }
    }
}

impl std::error::Error for Error {}

fn done(code: u32) -> Result<(), Error> {
    match code {
        sys::BFDD_DONE => Ok(()),
        sys::BFDD_MEMORY => Err(Error::Memory),
        sys::BFDD_RANGE => Err(Error::Range),
        sys::BFDD_EVENTS => Err(Error::Events),
        sys::BFDD_TAKEN_DISCR => Err(Error::TakenDiscr),
        sys::BFDD_TAKEN_ADDRESSES => Err(Error::TakenAddresses),
        sys::BFDD_FULL => Err(Error::Full),
        sys::BFDD_NOT_FOUND => Err(Error::NotFound),
        code => Err(Error::Code(code)),
    }
}

/// What has names.
#[derive(Clone, Copy, Debug, PartialEq, Eq)]
#[repr(u32)]
pub enum Named {
    Code = sys::BFDD_NAME_CODE,
    Fault = sys::BFDD_NAME_FAULT,
    Drop = sys::BFDD_NAME_DROP,
    Refusal = sys::BFDD_NAME_REFUSAL,
    State = sys::BFDD_NAME_STATE,
    Diagnostic = sys::BFDD_NAME_DIAGNOSTIC,
    Output = sys::BFDD_NAME_OUTPUT,
}

/// The name of a number, if it has one.
///
/// ```
/// assert_eq!(bfdd::name(bfdd::Named::Diagnostic, 1), Some("Control Detection Time Expired"));
/// assert_eq!(bfdd::name(bfdd::Named::State, 4), None);
/// assert_eq!(bfdd::version(), (2, 0));
/// ```
pub fn name(named: Named, number: u32) -> Option<&'static str> {
    let mut text = sys::bfdd_text { bytes: c"".as_ptr(), length: 0 };
    // SAFETY: `text` is one; what it is afterwards is a string of the library, which is never freed.
    let code = unsafe { sys::bfdd_find_name(named as u32, number, &mut text) };
    let found = (code == sys::BFDD_DONE).then(|| unsafe { CStr::from_ptr(text.bytes) });
    found.and_then(|it| it.to_str().ok())
}

/// The version of the library, major and minor.
pub fn version() -> (u32, u32) {
    let number = unsafe { sys::bfdd_version() };
    (number >> 16, number & 0xffff)
}

#[derive(Clone, Copy, Debug, PartialEq, Eq)]
#[repr(u32)]
pub enum Kind {
    SingleHop = sys::BFDD_SINGLE_HOP,
    Multihop = sys::BFDD_MULTIHOP,
    Initiator = sys::BFDD_INITIATOR,
    Head = sys::BFDD_HEAD,
    Tail = sys::BFDD_TAIL,
}

/// The authentication types of RFC 5880 section 4.1.
#[derive(Clone, Copy, Debug, PartialEq, Eq)]
#[repr(u32)]
pub enum AuthType {
    SimplePassword = 1,
    KeyedMd5 = 2,
    MeticulousKeyedMd5 = 3,
    KeyedSha1 = 4,
    MeticulousKeyedSha1 = 5,
}

/// A type with one key, of 1 to 16 bytes, or with SHA1 to 20.
#[derive(Clone, Debug)]
pub struct Auth {
    pub auth_type: AuthType,
    pub key_id: u8,
    pub key: Vec<u8>,
}

/// A session, by the fields of `bfdd_session`; what its kind doesn't use counts for nothing, except `auth`: a kind without authentication
/// refuses it.
#[derive(Clone, Debug)]
pub struct Session {
    pub kind: Kind,
    pub discr: u32,
    pub other: u32,
    pub iface: u32,
    pub local: IpAddr,
    pub remote: IpAddr,
    pub active: bool,
    pub tx: u32,
    pub rx: u32,
    pub mult: u32,
    pub echo: u32,
    pub seed: u32,
    pub auth: Option<Auth>,
}

impl Session {
    /// An active session with intervals of a second, Detect Mult 3, no Echo, seed 0 and no authentication.
    pub fn new(kind: Kind, discr: u32, iface: u32, local: IpAddr, remote: IpAddr) -> Self {
        let (tx, rx, mult) = (1_000_000, 1_000_000, 3);
        Session { kind, discr, other: 0, iface, local, remote, active: true, tx, rx, mult, echo: 0, seed: 0, auth: None }
    }

    fn to_c(&self) -> sys::bfdd_session {
        let mut session = sys::bfdd_session {
            kind: self.kind as u32,
            discr: self.discr,
            other: self.other,
            iface: self.iface,
            local: to_c(self.local),
            remote: to_c(self.remote),
            active: self.active as u32,
            tx: self.tx,
            rx: self.rx,
            mult: self.mult,
            echo: self.echo,
            seed: self.seed,
            ..Default::default()
        };
        if let Some(auth) = &self.auth {
            session.auth = auth.auth_type as u32;
            session.key_id = auth.key_id.into();
            session.key_len = auth.key.len().try_into().unwrap_or(u32::MAX); // too long a key is outside its range
            session.key.iter_mut().zip(&auth.key).for_each(|(to, from)| *to = *from);
        }
        session
    }
}

/// On which kind of port a packet came.
#[derive(Clone, Copy, Debug, PartialEq, Eq)]
#[repr(u32)]
pub enum Port {
    Single = sys::BFDD_PORT_SINGLE,
    Multi = sys::BFDD_PORT_MULTI,
    Echo = sys::BFDD_PORT_ECHO,
    Sbfd = sys::BFDD_PORT_SBFD,
    Answer = sys::BFDD_PORT_ANSWER,
}

/// A packet that came in, but for its payload.
#[derive(Clone, Copy, Debug)]
pub struct Packet {
    pub moment: u64,
    pub port: Port,
    pub iface: u32,
    pub src: IpAddr,
    pub dst: IpAddr,
    pub sport: u16,
    pub ttl: u8,
}

impl Packet {
    fn to_c(self) -> sys::bfdd_packet {
        sys::bfdd_packet {
            moment: self.moment,
            port: self.port as u32,
            iface: self.iface,
            src: to_c(self.src),
            dst: to_c(self.dst),
            sport: self.sport,
            ttl: self.ttl,
            ..Default::default()
        }
    }
}

/// A command, with its value: intervals in microseconds, `Demand` 1 or 0, `Path` 0, 6 or 8, `Key` an id.
#[derive(Clone, Copy, Debug, PartialEq, Eq)]
pub enum Command {
    Disable,
    Enable,
    Reset,
    Path(u64),
    Tx(u64),
    Rx(u64),
    Mult(u64),
    Demand(u64),
    Echo(u64),
    Key(u64),
}

impl Command {
    fn to_c(self) -> (u32, u64) {
        match self {
            Command::Disable => (sys::BFDD_DISABLE, 0),
            Command::Enable => (sys::BFDD_ENABLE, 0),
            Command::Reset => (sys::BFDD_RESET, 0),
            Command::Path(value) => (sys::BFDD_PATH, value),
            Command::Tx(value) => (sys::BFDD_TX, value),
            Command::Rx(value) => (sys::BFDD_RX, value),
            Command::Mult(value) => (sys::BFDD_MULT, value),
            Command::Demand(value) => (sys::BFDD_DEMAND, value),
            Command::Echo(value) => (sys::BFDD_ECHO, value),
            Command::Key(value) => (sys::BFDD_KEY, value),
        }
    }
}

#[derive(Clone, Copy, Debug, PartialEq, Eq)]
pub enum State {
    AdminDown,
    Down,
    Init,
    Up,
}

impl From<u8> for State {
    fn from(state: u8) -> Self {
        [State::AdminDown, State::Down, State::Init, State::Up][usize::from(state)]
    }
}

/// Why a packet was dropped or a command refused, by its number in `bfdd.h` and by its name.
#[derive(Clone, Copy, Debug, PartialEq, Eq)]
pub struct Cause {
    pub code: u32,
    name: [u8; 20],
}

impl Cause {
    pub fn name(&self) -> &str {
        let end = self.name.iter().position(|&it| it == 0).unwrap_or(self.name.len());
        std::str::from_utf8(&self.name[..end]).unwrap_or_default()
    }
}

/// What a session shows.
#[derive(Clone, Copy, Debug, PartialEq, Eq)]
pub struct Shown {
    pub discr: u32,
    pub state: State,
    pub diag: u8,
    pub remote_state: State,
    pub remote_discr: u32,
    pub adv_tx: u32,
    pub used_tx: u32,
    pub used_rx: u32,
    pub detect: u64,
    /// The Poll Sequence: 0 none, 1 requested, 2 running.
    pub poll: u8,
}

/// What the last event was answered.
#[derive(Clone, Copy, Debug, PartialEq, Eq)]
pub enum Answer {
    Handled,
    Ticked,
    Dropped(Cause),
    Refused(Cause),
    Shown(Shown),
}

/// What an event gave: a change of a session's state, or a packet to send.
#[derive(Clone, Copy, Debug)]
pub enum Output {
    Changed { discr: u32, was: State, state: State, diag: u8 },
    Sent(Datagram),
}

/// A packet to send.
#[derive(Clone, Copy, Debug)]
pub struct Datagram {
    pub discr: u32,
    pub iface: u32,
    pub src: IpAddr,
    pub dst: IpAddr,
    pub sport: u16,
    pub dport: u16,
    pub ttl: u8,
    len: usize,
    bytes: [u8; 52],
}

impl Datagram {
    pub fn payload(&self) -> &[u8] {
        &self.bytes[..self.len]
    }
}

/// One engine, with its sessions and reflectors. It is freed when it is dropped.
pub struct Engine {
    handle: sys::bfdd_handle,
}

// SAFETY: a handle may go from thread to thread, and each call has it for itself, by `&mut self`.
unsafe impl Send for Engine {}

impl Engine {
    /// Opens an engine with the sessions and reflectors of a table: the text of a packet file without event lines.
    pub fn open(table: &[u8]) -> Result<Self, Error> {
        let mut engine = Engine { handle: sys::BFDD_HANDLE_INIT };
        let mut complaint = sys::bfdd_complaint::default();
        // SAFETY: all point to what they say, and none is kept; so it is in the calls below.
        let code = unsafe { sys::bfdd_open(&mut engine.handle, table.as_ptr(), table.len(), &mut complaint) };
        match code {
            sys::BFDD_TEXT => Err(Error::Text { line: complaint.line, fault: complaint.fault }),
            code => done(code).map(|()| engine),
        }
    }

    /// Opens an engine with this session alone.
    pub fn open_session(session: &Session) -> Result<Self, Error> {
        let mut engine = Engine { handle: sys::BFDD_HANDLE_INIT };
        done(unsafe { sys::bfdd_open_session(&mut engine.handle, &session.to_c()) }).map(|()| engine)
    }

    /// One session more. The others, and the outputs that weren't read, stay as they are; so it is with the three calls below.
    pub fn add(&mut self, session: &Session) -> Result<(), Error> {
        done(unsafe { sys::bfdd_add(&mut self.handle, &session.to_c()) })
    }

    /// A session leaves. Its peer is sent nothing: for that disable it before.
    pub fn remove(&mut self, discr: u32) -> Result<(), Error> {
        done(unsafe { sys::bfdd_remove(&mut self.handle, discr) })
    }

    /// One reflector more, with its Required Min RX Interval, whose answers say Up or AdminDown.
    pub fn add_reflector(&mut self, discr: u32, rx: u32, is_up: bool) -> Result<(), Error> {
        done(unsafe { sys::bfdd_add_reflector(&mut self.handle, discr, rx, is_up.into()) })
    }

    /// A reflector leaves.
    pub fn remove_reflector(&mut self, discr: u32) -> Result<(), Error> {
        done(unsafe { sys::bfdd_remove_reflector(&mut self.handle, discr) })
    }

    /// A packet came in.
    pub fn receive(&mut self, packet: &Packet, payload: &[u8]) -> Result<(), Error> {
        done(unsafe { sys::bfdd_receive(&mut self.handle, &packet.to_c(), payload.as_ptr(), payload.len()) })
    }

    /// Packets came in: each is handed in as by [`Engine::receive`], in their order, up to 64. Each that was handled adds its answer to
    /// `answers`. None is handled behind one that left outputs: read these, and then hand in the rest.
    pub fn receive_many(&mut self, packets: &[(Packet, &[u8])], answers: &mut Vec<Answer>) -> Result<(), Error> {
        let mut arrivals = [sys::bfdd_arrival::default(); sys::BFDD_MANY as usize];
        for (to, (packet, payload)) in arrivals.iter_mut().zip(packets) {
            (to.packet, to.payload, to.length) = (packet.to_c(), payload.as_ptr(), payload.len());
        }
        let count = packets.len().min(arrivals.len());
        let mut given = [sys::bfdd_answered::default(); sys::BFDD_MANY as usize];
        let mut handled = 0;
        let (from, to) = (arrivals.as_ptr(), given.as_mut_ptr());
        let code = unsafe { sys::bfdd_packets(&mut self.handle, from, count, to, given.len(), &mut handled) };
        answers.extend(given[..handled].iter().map(answered));
        done(code)
    }

    /// The clock has reached this millisecond.
    pub fn tick(&mut self, ms: u64) -> Result<(), Error> {
        done(unsafe { sys::bfdd_tick(&mut self.handle, ms) })
    }

    /// A command to a session. That it refuses the command is an [`Answer`].
    pub fn command(&mut self, moment: u64, discr: u32, command: Command) -> Result<(), Error> {
        let (verb, value) = command.to_c();
        done(unsafe { sys::bfdd_command(&mut self.handle, moment, discr, verb, value) })
    }

    /// A session is to show itself: the answer has it.
    pub fn show(&mut self, moment: u64, discr: u32) -> Result<(), Error> {
        done(unsafe { sys::bfdd_show(&mut self.handle, moment, discr) })
    }

    /// What the last event was answered.
    pub fn answer(&mut self) -> Answer {
        let mut given = sys::bfdd_answered::default();
        unsafe { sys::bfdd_answer(&mut self.handle, &mut given) };
        answered(&given)
    }

    /// The session to which the last event came, also where that session dropped or refused it; none where it came to no session or to a
    /// reflector, and of a tick.
    pub fn answered_by(&mut self) -> Option<u32> {
        let mut given = sys::bfdd_answered::default();
        unsafe { sys::bfdd_answer(&mut self.handle, &mut given) };
        (given.discr > 0).then_some(given.discr)
    }

    /// The outputs of the last event that are left, in the order in which they came. What isn't read before the next event is gone.
    pub fn outputs(&mut self) -> Outputs<'_> {
        Outputs { engine: self }
    }

    /// A look at a session, as it stands after the last event. Nothing is settled, and the outputs stay.
    pub fn look(&mut self, discr: u32) -> Result<Look, Error> {
        let mut state = Look::default();
        done(unsafe { sys::bfdd_state(&mut self.handle, discr, &mut state) }).map(|()| state)
    }

    /// The least tick that is needed next, in milliseconds; none before the next event, if so.
    pub fn due(&mut self) -> Option<u64> {
        let mut ms = 0;
        let code = unsafe { sys::bfdd_due(&mut self.handle, &mut ms) };
        (code == sys::BFDD_DONE).then_some(ms)
    }
}

impl Drop for Engine {
    fn drop(&mut self) {
        unsafe { sys::bfdd_close(&mut self.handle) }
    }
}

/// The outputs of an event, by [`Engine::outputs`].
pub struct Outputs<'a> {
    engine: &'a mut Engine,
}

impl Iterator for Outputs<'_> {
    type Item = Output;

    fn next(&mut self) -> Option<Output> {
        let mut given = sys::bfdd_output::default();
        let code = unsafe { sys::bfdd_next(&mut self.engine.handle, &mut given) };
        (code == sys::BFDD_DONE).then(|| output(&given))
    }
}

fn answered(given: &sys::bfdd_answered) -> Answer {
    let cause = Cause { code: given.code, name: given.name };
    match given.kind {
        sys::BFDD_TICKED => Answer::Ticked,
        sys::BFDD_DROPPED => Answer::Dropped(cause),
        sys::BFDD_REFUSED => Answer::Refused(cause),
        sys::BFDD_SHOWN => Answer::Shown(shown(given)),
        _ => Answer::Handled,
    }
}

fn output(given: &sys::bfdd_output) -> Output {
    if given.kind == sys::BFDD_CHANGED {
        return Output::Changed { discr: given.discr, was: given.was.into(), state: given.state.into(), diag: given.diag };
    }
    Output::Sent(Datagram {
        discr: given.discr,
        iface: given.iface,
        src: from_c(&given.src),
        dst: from_c(&given.dst),
        sport: given.sport,
        dport: given.dport,
        ttl: given.ttl,
        len: given.len as usize,
        bytes: given.bytes,
    })
}

fn shown(given: &sys::bfdd_answered) -> Shown {
    Shown {
        discr: given.discr,
        state: given.state.into(),
        diag: given.diag,
        remote_state: given.remote_state.into(),
        remote_discr: given.remote_discr,
        adv_tx: given.adv_tx,
        used_tx: given.used_tx,
        used_rx: given.used_rx,
        detect: given.detect,
        poll: given.poll,
    }
}

fn to_c(address: IpAddr) -> sys::bfdd_address {
    let mut bytes = [0; 16];
    match address {
        IpAddr::V4(it) => bytes[..4].copy_from_slice(&it.octets()),
        IpAddr::V6(it) => bytes = it.octets(),
    }
    sys::bfdd_address { family: if address.is_ipv4() { 4 } else { 6 }, bytes }
}

fn from_c(address: &sys::bfdd_address) -> IpAddr {
    let [a, b, c, d, ..] = address.bytes;
    if address.family == 4 {
        [a, b, c, d].into()
    } else {
        address.bytes.into()
    }
}
