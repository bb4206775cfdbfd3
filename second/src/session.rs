//! The host session: from a file to packets, from answers to a verdict.

use std::iter;

use crate::hex::check_sizes;
use crate::loader::{ACK, BACKSPACE, BEL};
use crate::map::{Map, Survey};
use crate::packet::{self, Command};
use crate::refusal::Refusal;
use crate::units::{Board, ByteAddress, Page, GREETING_BYTES};

/// The greeting's first bytes, which must be exact; so must its last two.
const GREETING_FIXED: usize = 15;

/// What the board is told once every byte is proved.
#[derive(Clone, Copy, Debug, Default, PartialEq, Eq)]
#[repr(u8)]
pub enum Run {
    Reset = 0,
    Jump = 1,
    /// Nothing, so that no board starts unless asked to.
    #[default]
    Hold = 2,
}

impl Run {
    const ALL: [Run; 3] = [Run::Reset, Run::Jump, Run::Hold];

    pub fn number(self) -> u8 {
        self as u8
    }

    pub fn from_number(number: u8) -> Option<Run> {
        Run::ALL.into_iter().find(|run| run.number() == number)
    }

    /// The address that R carries; hold has no R.
    pub fn address(self) -> Option<u32> {
        match self {
            Run::Reset => Some(1),
            Run::Jump => Some(0),
            Run::Hold => None,
        }
    }

    fn sends_r(self) -> bool {
        self.address().is_some()
    }

    /// The one ending with every packet acknowledged.
    pub fn asked_end(self) -> Outcome {
        match self {
            Run::Reset | Run::Jump => Outcome::Valid,
            Run::Hold => Outcome::Held,
        }
    }

    /// The phase that the last V's ACK leads to.
    fn once_proved(self) -> Phase {
        if self.sends_r() {
            Phase::Run
        } else {
            Phase::Ended(self.asked_end())
        }
    }

    /// Whether a session of this kind ever ends so.
    pub fn ends_with(self, outcome: Outcome) -> bool {
        !outcome.is_as_asked() || outcome == self.asked_end()
    }
}

#[derive(Clone, Copy, Debug, PartialEq, Eq)]
#[repr(u8)]
pub enum Outcome {
    Valid = 0,
    /// Verified and held.
    Held = 1,
    Silent = 40,
    Refused = 41,
    WrongGreeting = 42,
    WrongAnswer = 43,
}

impl Outcome {
    const ALL: [Outcome; 6] = [
        Outcome::Valid,
        Outcome::Held,
        Outcome::Silent,
        Outcome::Refused,
        Outcome::WrongGreeting,
        Outcome::WrongAnswer,
    ];

    pub fn number(self) -> u8 {
        self as u8
    }

    pub fn from_number(number: u8) -> Option<Outcome> {
        let mut all = Outcome::ALL.into_iter();
        all.find(|outcome| outcome.number() == number)
    }

    /// Valid, or held as asked.
    pub fn is_as_asked(self) -> bool {
        matches!(self, Outcome::Valid | Outcome::Held)
    }
}

#[derive(Clone, Copy, Debug, PartialEq, Eq)]
pub enum Event<'a> {
    Answer(&'a [u8]),
    Silence,
}

/// What the quick session and the plain one both do.
pub trait Host: Copy {
    /// Starts one for a board and writes the single byte 08.
    fn start(
        board: Board,
        run: Run,
        image: &[u8],
        map: &[u8],
        buffer: &mut [u8],
    ) -> Result<(Self, usize), Refusal>;

    /// Takes one event and hands back the next state with the length of the
    /// packet written, 0 for an ending.
    fn step(
        self,
        event: Event,
        image: &[u8],
        map: &[u8],
        buffer: &mut [u8],
    ) -> Result<(Self, usize), Refusal>;

    /// The ending that it is at, its run kind's or not.
    fn ended(&self) -> Option<Outcome>;

    /// How it ended; none while it is open, or after an end that is another run
    /// kind's.
    fn outcome(&self) -> Option<Outcome>;

    /// Whether a byte is marked: the V that holds it is among the packets
    /// acknowledged. The lent map must lead to this state.
    fn proved(&self, map: &[u8], address: u32) -> Result<bool, Refusal>;

    fn board(&self) -> Board;

    /// Packets acknowledged, packet total and named bytes.
    fn counts(&self) -> [u32; 3];
}

/// What a session waits for, and the place of the packet it sent.
#[derive(Clone, Copy, Debug, PartialEq, Eq)]
pub enum Phase {
    Greeting,
    Erase(Page),
    Write(ByteAddress),
    Verify(ByteAddress),
    Run,
    Ended(Outcome),
}

impl Phase {
    /// The address whose piece a survey looks for.
    fn piece(self) -> Option<ByteAddress> {
        match self {
            Phase::Write(start) | Phase::Verify(start) => Some(start),
            _ => None,
        }
    }
}

/// A value the caller keeps; it is checked against the file at every step.
#[derive(Clone, Copy, Debug, PartialEq, Eq)]
pub struct Session {
    pub board: Board,
    pub run: Run,
    pub phase: Phase,
    pub acknowledged: u32,
    pub total: u32,
    pub named: u32,
}

/// An event as the session takes it.
enum Heard {
    Expected,
    Ending(Outcome),
}

/// One event of each kind that ends a session wherever it waits.
const UNEXPECTED: [Event; 3] = [Event::Silence, Event::Answer(&[BEL]), Event::Answer(&[])];

/// The file a session is checked against, looked over for its phase.
struct File<'a> {
    image: &'a [u8],
    map: Map<'a>,
    survey: Survey,
}

impl Session {
    /// Starts a session for a board and writes the single byte 08.
    pub fn start(
        board: Board,
        run: Run,
        image: &[u8],
        map: &[u8],
        buffer: &mut [u8],
    ) -> Result<(Session, usize), Refusal> {
        let survey = check_lent(board, image, map, buffer)?.survey(None);
        let session = Session::begun(board, run, &survey).ok_or(Refusal::NoData)?;
        buffer[0] = BACKSPACE;
        Ok((session, 1))
    }

    /// The session at its start; none where nothing is named.
    fn begun(board: Board, run: Run, survey: &Survey) -> Option<Session> {
        let session = Session {
            board,
            run,
            phase: Phase::Greeting,
            acknowledged: 0,
            total: survey.total(run),
            named: survey.named,
        };
        (survey.named > 0).then_some(session)
    }

    /// Takes one event and hands back the next state with the length of the
    /// packet written, 0 for an ending.
    pub fn step(
        self,
        event: Event,
        image: &[u8],
        map: &[u8],
        buffer: &mut [u8],
    ) -> Result<(Session, usize), Refusal> {
        let map = check_lent(self.board, image, map, buffer)?;
        if let Phase::Ended(_) = self.phase {
            return Err(Refusal::SessionEnded);
        }
        let file = File::new(image, map, self.phase);
        if !self.belongs_to(&file.survey) {
            return Err(Refusal::OtherFile);
        }
        match self.hear(event) {
            Heard::Expected => self.go_on(&file, buffer),
            Heard::Ending(outcome) => Ok((self.ended(outcome), 0)),
        }
    }

    /// How it ended; none while it is open, or after an end that is another run
    /// kind's.
    pub fn outcome(&self) -> Option<Outcome> {
        match self.phase {
            Phase::Ended(outcome) if self.run.ends_with(outcome) => Some(outcome),
            _ => None,
        }
    }

    /// Whether a byte is marked: the V that holds it is among the packets
    /// acknowledged. The lent map must lead to this session; two maps that both
    /// do are not told apart.
    pub fn proved(&self, map: &[u8], address: u32) -> Result<bool, Refusal> {
        let map = Map::new(self.board, map)?;
        let survey = map.survey(None);
        let start = Session::begun(self.board, self.run, &survey).ok_or(Refusal::OtherFile)?;
        let same_counts = (self.total, self.named) == (start.total, start.named);
        if !same_counts || !self.turns_up_in(start.walk(map, &survey)) {
            return Err(Refusal::OtherFile);
        }
        let mut walk = start.walk(map, &survey);
        let held = walk.find(|sent| sent.verifies(map, address));
        Ok(held.is_some_and(|sent| sent.acknowledged < self.acknowledged))
    }

    /// From this start on, each state that expected answers lead to, the end
    /// that was asked for last.
    fn walk<'a>(self, map: Map<'a>, survey: &Survey) -> impl Iterator<Item = Session> + 'a {
        let erases = survey.pages.run_starts().map(Phase::Erase);
        let writes = map.piece_starts().map(Phase::Write);
        let verifies = map.piece_starts().map(Phase::Verify);
        let run = self.run.sends_r().then_some(Phase::Run);
        let last = run.into_iter().chain([Phase::Ended(self.run.asked_end())]);
        let phases = erases.chain(writes).chain(verifies).chain(last);
        let mut session = self;
        let answered = phases.map(move |phase| {
            session = session.answered(phase);
            session
        });
        iter::once(self).chain(answered)
    }

    /// Whether a walk comes by here, or an event ends it here.
    fn turns_up_in(&self, walk: impl Iterator<Item = Session>) -> bool {
        // an unexpected event keeps the count
        let mut near = walk.filter(|state| state.acknowledged == self.acknowledged);
        near.any(|state| state == *self || state.ends().any(|end| end == *self))
    }

    /// The ends that unexpected events bring; after an end there is no event.
    fn ends(self) -> impl Iterator<Item = Session> {
        let events = match self.phase {
            Phase::Ended(_) => &[],
            _ => &UNEXPECTED[..],
        };
        events
            .iter()
            .filter_map(move |event| match self.hear(*event) {
                Heard::Ending(outcome) => Some(self.ended(outcome)),
                Heard::Expected => None,
            })
    }

    /// Whether the packet that the session waits on is the V of this byte.
    fn verifies(&self, map: Map, address: u32) -> bool {
        let Phase::Verify(ByteAddress(start)) = self.phase else {
            return false;
        };
        // a piece that cannot reach so far is not measured
        let longest = packet::PIECE as u32;
        let reached = (start..start + longest).contains(&address);
        reached && address - start < map.run_length(start, longest)
    }

    /// Whether a start over such a file and acknowledgements lead here.
    fn belongs_to(&self, survey: &Survey) -> bool {
        self.total == survey.total(self.run)
            && self.named == survey.named
            && survey.named > 0
            && survey.sent_before(self.phase, self.run) == Some(self.acknowledged)
    }

    fn hear(&self, event: Event) -> Heard {
        let Event::Answer(answer) = event else {
            return Heard::Ending(Outcome::Silent);
        };
        match (self.phase, answer) {
            (Phase::Greeting, _) if is_greeting(self.board, answer) => Heard::Expected,
            (Phase::Greeting, _) => Heard::Ending(Outcome::WrongGreeting),
            (_, [ACK]) => Heard::Expected,
            (_, [BEL]) => Heard::Ending(Outcome::Refused),
            (_, _) => Heard::Ending(Outcome::WrongAnswer),
        }
    }

    fn go_on(self, file: &File, buffer: &mut [u8]) -> Result<(Session, usize), Refusal> {
        let phase = file.survey.after(self.phase, self.run);
        let length = file.packet(phase, self.run, buffer)?;
        Ok((self.answered(phase), length))
    }

    /// Goes on to the next phase; the greeting acknowledges no packet.
    fn answered(self, phase: Phase) -> Session {
        let greeted = self.phase == Phase::Greeting;
        Session {
            phase,
            acknowledged: self.acknowledged + u32::from(!greeted),
            ..self
        }
    }

    fn ended(self, outcome: Outcome) -> Session {
        Session {
            phase: Phase::Ended(outcome),
            ..self
        }
    }
}

impl Host for Session {
    fn start(
        board: Board,
        run: Run,
        image: &[u8],
        map: &[u8],
        buffer: &mut [u8],
    ) -> Result<(Session, usize), Refusal> {
        Session::start(board, run, image, map, buffer)
    }

    fn step(
        self,
        event: Event,
        image: &[u8],
        map: &[u8],
        buffer: &mut [u8],
    ) -> Result<(Session, usize), Refusal> {
        Session::step(self, event, image, map, buffer)
    }

    fn ended(&self) -> Option<Outcome> {
        match self.phase {
            Phase::Ended(outcome) => Some(outcome),
            _ => None,
        }
    }

    fn outcome(&self) -> Option<Outcome> {
        Session::outcome(self)
    }

    fn proved(&self, map: &[u8], address: u32) -> Result<bool, Refusal> {
        Session::proved(self, map, address)
    }

    fn board(&self) -> Board {
        self.board
    }

    fn counts(&self) -> [u32; 3] {
        [self.acknowledged, self.total, self.named]
    }
}

impl Survey {
    /// All packets of a session over the file.
    pub fn total(&self, run: Run) -> u32 {
        self.loading() + u32::from(run.sends_r())
    }

    /// How many packets go before the one a phase waits on, if it is one of
    /// the session's.
    fn sent_before(&self, phase: Phase, run: Run) -> Option<u32> {
        let piece = self.sought.index;
        match phase {
            Phase::Greeting => Some(0),
            Phase::Erase(first) => self.pages.run_index(first),
            Phase::Write(_) => piece.map(|index| self.erases() + index),
            Phase::Verify(_) => piece.map(|index| self.erases() + self.pieces + index),
            Phase::Run => run.sends_r().then(|| self.loading()),
            Phase::Ended(_) => None,
        }
    }

    /// The phase that an expected answer leads to.
    fn after(&self, phase: Phase, run: Run) -> Phase {
        let (first, next) = (ByteAddress(self.first), self.sought.next.map(ByteAddress));
        let erase = |page: Option<Page>| page.map_or(Phase::Write(first), Phase::Erase);
        match phase {
            Phase::Greeting => erase(self.pages.first()),
            Phase::Erase(page) => erase(self.pages.run_after(page)),
            Phase::Write(_) => next.map_or(Phase::Verify(first), Phase::Write),
            Phase::Verify(_) => next.map_or(run.once_proved(), Phase::Verify),
            Phase::Run => Phase::Ended(Outcome::Valid),
            Phase::Ended(outcome) => Phase::Ended(outcome),
        }
    }
}

impl<'a> File<'a> {
    fn new(image: &'a [u8], map: Map<'a>, phase: Phase) -> File<'a> {
        let survey = map.survey(phase.piece());
        File { image, map, survey }
    }

    /// Builds the packet that a phase waits on; none for an ending.
    fn packet(&self, phase: Phase, run: Run, buffer: &mut [u8]) -> Result<usize, Refusal> {
        match phase {
            Phase::Erase(first) => {
                let count = self.survey.pages.run_length(first);
                packet::build(buffer, Command::Erase.byte(), first.start().0, &[count])
            }
            Phase::Write(start) => self.piece(Command::Write, start, buffer),
            Phase::Verify(start) => self.piece(Command::Verify, start, buffer),
            Phase::Run => match run.address() {
                Some(address) => packet::build(buffer, Command::Run.byte(), address, &[]),
                None => Ok(0),
            },
            Phase::Greeting | Phase::Ended(_) => Ok(0),
        }
    }

    fn piece(
        &self,
        command: Command,
        start: ByteAddress,
        buffer: &mut [u8],
    ) -> Result<usize, Refusal> {
        let length = self.map.run_length(start.0, packet::PIECE as u32);
        let data = &self.image[start.0 as usize..(start.0 + length) as usize];
        packet::build(buffer, command.byte(), start.0, data)
    }
}

/// All that a session is lent is of the right size; gives the map.
pub fn check_lent<'a>(
    board: Board,
    image: &[u8],
    map: &'a [u8],
    buffer: &[u8],
) -> Result<Map<'a>, Refusal> {
    if buffer.len() < packet::LONGEST {
        return Err(Refusal::Size);
    }
    check_sizes(board, image, map)
}

pub fn is_greeting(board: Board, answer: &[u8]) -> bool {
    let greeting = board.greeting();
    answer.len() == GREETING_BYTES
        && answer.starts_with(&greeting[..GREETING_FIXED])
        && answer.ends_with(&greeting[GREETING_BYTES - 2..])
}
