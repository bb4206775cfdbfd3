//! Rehearsals: a session and a board joined by a line that may lose things, and
//! may have rubbish on it.

use crate::loader::{self, Loader};
use crate::packet::LONGEST;
use crate::port::Port;
use crate::receiver::Receiver;
use crate::refusal::Refusal;
use crate::session::{Event, Phase, Run, Session};
use crate::units::{Board, GREETING_BYTES};

/// What becomes of a packet and its answer.
#[derive(Clone, Copy, Debug, Default, PartialEq, Eq)]
pub enum Exchange {
    #[default]
    Whole,
    PacketLost,
    AnswerLost,
}

/// What befalls a load on a noisy line.
#[derive(Clone, Copy, Debug)]
pub struct Noise<'a> {
    pub exchanges: &'a [Exchange],
    pub rubbish: &'a [u8],
    /// How much of the rubbish goes before what is sent in one exchange.
    pub each: usize,
}

/// Loads the file into the flash of a board by the loader as it stands after a
/// reset. Past the end of the list everything arrives. Nothing is sent to a
/// flash of the wrong size.
pub fn rehearse(
    board: Board,
    run: Run,
    image: &[u8],
    map: &[u8],
    loader: &mut Loader,
    flash: &mut [u8],
    exchanges: &[Exchange],
) -> Result<Session, Refusal> {
    let load = Load::start(board, run, image, map, flash)?;
    loader.reset();
    let mut answer = [0; GREETING_BYTES];
    load.drive(exchanges, |sent, heard| {
        if let Some(packet) = sent {
            let taken = loader.take(board, packet, flash, &mut answer);
            heard.extend(&answer[..loader::answered(taken)]);
        }
    })
}

/// The same with the loader behind a receiver that has gathered nothing, and
/// rubbish before what is sent, which arrives even where that is lost.
pub fn rehearse_noisy(
    board: Board,
    run: Run,
    image: &[u8],
    map: &[u8],
    loader: &mut Loader,
    flash: &mut [u8],
    noise: &Noise,
) -> Result<Session, Refusal> {
    let load = Load::start(board, run, image, map, flash)?;
    loader.reset();
    let mut port = Port {
        loader: *loader,
        receiver: Receiver::default(),
    };
    let mut rubbish = noise.rubbish;
    let mut answer = [0; GREETING_BYTES];
    let ended = load.drive(noise.exchanges, |sent, heard| {
        let (before, rest) = rubbish.split_at(noise.each.min(rubbish.len()));
        rubbish = rest;
        for byte in before.iter().chain(sent.unwrap_or_default()) {
            if let Some(taken) = port.byte(board, *byte, flash, &mut answer) {
                heard.extend(&answer[..loader::answered(taken)]);
            }
        }
    });
    *loader = port.loader;
    ended
}

/// A session with its file and what it sends next.
struct Load<'a> {
    image: &'a [u8],
    map: &'a [u8],
    session: Session,
    packet: [u8; LONGEST],
    length: usize,
}

impl<'a> Load<'a> {
    fn start(
        board: Board,
        run: Run,
        image: &'a [u8],
        map: &'a [u8],
        flash: &[u8],
    ) -> Result<Load<'a>, Refusal> {
        if flash.len() != board.flash_bytes() {
            return Err(Refusal::Size);
        }
        let mut packet = [0; LONGEST];
        let (session, length) = Session::start(board, run, image, map, &mut packet)?;
        Ok(Load {
            image,
            map,
            session,
            packet,
            length,
        })
    }

    /// Exchange follows exchange to the session's end. The board is given what
    /// is sent and not lost, and adds its answers to those heard.
    fn drive(
        mut self,
        exchanges: &[Exchange],
        mut board: impl FnMut(Option<&[u8]>, &mut Vec<u8>),
    ) -> Result<Session, Refusal> {
        let mut exchanges = exchanges.iter().copied();
        let mut heard = Vec::new();
        while !matches!(self.session.phase, Phase::Ended(_)) {
            let exchange = exchanges.next().unwrap_or_default();
            let sent = &self.packet[..self.length];
            let arrived = (exchange != Exchange::PacketLost).then_some(sent);
            heard.clear();
            board(arrived, &mut heard);
            if exchange == Exchange::AnswerLost {
                heard.clear();
            }
            self.step(&heard)?;
        }
        Ok(self.session)
    }

    /// No answer is silence.
    fn step(&mut self, heard: &[u8]) -> Result<(), Refusal> {
        let event = match heard {
            [] => Event::Silence,
            answer => Event::Answer(answer),
        };
        let (image, map) = (self.image, self.map);
        let stepped = self.session.step(event, image, map, &mut self.packet)?;
        (self.session, self.length) = stepped;
        Ok(())
    }
}
