//! Sessions of both ends over a line in virtual time, with faults: octets that are changed, lost, added or repeated, and
//! whole blocks that are lost or late. An answer is right if it is the one that the host gave to that command. The host
//! may get a command once at most. SCARD_EXCHANGES says how many exchanges there are with each fault.

use scard::*;

/// Random numbers that are the same in each run (a linear congruential generator, its upper half).
struct Random(u64);

impl Random {
    fn below(&mut self, most: usize) -> usize {
        self.0 = self.0.wrapping_mul(6_364_136_223_846_793_005).wrapping_add(1_442_695_040_888_963_407);
        ((self.0 >> 33) as usize) % most
    }
}

/// What the line does to a block that it damages.
#[derive(Clone, Copy, Debug)]
enum Damage {
    Changed,
    Lost,
    Cut,
    Added,
    Repeated,
    Front,
    Split,
    Late,
    RestLate,
}

const DAMAGES: [Damage; 9] = [
    Damage::Changed,
    Damage::Lost,
    Damage::Cut,
    Damage::Added,
    Damage::Repeated,
    Damage::Front,
    Damage::Split,
    Damage::Late,
    Damage::RestLate,
];

/// The pieces in which a block comes, each with the time that passes before it.
fn carried(octets: &[u8], damage: Option<Damage>, random: &mut Random) -> Vec<(u64, Vec<u8>)> {
    let mut block = octets.to_vec();
    let place = random.below(block.len());
    match damage {
        None => {}
        Some(Damage::Changed) => block[place] ^= 1 + random.below(255) as u8,
        Some(Damage::Lost) => block.clear(),
        Some(Damage::Cut) => block.truncate(place),
        Some(Damage::Added) => block.extend((0..1 + random.below(4)).map(|_| random.below(256) as u8)),
        Some(Damage::Repeated) => block.insert(place, block[place]),
        Some(Damage::Front) => {
            block.remove(0);
        }
        Some(Damage::Split) => {
            let rest = block.split_off(place);
            return vec![(0, block), (1 + random.below(3_000) as u64, rest)];
        }
        Some(Damage::Late) => return vec![(random.below(600_000) as u64, block)],
        Some(Damage::RestLate) => {
            let rest = block.split_off(place);
            return vec![(0, block), (random.below(600_000) as u64, rest)];
        }
    }
    vec![(0, block)]
}

/// An end of the line: what it waits for, and which octets are on their way to it.
struct Side {
    until: Option<u64>,
    coming: Vec<(u64, Vec<u8>)>,
}

impl Side {
    fn next(&self) -> u64 {
        let comes = self.coming.first().map_or(u64::MAX, |it| it.0);
        comes.min(self.until.unwrap_or(u64::MAX))
    }

    /// The event at a time, which is that of `next`.
    fn event(&mut self, now: u64) -> Option<Vec<u8>> {
        match self.coming.first() {
            Some(first) if first.0 <= now => Some(self.coming.remove(0).1),
            _ => None,
        }
    }
}

/// What an exchange came to.
#[derive(Default, Debug)]
struct Tally {
    right: usize,
    wrong: usize,
    none: usize,
    /// Of these, the exchanges that the card's session ended: five R-blocks of the terminal in a row were equal to the
    /// card's own, as an echo would be. The terminal sends so many if blocks of both ends are lost.
    stopped: usize,
    twice: usize,
    damaged: usize,
}

/// The reply of the host to a command.
fn reply_to(command: &[u8]) -> Vec<u8> {
    command.iter().rev().copied().chain([0x90, 0x00]).collect()
}

/// The line between both ends.
struct Line<'a> {
    now: u64,
    damage: Damage,
    random: &'a mut Random,
    tally: &'a mut Tally,
}

impl Line<'_> {
    /// Puts a block on the line to a side. One of four is damaged.
    fn sends(&mut self, octets: &[u8], to: &mut Side) {
        let is_damaged = self.random.below(4) == 0;
        self.tally.damaged += usize::from(is_damaged);
        let mut at = to.coming.last().map_or(self.now, |it| it.0.max(self.now));
        for (later, piece) in carried(octets, is_damaged.then_some(self.damage), self.random) {
            at += later;
            if !piece.is_empty() {
                to.coming.push((at, piece));
            }
        }
    }
}

/// What a step of either end asks for, without its octets.
enum Asked {
    Send(Vec<u8>),
    Wait(Option<u64>),
    Command(Vec<u8>, u64),
    Ended(Option<Vec<u8>>),
}

fn asked(step: Result<Step<'_>, CallRefused>) -> Asked {
    match step.expect("no call is refused here") {
        Step::Send(octets) => Asked::Send(octets.to_vec()),
        Step::Wait(limit) => Asked::Wait(limit),
        Step::Command { octets, granted } => Asked::Command(octets.to_vec(), granted),
        Step::Answer(octets) => Asked::Ended(Some(octets.to_vec())),
        _ => Asked::Ended(None),
    }
}

/// One exchange of a session, until it ends. `heard` has the commands that the host got.
fn exchange(
    line: &mut Line<'_>,
    ends: (&mut Session<'_>, &mut CardSession<'_>),
    sides: &mut [Side; 2],
    command: &[u8],
    heard: &mut Vec<Vec<u8>>,
) -> Option<Vec<u8>> {
    let (terminal, card) = ends;
    let mut next = asked(terminal.exchange(command, line.now));
    let mut at = 0;
    loop {
        match next {
            Asked::Send(octets) => {
                line.sends(&octets, &mut sides[1 - at]);
                next = if at == 0 {
                    asked(terminal.step(Event::Sent, line.now))
                } else {
                    asked(card.step(Event::Sent, line.now))
                };
                continue;
            }
            Asked::Command(octets, granted) => {
                if granted == 0 {
                    heard.push(octets.clone());
                }
                let more = granted == 0 && line.random.below(8) == 0;
                next = asked(if more { card.more_time(2, line.now) } else { card.reply(&reply_to(&octets), line.now) });
                continue;
            }
            Asked::Ended(answer) if at == 0 => return answer,
            Asked::Ended(_) => {
                line.tally.stopped += 1;
                return None;
            }
            Asked::Wait(limit) => sides[at].until = limit.map(|it| line.now.saturating_add(it)),
        }
        at = usize::from(sides[1].next() <= sides[0].next());
        line.now = line.now.max(sides[at].next());
        let piece = sides[at].event(line.now);
        let event = piece.as_deref().map_or(Event::Silent, Event::Came);
        next = asked(if at == 0 { terminal.step(event, line.now) } else { card.step(event, line.now) });
    }
}

/// One session of ten commands over a line with a fault.
fn session(damage: Damage, seed: u64, tally: &mut Tally) {
    let mut random = Random(seed);
    let ifsc = Ifs::new(1 + random.below(254) as u8).unwrap();
    let setup = Setup::new(T1::new(ifsc, 1, 8).unwrap(), 3_571_200, 372, 1);
    let mut rooms = [[0; 600], [0; 600], [0; 600], [0; 600]];
    let [one, two, three, four] = &mut rooms;
    let mut terminal = Session::new(&setup, one, two).unwrap();
    let mut card = CardSession::new(&setup, three, four).unwrap();
    let mut line = Line { now: 0, damage, random: &mut random, tally };
    let mut sides = [Side { until: None, coming: Vec::new() }, Side { until: None, coming: Vec::new() }];
    assert!(matches!(card.serve(0), Ok(Step::Wait(None))));
    for number in 0..10 {
        let mut command = vec![0, 0xA4, number, 0];
        command.extend((0..line.random.below(300)).map(|_| line.random.below(256) as u8));
        let mut heard = Vec::new();
        let answer = exchange(&mut line, (&mut terminal, &mut card), &mut sides, &command, &mut heard);
        let mine = heard.iter().filter(|it| **it == command).count();
        line.tally.twice += usize::from(mine > 1 || heard.len() > mine);
        match answer {
            Some(octets) if octets == reply_to(&command) && mine == 1 => line.tally.right += 1,
            Some(_) => line.tally.wrong += 1,
            None => {
                line.tally.none += 1;
                return;
            }
        }
    }
}

#[test]
fn faults() {
    let exchanges: u64 = std::env::var("SCARD_EXCHANGES").ok().and_then(|it| it.parse().ok()).unwrap_or(1000);
    for damage in DAMAGES {
        let (mut tally, mut seed) = (Tally::default(), 0);
        while ((tally.right + tally.wrong + tally.none) as u64) < exchanges {
            seed += 1;
            session(damage, seed, &mut tally);
        }
        println!("{damage:?}: {tally:?}");
        assert_eq!((tally.wrong, tally.twice), (0, 0), "{damage:?}");
        assert!(tally.stopped * 200 <= tally.none, "{damage:?}: {tally:?}");
        assert!(tally.right > 200 && tally.damaged > 200, "{damage:?}: {tally:?}");
    }
}

/// The octets that a turn sends.
fn sent(turn: Result<Turn<'_>, CallRefused>) -> Vec<u8> {
    match turn {
        Ok(Turn::Send { octets, .. }) => octets.to_vec(),
        other => panic!("{other:?}"),
    }
}

#[test]
fn both_ends_take_turns() {
    let t1 = T1::new(Ifs::new(32).unwrap(), 4, 13).unwrap();
    let mut rooms = [[0; 300], [0; 300], [0; 300], [0; 300]];
    let [one, two, three, four] = &mut rooms;
    let (mut terminal, mut card) = (Terminal::new(t1, one, two), Card::new(t1, three, four));
    let mut command = vec![0, 0xA4, 4, 0];
    command.extend([7; 60]);
    let mut block = sent(terminal.transmit(&command));
    let got = loop {
        match card.received(&block).unwrap() {
            Turn::Send { octets, .. } => block = octets.to_vec(),
            Turn::Done(message) => break message.to_vec(),
            other => panic!("{other:?}"),
        }
        block = sent(terminal.received(&block));
    };
    assert_eq!(got, command);
    assert_eq!(card.received(&block), Err(CallRefused::Order));
    let answer = sent(card.reply(&[0x90, 0]));
    assert_eq!(terminal.received(&answer), Ok(Turn::Done(&[0x90, 0])));
    assert_eq!(terminal.quiet(), Err(CallRefused::Idle));
    assert_eq!(terminal.transmit(&[0; 301]), Err(CallRefused::TooLong));
}

#[test]
fn an_end_overwrites_its_messages() {
    let t1 = T1::new(Ifs::MOST, 4, 5).unwrap();
    let (mut command, mut answer) = ([0; 300], [0; 300]);
    let mut terminal = Terminal::new(t1, &mut command, &mut answer);
    terminal.transmit(&[1, 2, 3, 4, 5]).unwrap();
    drop(terminal);
    assert_eq!((command, answer), ([0; 300], [0; 300]));
}

#[test]
fn values() {
    assert_eq!((Ifs::new(0), Ifs::new(255)), (None, None));
    assert!(T1::new(Ifs::MOST, 16, 0).is_none() && T1::new(Ifs::MOST, 0, 16).is_none());
    assert!(Tag::new(&[]).is_none() && Tag::new(&[1, 2, 3, 4]).is_none());
    let t1 = T1::new(Ifs::MOST, 4, 5).unwrap();
    assert_eq!((t1.cwt(), t1.bwt(372, 1)), (43, 5_718_012));
    assert_eq!(Block::r(0, true, Fault::Redundancy)[..], [0, 0x91, 0, 0x91]);
    assert_eq!(Block::request(0, About::Ifs, &[]), Err(Failure::Values));
    assert_eq!(Response { data: &[1, 2], sw1: 0x90, sw2: 0 }.encode(&mut [0; 3]), Err(Failure::Room(4)));
    let list = Setup::new(t1, 10, 372, 1);
    assert!(Session::new(&list, &mut [0; 9], &mut [0; 9]).is_none());
}

#[test]
fn data_objects() {
    let octets = [0x6F, 7, 0xA5, 5, 0x9F, 0x65, 2, 1, 2, 0x5F, 0x20, 1, 0xAA];
    let mut parts = [Part::NONE; 6];
    let forest = Forest::decode(&octets, &mut parts).unwrap();
    let path = [&[0x6F][..], &[0xA5], &[0x9F, 0x65]].map(|it| Tag::new(it).unwrap());
    let found = forest.find(&path).unwrap();
    assert_eq!((found.start(), found.place(), found.end(), found.depth()), (4, 7, 9, 3));
    assert_eq!(forest.value(found), Some(&[1, 2][..]));
    assert!(matches!(Forest::decode(&octets, &mut [Part::NONE; 1]), Err(Failure::Room(4))));
    let (tag, list) = (Tag::new(&[0x9F, 2]).unwrap(), [0x9F, 2, 6, 0x9F, 0x1A, 2]);
    let known = [Known::new(tag, Format::Numeric, &[0x10, 0])];
    let mut out = [9; 8];
    assert_eq!(fill(&list, &known, &mut out), Ok(&[0, 0, 0, 0, 0x10, 0, 0, 0][..]));
    assert_eq!(fill(&list, &[known[0], known[0]], &mut [0; 8]), Err(Failure::Duplicate));
}

#[test]
fn bursts() {
    let mut framer = Framer::new();
    framer.feed(&[0, 0, 5, 0, 0xA4, 4]);
    assert!(!framer.is_whole() && framer.wait(1000, 50, 20) == 50);
    framer.feed(&[0, 0, 0xA5]);
    assert!(framer.is_whole() && framer.wait(1000, 50, 20) == 20 && framer.burst().len() == 9);
}
