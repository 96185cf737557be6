//! The comparison of feeders: it passes a feeder that is written in another way, and it tells every
//! small mistake in it.

use compare::streams::{compare_cuts, compare_stream, compare_streams, stream_of};
use second::{Event, Feeder, Refusal};

/// Streams of every part and every way of cutting.
const SEEDS: std::ops::Range<u64> = 0..2_000;

/// Of every cause.
const REFUSED: Event = Event::Refused(Refusal::LineShape);

/// Each mistake once: the kind, and the list of all.
macro_rules! mistakes {
    ($($(#[$what:meta])* $name:ident,)*) => {
        /// What a feeder may get wrong.
        #[derive(Clone, Copy, Debug, PartialEq)]
        enum Mistake {
            $($(#[$what])* $name,)*
        }

        const MISTAKES: &[Mistake] = &[$(Mistake::$name),*];
    };
}

mistakes! {
    LineOneShorter,
    LineOneLonger,
    LiteralOneShorter,
    LiteralOneLonger,
    /// 2,048 is counted when a literal is announced.
    LengthAnnounced,
    /// Header and CR LF are not counted.
    HeadersNotCounted,
    ZeroInLiteral,
    /// A CR before the offending byte is not counted in dropping.
    CrBeforeForgotten,
    /// The offending byte is not counted in dropping.
    OffendingForgotten,
    /// A CR that the literal ends with does not count in dropping.
    LiteralCrForgotten,
    /// While bytes are dropped, 00 is refused again.
    RefusedTwice,
    /// After a larger n too, bytes are dropped through the next CR LF.
    DroppedAfterN,
    /// A CR in a literal and a LF behind it end the line.
    CrOfLiteral,
    /// A header may begin in a literal.
    HeaderFromLiteral,
    NoDigits,
    OtherSigns,
    HeaderAnywhere,
    NotInQuotes,
    WrongAtThirtyTwoBits,
    WrongAtSixtyFourBits,
    NoContinuationForZero,
    /// A lone LF ends the line.
    LoneLf,
    /// A chunk of zero bytes ends the command.
    EmptyChunk,
    /// CR and LF in two chunks are no CR LF.
    CutCrLf,
}

use Mistake::*;

/// A feeder that goes from byte to byte and never looks back further than the line.
#[derive(Clone, Debug, PartialEq)]
struct Stepper {
    mistake: Option<Mistake>,
    command: Vec<u8>,
    /// Bytes of headers with their CR LF.
    headers: usize,
    /// Where the text outside literals starts.
    text: usize,
    /// How many bytes of the literal are missing.
    missing: u128,
    dropping: bool,
    /// The byte before, as far as dropping counts it.
    last: u8,
}

impl Stepper {
    fn new(mistake: Option<Mistake>) -> Stepper {
        let command = Vec::new();
        Stepper { mistake, command, headers: 0, text: 0, missing: 0, dropping: false, last: 0 }
    }

    fn is(&self, mistake: Mistake) -> bool {
        self.mistake == Some(mistake)
    }

    fn restart(&mut self) {
        *self = Stepper::new(self.mistake);
    }

    fn feed(&mut self, chunk: &[u8]) -> Vec<Event> {
        if chunk.is_empty() && self.is(EmptyChunk) {
            self.restart();
        }
        let mut events = Vec::new();
        for (at, &byte) in chunk.iter().enumerate() {
            if at == 0 && byte == b'\n' && self.is(CutCrLf) {
                self.last = 0;
                self.text = self.text.max(self.command.len());
            }
            events.extend(self.step(byte));
        }
        events
    }

    fn step(&mut self, byte: u8) -> Option<Event> {
        let ends_line = self.last == b'\r' && byte == b'\n';
        self.last = byte;
        if self.dropping {
            if ends_line {
                self.restart();
            }
            return (byte == 0 && self.is(RefusedTwice)).then_some(REFUSED);
        }
        self.command.push(byte);
        let zero = byte == 0 && !(self.missing > 0 && self.is(ZeroInLiteral));
        if zero || self.length() > self.longest() {
            self.refuse(byte, ends_line);
            return Some(REFUSED);
        }
        if self.missing > 0 {
            self.missing -= 1;
            if self.missing == 0 && !self.is(HeaderFromLiteral) {
                self.text = self.command.len() - usize::from(self.is(CrOfLiteral));
            }
            return None;
        }
        let line = &self.command[self.text..];
        if !(line.ends_with(b"\r\n") || self.is(LoneLf) && byte == b'\n') {
            return None;
        }
        match self.header() {
            None => {
                let whole = self.command.clone();
                self.restart();
                Some(Event::Command(whole))
            }
            Some(n) => self.announced(n),
        }
    }

    fn refuse(&mut self, byte: u8, ends_line: bool) {
        self.dropping = true;
        let in_literal = self.missing > 0 || self.command.len() - self.text == 1;
        let forgotten = self.is(CrBeforeForgotten)
            || self.is(OffendingForgotten)
            || self.is(LiteralCrForgotten) && in_literal;
        if ends_line && !forgotten {
            self.restart();
        }
        if byte == b'\r' && self.is(OffendingForgotten) {
            self.last = 0;
        }
    }

    fn announced(&mut self, n: u128) -> Option<Event> {
        let most =
            1_024 + i32::from(self.is(LiteralOneLonger)) - i32::from(self.is(LiteralOneShorter));
        let too_long = self.is(LengthAnnounced) && self.command.len() as u128 + n > 2_048;
        if n > most as u128 || too_long {
            self.restart();
            self.dropping = self.is(DroppedAfterN);
            return Some(REFUSED);
        }
        self.headers += 4;
        self.text = if self.is(HeaderFromLiteral) { 0 } else { self.command.len() };
        self.missing = n;
        (n > 0 || !self.is(NoContinuationForZero)).then_some(Event::GoOn)
    }

    fn length(&self) -> usize {
        self.command.len() - if self.is(HeadersNotCounted) { self.headers } else { 0 }
    }

    fn longest(&self) -> usize {
        2_048 + usize::from(self.is(LineOneLonger)) - usize::from(self.is(LineOneShorter))
    }

    /// The number of the header that the line ends in.
    fn header(&self) -> Option<u128> {
        let line = &self.command[self.text..];
        let line = line.strip_suffix(b"\r\n").or(line.strip_suffix(b"\n"))?;
        let quotes = line.iter().filter(|&&byte| byte == b'"').count();
        if self.is(NotInQuotes) && quotes % 2 == 1 {
            return None;
        }
        let behind = &line[line.iter().rposition(|&byte| byte == b'{')? + 1..];
        let end = behind.iter().position(|&byte| byte == b'}')?;
        if end + 1 < behind.len() && !self.is(HeaderAnywhere) {
            return None;
        }
        let digits = str::from_utf8(&behind[..end]).ok()?;
        let digits = if self.is(OtherSigns) { digits.trim_matches([' ', '+']) } else { digits };
        if digits.is_empty() && !self.is(NoDigits) || !digits.bytes().all(|d| d.is_ascii_digit()) {
            return None;
        }
        let significant = digits.trim_start_matches('0');
        let n = format!("0{significant}").parse().unwrap_or(u128::MAX);
        Some(match self.mistake {
            Some(WrongAtThirtyTwoBits) => u128::from(n as u32),
            Some(WrongAtSixtyFourBits) => u128::from(n as u64),
            _ => n,
        })
    }
}

/// The feeder of each stream starts in its first state.
fn compare(mistake: Option<Mistake>) -> Result<usize, String> {
    compare_streams(SEEDS, || {
        let mut stepper = Stepper::new(mistake);
        move |chunk: &[u8]| stepper.feed(chunk)
    })
}

#[test]
fn another_feeder_passes() {
    let chunks = compare(None).unwrap_or_else(|difference| panic!("{difference}"));
    assert!(chunks > SEEDS.end as usize);
}

/// The second program's own feeder, fed each chunk byte by byte.
#[test]
fn the_second_feeder_cut_otherwise_passes() {
    let compared = compare_streams(SEEDS, || {
        let mut feeder = Feeder::default();
        move |chunk: &[u8]| chunk.chunks(1).flat_map(|byte| feeder.feed(byte)).collect()
    });
    assert!(compared.is_ok(), "{compared:?}");
}

#[test]
fn every_mistake_is_told() {
    for &mistake in MISTAKES {
        let difference = compare(Some(mistake)).expect_err(&format!("{mistake:?} is not told"));
        assert!(difference.starts_with("stream "), "{difference}");
        assert!(difference.contains("The second program's feeder\n"), "{difference}");
    }
}

/// Whole, cut and byte by byte: events and the state at the end.
#[test]
fn every_cut_gives_the_same() {
    for seed in SEEDS {
        let second = compare_cuts(seed, |chunks| {
            let mut feeder = Feeder::default();
            let events = chunks.iter().flat_map(|chunk| feeder.feed(chunk)).collect();
            (events, feeder)
        });
        assert_eq!(second, Ok(()));
    }
    let cut_wrongly = |seed| {
        compare_cuts(seed, |chunks| {
            let mut stepper = Stepper::new(Some(CutCrLf));
            let events = chunks.iter().flat_map(|chunk| stepper.feed(chunk)).collect();
            (events, stepper)
        })
    };
    assert!(SEEDS.map(cut_wrongly).any(|result| result.is_err()));
}

/// A stream is the same each time, so a difference can be looked at again.
#[test]
fn streams_are_the_same_each_time() {
    for seed in 0..50 {
        assert_eq!(stream_of(seed), stream_of(seed));
        let tell = || compare_stream(seed, |_| vec![Event::Refused(Refusal::Grammar)]);
        assert!(tell().is_err() && tell() == tell());
    }
}

/// All three events stand in the streams many times, and commands at the longest length.
#[test]
fn what_the_streams_reach() {
    let (mut commands, mut refusals, mut continuations, mut longest) = (0, 0, 0, 0);
    for seed in SEEDS {
        let mut feeder = Feeder::default();
        for event in stream_of(seed).iter().flat_map(|chunk| feeder.feed(chunk)) {
            match event {
                Event::Command(command) if command.len() == 2_048 => longest += 1,
                Event::Command(_) => commands += 1,
                Event::Refused(refusal) => refusals += u32::from(refusal == Refusal::LineShape),
                Event::GoOn => continuations += 1,
            }
        }
    }
    assert!(commands > 2_000 && refusals > 1_000 && continuations > 2_000 && longest > 5);
}
