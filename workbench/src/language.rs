//! The schedule language for people: text to a schedule's bytes. `README.md` has its grammar.

use second::hex;
use second::schedule::{self, MAX_BYTES, START};
use second::steps::Step;
use second::world::{bit, Entry, Mask, Request, Sending, World};

use crate::places;
use crate::proved::{Rules, Runner};

/// Where and why a text is no schedule; lines and columns count from 1.
#[derive(Clone, PartialEq, Eq, Debug)]
pub struct BadText {
    pub line: usize,
    pub column: usize,
    pub why: String,
}

/// The bytes that a text stands for, refused as a schedule or not.
pub fn to_bytes(text: &str) -> Result<Vec<u8>, BadText> {
    let mut writer = Writer { bytes: Vec::new(), runner: None, done: 0 };
    for (number, content) in (1..).zip(text.lines()) {
        writer.line(number, content)?;
    }
    Ok(writer.bytes)
}

/// The schedule so far, and its world up to an offset.
struct Writer {
    bytes: Vec<u8>,
    runner: Option<Runner>,
    done: usize,
}

impl Writer {
    /// Adds what one line says.
    fn line(&mut self, number: usize, content: &str) -> Result<(), BadText> {
        let code = content.split('#').next().unwrap_or_default();
        let mut line = Line::new(number, code);
        let Some(first) = line.next() else { return Ok(()) };
        if first.text.chars().all(|sign| sign.is_ascii_hexdigit()) {
            let bytes =
                hex::from_text(code).map_err(|bad| BadText { line: number, column: bad.column, why: bad.why })?;
            self.bytes.extend(bytes);
            return Ok(());
        }
        match first.text {
            "start" => self.start(&mut line, first)?,
            "bytes" => self.raw(&mut line)?,
            _ if self.bytes.is_empty() => {
                let why = "a schedule begins with `start N`, N being how many servers there are";
                return Err(line.bad(first, why.to_string()));
            }
            _ => {
                let step = self.step(&mut line, first)?;
                schedule::write_step(&mut self.bytes, &step);
            }
        }
        line.end()
    }

    /// `start N [faulty SERVER..]`
    fn start(&mut self, line: &mut Line, first: Word) -> Result<(), BadText> {
        if !self.bytes.is_empty() {
            return Err(line.bad(first, "a start stands first, and only once".to_string()));
        }
        let n = line.byte("how many servers there are")?;
        let faulty = if line.takes("faulty") { line.mask("a faulty server")? } else { 0 };
        self.bytes.extend([START, n, faulty]);
        Ok(())
    }

    /// `bytes HEX..`
    fn raw(&mut self, line: &mut Line) -> Result<(), BadText> {
        self.bytes.extend(line.hex("the bytes in hex")?);
        while !line.is_at_end() {
            self.bytes.extend(line.hex("the bytes in hex")?);
        }
        Ok(())
    }

    /// A step, by its first word.
    fn step(&mut self, line: &mut Line, first: Word) -> Result<Step, BadText> {
        match first.text {
            "request" => self.request(line),
            "multicast" => {
                let server = line.byte("the server")?;
                line.keyword("slot")?;
                Ok(Step::Multicast { server, slot: line.byte("the slot")? })
            }
            "arrive" => self.arrive(line, first),
            "propose" => {
                let (server, place) = self.entry(line, first, Entry::ONE)?;
                Ok(Step::Propose { server, place })
            }
            "settle" => {
                let (server, place) = self.entry(line, first, Entry::TWO)?;
                Ok(Step::Settle { server, place })
            }
            "deliver" => Ok(Step::Deliver { server: line.byte("the server")? }),
            "forge" => self.forge(line),
            word => {
                let known = "start, request, multicast, arrive, propose, settle, deliver, forge, bytes";
                Err(line.bad(first, format!("{word:?} begins no line; these do: {known}, and hex digits")))
            }
        }
    }

    /// `request [client C] number N [seals all|none|SERVER..] [command HEX]`
    fn request(&mut self, line: &mut Line) -> Result<Step, BadText> {
        let mut body = [0; Request::BODY];
        if line.takes("client") {
            body[0] = line.byte("the client")?;
        }
        line.keyword("number")?;
        body[1..Request::SEALS].copy_from_slice(&line.number("the request's number", u32::MAX)?.to_be_bytes());
        body[Request::SEALS] = self.seals(line)?;
        if line.takes("command") {
            let room = &mut body[Request::SEALS + 1..];
            let word = line.peek();
            let command = line.hex("the command in hex")?;
            if command.len() > room.len() {
                let why = format!("a command has at most {} bytes, this one {}", room.len(), command.len());
                return Err(line.bad(word, why));
            }
            room[..command.len()].copy_from_slice(&command);
        }
        Ok(Step::Request { body })
    }

    /// `seals all`, `seals none` or the servers; without the word, all.
    fn seals(&mut self, line: &mut Line) -> Result<Mask, BadText> {
        let word = line.peek();
        let is_said = line.takes("seals");
        if is_said && line.takes("none") {
            return Ok(0);
        }
        if is_said && !line.takes("all") {
            return line.mask("a server whose seal is good");
        }
        self.world().map(World::all).map_err(|why| line.bad(word, format!("{why}: name the servers at `seals`")))
    }

    /// `arrive [at SERVER] from ORIGIN [sending S.I.L] [place P]`
    fn arrive(&mut self, line: &mut Line, first: Word) -> Result<Step, BadText> {
        let to = if line.takes("at") { Some(line.byte("the server at which it arrives")?) } else { None };
        line.keyword("from")?;
        let origin = line.byte("the origin")?;
        let (sending, place) = sending_and_place(line)?;
        let wanted = places::Packet { origin, to, sending };
        let found = self.place(line, first, place, wanted.is_any(), |world, place| wanted.find(world, place))?;
        let place =
            found.ok_or_else(|| line.bad(first, format!("{} is under way here{OTHERWISE}", wanted.missing())))?;
        Ok(Step::Arrive { origin, place })
    }

    /// `SERVER [sending S.I.L] [place P]`, for an entry at a stage.
    fn entry(&mut self, line: &mut Line, first: Word, stage: u8) -> Result<(u8, u8), BadText> {
        let server = line.byte("the server")?;
        let (sending, place) = sending_and_place(line)?;
        let wanted = places::Entry { server, stage, sending };
        let found = self.place(line, first, place, wanted.is_any(), |world, place| wanted.find(world, place))?;
        let place = found.ok_or_else(|| line.bad(first, format!("{} here{OTHERWISE}", wanted.missing())))?;
        Ok((server, place))
    }

    /// The place that was said, if nothing else was; else the lowest that fits what was said.
    fn place(
        &mut self,
        line: &Line,
        first: Word,
        said: Option<u8>,
        is_any: bool,
        find: impl Fn(&World, Option<u8>) -> Option<u8>,
    ) -> Result<Option<u8>, BadText> {
        if said.is_some() && is_any {
            return Ok(said);
        }
        let world = self.world().map_err(|why| line.bad(first, format!("{why}: say the place alone, `place P`")))?;
        Ok(find(world, said))
    }

    /// `forge packet ..`, `forge send ..` or `forge receive ..`
    fn forge(&mut self, line: &mut Line) -> Result<Step, BadText> {
        if line.takes("packet") {
            line.keyword("from")?;
            let from = line.byte("the server that forges")?;
            line.keyword("to")?;
            let to = line.byte("the server it goes to")?;
            line.keyword("sending")?;
            return Ok(Step::ForgePacket { from, to, sending: line.sending()? });
        }
        if line.takes("send") {
            let server = line.byte("the server that forges")?;
            line.keyword("id")?;
            let id = line.id()?;
            return Ok(Step::ForgeSend { server, id, digest: self.digest(line)? });
        }
        line.keyword_of("receive", "packet, send or receive")?;
        let server = line.byte("the server that forges")?;
        line.keyword("execution")?;
        let (sender, id) = line.key()?;
        Ok(Step::ForgeReceive { server, sender, id, digest: self.digest(line)? })
    }

    /// `digest HEX` or `digest of slot SLOT`
    fn digest(&mut self, line: &mut Line) -> Result<[u8; 32], BadText> {
        line.keyword("digest")?;
        let word = line.peek();
        if line.takes("of") {
            line.keyword("slot")?;
            let slot = line.byte("the slot")?;
            let world = self.world().map_err(|why| line.bad(word, format!("{why}: give the digest in hex")))?;
            let request = world.requests.stored().get(usize::from(slot));
            let missing = || line.bad(word, format!("slot {slot} is not given here: give the digest in hex"));
            return request.map(|request| request.digest).ok_or_else(missing);
        }
        let digest = line.hex("a digest of 64 hex digits, or `of slot SLOT`")?;
        let length = digest.len();
        digest.try_into().map_err(|_| line.bad(word, format!("a digest has 32 bytes, this one {length}")))
    }

    /// The world behind what is written so far, or why there is none.
    fn world(&mut self) -> Result<&World, String> {
        if self.bytes.len() > MAX_BYTES {
            return Err(format!("the schedule is over {MAX_BYTES} bytes, so there is no world here"));
        }
        if self.runner.is_none() {
            let [START, n, faulty, ..] = self.bytes[..] else {
                return Err("the schedule has no start, so there is no world here".to_string());
            };
            let refused = |why: schedule::Refusal| format!("the start is refused with {} {}", why.code(), why.name());
            self.runner = Some(Runner::start(Rules::Proved, n, faulty).map_err(refused)?);
            self.done = 3;
        }
        let runner = self.runner.as_mut().ok_or("there is no world here")?;
        while self.done < self.bytes.len() {
            let record = &self.bytes[self.done..];
            let taken = schedule::read_step(record).and_then(|(_, size)| runner.step(record).map(|_| size));
            let (place, before) = (self.done, "what stands before is refused with");
            let refused = |why: schedule::Refusal| format!("{before} {} {} at offset {place}", why.code(), why.name());
            self.done += taken.map_err(refused)?;
        }
        Ok(runner.world())
    }
}

/// What else can be written where nothing fits.
const OTHERWISE: &str = "; `place P` alone writes the step all the same";

/// `[sending S.I.L] [place P]`
fn sending_and_place(line: &mut Line) -> Result<(Option<Sending>, Option<u8>), BadText> {
    let sending = if line.takes("sending") { Some(line.sending()?) } else { None };
    let place = if line.takes("place") { Some(line.byte("the place")?) } else { None };
    Ok((sending, place))
}

/// A word, and the column where it begins.
#[derive(Clone, Copy)]
struct Word<'a> {
    text: &'a str,
    column: usize,
}

/// A line's words, those not taken yet.
struct Line<'a> {
    number: usize,
    words: std::vec::IntoIter<Word<'a>>,
    end: usize,
}

impl<'a> Line<'a> {
    /// The words of a line without its comment.
    fn new(number: usize, code: &'a str) -> Line<'a> {
        let column = |text: &str| {
            let before = text.as_ptr() as usize - code.as_ptr() as usize;
            code[..before].chars().count() + 1
        };
        let words: Vec<Word> = code.split_whitespace().map(|text| Word { text, column: column(text) }).collect();
        let end = words.last().map_or(1, |word| word.column + word.text.chars().count());
        Line { number, words: words.into_iter(), end }
    }

    /// Takes the next word.
    fn next(&mut self) -> Option<Word<'a>> {
        self.words.next()
    }

    /// The next word, or the line's end.
    fn peek(&self) -> Word<'a> {
        self.words.as_slice().first().copied().unwrap_or(Word { text: "", column: self.end })
    }

    /// Whether no word is left.
    fn is_at_end(&self) -> bool {
        self.words.as_slice().is_empty()
    }

    /// Takes the next word if it is this one.
    fn takes(&mut self, word: &str) -> bool {
        let is_it = self.peek().text == word;
        if is_it {
            self.next();
        }
        is_it
    }

    /// Takes a word that must be there.
    fn keyword(&mut self, word: &str) -> Result<(), BadText> {
        self.keyword_of(word, &format!("`{word}`"))
    }

    /// Takes a word that must be there, the last of some.
    fn keyword_of(&mut self, word: &str, some: &str) -> Result<(), BadText> {
        if self.takes(word) {
            return Ok(());
        }
        Err(self.expected(some))
    }

    /// That something else is expected at the next word.
    fn expected(&self, what: &str) -> BadText {
        let why = match self.peek().text {
            "" => format!("here {what} is missing"),
            text => format!("here {what} is expected, not {text:?}"),
        };
        self.bad(self.peek(), why)
    }

    /// Takes a number up to a largest one.
    fn number(&mut self, what: &str, most: u32) -> Result<u32, BadText> {
        let text = self.peek().text;
        if text.is_empty() || !text.chars().all(|sign| sign.is_ascii_digit()) {
            return Err(self.expected(what));
        }
        let number = text.parse().ok().filter(|number| *number <= most);
        let too_large = || self.bad(self.peek(), format!("{what} is at most {most}, not {text}"));
        let number = number.ok_or_else(too_large)?;
        self.next();
        Ok(number)
    }

    /// Takes a number of one byte.
    fn byte(&mut self, what: &str) -> Result<u8, BadText> {
        self.number(what, u8::MAX.into()).map(|number| number as u8)
    }

    /// Takes an id.
    fn id(&mut self) -> Result<u16, BadText> {
        self.number("the id", u16::MAX.into()).map(|number| number as u16)
    }

    /// Takes the servers of a mask, at least one, as long as numbers follow.
    fn mask(&mut self, what: &str) -> Result<Mask, BadText> {
        let most = World::SERVERS as u32 - 1;
        let mut mask = bit(self.number(what, most)? as u8);
        while self.peek().text.starts_with(|sign: char| sign.is_ascii_digit()) {
            mask |= bit(self.number(what, most)? as u8);
        }
        Ok(mask)
    }

    /// Takes hex digits.
    fn hex(&mut self, what: &str) -> Result<Vec<u8>, BadText> {
        let word = self.peek();
        if word.text.is_empty() {
            return Err(self.expected(what));
        }
        let bad = |bad: hex::BadHex| BadText {
            line: self.number,
            column: word.column + bad.column - 1,
            why: format!("{}: here {what} is expected", bad.why),
        };
        let bytes = hex::from_text(word.text).map_err(bad)?;
        self.next();
        Ok(bytes)
    }

    /// Takes SENDER.ID.SLOT.
    fn sending(&mut self) -> Result<Sending, BadText> {
        let mut parts = self.peek().text.split('.');
        let read = (parts.next().and_then(number), parts.next().and_then(number), parts.next().and_then(number));
        let (Some(sender), Some(id), Some(slot), None) = (read.0, read.1, read.2, parts.next()) else {
            return Err(self.expected("SENDER.ID.SLOT, as 0.1.0,"));
        };
        self.next();
        Ok(Sending { sender, id, slot })
    }

    /// Takes SENDER.ID.
    fn key(&mut self) -> Result<(u8, u16), BadText> {
        let key = self.peek().text.split_once('.').and_then(|(sender, id)| Some((number(sender)?, number(id)?)));
        let key = key.ok_or_else(|| self.expected("SENDER.ID, as 0.1,"))?;
        self.next();
        Ok(key)
    }

    /// Nothing may be left.
    fn end(&self) -> Result<(), BadText> {
        match self.is_at_end() {
            true => Ok(()),
            false => Err(self.expected("the line's end")),
        }
    }

    /// What is wrong at a word of this line.
    fn bad(&self, word: Word, why: String) -> BadText {
        BadText { line: self.number, column: word.column, why }
    }
}

/// A part of a sending or a key: digits, within its size.
fn number<T: std::str::FromStr>(text: &str) -> Option<T> {
    text.parse().ok().filter(|_| text.chars().all(|sign| sign.is_ascii_digit()))
}
