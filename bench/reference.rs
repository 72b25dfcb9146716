//! reference: does the job of `rights` in plain Rust, to compare it with.
//!
//! Reads records from standard input, stops at a refusal of reading, and prints a line for each
//! record: `done`, `done by u1`, a state, `no 16`, or `no 7 at 12`. Five states, full memory, so
//! refusals 1 and 14 never come up. It shares no code with the engine.
//!
//! docs/MODEL.md, docs/RECORDS.md, docs/REFUSALS.md and docs/STORE.md tell what the words mean.

use std::io::{self, Read, Write};

// States, cells, principals

/// Weakest first: the greater of two overrides the other.
#[derive(Clone, Copy, PartialEq, Eq, PartialOrd, Ord)]
enum State {
    Unassign,
    Grant,
    Taint,
    Suspend,
    Deny,
}

impl State {
    fn name(self) -> &'static str {
        match self {
            State::Unassign => "unassign",
            State::Grant => "grant",
            State::Taint => "taint",
            State::Suspend => "suspend",
            State::Deny => "deny",
        }
    }
}

#[derive(Clone, Copy, PartialEq, Eq)]
enum Orientation {
    Up,
    Down,
    Neutral,
}

#[derive(Clone, Copy)]
struct Cell {
    state: State,
    orientation: Orientation,
    option: bool,
}

const UNASSIGNED: Cell = Cell { state: State::Unassign, orientation: Orientation::Up, option: false };

#[derive(Clone, Copy, PartialEq, Eq)]
enum Principal {
    User(usize),
    Role(usize),
}

impl Principal {
    /// Users are 0 to 63, roles 64 to 127.
    fn index(self) -> usize {
        match self {
            Principal::User(number) => number,
            Principal::Role(number) => 64 + number,
        }
    }
}

const PRIVILEGES: [&[u8]; 8] =
    [b"read", b"draw", b"hint", b"proof", b"build", b"export", b"rename", b"drop"];

/// The types, each with the mask of the privileges that it defines.
const TYPES: [(&[u8], u8); 4] =
    [(b"library", 0xC1), (b"face", 0xFB), (b"hints", 0x8D), (b"bitmaps", 0xB1)];

// Refusals

/// Reading and wording refuse with a place, standing (9 to 17) without one.
struct Refusal {
    number: u8,
    place: Option<usize>,
}

fn refuse_at<T>(number: u8, place: usize) -> Result<T, Refusal> {
    Err(Refusal { number, place: Some(place) })
}

/// A question: the refusal with its number, if the answer is no.
fn ask(number: u8, answer: bool) -> Result<(), Refusal> {
    if answer { Ok(()) } else { Err(Refusal { number, place: None }) }
}

// Reading

/// The issuer and the body of the record at `at`, where some byte is left.
fn read_record(input: &[u8], at: usize) -> Result<(usize, &[u8]), Refusal> {
    let rest = &input[at..];
    if rest.len() < 4 {
        return refuse_at(2, at);
    }
    if rest[0] != 0x46 || rest[1] != 0x52 {
        return refuse_at(3, at);
    }
    let issuer = rest[2] as usize;
    if issuer > 63 {
        return refuse_at(4, at);
    }
    let length = rest[3] as usize;
    if length < 1 || length > 64 {
        return refuse_at(5, at);
    }
    if rest.len() < 4 + length {
        return refuse_at(6, at);
    }
    Ok((issuer, &rest[4..4 + length]))
}

// Wording

enum Sentence {
    Role { role: usize, level: usize },
    Object { object: usize, mask: u8, owner: usize },
    Link { lower: usize, upper: Principal },
    Cut { lower: usize, upper: Principal },
    Assign { privilege: usize, object: usize, grantee: Principal, cell: Cell },
    Check { privilege: usize, object: usize, principal: Principal },
}

/// The words of a body, taken one after the other.
struct Words<'a> {
    body: &'a [u8],
    /// Where the next word starts; nothing after the last word.
    next: Option<usize>,
    /// The place of the first number that is too large, among the words taken.
    too_large: Option<usize>,
}

impl<'a> Words<'a> {
    /// The next word with its place. If the words end early: refusal 7 at the body's length.
    fn take(&mut self) -> Result<(usize, &'a [u8]), Refusal> {
        let Some(start) = self.next else {
            return refuse_at(7, self.body.len());
        };
        let rest = &self.body[start..];
        match rest.iter().position(|byte| *byte == b' ') {
            Some(length) => {
                self.next = Some(start + length + 1);
                Ok((start, &rest[..length]))
            }
            None => {
                self.next = None;
                Ok((start, rest))
            }
        }
    }

    /// The next word has to be this one.
    fn keyword(&mut self, keyword: &[u8]) -> Result<(), Refusal> {
        let (place, word) = self.take()?;
        if word == keyword { Ok(()) } else { refuse_at(7, place) }
    }

    /// The next word has to be a number.
    fn number(&mut self, largest: usize) -> Result<usize, Refusal> {
        let (place, word) = self.take()?;
        self.check_number(place, word, largest)
    }

    /// The next word has to be this letter with a number behind it.
    fn lettered(&mut self, letter: u8, largest: usize) -> Result<usize, Refusal> {
        let (place, word) = self.take()?;
        match word {
            [first, digits @ ..] if *first == letter => self.check_number(place, digits, largest),
            _ => refuse_at(7, place),
        }
    }

    fn user(&mut self) -> Result<usize, Refusal> {
        self.lettered(b'u', 63)
    }

    fn role(&mut self) -> Result<usize, Refusal> {
        self.lettered(b'r', 63)
    }

    fn object(&mut self) -> Result<usize, Refusal> {
        self.lettered(b'o', 31)
    }

    fn principal(&mut self) -> Result<Principal, Refusal> {
        let (place, word) = self.take()?;
        match word {
            [b'u', digits @ ..] => Ok(Principal::User(self.check_number(place, digits, 63)?)),
            [b'r', digits @ ..] => Ok(Principal::Role(self.check_number(place, digits, 63)?)),
            _ => refuse_at(7, place),
        }
    }

    fn privilege(&mut self) -> Result<usize, Refusal> {
        let (place, word) = self.take()?;
        match PRIVILEGES.iter().position(|name| *name == word) {
            Some(bit) => Ok(bit),
            None => refuse_at(7, place),
        }
    }

    fn mask_of_type(&mut self) -> Result<u8, Refusal> {
        let (place, word) = self.take()?;
        match TYPES.iter().find(|(name, _)| *name == word) {
            Some((_, mask)) => Ok(*mask),
            None => refuse_at(7, place),
        }
    }

    /// One or two digits without a leading zero; else refusal 7 at the word's place. A number that
    /// is too large is only noted: refusal 8 comes after every 7.
    fn check_number(&mut self, place: usize, digits: &[u8], largest: usize) -> Result<usize, Refusal> {
        let number = match digits {
            [ones @ b'0'..=b'9'] => (ones - b'0') as usize,
            [tens @ b'1'..=b'9', ones @ b'0'..=b'9'] => {
                (tens - b'0') as usize * 10 + (ones - b'0') as usize
            }
            _ => return refuse_at(7, place),
        };
        if number > largest && self.too_large.is_none() {
            self.too_large = Some(place);
        }
        Ok(number)
    }

    /// Whether some word is left.
    fn more(&self) -> bool {
        self.next.is_some()
    }

    /// No word may be left, and no number may have been too large.
    fn end(&self) -> Result<(), Refusal> {
        if let Some(place) = self.next {
            return refuse_at(7, place);
        }
        match self.too_large {
            Some(place) => refuse_at(8, place),
            None => Ok(()),
        }
    }
}

fn read_sentence(body: &[u8]) -> Result<Sentence, Refusal> {
    let mut words = Words { body, next: Some(0), too_large: None };
    let (place, command) = words.take()?;
    let sentence = match command {
        b"ROLE" => {
            let role = words.role()?;
            words.keyword(b"LEVEL")?;
            let level = words.number(7)?;
            Sentence::Role { role, level }
        }
        b"OBJECT" => {
            let object = words.object()?;
            words.keyword(b"TYPE")?;
            let mask = words.mask_of_type()?;
            words.keyword(b"OWNER")?;
            let owner = words.user()?;
            Sentence::Object { object, mask, owner }
        }
        b"LINK" => {
            let lower = words.role()?;
            words.keyword(b"TO")?;
            let upper = words.principal()?;
            Sentence::Link { lower, upper }
        }
        b"CUT" => {
            let lower = words.role()?;
            words.keyword(b"FROM")?;
            let upper = words.principal()?;
            Sentence::Cut { lower, upper }
        }
        b"CHECK" => {
            let (privilege, object) = read_right(&mut words)?;
            words.keyword(b"FOR")?;
            let principal = words.principal()?;
            Sentence::Check { privilege, object, principal }
        }
        b"REVOKE" => {
            let (privilege, object) = read_right(&mut words)?;
            words.keyword(b"FROM")?;
            let grantee = words.principal()?;
            Sentence::Assign { privilege, object, grantee, cell: UNASSIGNED }
        }
        b"GRANT" => {
            let (privilege, object) = read_right(&mut words)?;
            words.keyword(b"TO")?;
            let grantee = words.principal()?;
            let option = words.more();
            if option {
                words.keyword(b"OPTION")?;
            }
            let cell = Cell { state: State::Grant, orientation: Orientation::Up, option };
            Sentence::Assign { privilege, object, grantee, cell }
        }
        b"TAINT" => read_limit(&mut words, State::Taint)?,
        b"SUSPEND" => read_limit(&mut words, State::Suspend)?,
        b"DENY" => read_limit(&mut words, State::Deny)?,
        _ => return refuse_at(7, place),
    };
    words.end()?;
    Ok(sentence)
}

/// `p ON o`
fn read_right(words: &mut Words) -> Result<(usize, usize), Refusal> {
    let privilege = words.privilege()?;
    words.keyword(b"ON")?;
    let object = words.object()?;
    Ok((privilege, object))
}

/// What follows TAINT, SUSPEND and DENY: `p ON o TO q`, and perhaps `NEUT ORNT`.
fn read_limit(words: &mut Words, state: State) -> Result<Sentence, Refusal> {
    let (privilege, object) = read_right(words)?;
    words.keyword(b"TO")?;
    let grantee = words.principal()?;
    let mut orientation = Orientation::Down;
    if words.more() {
        words.keyword(b"NEUT")?;
        words.keyword(b"ORNT")?;
        orientation = Orientation::Neutral;
    }
    let cell = Cell { state, orientation, option: false };
    Ok(Sentence::Assign { privilege, object, grantee, cell })
}

// Standing

/// A granter and a grantee at one object, with a cell for each privilege. It is kept only while it
/// is in use: while some cell of it is not unassign.
struct Pair {
    granter: Principal,
    grantee: Principal,
    cells: [Cell; 8],
}

struct Object {
    mask: u8,
    owner: usize,
    pairs: Vec<Pair>,
}

/// Sets of roles, bit k for role k: which cells, of those that stand at roles, reach a principal.
#[derive(Clone, Copy, Default)]
struct Reaching {
    /// Roles of which every cell reaches it: a role itself, the roles that a user holds.
    all: u64,
    /// Roles of which the cells that are oriented up reach it: those below.
    up: u64,
    /// Roles of which the cells that are oriented down reach it: those above.
    down: u64,
}

struct Engine {
    /// The level of each role that exists.
    levels: [Option<usize>; 64],
    objects: [Option<Object>; 32],
    /// For each principal, the roles that its links lead to.
    links: [u64; 128],
    link_count: usize,
    /// For each principal, the roles that a chain of one link or more leads to.
    below: [u64; 128],
    reaching: [Reaching; 128],
}

/// What the line of an accepted record reports.
enum Report {
    Done,
    DoneBy(Principal),
    Checked(State),
}

/// The numbers of the bits that are set.
fn bits(mut set: u64) -> impl Iterator<Item = usize> {
    std::iter::from_fn(move || {
        if set == 0 {
            return None;
        }
        let lowest = set.trailing_zeros() as usize;
        set &= set - 1;
        Some(lowest)
    })
}

impl Engine {
    fn new() -> Engine {
        let mut engine = Engine {
            levels: [None; 64],
            objects: [const { None }; 32],
            links: [0; 128],
            link_count: 0,
            below: [0; 128],
            reaching: [Reaching::default(); 128],
        };
        engine.follow_links();
        engine
    }

    /// Works out `below` and `reaching` from the levels and links.
    fn follow_links(&mut self) {
        // From the lowest level up, as every link leads to a smaller level; users come last.
        for level in 0..8 {
            for role in 0..64 {
                if self.levels[role] == Some(level) {
                    self.follow_from(Principal::Role(role));
                }
            }
        }
        for user in 0..64 {
            self.follow_from(Principal::User(user));
        }

        for role in 0..64 {
            let at = Principal::Role(role).index();
            self.reaching[at] = Reaching { all: 1 << role, up: self.below[at], down: 0 };
        }
        for role in 0..64 {
            for lower in bits(self.below[Principal::Role(role).index()]) {
                self.reaching[Principal::Role(lower).index()].down |= 1 << role;
            }
        }
        for user in 0..64 {
            let mut of_user = Reaching::default();
            for held in bits(self.links[Principal::User(user).index()]) {
                let of_role = self.reaching[Principal::Role(held).index()];
                of_user.all |= of_role.all;
                of_user.up |= of_role.up;
                of_user.down |= of_role.down;
            }
            self.reaching[Principal::User(user).index()] = of_user;
        }
    }

    fn follow_from(&mut self, principal: Principal) {
        let direct = self.links[principal.index()];
        let mut below = direct;
        for lower in bits(direct) {
            below |= self.below[Principal::Role(lower).index()];
        }
        self.below[principal.index()] = below;
    }

    /// Users have level 8.
    fn level(&self, principal: Principal) -> Option<usize> {
        match principal {
            Principal::User(_) => Some(8),
            Principal::Role(role) => self.levels[role],
        }
    }

    fn exists(&self, principal: Principal) -> bool {
        self.level(principal).is_some()
    }

    fn is_linked(&self, upper: Principal, lower: usize) -> bool {
        self.links[upper.index()] >> lower & 1 == 1
    }

    /// Puts the questions from 9 on, in their order, and does what the sentence asks for.
    fn take(&mut self, issuer: usize, sentence: Sentence) -> Result<Report, Refusal> {
        match sentence {
            Sentence::Role { role, level } => {
                ask(9, issuer == 0)?;
                ask(11, self.levels[role].is_none())?;
                self.levels[role] = Some(level);
                self.follow_links();
                Ok(Report::Done)
            }
            Sentence::Object { object, mask, owner } => {
                ask(9, issuer == 0)?;
                ask(11, self.objects[object].is_none())?;
                self.objects[object] = Some(Object { mask, owner, pairs: Vec::new() });
                Ok(Report::Done)
            }
            Sentence::Link { lower, upper } => {
                ask(9, issuer == 0)?;
                ask(10, self.exists(Principal::Role(lower)) && self.exists(upper))?;
                ask(12, self.level(Principal::Role(lower)) < self.level(upper))?;
                ask(13, !self.is_linked(upper, lower))?;
                ask(17, self.link_count < 256)?;
                self.links[upper.index()] |= 1 << lower;
                self.link_count += 1;
                self.follow_links();
                Ok(Report::Done)
            }
            Sentence::Cut { lower, upper } => {
                ask(9, issuer == 0)?;
                ask(10, self.exists(Principal::Role(lower)) && self.exists(upper))?;
                ask(13, self.is_linked(upper, lower))?;
                self.links[upper.index()] &= !(1 << lower);
                self.link_count -= 1;
                self.follow_links();
                Ok(Report::Done)
            }
            Sentence::Assign { privilege, object, grantee, cell } => {
                ask(10, self.exists(grantee))?;
                let below_issuer = self.below[Principal::User(issuer).index()];
                let object = existing(&mut self.objects[object])?;
                ask(15, object.mask >> privilege & 1 == 1)?;
                let granter = object.granter(privilege, issuer, below_issuer);
                let Some(granter) = granter else {
                    return Err(Refusal { number: 16, place: None });
                };
                ask(17, object.has_room(granter, grantee, cell))?;
                object.write(granter, grantee, privilege, cell);
                Ok(Report::DoneBy(granter))
            }
            Sentence::Check { privilege, object, principal } => {
                ask(10, self.exists(principal))?;
                let object = existing(&mut self.objects[object])?;
                ask(15, object.mask >> privilege & 1 == 1)?;
                let reaching = self.reaching[principal.index()];
                Ok(Report::Checked(object.answer(privilege, principal, reaching)))
            }
        }
    }
}

/// Question 10 for an object.
fn existing(object: &mut Option<Object>) -> Result<&mut Object, Refusal> {
    object.as_mut().ok_or(Refusal { number: 10, place: None })
}

impl Object {
    /// Who gives when this user issues an assignment: the owner as itself, a user with an option as
    /// itself, else the lowest-numbered role with an option that the user reaches.
    fn granter(&self, privilege: usize, issuer: usize, below_issuer: u64) -> Option<Principal> {
        let issuing = Principal::User(issuer);
        if self.owner == issuer {
            return Some(issuing);
        }
        let mut roles_with_option = 0u64;
        for pair in &self.pairs {
            if pair.cells[privilege].option {
                if pair.grantee == issuing {
                    return Some(issuing);
                }
                if let Principal::Role(role) = pair.grantee {
                    roles_with_option |= 1 << role;
                }
            }
        }
        bits(roles_with_option & below_issuer).next().map(Principal::Role)
    }

    fn place_of_pair(&self, granter: Principal, grantee: Principal) -> Option<usize> {
        self.pairs.iter().position(|pair| pair.granter == granter && pair.grantee == grantee)
    }

    fn has_room(&self, granter: Principal, grantee: Principal, cell: Cell) -> bool {
        cell.state == State::Unassign
            || self.place_of_pair(granter, grantee).is_some()
            || self.pairs.len() < 16
    }

    fn write(&mut self, granter: Principal, grantee: Principal, privilege: usize, cell: Cell) {
        let place = match self.place_of_pair(granter, grantee) {
            Some(place) => place,
            None => {
                self.pairs.push(Pair { granter, grantee, cells: [UNASSIGNED; 8] });
                self.pairs.len() - 1
            }
        };
        self.pairs[place].cells[privilege] = cell;
        if self.pairs[place].cells.iter().all(|cell| cell.state == State::Unassign) {
            self.pairs.swap_remove(place);
        }
    }

    /// The strongest of all that reaches the principal.
    fn answer(&self, privilege: usize, principal: Principal, reaching: Reaching) -> State {
        let mut strongest = State::Unassign;
        if principal == Principal::User(self.owner) {
            strongest = State::Grant;
        }
        for pair in &self.pairs {
            let cell = pair.cells[privilege];
            let reaches = match pair.grantee {
                Principal::User(_) => pair.grantee == principal,
                Principal::Role(role) => {
                    let roles = match cell.orientation {
                        Orientation::Up => reaching.all | reaching.up,
                        Orientation::Down => reaching.all | reaching.down,
                        Orientation::Neutral => reaching.all,
                    };
                    roles >> role & 1 == 1
                }
            };
            if reaches {
                strongest = strongest.max(cell.state);
            }
        }
        strongest
    }
}

// The program

fn print(output: &mut impl Write, result: Result<Report, Refusal>) -> io::Result<()> {
    match result {
        Ok(Report::Done) => output.write_all(b"done\n"),
        Ok(Report::DoneBy(Principal::User(user))) => writeln!(output, "done by u{user}"),
        Ok(Report::DoneBy(Principal::Role(role))) => writeln!(output, "done by r{role}"),
        Ok(Report::Checked(state)) => {
            output.write_all(state.name().as_bytes())?;
            output.write_all(b"\n")
        }
        Err(Refusal { number, place: Some(place) }) => writeln!(output, "no {number} at {place}"),
        Err(Refusal { number, place: None }) => writeln!(output, "no {number}"),
    }
}

fn main() -> io::Result<()> {
    let mut input = Vec::new();
    io::stdin().lock().read_to_end(&mut input)?;
    let mut output = io::BufWriter::new(io::stdout().lock());

    let mut engine = Engine::new();
    let mut at = 0;
    while at < input.len() {
        match read_record(&input, at) {
            Ok((issuer, body)) => {
                let result = read_sentence(body).and_then(|sentence| engine.take(issuer, sentence));
                print(&mut output, result)?;
                at += 4 + body.len();
            }
            Err(refusal) => {
                print(&mut output, Err(refusal))?;
                break;
            }
        }
    }
    output.flush()
}
