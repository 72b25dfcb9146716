//! sessions: writes random sessions, sound and damaged, as files of records.
//!
//!     sessions SEED COUNT DIR
//!
//! writes DIR/00000.records, DIR/00001.records and so on. The same seed gives the same files, and
//! session k does not depend on COUNT. docs/RECORDS.md tells what a record is.
//!
//! Most sentences are meaningful and stay within small sets of users, roles and objects, so that
//! they meet. The generator only guesses what was accepted; it works out no answers.

mod random;

use random::Random;
use std::fmt;
use std::path::Path;

// Chance

impl Random {
    /// A number from `first` to `last`.
    fn between(&mut self, first: usize, last: usize) -> usize {
        first + self.below(last - first + 1)
    }

    fn percent(&mut self, chance: usize) -> bool {
        self.below(100) < chance
    }

    fn pick<T: Clone>(&mut self, from: &[T]) -> T {
        from[self.below(from.len())].clone()
    }

    fn shuffle<T>(&mut self, items: &mut [T]) {
        for last in (1..items.len()).rev() {
            items.swap(last, self.below(last + 1));
        }
    }

    /// The place of one of the weights, the heavier the likelier.
    fn weighed(&mut self, weights: &[usize]) -> usize {
        let mut left = self.below(weights.iter().sum());
        for (place, weight) in weights.iter().enumerate() {
            if left < *weight {
                return place;
            }
            left -= weight;
        }
        unreachable!()
    }
}

// What sentences are made of

const PRIVILEGES: [&str; 8] =
    ["read", "draw", "hint", "proof", "build", "export", "rename", "drop"];

/// The types, each with the privileges that it defines.
const TYPES: [(&str, &[&str]); 4] = [
    ("library", &["read", "rename", "drop"]),
    ("face", &["read", "draw", "proof", "build", "export", "rename", "drop"]),
    ("hints", &["read", "hint", "proof", "drop"]),
    ("bitmaps", &["read", "build", "export", "drop"]),
];

#[derive(Clone, Copy, PartialEq)]
enum Principal {
    User(usize),
    Role(usize),
}

impl fmt::Display for Principal {
    fn fmt(&self, text: &mut fmt::Formatter) -> fmt::Result {
        match self {
            Principal::User(number) => write!(text, "u{number}"),
            Principal::Role(number) => write!(text, "r{number}"),
        }
    }
}

#[derive(Clone)]
struct Object {
    number: usize,
    kind: usize,
    owner: usize,
}

struct Record {
    issuer: usize,
    body: Vec<u8>,
}

// A session

/// What a session is mostly about.
#[derive(Clone, Copy, PartialEq)]
enum Theme {
    /// A bit of everything.
    Mixed,
    /// Roles on every level, one or two links each.
    Deep,
    /// Few roles and many links, cut and added again: several routes between two roles.
    Routes,
    /// Options given to users and roles, and used.
    Options,
    /// One object and many pairs, so that room runs out and comes back.
    Pairs,
    /// More links than may stand.
    Links,
    /// Bodies that are no sentences.
    Slips,
}

struct Session {
    random: Random,
    theme: Theme,
    records: Vec<Record>,
    length: usize,
    /// The numbers that the session mostly uses.
    users: Vec<usize>,
    roles: Vec<usize>,
    privileges: Vec<&'static str>,
    guess: Guess,
    /// Links still to add, for `Theme::Links`.
    waiting: Vec<(usize, Principal)>,
}

/// What was probably accepted so far.
#[derive(Clone, Default)]
struct Guess {
    /// Roles with their levels.
    levels: Vec<(usize, usize)>,
    objects: Vec<Object>,
    /// Lower and upper ends.
    links: Vec<(usize, Principal)>,
    /// Who was given an option, for which object and privilege.
    options: Vec<(usize, &'static str, Principal)>,
    /// What was assigned: issuer, object, privilege, grantee.
    cells: Vec<(usize, Object, &'static str, Principal)>,
}

impl Session {
    fn new(seed: u64, index: usize) -> Session {
        let mut random = Random(seed);
        random = Random(random.next() ^ (index as u64).wrapping_mul(0xD6E8_FEB8_6659_FD93));
        let theme = [
            Theme::Mixed,
            Theme::Deep,
            Theme::Routes,
            Theme::Options,
            Theme::Pairs,
            Theme::Links,
            Theme::Slips,
        ][random.weighed(&[24, 16, 16, 16, 14, 5, 9])];

        let length = match (theme, random.below(4)) {
            (Theme::Links, _) => random.between(340, 400),
            (Theme::Pairs, _) => random.between(60, 400),
            (_, 0) => random.between(5, 40),
            (_, 1 | 2) => random.between(40, 160),
            _ => random.between(160, 400),
        };

        let mut users: Vec<usize> = (1..64).collect();
        random.shuffle(&mut users);
        users.truncate(random.between(2, if theme == Theme::Pairs { 14 } else { 7 }));
        if random.percent(20) {
            users.push(63);
        }
        if random.percent(40) {
            users.push(0);
        }

        let mut roles: Vec<usize> = (0..64).collect();
        random.shuffle(&mut roles);
        roles.truncate(match theme {
            Theme::Deep => random.between(8, 24),
            Theme::Routes => random.between(4, 9),
            Theme::Pairs => random.between(4, 14),
            Theme::Links => random.between(8, 16),
            _ => random.between(2, 12),
        });
        if random.percent(25) {
            roles[0] = 63;
        }

        let mut privileges = PRIVILEGES.to_vec();
        random.shuffle(&mut privileges);
        privileges.truncate(random.between(1, 4));
        // Every type defines these two.
        privileges.push(random.pick(&["read", "drop"]));

        Session {
            random,
            theme,
            records: Vec::new(),
            length,
            users,
            roles,
            privileges,
            guess: Guess::default(),
            waiting: Vec::new(),
        }
    }

    fn write(mut self) -> Vec<u8> {
        self.begin();
        while self.records.len() < self.length {
            self.go_on();
        }
        self.records.truncate(self.length);
        self.encode()
    }

    /// The roles, objects and links that most sessions start with.
    fn begin(&mut self) {
        let mut bodies: Vec<u8> = Vec::new();
        let roles = self.roles.len() * self.random.between(70, 100) / 100;
        bodies.resize(roles, 0);
        let objects = if self.theme == Theme::Pairs { 1 } else { self.random.between(1, 3) };
        bodies.resize(roles + objects, 1);
        let links = match self.theme {
            Theme::Deep | Theme::Options => roles * 2,
            Theme::Routes => roles * 3,
            Theme::Links => 0,
            _ => roles,
        };
        if self.random.percent(10) {
            self.random.shuffle(&mut bodies);
        }
        bodies.resize(roles + objects + links, 2);
        if self.random.percent(10) {
            self.random.shuffle(&mut bodies);
        }
        for body in bodies {
            if self.random.percent(2) {
                self.go_on();
            }
            match body {
                0 => self.make_role(),
                1 => self.make_object(),
                _ => self.add_link(),
            }
        }
        if self.theme == Theme::Links {
            for (lower, level) in self.guess.levels.clone() {
                for user in 0..64 {
                    self.waiting.push((lower, Principal::User(user)));
                }
                for (upper, upper_level) in self.guess.levels.clone() {
                    if level < upper_level {
                        self.waiting.push((lower, Principal::Role(upper)));
                    }
                }
            }
            self.random.shuffle(&mut self.waiting);
            for _ in 0..self.random.between(235, 254) {
                self.add_waiting_link();
            }
        }
    }

    /// One more record, by the weights of the theme.
    fn go_on(&mut self) {
        //             role obj link cut give revoke check slip odd  waiting
        let weights = match self.theme {
            Theme::Mixed => [4, 3, 12, 5, 24, 10, 34, 4, 4, 0],
            Theme::Deep => [3, 1, 12, 5, 22, 8, 46, 2, 1, 0],
            Theme::Routes => [2, 1, 16, 16, 20, 7, 36, 1, 1, 0],
            Theme::Options => [1, 1, 6, 6, 40, 18, 25, 2, 1, 0],
            Theme::Pairs => [1, 1, 3, 2, 45, 24, 22, 1, 1, 0],
            Theme::Links => [1, 1, 8, 16, 6, 2, 20, 1, 1, 44],
            Theme::Slips => [3, 3, 5, 3, 8, 4, 8, 60, 6, 0],
        };
        match self.random.weighed(&weights) {
            0 => self.make_role(),
            1 => self.make_object(),
            2 => self.add_link(),
            3 => self.cut_link(),
            4 => self.give(),
            5 => self.revoke(),
            6 => self.check(),
            7 => self.slip(),
            8 => self.odd_number(),
            _ => self.add_waiting_link(),
        }
    }

    fn put(&mut self, issuer: usize, body: String) {
        self.records.push(Record { issuer, body: body.into_bytes() });
    }

    // Choices

    fn user(&mut self) -> usize {
        if self.random.percent(3) { self.random.below(64) } else { self.random.pick(&self.users) }
    }

    /// Mostly a role that was made; now and then one that never was.
    fn role(&mut self) -> usize {
        if self.random.percent(3) {
            self.random.below(64)
        } else if self.guess.levels.is_empty() || self.random.percent(4) {
            self.random.pick(&self.roles)
        } else {
            self.random.pick(&self.guess.levels).0
        }
    }

    fn principal(&mut self) -> Principal {
        if self.random.percent(35) {
            Principal::User(self.user())
        } else {
            Principal::Role(self.role())
        }
    }

    fn object(&mut self) -> Object {
        if self.guess.objects.is_empty() || self.random.percent(2) {
            let number = self.random.below(32);
            Object { number, kind: self.random.below(4), owner: self.user() }
        } else {
            self.random.pick(&self.guess.objects)
        }
    }

    fn privilege(&mut self, object: &Object) -> &'static str {
        if self.random.percent(5) {
            return self.random.pick(&PRIVILEGES);
        }
        let defined = TYPES[object.kind].1;
        let mut choices: Vec<&'static str> = self.privileges.clone();
        choices.retain(|privilege| defined.contains(privilege));
        self.random.pick(&choices)
    }

    /// The registrar, but for a few, and they come late.
    fn registrar(&mut self) -> usize {
        let chance = if self.records.len() < 10 { 1 } else { 5 };
        if self.random.percent(chance) { self.user() } else { 0 }
    }

    /// Who issues an assignment: mostly the owner, or somebody to whom an option may have come.
    fn giver(&mut self, object: &Object, privilege: &str) -> usize {
        let by_option = if self.theme == Theme::Options { 75 } else { 30 };
        if self.random.percent(by_option) {
            let mut holders: Vec<Principal> = Vec::new();
            for (number, given, holder) in &self.guess.options {
                if *number == object.number && *given == privilege {
                    holders.push(*holder);
                }
            }
            if !holders.is_empty() {
                match self.random.pick(&holders) {
                    Principal::User(user) => return user,
                    Principal::Role(role) => return self.user_above(role),
                }
            }
        }
        if self.random.percent(12) { self.user() } else { object.owner }
    }

    /// Goes up from the role by links, at random, until it comes to a user.
    fn user_above(&mut self, role: usize) -> usize {
        let mut at = role;
        for _ in 0..8 {
            let mut uppers: Vec<Principal> = Vec::new();
            for (lower, upper) in &self.guess.links {
                if *lower == at {
                    uppers.push(*upper);
                }
            }
            if uppers.is_empty() {
                break;
            }
            match self.random.pick(&uppers) {
                Principal::User(user) => return user,
                Principal::Role(upper) => at = upper,
            }
        }
        self.user()
    }

    // Sentences

    fn make_role(&mut self) {
        let mut new = self.roles.clone();
        new.retain(|role| self.guess.levels.iter().all(|(made, _)| made != role));
        let role = if new.is_empty() || self.random.percent(6) {
            self.role()
        } else {
            self.random.pick(&new)
        };
        let level = match self.theme {
            Theme::Deep | Theme::Mixed | Theme::Slips => self.random.below(8),
            Theme::Routes => self.random.below(5),
            _ => self.random.below(4),
        };
        let issuer = self.registrar();
        if issuer == 0 && self.guess.levels.iter().all(|(made, _)| *made != role) {
            self.guess.levels.push((role, level));
        }
        self.put(issuer, format!("ROLE r{role} LEVEL {level}"));
    }

    fn make_object(&mut self) {
        let number = if !self.guess.objects.is_empty() && self.random.percent(25) {
            self.random.pick(&self.guess.objects).number
        } else if self.random.percent(15) {
            31
        } else {
            self.random.below(32)
        };
        let kind = self.random.below(4);
        let owner = self.user();
        let issuer = self.registrar();
        if issuer == 0 && self.guess.objects.iter().all(|made| made.number != number) {
            self.guess.objects.push(Object { number, kind, owner });
        }
        self.put(issuer, format!("OBJECT o{number} TYPE {} OWNER u{owner}", TYPES[kind].0));
    }

    /// Mostly a link along which the level falls.
    fn add_link(&mut self) {
        let mut lower = self.role();
        let mut upper = self.principal();
        if self.random.percent(90) {
            let levels = self.guess.levels.clone();
            let level = |role| levels.iter().find(|(made, _)| *made == role).map(|(_, level)| *level);
            if let Principal::Role(role) = upper {
                if level(role) < level(lower) {
                    upper = Principal::Role(lower);
                    lower = role;
                }
                if level(role) == level(lower) {
                    upper = Principal::User(self.user());
                }
            }
        }
        if !self.guess.links.is_empty() && self.random.percent(4) {
            (lower, upper) = self.random.pick(&self.guess.links);
        }
        self.put_link(lower, upper);
    }

    fn add_waiting_link(&mut self) {
        match self.waiting.pop() {
            Some((lower, upper)) => self.put_link(lower, upper),
            None => self.add_link(),
        }
    }

    fn put_link(&mut self, lower: usize, upper: Principal) {
        let issuer = if self.theme == Theme::Links { 0 } else { self.registrar() };
        if issuer == 0 && !self.guess.links.contains(&(lower, upper)) {
            self.guess.links.push((lower, upper));
        }
        self.put(issuer, format!("LINK r{lower} TO {upper}"));
    }

    fn cut_link(&mut self) {
        let (lower, upper) = if self.guess.links.is_empty() || self.random.percent(12) {
            (self.role(), self.principal())
        } else {
            self.random.pick(&self.guess.links)
        };
        let issuer = self.registrar();
        if issuer == 0 {
            self.guess.links.retain(|link| *link != (lower, upper));
            if self.theme == Theme::Links {
                let place = self.random.below(self.waiting.len() + 1);
                self.waiting.insert(place, (lower, upper));
            }
        }
        self.put(issuer, format!("CUT r{lower} FROM {upper}"));
    }

    fn give(&mut self) {
        let object = self.object();
        let privilege = self.privilege(&object);
        let issuer = self.giver(&object, privilege);
        let mut grantee = self.principal();
        if self.theme == Theme::Pairs && self.random.percent(50) {
            grantee = Principal::User(self.user());
        }
        if self.theme == Theme::Options && self.random.percent(60) {
            grantee = Principal::Role(self.role());
        }
        let option_weight = if self.theme == Theme::Options { 60 } else { 16 };
        let start = format!("{privilege} ON o{} TO {grantee}", object.number);
        let body = match self.random.weighed(&[24, option_weight, 12, 12, 12, 7, 7, 7]) {
            0 => format!("GRANT {start}"),
            1 => {
                self.guess.options.push((object.number, privilege, grantee));
                format!("GRANT {start} OPTION")
            }
            2 => format!("TAINT {start}"),
            3 => format!("SUSPEND {start}"),
            4 => format!("DENY {start}"),
            5 => format!("TAINT {start} NEUT ORNT"),
            6 => format!("SUSPEND {start} NEUT ORNT"),
            _ => format!("DENY {start} NEUT ORNT"),
        };
        self.guess.cells.push((issuer, object, privilege, grantee));
        self.put(issuer, body);
    }

    /// Mostly a cell that was written, by the one who wrote it or by another.
    fn revoke(&mut self) {
        if self.guess.cells.is_empty() || self.random.percent(15) {
            let object = self.object();
            let privilege = self.privilege(&object);
            let issuer = self.giver(&object, privilege);
            let grantee = self.principal();
            return self.put(issuer, format!("REVOKE {privilege} ON o{} FROM {grantee}", object.number));
        }
        let place = self.random.below(self.guess.cells.len());
        let (mut issuer, object, privilege, grantee) = self.guess.cells[place].clone();
        if self.random.percent(80) {
            self.guess.cells.swap_remove(place);
        } else {
            issuer = if self.random.percent(50) { object.owner } else { self.user() };
        }
        self.put(issuer, format!("REVOKE {privilege} ON o{} FROM {grantee}", object.number));
    }

    fn check(&mut self) {
        let mut object = self.object();
        let mut privilege = self.privilege(&object);
        let mut principal = self.principal();
        if !self.guess.cells.is_empty() && self.random.percent(60) {
            let grantee;
            (_, object, privilege, grantee) = self.random.pick(&self.guess.cells);
            if self.random.percent(30) {
                principal = grantee;
            }
        }
        if self.random.percent(10) {
            principal = Principal::User(object.owner);
        } else if !self.guess.links.is_empty() && self.random.percent(30) {
            principal = self.random.pick(&self.guess.links).1;
        }
        let issuer = self.user();
        self.put(issuer, format!("CHECK {privilege} ON o{} FOR {principal}", object.number));
    }

    /// Any sentence, to be altered: it is taken back from the records and from the guess.
    fn sentence(&mut self) -> Record {
        let guess = self.guess.clone();
        match self.random.below(9) {
            0 => self.make_role(),
            1 => self.make_object(),
            2 => self.add_link(),
            3 => self.cut_link(),
            4 | 5 | 6 => self.give(),
            7 => self.revoke(),
            _ => self.check(),
        }
        self.guess = guess;
        self.records.pop().unwrap()
    }

    /// A sentence in which one or two numbers are at an edge, or are none.
    fn odd_number(&mut self) {
        let mut record = self.sentence();
        let text = String::from_utf8(record.body).unwrap();
        let mut words: Vec<String> = text.split(' ').map(str::to_string).collect();
        let numbered: Vec<usize> =
            (0..words.len()).filter(|place| words[*place].ends_with(|last: char| last.is_ascii_digit())).collect();
        for _ in 0..self.random.between(1, 2) {
            let place = self.random.pick(&numbered);
            let letter: String = words[place].chars().filter(|letter| letter.is_ascii_alphabetic()).collect();
            let choices: &[&str] = match letter.as_str() {
                "o" => &["31", "32", "32", "63", "64", "99", "0"],
                "" => &["7", "8", "8", "9", "10", "99", "0"],
                _ => &["63", "64", "64", "65", "99", "0"],
            };
            let number = if self.random.percent(70) {
                self.random.pick(choices)
            } else {
                self.random.pick(&["00", "07", "063", "100", "640", "", "-1", "+1", "1a", "a", ".", "1.", "4294967296"])
            };
            words[place] = format!("{letter}{number}");
        }
        record.body = words.join(" ").into_bytes();
        self.records.push(record);
    }

    /// A sentence with something wrong in its words. A few stay sentences.
    fn slip(&mut self) {
        const WORDS: [&str; 46] = [
            "ROLE", "OBJECT", "LINK", "CUT", "GRANT", "TAINT", "SUSPEND", "DENY", "REVOKE", "CHECK",
            "LEVEL", "TYPE", "OWNER", "TO", "FROM", "ON", "FOR", "OPTION", "NEUT", "ORNT", "read",
            "draw", "hint", "proof", "build", "export", "rename", "drop", "library", "face", "hints",
            "bitmaps", "u0", "u1", "u63", "u64", "r0", "r1", "r64", "o0", "o4", "o32", "0", "3", "8", "",
        ];
        let mut record = self.sentence();
        let mut words: Vec<Vec<u8>> = record.body.split(|byte| *byte == b' ').map(<[u8]>::to_vec).collect();
        let random = &mut self.random;
        for _ in 0..(if random.percent(15) { 2 } else { 1 }) {
            let place = random.below(words.len());
            let any = random.pick(&WORDS).as_bytes().to_vec();
            match random.below(18) {
                0 => drop(words.remove(place)),
                1 => words.truncate(place),
                2 => words.insert(place, words[place].clone()),
                3 => words.insert(place, any),
                4 => words[place] = any,
                5 => words.insert(place, Vec::new()),
                6 => words.insert(0, Vec::new()),
                7 => words.push(Vec::new()),
                8 => words.push(any),
                9 => words[place] = words[place].to_ascii_lowercase(),
                10 => words[place] = words[place].to_ascii_uppercase(),
                11 => words.push(b"OPTION".to_vec()),
                12 => words.push(b"NEUT".to_vec()),
                13 => words.extend([b"NEUT".to_vec(), b"ORNT".to_vec()]),
                14 => {
                    let other = random.below(words.len());
                    words.swap(place, other);
                }
                15 => {
                    // One byte of a word less, or another one, or one more.
                    let word = &mut words[place];
                    let byte = random.pick(b"\0\t\n-0129AZaoruz_~\x7F\x80\xB2\xFF");
                    match (random.below(3), word.len()) {
                        (0, 1..) => drop(word.remove(random.below(word.len()))),
                        (1, 1..) => {
                            let at = random.below(word.len());
                            word[at] = byte;
                        }
                        _ => word.insert(random.below(word.len() + 1), byte),
                    }
                }
                16 => {
                    // Words in any order.
                    words = (0..random.between(1, 8)).map(|_| random.pick(&WORDS).as_bytes().to_vec()).collect();
                }
                _ => {
                    // Joined by something that is no space.
                    if place + 1 < words.len() {
                        let next = words.remove(place + 1);
                        words[place].push(random.pick(b"\t\n\0,_"));
                        words[place].extend(next);
                    }
                }
            }
            if words.is_empty() {
                words.push(Vec::new());
            }
        }
        let mut body = words.join(&b' ');
        match random.below(24) {
            0 => body.resize(64, b' '),
            1 => body.resize(64, b'X'),
            2 => body = vec![random.pick(b" \0\nRu0~\xFF")],
            3 => body = vec![b' '; random.between(1, 64)],
            4 => body = (0..random.between(1, 64)).map(|_| random.next() as u8).collect(),
            5 => body.truncate(random.between(1, 40)),
            6 => {
                // A last word that fills the body.
                body.push(b' ');
                body.resize(64, b'9');
            }
            _ => {}
        }
        body.truncate(64);
        if body.is_empty() {
            body.push(b' ');
        }
        record.body = body;
        self.records.push(record);
    }

    // Bytes, and damage to them

    fn encode(mut self) -> Vec<u8> {
        let mut bytes = Vec::new();
        let mut starts = Vec::new();
        for record in &self.records {
            starts.push(bytes.len());
            bytes.extend([0x46, 0x52, record.issuer as u8, record.body.len() as u8]);
            bytes.extend(&record.body);
        }
        let random = &mut self.random;
        if !random.percent(40) {
            return bytes;
        }
        // Nothing is read after the damage, so mostly it comes late.
        let start = if random.percent(80) {
            let late = starts.len() * 3 / 4;
            random.pick(&starts[late..])
        } else {
            random.pick(&starts)
        };
        match random.below(12) {
            0 => {
                // Torn within the last record.
                let last = *starts.last().unwrap();
                bytes.truncate(random.between(last, bytes.len() - 1));
            }
            1 => bytes.truncate(start + random.between(1, 3)),
            2 => {
                // Torn anywhere; now and then nothing is left, or next to nothing.
                let most = if random.percent(30) { 6 } else { bytes.len() };
                bytes.truncate(random.below(most));
            }
            3 | 4 => {
                for _ in 0..random.between(1, 3) {
                    let at = random.below(bytes.len());
                    bytes[at] ^= 1 << random.below(8);
                }
            }
            5 => {
                let at = random.below(bytes.len());
                bytes[at] = random.next() as u8;
            }
            6 => {
                let mark = random.pick(&[[0x52, 0x46], [0x46, 0x46], [0x46, 0x72], [0x66, 0x52], [0, 0]]);
                bytes[start..start + 2].copy_from_slice(&mark);
                if random.percent(30) {
                    bytes[start + 2] = 64;
                }
            }
            7 => {
                bytes[start + 2] = random.pick(&[64, 64, 65, 100, 128, 192, 255]);
                if random.percent(30) {
                    bytes[start + 3] = random.pick(&[0, 65]);
                }
            }
            8 => bytes[start + 3] = random.pick(&[0, 0, 65, 65, 66, 128, 255]),
            9 => {
                // A length that is one off, or longer than what is left.
                bytes[start + 3] = match random.below(4) {
                    0 => bytes[start + 3] + 1,
                    1 => bytes[start + 3] - 1,
                    _ => 64,
                };
            }
            10 => {
                for _ in 0..random.between(1, 20) {
                    bytes.push(random.next() as u8);
                }
            }
            _ => {
                let tails: [&[u8]; 9] = [
                    b"\n",
                    b"F",
                    b"FR",
                    b"FR\0",
                    b"FR\0\x04ROL",
                    b"FR\0\x41",
                    b"FR\x40\0",
                    b"FS\x40\0",
                    b"FR\x3F\x01 ",
                ];
                bytes.extend(random.pick(&tails));
            }
        }
        bytes
    }
}

// The program

fn main() {
    let arguments: Vec<String> = std::env::args().collect();
    let numbers = match arguments.as_slice() {
        [_, seed, count, _] => seed.parse::<u64>().ok().zip(count.parse::<usize>().ok()),
        _ => None,
    };
    let Some((seed, count)) = numbers else {
        eprintln!("usage: sessions SEED COUNT DIR");
        std::process::exit(2);
    };
    for index in 0..count {
        let file = Path::new(&arguments[3]).join(format!("{index:05}.records"));
        if let Err(error) = std::fs::write(&file, Session::new(seed, index).write()) {
            eprintln!("sessions: {}: {error}", file.display());
            std::process::exit(2);
        }
    }
}
