//! load: writes the input of the benchmark.
//!
//!     load DIR
//!
//! writes DIR/setup.records, which makes 60 roles on 8 levels, links them, gives users 1 to 4 of
//! them, and makes 15 assignments in 15 pairs on one object; and DIR/load.records, the same followed
//! by 200,000 CHECKs. Prints how many records load.records has. Always writes the same bytes.
//! docs/RECORDS.md tells what a record is.

mod random;

use random::Random;
use std::path::Path;

const ROLES: usize = 60;
const HOLDERS: usize = 48;
const CHECKS: usize = 200_000;
/// What the type bitmaps defines.
const PRIVILEGES: [&str; 4] = ["read", "build", "export", "drop"];

impl Random {
    /// So many different ones of the candidates; all of them if there are fewer.
    fn some(&mut self, mut candidates: Vec<usize>, count: usize) -> Vec<usize> {
        let mut chosen = Vec::new();
        while chosen.len() < count && !candidates.is_empty() {
            chosen.push(candidates.swap_remove(self.below(candidates.len())));
        }
        chosen
    }
}

struct Records {
    bytes: Vec<u8>,
    count: usize,
}

impl Records {
    fn put(&mut self, issuer: usize, body: &str) {
        self.bytes.extend([0x46, 0x52, issuer as u8, body.len() as u8]);
        self.bytes.extend(body.as_bytes());
        self.count += 1;
    }
}

fn level(role: usize) -> usize {
    role % 8
}

fn set_up(records: &mut Records, random: &mut Random) {
    for role in 0..ROLES {
        records.put(0, &format!("ROLE r{role} LEVEL {}", level(role)));
    }
    let mut links = 0;
    for upper in 0..ROLES {
        let lower_roles: Vec<usize> = (0..ROLES).filter(|role| level(*role) < level(upper)).collect();
        let count = 1 + random.below(3);
        for lower in random.some(lower_roles, count) {
            records.put(0, &format!("LINK r{lower} TO r{upper}"));
            links += 1;
        }
    }
    // u3 holds r1, through which it gives below.
    records.put(0, "LINK r1 TO u3");
    links += 1;
    for user in 0..HOLDERS {
        let others: Vec<usize> = (0..ROLES).filter(|role| *role != 1).collect();
        let count = if user == 3 { random.below(4) } else { 1 + random.below(4) };
        for lower in random.some(others, count) {
            records.put(0, &format!("LINK r{lower} TO u{user}"));
            links += 1;
        }
    }
    assert!(links <= 256, "{links} links");

    records.put(0, "OBJECT o4 TYPE bitmaps OWNER u1");
    // The number of a role modulo 8 is its level. Granters: u1 owns o4, u2 has an option for read,
    // and u3 gives export as r1. No two have the same granter and grantee.
    let assignments = [
        (1, "GRANT read ON o4 TO u2 OPTION"),
        (1, "GRANT export ON o4 TO r1 OPTION"),
        (2, "GRANT read ON o4 TO r8"),
        (2, "TAINT read ON o4 TO r13"),
        (2, "DENY read ON o4 TO r22 NEUT ORNT"),
        (3, "SUSPEND export ON o4 TO r15"),
        (3, "GRANT export ON o4 TO r18"),
        (3, "DENY export ON o4 TO u7"),
        (1, "GRANT build ON o4 TO r0"),
        (1, "GRANT build ON o4 TO r11"),
        (1, "SUSPEND build ON o4 TO r23 NEUT ORNT"),
        (1, "DENY build ON o4 TO r12"),
        (1, "GRANT drop ON o4 TO r24"),
        (1, "TAINT drop ON o4 TO r31"),
        (1, "SUSPEND read ON o4 TO r28"),
    ];
    for (issuer, body) in assignments {
        records.put(issuer, body);
    }
}

fn main() {
    let arguments: Vec<String> = std::env::args().collect();
    let [_, directory] = arguments.as_slice() else {
        eprintln!("usage: load DIR");
        std::process::exit(2);
    };
    let mut random = Random(20);
    let mut records = Records { bytes: Vec::new(), count: 0 };
    set_up(&mut records, &mut random);
    std::fs::write(Path::new(directory).join("setup.records"), &records.bytes).expect("setup.records");

    for _ in 0..CHECKS {
        let issuer = random.below(64);
        let privilege = PRIVILEGES[random.below(4)];
        let principal = if random.below(2) == 0 {
            format!("u{}", random.below(HOLDERS))
        } else {
            format!("r{}", random.below(ROLES))
        };
        records.put(issuer, &format!("CHECK {privilege} ON o4 FOR {principal}"));
    }
    std::fs::write(Path::new(directory).join("load.records"), &records.bytes).expect("load.records");
    println!("{}", records.count);
}
