//! MODEL H1 to H7: steps back in whole sessions, random and directed. Against a second way
//! to step back, which keeps commands instead of records and runs them again;
//! against the number of steps that are left, by the lines alone; and that
//! random sessions step back.

use super::back::{after, directly, is_refused};
use super::*;
use crate::directed;
use crate::session::words;

/// A second way to step back: the steps since the last set, which are run again,
/// without the last one, from what that set left. How many can be taken back is
/// a number.
#[derive(Default)]
struct Replay {
    start: Machine,
    steps: Vec<Command>,
    left: usize,
    now: Machine,
}

impl Replay {
    fn obey(&mut self, command: Command) -> Answer {
        if command == Command::Back {
            if self.left == 0 {
                return Answer::Refused(18);
            }
            self.left -= 1;
            self.steps.pop();
            self.now = after(&self.start, &self.steps);
            return Answer::Ok;
        }
        let answer = directly(&mut self.now, command);
        match command {
            _ if is_refused(answer) => {}
            Command::Read { .. } => {}
            Command::Set { .. } => {
                *self =
                    Replay { start: self.now.clone(), now: self.now.clone(), ..Replay::default() }
            }
            _ => {
                self.steps.push(command);
                self.left = 64.min(self.left + 1);
            }
        }
        answer
    }
}

/// The commands of a session before its end.
fn before_the_end(bytes: &[u8]) -> Vec<Command> {
    commands(bytes).into_iter().filter(|&command| command != Command::End).collect()
}

/// Random sessions and the directed ones about steps back.
fn sessions(seed: u64) -> Vec<Vec<u8>> {
    let directed = directed::all().into_iter().filter(|session| session.name.starts_with("back-"));
    let random = (0..1500).map(|index| generate::session(seed, index));
    directed.map(|session| session.bytes).chain(random).collect()
}

#[test]
fn sessions_agree_with_running_again() {
    let mut backs = 0;
    for bytes in sessions(44) {
        let mut machine = Machine::default();
        let mut earlier = Earlier::default();
        let mut replay = Replay::default();
        for command in before_the_end(&bytes) {
            let answer = obey(&mut machine, &mut earlier, command);
            assert_eq!(answer, replay.obey(command), "{}", disassemble(&bytes));
            assert_eq!(machine, replay.now, "{}", disassemble(&bytes));
            assert_eq!(earlier.len(), replay.left);
            backs += (command == Command::Back && answer == Answer::Ok) as u32;
        }
    }
    assert!(backs > 10_000, "{backs}");
}

/// Whether a step back is refused, by the lines before it alone.
#[test]
fn lines_say_how_many_are_left() {
    for bytes in sessions(46) {
        let mut left = 0;
        for (command, answer) in answered(&bytes) {
            match command {
                Command::Back if left == 0 => assert_eq!(answer, "refused 18"),
                Command::Back => {
                    assert_eq!(answer, "ok");
                    left -= 1;
                }
                _ if answer.starts_with("refused") => assert_ne!(answer, "refused 18"),
                Command::Set { .. } => left = 0,
                Command::Read { .. } | Command::End => {}
                _ => left = 64.min(left + 1),
            }
        }
    }
}

/// A step that was taken back: the first word of its answer, what kind of command
/// it was, and whether it had changed the record.
type Taken = (String, &'static str, bool);

/// The steps that a session takes back, and how many it could have.
fn taken(bytes: &[u8]) -> (Vec<Taken>, Vec<usize>) {
    let (mut machine, mut earlier) = (Machine::default(), Earlier::default());
    let (mut steps, mut list, mut depths) = (Vec::new(), Vec::new(), Vec::new());
    for command in before_the_end(bytes) {
        let before = machine.clone();
        let listed = earlier.len();
        let answer = obey(&mut machine, &mut earlier, command);
        let kind = match command {
            Command::Access { .. } => "access",
            Command::Write { .. } => "external write",
            Command::Tick { .. } => "tick",
            Command::Member { .. } => "member",
            Command::Level(_) => "level",
            _ => "",
        };
        if command == Command::Back {
            depths.push(listed);
            list.extend(steps.pop().filter(|_| listed > 0));
        } else if !is_refused(answer) && !kind.is_empty() {
            let word = words(answer).split(' ').next().map(str::to_string).unwrap_or_default();
            steps.push((word, kind, machine != before));
        }
    }
    (list, depths)
}

/// The kinds of steps that are taken back: the first word of the answer, the
/// command, and whether the record had changed.
const TAKEN: [(&str, &str, &[bool]); 12] = [
    ("ok", "access", &[true, false]),
    ("value", "access", &[false]),
    ("trap", "access", &[false]),
    ("undef", "access", &[false]),
    ("other", "access", &[false]),
    ("ok", "external write", &[true, false]),
    ("error", "external write", &[false]),
    ("other", "external write", &[false]),
    ("ok", "tick", &[true, false]),
    ("ok", "member", &[true, false]),
    ("sampled", "member", &[true]),
    ("ok", "level", &[true, false]),
];

/// Random sessions take every kind of step back, from every number of listed
/// steps, and are refused.
#[test]
fn generated_sessions_step_back() {
    let mut seen = BTreeMap::new();
    let mut numbers = BTreeMap::new();
    let mut full = 0;
    for index in 0..3000 {
        let bytes = generate::session(48, index);
        let (list, depths) = taken(&bytes);
        full += depths.contains(&64) as u32;
        for step in list {
            *seen.entry(step).or_insert(0) += 1;
        }
        for depth in depths {
            *numbers.entry(depth).or_insert(0) += 1;
        }
    }
    for (word, kind, changes) in TAKEN {
        for &change in changes {
            let count = seen.get(&(word.to_string(), kind, change)).copied().unwrap_or(0);
            assert!(count > 50, "{word} {kind} {change}: {count}");
        }
    }
    assert_eq!(numbers.len(), 65, "{numbers:?}");
    assert!(numbers.values().all(|&count| count > 50), "{numbers:?}");
    assert!(full > 200, "{full}");
}
