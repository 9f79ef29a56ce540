//! MODEL N1 to N7 and J1 to J9: what the directed sessions reach of PMSICR and
//! of sampling: every setting of what the page asks at EL3, the word against
//! the register, each kind of member, and each kind of start.

use super::*;

/// The sessions on PMSICR and sampling, each command with the record before it
/// and its answer.
fn steps() -> Vec<(Machine, Command, Answer)> {
    let ours = |session: &&Session| {
        let name = &session.name;
        name.starts_with("pmsicr-") || name.starts_with("sampling-")
    };
    let mut list = Vec::new();
    for session in all().iter().filter(ours) {
        let mut machine = Machine::default();
        let mut earlier = Earlier::default();
        for command in commands(session) {
            let before = machine.clone();
            let answer = obey(&mut machine, &mut earlier, command);
            list.push((before, command, answer));
        }
    }
    list
}

/// Accesses to PMSICR with SPE that the state does not refuse.
fn accesses_to_pmsicr() -> Vec<(Machine, bool, Answer)> {
    let mut list = Vec::new();
    for (before, command, answer) in steps() {
        let refused = matches!(answer, Answer::Refused(_));
        if let (Some(("PMSICR", read)), false, true) = (target(command), refused, before.spe) {
            list.push((before, read, answer));
        }
    }
    list
}

/// NSPB and NS in all combinations with Debug state, in both directions, at
/// levels 1 and 2.
#[test]
fn every_setting_at_el3_is_there() {
    let mut seen = BTreeSet::new();
    for (r, read, _) in accesses_to_pmsicr() {
        if r.have_el3 && (r.el == 1 || r.el == 2) {
            let debug = (r.halted, r.sdd, r.el3_trap_priority);
            seen.insert((r.el, read, r.nspb, r.ns, debug));
        }
    }
    assert_eq!(seen.len(), 2 * 2 * 4 * 2 * 8);
}

/// NV, NV2 and EL2 enabled in all combinations, at each level that has them:
/// what is read or written, with each ERnd.
#[test]
fn register_and_word_are_reached() {
    let mut seen = BTreeSet::new();
    for (r, read, answer) in accesses_to_pmsicr() {
        if matches!(answer, Answer::Ok | Answer::Moved { .. }) {
            seen.insert((r.el, read, r.ernd, (r.el2_enabled, r.nv, r.nv2)));
        }
    }
    let level_1_and_3 = seen.iter().filter(|(level, _, _, _)| *level != 2).count();
    let level_1 = seen.iter().filter(|(level, _, _, _)| *level == 1).count();
    assert_eq!(level_1, 2 * 2 * 8);
    assert!(level_1_and_3 - level_1 >= 2 * 8, "{seen:?}");
    assert!(seen.len() - level_1_and_3 >= 2 * 4, "{seen:?}");
}

/// Every Rt in both directions.
#[test]
fn every_rt_is_there() {
    let mut seen = BTreeSet::new();
    for (_, command, answer) in steps() {
        if let (Some(("PMSICR", read)), Command::Access { word, .. }) = (target(command), command) {
            let kind = words(answer).split(' ').next().map(str::to_string);
            seen.insert((read, word & 31, kind));
        }
    }
    for rt in 0..32 {
        for (read, kind) in [(true, "value"), (true, "trap"), (false, "ok"), (false, "trap")] {
            assert!(seen.contains(&(read, rt, Some(kind.to_string()))), "{rt} {kind}");
        }
    }
}

/// Members with each setting of SPE, profiling, ERnd and RND, each counter at
/// 0, 1 and more, and a draw of 0 or not; where they count, with reserved bits
/// too.
#[test]
fn every_kind_of_member_is_there() {
    let mut counted = BTreeSet::new();
    let mut reserved = BTreeSet::new();
    let mut off = BTreeSet::new();
    for (r, command, answer) in steps() {
        let draw = match command {
            Command::Member { draw } if !matches!(answer, Answer::Refused(_)) => draw,
            _ => continue,
        };
        let (secondary, primary) = (r.pmsicr >> 56, r.pmsicr & 0xFFFF_FFFF);
        if r.spe && r.profiling {
            counted.insert((r.ernd, r.rnd, secondary.min(2), primary.min(2), draw == 0));
            if r.pmsicr >> 32 & 0xFF_FFFF != 0 {
                reserved.insert((r.ernd, r.rnd, primary.min(2), answer == Answer::Sampled));
            }
        } else {
            assert_eq!(answer, Answer::Ok);
            off.insert((r.spe, r.profiling, r.ernd, r.rnd, secondary.min(2), primary.min(2)));
        }
    }
    assert_eq!(counted.len(), 2 * 2 * 3 * 3 * 2, "{counted:?}");
    assert!(reserved.len() >= 2 * 2 * 3, "{reserved:?}");
    assert!(off.len() >= 3 * 2 * 2 * 4, "{off:?}");
}

/// Sets of the profiling field: each value over each, with and without SPE,
/// each ERnd, and a register that is zero, or has ones in each of its three
/// parts.
#[test]
fn every_kind_of_start_is_there() {
    let mut seen = BTreeSet::new();
    let mut transitions = BTreeSet::new();
    for (r, command, answer) in steps() {
        if let (Command::Set { field: 0x83, value }, Answer::Ok) = (command, answer) {
            transitions.insert((r.spe, r.profiling, value, r.pmsicr == 0));
            if r.spe && !r.profiling && value == 1 {
                let parts = [r.pmsicr >> 56, r.pmsicr >> 32 & 0xFF_FFFF, r.pmsicr & 0xFFFF_FFFF];
                seen.insert((r.ernd, parts.map(|part| part != 0), r.reload.min(2)));
            }
        }
    }
    assert!(seen.len() >= 2 * 7 * 2, "{seen:?}");
    assert_eq!(transitions.len(), 2 * 2 * 2 * 2, "{transitions:?}");
}
