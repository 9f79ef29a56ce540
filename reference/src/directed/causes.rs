//! MODEL D0 to D13: what stops an access, by the cause that its trap names.
//! Each cause for each kind of access at each level, with each target; any two
//! controls closed at once, and all of them, opened one after the other as the
//! traps name them; stops at EL3 that are undefined and name nothing; and HPMN
//! at each counter.

use super::fields::*;
use super::script::{Change, Kind, Script, Switch, RUNNING};
use super::Session;

const KINDS: [Kind; 7] = [
    Kind::CounterRead,
    Kind::CounterWrite,
    Kind::Swinc,
    Kind::IcntrRead,
    Kind::IcntrWrite,
    Kind::SicrRead,
    Kind::SicrWrite,
];

/// The number of a cause, and its control: the value that stops nothing, then the
/// one that stops the access.
type Control = (u8, Switch);

const TPM_OF_EL2: Control = (3, (TPM_EL2, 0, 1));
const TPM_OF_EL3: Control = (5, (TPM_EL3, 0, 1));

/// The controls of a kind of access, in the order in which they are asked for.
/// HPMN is of counter 3.
fn controls(kind: Kind) -> Vec<Control> {
    let en = (1, (EN, 1, 0));
    let counter = |bit| vec![en, (2, (bit, 0, 1)), TPM_OF_EL2, (4, (HPMN, 4, 3)), TPM_OF_EL3];
    let (fgten2, enpm2) = ((7, (FGTEN2, 1, 0)), (6, (ENPM2, 1, 0)));
    let pmicntr = |bit| vec![fgten2, (2, (bit, 1, 0)), TPM_OF_EL2, enpm2, TPM_OF_EL3];
    let pmsicr = |bit| vec![(2, (bit, 0, 1)), (8, (TPMS, 0, 1)), (9, (NSPB, 1, 0))];
    match kind {
        Kind::CounterRead => counter(FGT_COUNTER_READ),
        Kind::CounterWrite => counter(FGT_COUNTER_WRITE),
        Kind::Swinc => vec![en, (2, (FGT_SWINC, 0, 1)), TPM_OF_EL2, TPM_OF_EL3],
        Kind::IcntrRead => pmicntr(NPMICNTR_READ),
        Kind::IcntrWrite => pmicntr(NPMICNTR_WRITE),
        Kind::SicrRead => pmsicr(FGT_PMSICR_READ),
        Kind::SicrWrite => pmsicr(FGT_PMSICR_WRITE),
    }
}

/// A control of MDCR_EL3: a trap to EL3, or undefined.
fn is_stop(control: &Control) -> bool {
    matches!(control.0, 5 | 6 | 9)
}

/// The levels at which a control stops accesses, and where its traps go. PMSICR
/// is undefined at level 0, so that nothing traps it there.
fn places(kind: Kind, cause: u8) -> &'static [(u8, u8)] {
    match cause {
        2 if kind.is_pmsicr() => &[(1, 2)],
        8 => &[(1, 2)],
        9 => &[(1, 3), (2, 3)],
        1 => &[(0, 1), (0, 2)],
        5 | 6 => &[(0, 3), (1, 3), (2, 3)],
        _ => &[(0, 2), (1, 2)],
    }
}

/// The controls of a kind of access at one level.
fn controls_at(kind: Kind, level: u8) -> Vec<Control> {
    let there = |cause: u8| places(kind, cause).iter().any(|&(at, _)| at == level);
    controls(kind).into_iter().filter(|&(cause, _)| there(cause)).collect()
}

/// With EL2 and EL3 and both kinds of fine-grained traps. EN, FGTEn2, EnPM2 and
/// the bits of nPMICNTR are closed, and so are the other fine-grained bits.
const GIVEN: [Change; 11] = [
    (ICNTR, 1),
    (FGT2, 1),
    (FGTEN, 1),
    (EN, 0),
    (FGT_COUNTER_READ, 1),
    (FGT_COUNTER_WRITE, 1),
    (FGT_SWINC, 1),
    (PMUACR_F0, 1),
    (COUNTER + 3, 0x13),
    (COUNTER + 4, 0x14),
    (INSTRUCTIONS, 0x77),
];

/// The same for PMSICR, with both TPM closed, which are none of its own.
const GIVEN_PMSICR: [Change; 8] = [
    (TPM_EL2, 1),
    (TPM_EL3, 1),
    (SPE, 1),
    (ERND, 1),
    (FGT_PMSICR_READ, 1),
    (FGT_PMSICR_WRITE, 1),
    (PMSICR, 0x5A00_0000_1234_5678),
    (NV_WORD, 0x0838_0838_0838_0838),
];

/// The controls of the access are open. Those of other registers and of the other
/// direction stay closed where they are none of its own: they are never named.
fn script(kind: Kind) -> Script {
    let mut script = Script::counters(&GIVEN);
    if kind.is_pmsicr() {
        script.put(&GIVEN_PMSICR);
    }
    open(&mut script, &controls(kind));
    if kind == Kind::Swinc {
        script.put(&RUNNING);
    }
    script
}

fn open(script: &mut Script, controls: &[Control]) {
    for &(_, (field, open, _)) in controls {
        script.set(field, open);
    }
}

fn close(script: &mut Script, controls: &[Control]) {
    for &(_, (field, _, closed)) in controls {
        script.set(field, closed);
    }
}

/// Some controls closed at once: the access, and again after each of them is
/// opened.
fn open_in_turn(script: &mut Script, kind: Kind, controls: &[Control]) {
    close(script, controls);
    script.probe(kind, 3);
    for &control in controls {
        open(script, &[control]);
        script.probe(kind, 3);
    }
}

/// What is changed beside one closed control: the trap stays, goes elsewhere, has
/// another cause, or is none. Some records are refused at some levels.
const AROUND: [&[Change]; 17] = [
    &[(EL2_ENABLED, 0)],
    &[(HAVE_EL3, 0)],
    &[(HAVE_EL3, 0), (FGTEN, 0), (FGTEN2, 0)],
    &[(E2H, 1)],
    &[(TGE, 1)],
    &[(E2H, 1), (TGE, 1)],
    &[(FGT, 0)],
    &[(FGT2, 0)],
    &[(FGTEN, 0)],
    &[(HALTED, 1)],
    &[(SDD, 1)],
    &[(HALTED, 1), (SDD, 1)],
    &[(HALTED, 1), (SDD, 1), (EL3_PRIORITY, 1)],
    &[(ER, 1)],
    &[(SW, 1)],
    &[(UEN, 1), (IR, 1)],
    &[(P9, 0)],
];

/// One control closed at one level, its trap going to one target.
fn single_session(kind: Kind, control: Control, level: u8, target: u8) -> Vec<u8> {
    let mut script = script(kind);
    if (control.0, target) == (1, 2) {
        script.set(TGE, 1);
    }
    script.level(level);
    script.probe(kind, 3);
    open_in_turn(&mut script, kind, &[control]);
    close(&mut script, &[control]);
    for changes in AROUND {
        script.with(changes, |s| s.probe(kind, 3));
    }
    script.finish()
}

/// Each two of the controls at one level.
fn pairs_session(kind: Kind, level: u8, given: &[Change]) -> Vec<u8> {
    let mut script = script(kind);
    script.put(given);
    script.level(level);
    let list = controls_at(kind, level);
    for (index, &first) in list.iter().enumerate() {
        for &second in &list[index + 1..] {
            open_in_turn(&mut script, kind, &[first, second]);
        }
    }
    script.finish()
}

/// Machines on which fewer controls are asked for, or a trap goes elsewhere, or a
/// stop at EL3 is undefined; and the levels that they have.
const MACHINES: [(&[u8], &[Change]); 6] = [
    (&[0, 1, 2, 3], &[]),
    (&[0], &[(TGE, 1)]),
    (&[0], &[(E2H, 1), (TGE, 1)]),
    (&[0, 1], &[(EL2_ENABLED, 0)]),
    (&[0, 1, 2], &[(HAVE_EL3, 0)]),
    (&[0, 1, 2], &[(HALTED, 1), (SDD, 1)]),
];

/// All controls of the access at once, those too that this level does not ask
/// for.
fn all_session(kind: Kind, level: u8) -> Vec<u8> {
    let mut script = script(kind);
    script.level(level);
    for (_, changes) in MACHINES.iter().filter(|(levels, _)| levels.contains(&level)) {
        script.with(changes, |s| open_in_turn(s, kind, &controls(kind)));
    }
    script.finish()
}

/// Stops at EL3 in and out of Debug state, alone and with each of the controls
/// that are asked for before them: undefined, they have no cause.
fn undefined_session(kind: Kind, level: u8, stops: &[Control]) -> Vec<u8> {
    let switches: [Switch; 3] = [(HALTED, 0, 1), (SDD, 0, 1), (EL3_PRIORITY, 0, 1)];
    let mut script = script(kind);
    script.level(level);
    close(&mut script, stops);
    script.subsets(&switches, |s| s.probe(kind, 3));
    for control in controls_at(kind, level).into_iter().filter(|control| !is_stop(control)) {
        close(&mut script, &[control]);
        script.subsets(&switches, |s| s.probe(kind, 3));
        open(&mut script, &[control]);
    }
    script.finish()
}

/// The stops at EL3 of a kind of access, each alone and both.
fn stops(kind: Kind) -> Vec<(&'static str, Vec<Control>)> {
    let list: Vec<Control> = controls(kind).into_iter().filter(is_stop).collect();
    match list[..] {
        [enpm2, tpm] => {
            vec![("enpm2", vec![enpm2]), ("tpm", vec![tpm]), ("enpm2-tpm", vec![enpm2, tpm])]
        }
        _ if kind.is_pmsicr() => vec![("nspb", list)],
        _ => vec![("tpm", list)],
    }
}

/// HPMN at each counter, and the counter below it, at one level.
fn hpmn_session(kind: Kind, level: u8) -> Vec<u8> {
    let mut script = script(kind);
    script.put(&[(HPMN0, 1), (N, 31)]);
    script.level(level);
    for m in 0..=30 {
        script.set(HPMN, m as u64);
        script.probe(kind, m);
        if m > 0 {
            script.probe(kind, m - 1);
        }
    }
    script.set(HPMN, 31);
    script.probe(kind, 30);
    script.finish_all()
}

/// The sessions on one kind of access, without the start of their names.
fn sessions_of(kind: Kind) -> Vec<(String, Vec<u8>)> {
    let name = kind.name();
    let mut list = Vec::new();
    for control in controls(kind) {
        let cause = control.0;
        for &(level, target) in places(kind, cause) {
            let bytes = single_session(kind, control, level, target);
            list.push((format!("{cause}-{name}-level-{level}-to-el{target}"), bytes));
        }
    }
    for level in 0..=3 {
        list.push((format!("all-{name}-level-{level}"), all_session(kind, level)));
        let there = controls_at(kind, level);
        if there.len() > 1 {
            list.push((format!("pairs-{name}-level-{level}"), pairs_session(kind, level, &[])));
        }
        if there.iter().any(|&(cause, _)| cause == 1) {
            let bytes = pairs_session(kind, level, &[(TGE, 1)]);
            list.push((format!("pairs-{name}-level-{level}-tge"), bytes));
        }
        for (stop, stops) in stops(kind) {
            if there.contains(&stops[0]) {
                let bytes = undefined_session(kind, level, &stops);
                list.push((format!("undef-{name}-level-{level}-{stop}"), bytes));
            }
        }
        if there.iter().any(|&(cause, _)| cause == 4) {
            list.push((format!("hpmn-{name}-level-{level}"), hpmn_session(kind, level)));
        }
    }
    list
}

pub fn sessions() -> Vec<Session> {
    let mut list = Vec::new();
    for kind in KINDS {
        let start = if kind.is_pmsicr() { "pmsicr-cause" } else { "cause" };
        for (name, bytes) in sessions_of(kind) {
            list.push(Session::new(format!("{start}-{name}"), bytes));
        }
    }
    list
}
