//! MODEL N1 to N7, U6 and U7: who may move PMSICR. Each check of the page, in
//! both directions and at each level, with each of its conditions flipped and
//! beside those that come earlier or later; all checks in all subsets; NSPB and
//! NS in all combinations; machines without EL2 or EL3; and every field of one
//! bit flipped alone. What the traps name is in causes.rs.

use super::fields::*;
use super::flips;
use super::script::{Change, Kind, Script, Switch, PMCNTENSET};
use super::Session;

/// Consistent, and no check stops an access at levels 1 to 3. NSPB 1 goes with NS
/// 0. PMUv3 is missing: nothing here asks for it.
const GIVEN: [Change; 12] = [
    (FGT, 1),
    (HAVE_EL2, 1),
    (HAVE_EL3, 1),
    (N, 2),
    (EL2_ENABLED, 1),
    (HPMN, 1),
    (FGTEN, 1),
    (SPE, 1),
    (ERND, 1),
    (NSPB, 1),
    (PMSICR, 0x5A00_0000_1234_5678),
    (NV_WORD, 0x0838_0838_0838_0838),
];

const KINDS: [Kind; 2] = [Kind::SicrRead, Kind::SicrWrite];

/// The fields from 80 to 8D that are one bit.
pub fn bits() -> impl Iterator<Item = u8> {
    (SPE..=NS).chain([FGT_PMSICR_READ, FGT_PMSICR_WRITE])
}

/// The fine-grained bits of this direction and of the other.
fn fine_grained(kind: Kind) -> (u8, u8) {
    if kind == Kind::SicrRead {
        (FGT_PMSICR_READ, FGT_PMSICR_WRITE)
    } else {
        (FGT_PMSICR_WRITE, FGT_PMSICR_READ)
    }
}

/// A check's name, the changes that make it apply, each of which is flipped, and
/// other neighbours. NSPB 0 is flipped to 1, which is open.
type Rule = (&'static str, Vec<Change>, Vec<Vec<Change>>);

/// Both are 1: the word at 0x838 is meant.
const REDIRECTED: [Change; 2] = [(NV, 1), (NV2, 1)];

/// Without SPE nothing else matters.
fn no_spe(kind: Kind) -> Rule {
    let more = vec![
        vec![(PMUV3, 1)],
        vec![(PROFILING, 1)],
        vec![(fine_grained(kind).0, 1)],
        vec![(TPMS, 1)],
        vec![(NSPB, 0)],
        REDIRECTED.to_vec(),
        vec![(SPE, 1), (TPMS, 1)],
        vec![(SPE, 1), (NSPB, 0)],
    ];
    ("no-spe", vec![(SPE, 0)], more)
}

/// Undefined in Debug state, ahead of the fine-grained bit and TPMS.
fn priority(kind: Kind) -> Rule {
    let applies = vec![(HAVE_EL3, 1), (HALTED, 1), (SDD, 1), (EL3_PRIORITY, 1), (NSPB, 0)];
    let more = vec![
        vec![(fine_grained(kind).0, 1)],
        vec![(TPMS, 1)],
        vec![(NSPB, 2)],
        vec![(NSPB, 3)],
        vec![(NSPB, 3), (TPMS, 1)],
        vec![(NSPB, 1), (NS, 1)],
        vec![(NSPB, 3), (NS, 1)],
        vec![(NSPB, 3), (NS, 1), (TPMS, 1)],
        vec![(NSPB, 1), (TPM_EL3, 1)],
        vec![(EL2_ENABLED, 0)],
        REDIRECTED.to_vec(),
    ];
    ("priority", applies, more)
}

/// The bit of PMSICR and direction; no other bit does it. FEAT_FGT2 and FGTEn2
/// don't matter.
fn fine_grained_rule(kind: Kind) -> Rule {
    let (bit, other) = fine_grained(kind);
    let mut more = vec![
        vec![(HAVE_EL3, 0)],
        vec![(HAVE_EL3, 0), (FGTEN, 0)],
        vec![(bit, 0), (other, 1)],
        vec![(FGT, 0), (FGT2, 1)],
        vec![(FGTEN, 0), (FGTEN2, 1)],
        vec![(E2H, 1)],
        vec![(E2H, 1), (TGE, 1)],
        vec![(TPMS, 1)],
        vec![(NSPB, 0)],
        REDIRECTED.to_vec(),
    ];
    for another in FGT_COUNTER_READ..=NPMICNTR_WRITE {
        more.push(vec![(bit, 0), (another, 1)]);
    }
    ("fine-grained", vec![(EL2_ENABLED, 1), (FGT, 1), (FGTEN, 1), (bit, 1)], more)
}

/// TPMS, whatever becomes of the fine-grained traps; not TPM.
fn tpms(_: Kind) -> Rule {
    let more = vec![
        vec![(TPMS, 0), (TPM_EL2, 1)],
        vec![(HAVE_EL3, 0)],
        vec![(FGT, 0)],
        vec![(FGTEN, 0)],
        vec![(E2H, 1)],
        vec![(E2H, 1), (TGE, 1)],
        vec![(HALTED, 1), (SDD, 1)],
        vec![(HALTED, 1), (SDD, 1), (EL3_PRIORITY, 1)],
        vec![(NSPB, 0)],
        vec![(NSPB, 0), (HALTED, 1), (SDD, 1)],
        REDIRECTED.to_vec(),
    ];
    ("tpms", vec![(EL2_ENABLED, 1), (TPMS, 1)], more)
}

/// NSPB and NS; not TPM or EnPM2 of MDCR_EL3.
fn nspb(_: Kind) -> Rule {
    let more = vec![
        vec![(NSPB, 2)],
        vec![(NSPB, 3)],
        vec![(NS, 1)],
        vec![(NS, 1), (NSPB, 1)],
        vec![(NS, 1), (NSPB, 2)],
        vec![(NS, 1), (NSPB, 3)],
        vec![(HALTED, 1)],
        vec![(SDD, 1)],
        vec![(HALTED, 1), (SDD, 1)],
        vec![(EL3_PRIORITY, 1), (HALTED, 1)],
        vec![(EL3_PRIORITY, 1), (SDD, 1)],
        vec![(EL2_ENABLED, 0)],
        vec![(NSPB, 1), (TPM_EL3, 1)],
        REDIRECTED.to_vec(),
    ];
    ("nspb", vec![(HAVE_EL3, 1), (NSPB, 0)], more)
}

/// The word at 0x838, once no check stops the access.
fn redirect(kind: Kind) -> Rule {
    let more = vec![
        vec![(HAVE_EL3, 0)],
        vec![(EL2_ENABLED, 0), (HAVE_EL2, 0)],
        vec![(E2H, 1)],
        vec![(TGE, 1)],
        vec![(FGT, 0)],
        vec![(SPE, 0)],
        vec![(ERND, 0)],
        vec![(PROFILING, 1)],
        vec![(fine_grained(kind).0, 1)],
        vec![(TPMS, 1)],
        vec![(NSPB, 0)],
    ];
    ("redirect", vec![(EL2_ENABLED, 1), (NV, 1), (NV2, 1)], more)
}

const RULES: [fn(Kind) -> Rule; 6] = [no_spe, priority, fine_grained_rule, tpms, nspb, redirect];

/// A check that applies, then with each of its conditions flipped, and beside
/// other neighbours.
fn try_rule(script: &mut Script, kind: Kind, applies: &[Change], more: &[Vec<Change>]) {
    script.with(applies, |script| {
        script.probe(kind, 0);
        for &(field, value) in applies {
            script.with(&[(field, 1 - value)], |s| s.probe(kind, 0));
        }
        for neighbour in more {
            script.with(neighbour, |s| s.probe(kind, 0));
        }
    });
}

/// One check in one direction at the levels where it can apply, with all
/// neighbours.
fn rule_session((_, applies, more): &Rule, kind: Kind) -> Vec<u8> {
    let mut script = Script::new(&GIVEN);
    for level in [1, 2] {
        script.level(level);
        script.probe(kind, 0);
        try_rule(&mut script, kind, applies, more);
    }
    script.finish_sampling()
}

/// All checks in one direction at the levels where none but the first can apply.
fn levels_session(kind: Kind) -> Vec<u8> {
    let mut script = Script::new(&GIVEN);
    for level in [0, 3] {
        script.level(level);
        script.probe(kind, 0);
        for (_, applies, _) in RULES.map(|rule| rule(kind)) {
            try_rule(&mut script, kind, &applies, &[]);
        }
    }
    script.finish_sampling()
}

/// All subsets of the checks at one level, in Debug state with SDD or not. The
/// last switch is that between register and word.
fn subsets_session(kind: Kind, level: u8, halted: u64) -> Vec<u8> {
    let switches: [Switch; 5] = [
        (EL3_PRIORITY, 0, 1),
        (fine_grained(kind).0, 0, 1),
        (TPMS, 0, 1),
        (NSPB, 1, 0),
        (NV2, 0, 1),
    ];
    let mut script = Script::new(&GIVEN);
    script.put(&[(HALTED, halted), (SDD, 1), (NV, 1)]);
    script.level(level);
    script.subsets(&switches, |s| s.probe(kind, 0));
    script.finish_sampling()
}

/// The same in both directions at a level where none of them applies: 0, where
/// all is undefined, and 3, where nothing is.
fn subsets_do_not_matter_session(level: u8) -> Vec<u8> {
    let switches: [Switch; 4] = [(FGT_PMSICR_WRITE, 0, 1), (TPMS, 0, 1), (NSPB, 1, 0), (NV2, 0, 1)];
    let mut script = Script::new(&GIVEN);
    script.put(&[(HALTED, 1), (SDD, 1), (EL3_PRIORITY, 1), (NV, 1), (FGT_PMSICR_READ, 1)]);
    script.level(level);
    script.subsets(&switches, |s| {
        for kind in KINDS {
            s.probe(kind, 0);
        }
    });
    script.finish_sampling()
}

/// NSPB and NS in all combinations, running and in Debug state.
fn nspb_session(kind: Kind, level: u8) -> Vec<u8> {
    let debug: [Switch; 3] = [(HALTED, 0, 1), (SDD, 0, 1), (EL3_PRIORITY, 0, 1)];
    let mut script = Script::new(&GIVEN);
    script.level(level);
    for ns in [0, 1] {
        for nspb in 0..=3 {
            script.put(&[(NS, ns), (NSPB, nspb)]);
            script.subsets(&debug, |s| s.probe(kind, 0));
        }
    }
    script.finish_sampling()
}

/// Machines without EL2, with EL2 not enabled, and with both; what is closed on
/// them, the last being the word; each at every level.
fn machines_session(kind: Kind, have_el3: u64) -> Vec<u8> {
    let closed: [&[Change]; 4] =
        [&[], &[(fine_grained(kind).0, 1), (TPMS, 1)], &[(NSPB, 2)], &REDIRECTED];
    let mut script = Script::new(&GIVEN);
    script.set(HAVE_EL3, have_el3);
    for (have_el2, enabled) in [(0, 0), (1, 0), (1, 1)] {
        script.put(&[(HAVE_EL2, have_el2), (EL2_ENABLED, enabled)]);
        for level in 0..=3 {
            script.level(level);
            for changes in closed {
                script.with(changes, |s| s.probe(kind, 0));
            }
        }
    }
    script.finish_sampling()
}

/// Every field of one bit flipped alone.
fn each_field_session(kind: Kind, given: &[Change]) -> Vec<u8> {
    let mut script = Script::new(&GIVEN);
    script.put(given);
    script.probe(kind, 0);
    for field in flips::bits().chain(bits()) {
        script.with_flipped(field, |s| s.probe(kind, 0));
    }
    script.finish_sampling()
}

/// Every field of one bit from 80 to 8A flipped alone beside accesses to the
/// other registers, an external read and a tick: none of them matters there.
fn other_registers_session(level: u8) -> Vec<u8> {
    let kinds =
        [Kind::CounterRead, Kind::CounterWrite, Kind::Swinc, Kind::IcntrRead, Kind::IcntrWrite];
    let mut script = Script::counters(&GIVEN);
    script.put(&[(ICNTR, 1), (ENPM2, 1), (PMUACR_F0, 1), (N, 6), (HPMN, 4)]);
    script.put(&[(ENABLES, ALL_ENABLES), (PMCR_E, 1), (LEVEL, level as u64)]);
    script.put(&[(EXT64, 1), (POWERED, 1), (ALLOWED, 1)]);
    for field in bits() {
        script.with_flipped(field, |s| {
            for kind in kinds {
                s.probe(kind, 3);
            }
            s.tick(0);
            s.external_read(PMCNTENSET);
        });
    }
    script.finish()
}

pub fn sessions() -> Vec<Session> {
    let mut list = Vec::new();
    for level in [0, 3] {
        let bytes = subsets_do_not_matter_session(level);
        list.push(Session::new(format!("pmsicr-subsets-level-{level}"), bytes));
    }
    for kind in KINDS {
        let name = kind.name();
        for rule in RULES.map(|rule| rule(kind)) {
            let bytes = rule_session(&rule, kind);
            list.push(Session::new(format!("pmsicr-{}-{name}-levels-1-2", rule.0), bytes));
        }
        list.push(Session::new(format!("pmsicr-{name}-levels-0-3"), levels_session(kind)));
        for level in [1, 2] {
            for (halted, state) in [(1, "halted"), (0, "running")] {
                let bytes = subsets_session(kind, level, halted);
                let name = format!("pmsicr-subsets-{name}-level-{level}-{state}");
                list.push(Session::new(name, bytes));
            }
            let bytes = nspb_session(kind, level);
            list.push(Session::new(format!("pmsicr-nspb-ns-{name}-level-{level}"), bytes));
            let bytes = each_field_session(kind, &[(LEVEL, level as u64)]);
            list.push(Session::new(format!("pmsicr-each-field-{name}-level-{level}"), bytes));
        }
        for (have_el3, state) in [(1, "el3"), (0, "no-el3")] {
            let bytes = machines_session(kind, have_el3);
            list.push(Session::new(format!("pmsicr-machines-{name}-{state}"), bytes));
        }
        let bytes = each_field_session(kind, &[(LEVEL, 1), (NV, 1), (NV2, 1)]);
        list.push(Session::new(format!("pmsicr-each-field-{name}-word"), bytes));
    }
    for level in [0, 1] {
        let bytes = other_registers_session(level);
        list.push(Session::new(format!("pmsicr-not-other-registers-level-{level}"), bytes));
    }
    list
}
