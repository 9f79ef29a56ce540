//! MODEL I1 to I8 and G6: PMICNTR in both directions. Each rule with each of
//! its conditions flipped at each level, all rules in all subsets, and what F0
//! and IR do to a granted access.

use super::fields::*;
use super::script::{debug_states, Change, Kind, Script, Switch};
use super::Session;

/// Consistent, and no rule applies at any level. PMUSERENR is all 0: it stops
/// no access to PMICNTR (MODEL I8).
const GIVEN: [Change; 16] = [
    (PMUV3, 1),
    (ICNTR, 1),
    (FGT2, 1),
    (HAVE_EL2, 1),
    (HAVE_EL3, 1),
    (N, 2),
    (EL2_ENABLED, 1),
    (HPMN, 1),
    (ENPM2, 1),
    (FGTEN2, 1),
    (NPMICNTR_READ, 1),
    (NPMICNTR_WRITE, 1),
    (PMUACR_F0, 1),
    (COUNTER, 0x10),
    (COUNTER + 1, 0x11),
    (INSTRUCTIONS, 0x7777_7777_7777_7777),
];

const KINDS: [Kind; 2] = [Kind::IcntrRead, Kind::IcntrWrite];

/// The nPMICNTR bits of this direction and of the other.
fn bits(kind: Kind) -> (u8, u8) {
    if kind == Kind::IcntrRead {
        (NPMICNTR_READ, NPMICNTR_WRITE)
    } else {
        (NPMICNTR_WRITE, NPMICNTR_READ)
    }
}

/// A rule's name, the bits that make it apply, and other neighbours.
type Rule = (&'static str, Vec<Change>, Vec<Vec<Change>>);

/// The rules that need EL2 enabled.
fn el2_rules(kind: Kind) -> Vec<Rule> {
    let (bit, other) = bits(kind);
    let host = || {
        vec![
            vec![(E2H, 1)],
            vec![(TGE, 1)],
            vec![(E2H, 1), (TGE, 1)],
            vec![(FGT2, 0), (FGT, 1)],
            vec![(EN, 1), (UEN, 1), (IR, 1)],
        ]
    };
    let mut fgten2 = host();
    fgten2.push(vec![(FGTEN, 1)]);
    let mut npmicntr = host();
    npmicntr.push(vec![(other, 0)]);
    npmicntr.push(vec![(bit, 1), (other, 0)]);
    npmicntr.push(vec![(HAVE_EL3, 0)]);
    npmicntr.push(vec![(HAVE_EL3, 0), (FGTEN2, 0)]);
    let mut tpm = host();
    tpm.push(vec![(HAVE_EL3, 0)]);
    vec![
        ("fgten2", vec![(EL2_ENABLED, 1), (FGT2, 1), (HAVE_EL3, 1), (FGTEN2, 0)], fgten2),
        ("npmicntr", vec![(EL2_ENABLED, 1), (FGT2, 1), (bit, 0)], npmicntr),
        ("mdcr-el2-tpm", vec![(EL2_ENABLED, 1), (TPM_EL2, 1)], tpm),
    ]
}

/// The rules that need EL3 implemented.
fn el3_rules() -> Vec<Rule> {
    let debug = [(HAVE_EL3, 1), (HALTED, 1), (SDD, 1), (EL3_PRIORITY, 1)];
    let states = || {
        vec![
            vec![(HALTED, 1)],
            vec![(SDD, 1)],
            vec![(HALTED, 1), (SDD, 1)],
            vec![(EL3_PRIORITY, 1), (HALTED, 1)],
            vec![(EL3_PRIORITY, 1), (SDD, 1)],
            vec![(EL2_ENABLED, 0)],
        ]
    };
    let between = || vec![vec![(TPM_EL2, 1)], vec![(FGTEN2, 0)], vec![(EL2_ENABLED, 0)]];
    let mut first_enpm2 = debug.to_vec();
    first_enpm2.push((ENPM2, 0));
    let mut first_tpm = debug.to_vec();
    first_tpm.push((TPM_EL3, 1));
    vec![
        ("first-enpm2", first_enpm2, between()),
        ("first-tpm", first_tpm, between()),
        ("enpm2", vec![(HAVE_EL3, 1), (ENPM2, 0)], states()),
        ("mdcr-el3-tpm", vec![(HAVE_EL3, 1), (TPM_EL3, 1)], states()),
    ]
}

/// One rule in one direction at two levels.
fn rule_session(rule: &Rule, kind: Kind, levels: [u8; 2]) -> Vec<u8> {
    let (_, applies, more) = rule;
    let mut script = Script::new(&GIVEN);
    script.put(applies);
    for level in levels {
        script.level(level);
        script.probe(kind, 0);
        for &(field, value) in applies {
            script.with(&[(field, 1 - value)], |s| s.probe(kind, 0));
        }
        for neighbour in more {
            script.with(neighbour, |s| s.probe(kind, 0));
        }
    }
    script.finish()
}

/// All subsets of the rules at one level, in Debug state with SDD or not.
fn subsets_session(kind: Kind, level: u8, halted: u64) -> Vec<u8> {
    let switches: [Switch; 6] = [
        (EL3_PRIORITY, 0, 1),
        (FGTEN2, 1, 0),
        (bits(kind).0, 1, 0),
        (TPM_EL2, 0, 1),
        (ENPM2, 1, 0),
        (TPM_EL3, 0, 1),
    ];
    let mut script = Script::new(&GIVEN);
    script.put(&[(HALTED, halted), (SDD, 1)]);
    script.level(level);
    script.subsets(&switches, |s| s.probe(kind, 0));
    script.finish()
}

/// MODEL G6: F0 and IR bind level 0 alone, with or without p9, UEN and EN.
fn permitted_session(level: u8) -> Vec<u8> {
    let switches: [Switch; 5] =
        [(PMUACR_F0, 0, 1), (IR, 0, 1), (UEN, 0, 1), (EN, 0, 1), (P9, 0, 1)];
    let mut script = Script::new(&GIVEN);
    script.put(&[(P5, 1)]);
    script.level(level);
    script.subsets(&switches, |s| {
        s.probe(Kind::IcntrRead, 0);
        s.probe(Kind::IcntrWrite, 0);
    });
    script.finish()
}

pub fn sessions() -> Vec<Session> {
    let mut list = Vec::new();
    for kind in KINDS {
        let name = kind.name();
        for rule in el2_rules(kind).iter().chain(&el3_rules()) {
            for levels in [[0, 1], [2, 3]] {
                let [low, high] = levels;
                let name = format!("{name}-{}-levels-{low}-{high}", rule.0);
                list.push(Session::new(name, rule_session(rule, kind, levels)));
            }
        }
        for level in 0..=3 {
            for &(halted, state) in debug_states(level) {
                let bytes = subsets_session(kind, level, halted);
                list.push(Session::new(format!("rules-{name}-level-{level}-{state}"), bytes));
            }
        }
    }
    for level in 0..=3 {
        let name = format!("pmicntr-f0-ir-level-{level}");
        list.push(Session::new(name, permitted_session(level)));
    }
    list
}
