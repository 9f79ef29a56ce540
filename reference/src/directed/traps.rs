//! MODEL T1 to T10: PMEVCNTR and PMSWINC. Each rule at each level with each of
//! its conditions flipped, and all rules in all subsets, so that the order
//! shows.

use super::fields::*;
use super::script::{debug_states, Change, Kind, Script, Switch, RUNNING};
use super::Session;

/// Consistent, and no rule applies to counter 3 at any level.
const GIVEN: [Change; 8] = [
    (FGTEN, 1),
    (ENPM2, 1),
    (COUNTER, 0x10),
    (COUNTER + 2, 0x12),
    (COUNTER + 3, 0x13),
    (COUNTER + 4, 0x14),
    (COUNTER + 5, 0x15),
    (COUNTER + 30, 0x1E),
];

const KINDS: [Kind; 3] = [Kind::CounterRead, Kind::CounterWrite, Kind::Swinc];

/// A session on a kind of access. An increment that no rule stops has to show,
/// so the counters are on.
fn script(kind: Kind) -> Script {
    let mut script = Script::counters(&GIVEN);
    if kind == Kind::Swinc {
        script.put(&RUNNING);
    }
    script
}

/// What makes a rule apply, and what is changed from there, one at a time.
struct Rule {
    applies: Vec<Change>,
    neighbours: Vec<Vec<Change>>,
}

impl Rule {
    /// A rule whose conditions are bits: each one is flipped.
    fn of_bits(conditions: &[Change], more: &[&[Change]]) -> Rule {
        let flipped = conditions.iter().map(|&(field, value)| vec![(field, 1 - value)]);
        let more = more.iter().map(|list| list.to_vec());
        Rule { applies: conditions.to_vec(), neighbours: flipped.chain(more).collect() }
    }
}

/// MODEL T8: the fine-grained bit of a register and direction.
fn fine_grained(kind: Kind) -> u8 {
    match kind {
        Kind::CounterRead => FGT_COUNTER_READ,
        Kind::CounterWrite => FGT_COUNTER_WRITE,
        _ => FGT_SWINC,
    }
}

/// MODEL T1: undefined ahead of the other rules.
fn rule_1(_: Kind) -> Rule {
    let conditions = [(HAVE_EL3, 1), (HALTED, 1), (SDD, 1), (EL3_PRIORITY, 1), (TPM_EL3, 1)];
    Rule::of_bits(&conditions, &[&[(EN, 0)], &[(TPM_EL2, 1)], &[(HPMN, 3)]])
}

/// MODEL T2 and T7: PMUSERENR at level 0; TGE and EL2 choose the target.
fn rule_2(kind: Kind) -> Rule {
    let conditions: &[Change] = match kind {
        Kind::CounterRead => &[(EN, 0), (ER, 0)],
        Kind::CounterWrite => &[(EN, 0)],
        _ => &[(EN, 0), (SW, 0)],
    };
    let more: [&[Change]; 9] = [
        &[(ER, 1)],
        &[(SW, 1)],
        &[(UEN, 1)],
        &[(ER, 1), (SW, 1), (UEN, 1), (IR, 1)],
        &[(TGE, 1)],
        &[(TGE, 1), (E2H, 1)],
        &[(TGE, 1), (EL2_ENABLED, 0)],
        &[(EL2_ENABLED, 0)],
        &[(HAVE_EL3, 0)],
    ];
    Rule::of_bits(conditions, &more)
}

/// MODEL T3, T8 and T9: no fine-grained bit but that of the access.
fn rule_3(kind: Kind) -> Rule {
    let bit = fine_grained(kind);
    let conditions = [(EL2_ENABLED, 1), (FGT, 1), (FGTEN, 1), (bit, 1)];
    let mut rule = Rule::of_bits(
        &conditions,
        &[
            &[(HAVE_EL3, 0)],
            &[(HAVE_EL3, 0), (FGTEN, 0)],
            &[(E2H, 1)],
            &[(TGE, 1)],
            &[(E2H, 1), (TGE, 1)],
            &[(E2H, 1), (TGE, 1), (EL2_ENABLED, 0)],
            &[(FGT, 0), (FGT2, 1)],
            &[(FGTEN, 0), (FGTEN2, 1)],
        ],
    );
    for other in FGT_COUNTER_READ..=NPMICNTR_WRITE {
        if other != bit {
            rule.neighbours.push(vec![(bit, 0), (other, 1)]);
        }
    }
    rule
}

/// MODEL T4: MDCR_EL2.TPM; E2H and TGE do not matter to it.
fn rule_4(_: Kind) -> Rule {
    let more: [&[Change]; 5] =
        [&[(HAVE_EL3, 0)], &[(E2H, 1)], &[(TGE, 1)], &[(E2H, 1), (TGE, 1)], &[(FGT, 0)]];
    Rule::of_bits(&[(EL2_ENABLED, 1), (TPM_EL2, 1)], &more)
}

/// MODEL T5: counter 3 with HPMN 3, with or without FGT; never for PMSWINC.
fn rule_5(_: Kind) -> Rule {
    let neighbours: Vec<Vec<Change>> = vec![
        vec![(EL2_ENABLED, 0)],
        vec![(EL2_ENABLED, 0), (HAVE_EL2, 0)],
        vec![(HPMN, 4)],
        vec![(HPMN, 2)],
        vec![(HPMN, 0), (HPMN0, 1)],
        vec![(HPMN, 1), (N, 3)],
        vec![(HPMN, 1), (N, 4)],
        vec![(FGT, 0)],
        vec![(FGT, 0), (N, 3)],
        vec![(E2H, 1), (TGE, 1)],
        vec![(HAVE_EL3, 0)],
    ];
    Rule { applies: vec![(HPMN, 3)], neighbours }
}

/// MODEL T6 and T10: MDCR_EL3.TPM, a trap to EL3 unless Halted and SDD.
fn rule_6(_: Kind) -> Rule {
    let more: [&[Change]; 8] = [
        &[(HALTED, 1)],
        &[(SDD, 1)],
        &[(HALTED, 1), (SDD, 1)],
        &[(EL3_PRIORITY, 1)],
        &[(EL3_PRIORITY, 1), (HALTED, 1)],
        &[(EL3_PRIORITY, 1), (SDD, 1)],
        &[(ENPM2, 0)],
        &[(EL2_ENABLED, 0)],
    ];
    Rule::of_bits(&[(HAVE_EL3, 1), (TPM_EL3, 1)], &more)
}

const RULES: [fn(Kind) -> Rule; 6] = [rule_1, rule_2, rule_3, rule_4, rule_5, rule_6];

/// One rule for one kind of access at one level.
fn rule_session(rule: &Rule, kind: Kind, level: u8) -> Vec<u8> {
    let mut script = script(kind);
    script.level(level);
    script.probe(kind, 3);
    script.put(&rule.applies);
    script.probe(kind, 3);
    for neighbour in &rule.neighbours {
        script.with(neighbour, |s| s.probe(kind, 3));
    }
    script.probe(kind, 3);
    script.finish()
}

/// MODEL T1 to T6: one switch for each; T1 needs T6's condition too.
fn switches(kind: Kind) -> [Switch; 6] {
    [
        (EL3_PRIORITY, 0, 1),
        (EN, 1, 0),
        (fine_grained(kind), 0, 1),
        (TPM_EL2, 0, 1),
        (HPMN, 4, 3),
        (TPM_EL3, 0, 1),
    ]
}

/// All subsets of the rules at one level, in Debug state with SDD or not.
fn subsets_session(kind: Kind, level: u8, halted: u64) -> Vec<u8> {
    let mut script = script(kind);
    script.put(&[(HALTED, halted), (SDD, 1)]);
    script.level(level);
    script.subsets(&switches(kind), |s| s.probe(kind, 3));
    script.finish()
}

/// Levels 0 and 1 where EL2 is not enabled, or E2H and TGE are both 1: T3 to T5
/// then go away, or T3 alone at level 0.
fn weakened_session(kind: Kind, changes: &[Change]) -> Vec<u8> {
    let mut script = script(kind);
    script.put(changes);
    let all = switches(kind);
    script.subsets(&all[1..], |s| s.probe(kind, 3));
    script.finish()
}

pub fn sessions() -> Vec<Session> {
    let mut list = Vec::new();
    for kind in KINDS {
        let name = kind.name();
        for level in 0..=3 {
            for (index, rule) in RULES.iter().enumerate() {
                let bytes = rule_session(&rule(kind), kind, level);
                list.push(Session::new(format!("rule-{}-{name}-level-{level}", index + 1), bytes));
            }
            for &(halted, state) in debug_states(level) {
                let bytes = subsets_session(kind, level, halted);
                list.push(Session::new(format!("rules-{name}-level-{level}-{state}"), bytes));
            }
        }
        let no_el2 = |level| [(EL2_ENABLED, 0), (LEVEL, level)];
        for (state, changes) in [
            ("level-0-el2-not-enabled", no_el2(0)),
            ("level-1-el2-not-enabled", no_el2(1)),
            ("level-0-e2h-tge", [(E2H, 1), (TGE, 1)]),
        ] {
            let bytes = weakened_session(kind, &changes);
            list.push(Session::new(format!("rules-{name}-{state}"), bytes));
        }
    }
    list
}
