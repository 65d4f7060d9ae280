//! The comparison can fail: a fault in the library's answers is reported, and
//! without one there is nothing to report.

use bench::judge::{Fault, Judge};
use bench::latin9::Wrong;
use bench::repaired;
use bench::rng::Rng;
use bench::run;
use bench::tally::Kind;

/// Payloads around the pairing of surrogates, and both roads to them.
const SURROGATES: [Kind; 3] = [
    Kind::SurrogatePayload,
    Kind::SurrogateFirstRoad,
    Kind::SurrogateSecondRoad,
];

/// The queries that tell of replaced parts.
const REPAIRED: [Kind; 4] = [Kind::Name, Kind::Class, Kind::ObjectClass, Kind::Properties];

/// Which of them a wrong program for replaced parts answers otherwise.
fn answered_otherwise(wrong: repaired::Wrong) -> [bool; 4] {
    match wrong {
        repaired::Wrong::Genuine | repaired::Wrong::Bytes | repaired::Wrong::Halfway => [true; 4],
        repaired::Wrong::NameAlone => [false, true, true, false],
        repaired::Wrong::AnyValue | repaired::Wrong::Exchanged | repaired::Wrong::FirstNames => {
            [false, false, false, true]
        }
    }
}

#[test]
fn every_fault_is_reported() {
    for fault in Fault::ALL {
        let tally = run::faulty(fault, 20);
        let put = |kind| tally.counts[&kind].faults > 0;
        let edits = put(Kind::Append) || put(Kind::Replace);
        let (exports, imports) = (put(Kind::Export), put(Kind::Import));
        let surrogates = SURROGATES.map(put);
        let repaired = REPAIRED.map(put);
        let finding = put(Kind::Find);
        if let Fault::Finding(_) = fault {
            assert!(finding, "{fault:?} in no search");
        } else if let Fault::Repaired(wrong) = fault {
            let expected = answered_otherwise(wrong);
            assert_eq!(repaired, expected, "{fault:?} in {REPAIRED:?}");
        } else if let Fault::Surrogates(_) = fault {
            assert_eq!(surrogates, [true; 3], "{fault:?} in payloads");
        } else if let Fault::Latin9(wrong) = fault {
            assert!(exports, "{fault:?} in no export");
            let both = matches!(wrong, Wrong::OwnByte | Wrong::Bound | Wrong::Halfway);
            assert_eq!(imports, both, "{fault:?} in imports");
        } else {
            assert!(edits || fault == Fault::Part, "{fault:?} in no edit");
            let labels = put(Kind::Label);
            assert!(labels || fault == Fault::GivenUp, "{fault:?} in no label");
            let empty = put(Kind::Empty);
            assert!(
                empty || fault == Fault::GivenUp,
                "{fault:?} in no empty blob"
            );
            // They have one value, and nothing that is given up or a slice.
            let none = [
                Fault::Value(1),
                Fault::Value(2),
                Fault::GivenUp,
                Fault::Part,
            ];
            let places = (exports, imports);
            let expected = !none.contains(&fault);
            assert_eq!(places, (expected, expected), "{fault:?} in Latin-9");
            // They have two values.
            let expected = expected || fault == Fault::Value(1);
            assert_eq!(surrogates, [expected; 3], "{fault:?} in payloads");
            assert_eq!(finding, expected, "{fault:?} in finding");
            // So have texts; rows have their number.
            let rows = expected && fault != Fault::Value(1);
            let expected = [expected, expected, expected, rows];
            assert_eq!(repaired, expected, "{fault:?} in {REPAIRED:?}");
        }
        let mut faults = 0;
        for (kind, count) in tally.counts {
            assert_eq!(
                count.unexplained.cases, count.faults,
                "{fault:?} in {kind}: {}",
                count.unexplained.shown
            );
            faults += count.faults;
        }
        assert!(faults > 0, "{fault:?} has no place");
    }
}

#[test]
fn no_fault_is_no_report() {
    let mut judge = Judge::default();
    run::known(&mut judge);
    let mut rng = Rng::new(2);
    for _ in 0..40 {
        run::round(&mut judge, &mut rng);
    }
    assert_eq!(judge.tally.unexplained(), 0, "{}", judge.tally);
    let explained = |number| {
        let counts = judge.tally.counts.values();
        let mut rules = counts.flat_map(|count| count.explained.keys());
        rules.any(|rule| rule.number == number)
    };
    for number in [6, 8, 9, 11, 13, 16, 21, 28, 30, 35] {
        assert!(explained(number), "{number} is not seen");
    }
    for kind in REPAIRED {
        let count = &judge.tally.counts[&kind];
        assert!(count.repaired > 0, "{kind}: none is repaired");
    }
    let otherwise = judge.tally.counts[&Kind::Find].otherwise;
    assert!(otherwise > 0, "what is shown is always found");
    for (kind, numbers) in [
        (Kind::Find, &[2, 3, 5, 6, 8, 10, 11, 12][..]),
        (Kind::Name, &[2, 3, 5, 6, 11]),
        (Kind::Class, &[2, 3, 5, 6, 9, 11]),
        (Kind::ObjectClass, &[2, 3, 5, 6, 8, 11]),
        (Kind::Properties, &[2, 3, 5, 6, 8, 10, 11, 12]),
        (Kind::Export, &[30, 34, 36]),
        (Kind::Import, &[34]),
        (Kind::SurrogatePayload, &[27, 28, 29]),
        (Kind::SurrogateFirstRoad, &[27, 28, 29]),
        (Kind::SurrogateSecondRoad, &[27, 28, 29]),
        (Kind::Label, &[2, 3, 5, 6, 11]),
        (Kind::Empty, &[13, 14, 33]),
        (Kind::Append, &[30, 31, 34]),
        (Kind::Replace, &[8, 30, 31, 34]),
        (Kind::TamperedAppend, &[13, 33]),
        (Kind::TamperedReplace, &[13, 33, 8]),
    ] {
        let count = &judge.tally.counts[&kind];
        assert!(count.accepted > 0, "{kind}: none is accepted");
        for &number in numbers {
            assert!(count.refused[number] > 0, "{kind}: {number} is not seen");
        }
    }
}
