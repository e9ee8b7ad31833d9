//! What document 01 says by example, with its own values, and what document 02, L3, changes in it.

use second::block::{held, scan, Answer, Phase, Row, Slot, State, Words, PHASES};
use second::cases::{lent, written_back};
use second::make_files::{bytes_of_hex, SESSION};
use second::recording::{read, Refusal};
use second::settings::{Effect, Settings, ALL_OPTIONS, SEVERAL_FORCED, TRIP_IF_BAD};

fn refused(number: u8, place: u32) -> Refusal {
    Refusal { number, place }
}

fn session() -> Vec<u8> {
    bytes_of_hex(SESSION)
}

// ---- "One session, whole" ----

#[test]
fn session_is_read_as_stated() {
    let bytes = session();
    assert_eq!(bytes.len(), 70);
    let recording = read(&bytes).expect("accepted");
    let settings = &recording.settings;
    assert_eq!(settings.causes, 2);
    assert_eq!(settings.options, 0);
    assert_eq!(settings.period, 100);
    assert_eq!(settings.effects, 2);
    let effect = |association, delay| Effect { association, delay };
    assert_eq!(settings.slots[0], effect(1, 0));
    assert_eq!(settings.slots[1], effect(3, 250));
    assert_eq!(settings.slots[2..], [effect(0, 0); 14]);
    assert_eq!(recording.first_row, 22);
    let words = |values| Words {
        values,
        reset_permit: 3,
        start_permit: 3,
        ..Words::default()
    };
    let rows = [
        Row {
            hold: 3,
            words: words(3),
        },
        Row {
            hold: 5,
            words: words(2),
        },
    ];
    assert_eq!(recording.rows, rows);
}

#[test]
fn session_gives_its_listing() {
    let recording = read(&session()).expect("accepted");
    let mut state = State::default();
    let mut records = Vec::new();
    let (mut scans, mut live, mut exercised) = (0, 0, 0);
    for row in &recording.rows {
        let mut buffer = [0; 400];
        let answer = held(&recording.settings, &state, row, &mut buffer);
        assert_eq!(answer.number, 0);
        records.extend_from_slice(&buffer[..12 * usize::from(answer.records)]);
        state = answer.state;
        scans += row.hold;
        live += answer.live;
        exercised += answer.exercised;
    }
    // seq scan effect from to zero first, from the listing
    let listing = "
        0000 00000001 01 00 04 00 0000
        0001 00000001 02 00 04 00 0000
        0002 00000004 01 04 00 00 0001
        0003 00000004 02 04 05 00 0001
        0004 00000007 02 05 00 00 0001";
    assert_eq!(records, bytes_of_hex(listing));
    assert_eq!((scans, live, exercised), (8, 3, 5));
    assert_eq!((state.scans_done, state.next_sequence), (8, 5));
}

#[test]
fn session_scan_by_scan_gives_the_same() {
    let recording = read(&session()).expect("accepted");
    let mut state = State::default();
    let mut changes = Vec::new();
    for row in &recording.rows {
        for _ in 0..row.hold {
            let mut buffer = [0; 24];
            let answer = scan(&recording.settings, &state, &row.words, &mut buffer);
            assert_eq!(answer.number, 0);
            state = answer.state;
            changes.push((answer.records, answer.effect_word, state.slots[1].timer));
        }
    }
    let expected = [
        (2, 3, 0),
        (0, 3, 0),
        (0, 3, 0),
        (2, 2, 250),
        (0, 2, 150),
        (0, 2, 50),
        (1, 0, 0),
        (0, 0, 0),
    ];
    assert_eq!(changes, expected);
}

// ---- The corner table ----

/// One cause, one effect, period 100, quiet, other words zero.
struct Corner {
    settings: Settings,
    state: State,
    row: Row,
}

fn corner(phase: Phase) -> Corner {
    let mut corner = Corner {
        settings: Settings {
            causes: 1,
            options: 0,
            period: 100,
            effects: 1,
            slots: [Effect::default(); 16],
        },
        state: State::default(),
        row: Row::default(),
    };
    corner.settings.slots[0].association = 1;
    if phase == Phase::Delayed {
        corner.settings.slots[0].delay = 500;
        corner.state.slots[0].timer = 500;
    }
    corner.state.slots[0].phase = phase;
    corner.row.hold = 1;
    corner.row.words.values = 1;
    corner
}

impl Corner {
    fn with(mut self, change: impl Fn(&mut Words)) -> Corner {
        change(&mut self.row.words);
        self
    }

    fn options(mut self, options: u8) -> Corner {
        self.settings.options = options;
        self
    }

    fn timer(mut self, timer: u32) -> Corner {
        self.state.slots[0].timer = timer;
        self
    }

    fn answer(&self) -> Answer {
        let answer = held(&self.settings, &self.state, &self.row, &mut [0; 400]);
        assert_eq!(answer.number, 0);
        answer
    }

    /// The effect's state, timer and first-out after one scan.
    fn after(&self) -> (Phase, u32, u16) {
        let slot = self.answer().state.slots[0];
        (slot.phase, slot.timer, slot.first_out)
    }

    /// The state after a held run.
    fn after_hold(mut self, hold: u32) -> Phase {
        self.row.hold = hold;
        self.answer().state.slots[0].phase
    }
}

#[test]
fn p1_to_p4_from_tripped() {
    let p1 = corner(Phase::Tripped).with(|words| words.start_permit = 1);
    assert_eq!(p1.after(), (Phase::Normal, 0, 0));
    let p2 = corner(Phase::Tripped);
    assert_eq!(p2.after(), (Phase::WaitStart, 0, 0));
    let p3 = corner(Phase::Tripped).with(|words| words.require_reset = 1);
    assert_eq!(p3.after(), (Phase::WaitReset, 0, 0));
    let p4 = p3.with(|words| words.reset_permit = 1);
    assert_eq!(p4.after(), (Phase::Ready, 0, 0));
}

#[test]
fn p5_to_p7_from_ready_and_wait_reset() {
    let p5 = corner(Phase::Ready).with(|words| {
        words.reset = 1;
        words.reset_permit = 1;
    });
    assert_eq!(p5.after(), (Phase::WaitStart, 0, 0));
    let p6 = corner(Phase::Ready).with(|words| words.reset = 1);
    assert_eq!(p6.after(), (Phase::WaitReset, 0, 0));
    let p7 = corner(Phase::WaitReset).with(|words| words.reset_permit = 1);
    assert_eq!(p7.after(), (Phase::Ready, 0, 0));
}

#[test]
fn p8_to_p11() {
    let p8 = corner(Phase::Normal).with(|words| words.values = 0);
    assert_eq!(p8.after(), (Phase::Tripped, 0, 1));
    let p9 = corner(Phase::Delayed).timer(100);
    assert_eq!(p9.after(), (Phase::Tripped, 0, 0));
    let p10 = corner(Phase::Delayed).timer(101);
    assert_eq!(p10.after(), (Phase::Delayed, 1, 0));
    let mut p11 = corner(Phase::Delayed).with(|words| {
        words.force_permit = 1;
        words.force_normal = 1;
    });
    p11.state.slots[0].first_out = 1;
    assert_eq!(p11.after(), (Phase::Normal, 0, 0));
}

/// P12 as document 02, L3, changes it: its own row, without start permit, and the same with it.
#[test]
fn p12_does_not_see_the_masked_cause() {
    let p12 = corner(Phase::Tripped).options(TRIP_IF_BAD).with(|words| {
        words.bad = 1;
        words.mask = 1;
    });
    assert_eq!(p12.after(), (Phase::WaitStart, 0, 0));
    let permitted = p12.with(|words| words.start_permit = 1);
    assert_eq!(permitted.after(), (Phase::Normal, 0, 0));
    let required = permitted.with(|words| words.require_reset = 1);
    assert_eq!(required.after(), (Phase::WaitReset, 0, 0));
}

// ---- "Run and compared" ----

fn changed(place: usize, bytes: &[u8]) -> Vec<u8> {
    let mut file = session();
    file[place..place + bytes.len()].copy_from_slice(bytes);
    file
}

#[test]
fn files_run_and_compared() {
    assert_eq!(read(&[]), Err(refused(1, 0)));
    assert_eq!(read(&changed(20, &[0, 0])), Err(refused(4, 20)));
    assert_eq!(read(&changed(20, &[0x08, 0x01])), Err(refused(4, 20)));
    assert_eq!(read(&changed(22, &[0, 0, 0, 0])), Err(refused(4, 22)));
    let too_long = 1_000_001_u32.to_be_bytes();
    assert_eq!(read(&changed(46, &too_long)), Err(refused(4, 46)));
    let too_late = 3_600_001_u32.to_be_bytes();
    assert_eq!(read(&changed(10, &too_late)), Err(refused(3, 8)));
    assert_eq!(read(&changed(16, &too_late)), Err(refused(3, 14)));
    let mut longer = session();
    longer.push(0);
    assert_eq!(read(&longer), Err(refused(7, 70)));
}

#[test]
fn last_scan_numbers() {
    let mut last = corner(Phase::Tripped).with(|words| words.start_permit = 1);
    last.state.scans_done = 999_999_999;
    let answer = last.answer();
    assert_eq!(answer.state.scans_done, 1_000_000_000);
    last.row.hold = 2;
    let mut buffer = lent(30);
    let answer = held(&last.settings, &last.state, &last.row, &mut buffer);
    let expected = Answer {
        number: 9,
        place: 0,
        state: last.state,
        effect_word: 0,
        latent_word: 0,
        records: 0,
        live: 0,
        exercised: 0,
    };
    assert_eq!(answer, expected);
    assert_eq!(buffer, lent(30));
}

#[test]
fn places_of_refusals() {
    // the count's first byte, the entry's first byte, the file's length
    assert_eq!(read(&[0]), Err(refused(1, 1)));
    assert_eq!(read(&[0, 2]), Err(refused(2, 0)));
    assert_eq!(read(&[0, 1, 17, 0, 0]), Err(refused(1, 5)));
    assert_eq!(read(&[0, 1, 17, 0, 0, 100]), Err(refused(2, 2)));
    assert_eq!(read(&[0, 1, 16, 8, 0, 100]), Err(refused(2, 2)));
    assert_eq!(read(&[0, 1, 16, 7, 0, 100]), Err(refused(1, 6)));
    assert_eq!(read(&[0, 1, 16, 7, 0, 100, 0, 17]), Err(refused(3, 6)));
    assert_eq!(read(&[0, 1, 16, 7, 0, 100, 0, 16]), Err(refused(1, 8)));
    assert_eq!(read(&changed(14, &[0, 0])), Err(refused(3, 14)));
    assert_eq!(read(&changed(14, &[0, 4])), Err(refused(3, 14)));
    // both force words of row 2, and two forced in row 1
    let mut both = changed(46 + 20, &[0, 1, 0, 1]);
    assert_eq!(read(&both), Err(refused(5, 46)));
    both[22 + 21] = 3;
    assert_eq!(read(&both), Err(refused(6, 22)));
    both[22 + 23] = 1;
    assert_eq!(read(&both), Err(refused(5, 22)));
    both[22 + 18] = 1;
    assert_eq!(read(&both), Err(refused(4, 22)));
}

// ---- "Errors that look right" ----

#[test]
fn delayed_runs_out_when_causes_clear() {
    let quiet = corner(Phase::Delayed).timer(300);
    assert_eq!(quiet.after(), (Phase::Delayed, 200, 0));
    assert_eq!(corner(Phase::Delayed).after_hold(4), Phase::Delayed);
    assert_eq!(corner(Phase::Delayed).after_hold(5), Phase::Tripped);
}

#[test]
fn first_out_does_not_grow() {
    let mut case = corner(Phase::Normal).with(|words| words.values = 2);
    case.settings.causes = 2;
    case.settings.slots[0] = Effect {
        association: 3,
        delay: 500,
    };
    assert_eq!(case.after(), (Phase::Delayed, 500, 1));
    case.state = case.answer().state;
    case.row.words.values = 0;
    assert_eq!(case.after(), (Phase::Delayed, 400, 1));
}

#[test]
fn held_reset_counts_in_the_first_scan_alone() {
    let reset = |phase| {
        corner(phase).with(|words| {
            words.require_reset = 1;
            words.reset_permit = 1;
            words.start_permit = 1;
            words.reset = 1;
        })
    };
    assert_eq!(reset(Phase::Tripped).after_hold(1), Phase::Ready);
    assert_eq!(reset(Phase::Tripped).after_hold(2), Phase::Ready);
    assert_eq!(reset(Phase::WaitReset).after_hold(9), Phase::Ready);
    assert_eq!(reset(Phase::Ready).after_hold(9), Phase::Normal);
}

#[test]
fn the_scan_after_tripped_is_not_forgotten() {
    let mut case = corner(Phase::Delayed)
        .timer(150)
        .with(|words| words.start_permit = 1);
    case.row.hold = 10;
    let answer = case.answer();
    assert_eq!(answer.state.slots[0], slot(Phase::Normal));
    assert_eq!((answer.live, answer.records, answer.exercised), (2, 2, 0));
    case.row.hold = 2;
    assert_eq!(case.answer().state.slots[0], slot(Phase::Tripped));
}

fn slot(phase: Phase) -> Slot {
    Slot {
        phase,
        timer: 0,
        first_out: 0,
    }
}

#[test]
fn masked_causes_are_not_exercised() {
    let mut case = corner(Phase::Tripped).with(|words| {
        words.values = 0;
        words.mask = 1;
    });
    case.row.hold = 7;
    assert_eq!(case.answer().exercised, 0);
    case.row.words.mask = 0;
    assert_eq!(case.answer().exercised, 7);
}

// ---- Latent words and forces ----

#[test]
fn latent_word_needs_a_force_that_counts() {
    let forced = |values, permit| {
        corner(Phase::Normal).with(move |words| {
            words.values = values;
            words.force_permit = permit;
            words.force_normal = 1;
        })
    };
    assert_eq!(forced(1, 1).answer().latent_word, 0);
    assert_eq!(forced(0, 1).answer().latent_word, 1);
    assert_eq!(forced(0, 0).answer().latent_word, 0);
    let mut by_option = forced(0, 0);
    by_option.settings.options = 2;
    assert_eq!(by_option.answer().latent_word, 1);
}

// ---- Bad causes, as document 02, L3, changes document 01 ----

/// Both causes of the cases below, and both effects.
const BOTH: u16 = 3;
const DELAY: u32 = 500;

/// Two causes and two quiet effects with a delay, of which the first sees cause 1 and the second
/// both. Both stand in the state, with option bit 0.
fn two_effects(phase: Phase) -> Corner {
    let mut case = corner(phase).options(TRIP_IF_BAD).with(|words| {
        words.values = BOTH;
        words.start_permit = BOTH;
        words.reset_permit = BOTH;
    });
    case.settings.causes = 2;
    case.settings.effects = 2;
    for (index, association) in [(0, 1), (1, BOTH)] {
        case.settings.slots[index] = Effect {
            association,
            delay: DELAY,
        };
        case.state.slots[index] = Slot {
            phase,
            timer: case.state.slots[0].timer,
            first_out: if phase == Phase::Normal { 0 } else { 1 },
        };
    }
    case
}

impl Corner {
    fn bad(self, bad: u16, mask: u16) -> Corner {
        self.with(|words| {
            words.bad = bad;
            words.mask = mask;
        })
    }

    fn forced(self, trip: u16, normal: u16) -> Corner {
        let options = self.settings.options;
        self.options(options | SEVERAL_FORCED).with(|words| {
            words.force_permit = 1;
            words.force_trip = trip;
            words.force_normal = normal;
        })
    }

    fn phases_after(&self) -> [Phase; 2] {
        let slots = self.answer().state.slots;
        [slots[0].phase, slots[1].phase]
    }

    fn first_outs_after(&self) -> [u16; 2] {
        let slots = self.answer().state.slots;
        [slots[0].first_out, slots[1].first_out]
    }
}

/// The Bad word, the mask, and whether each effect sees a Bad cause.
const SEEN: [(u16, u16, [bool; 2]); 9] = [
    (0, 0, [false, false]),
    (1, 0, [true, true]),
    (1, 1, [false, false]),
    (1, 2, [true, true]),
    (2, 0, [false, true]),
    (2, 2, [false, false]),
    (2, 1, [false, true]),
    (3, 1, [false, true]),
    (3, 3, [false, false]),
];

#[test]
fn each_effect_trips_by_its_own_unmasked_bad_causes() {
    for phase in PHASES {
        let left = two_effects(phase).phases_after();
        assert!(phase == Phase::Tripped || left != [Phase::Tripped; 2]);
        for (bad, mask, seen) in SEEN {
            let case = two_effects(phase).bad(bad, mask);
            let due = [0, 1].map(|index| {
                if seen[index] {
                    Phase::Tripped
                } else {
                    left[index]
                }
            });
            assert_eq!(case.phases_after(), due, "{phase:?} {bad} {mask}");
        }
    }
}

#[test]
fn no_other_option_trips_if_bad() {
    for options in 0..=ALL_OPTIONS {
        let case = two_effects(Phase::Normal).bad(BOTH, 0).options(options);
        let tripped = options & TRIP_IF_BAD != 0;
        let due = if tripped {
            Phase::Tripped
        } else {
            Phase::Normal
        };
        assert_eq!(case.phases_after(), [due; 2], "options {options}");
        assert_eq!(case.answer().exercised, u32::from(tripped));
    }
}

/// Rule 3 comes before 4 to 9: neither a delay nor a timer counts, and no first-out is written but
/// on leaving Normal.
#[test]
fn bad_trip_does_not_wait_and_keeps_a_first_out() {
    let normal = two_effects(Phase::Normal).bad(2, 0);
    let tripped = |first_out| Slot {
        phase: Phase::Tripped,
        timer: 0,
        first_out,
    };
    assert_eq!(normal.answer().state.slots[1], tripped(2));
    let delayed = two_effects(Phase::Delayed).bad(2, 0);
    assert_eq!(delayed.answer().state.slots[1], tripped(1));
    assert_eq!(delayed.answer().state.slots[0].phase, Phase::Delayed);
}

/// On every way out of Normal: the active causes, and with option bit 0 the Bad ones besides.
#[test]
fn first_out_takes_bad_causes_besides_the_active_ones() {
    for values in 0..=BOTH {
        for (bad, mask, _) in SEEN {
            let tripped = !values & !mask & BOTH;
            for (options, counted) in [(0, 0), (TRIP_IF_BAD, bad & !mask)] {
                let case = two_effects(Phase::Normal)
                    .options(options)
                    .bad(bad, mask)
                    .with(|words| words.values = values);
                let first = tripped | counted;
                let due = [first & 1, first];
                assert_eq!(case.first_outs_after(), due, "{values} {bad} {mask}");
                let forced = case.forced(BOTH, 0);
                assert_eq!(forced.first_outs_after(), due, "{values} {bad} {mask}");
                assert_eq!(forced.phases_after(), [Phase::Tripped; 2]);
            }
        }
    }
}

#[test]
fn latent_word_has_the_effects_that_see_a_bad_cause() {
    for (bad, mask, seen) in SEEN {
        let case = two_effects(Phase::Tripped).bad(bad, mask).forced(0, BOTH);
        let due = u16::from(seen[0]) | u16::from(seen[1]) << 1;
        assert_eq!(case.answer().latent_word, due, "{bad} {mask}");
        assert_eq!(case.answer().effect_word, BOTH);
        let options = case.settings.options & !TRIP_IF_BAD;
        assert_eq!(case.options(options).answer().latent_word, 0);
    }
}

/// A Bad cause that an effect sees is exercised, forced or not, with option bit 0 alone.
#[test]
fn bad_causes_that_an_effect_sees_are_exercised() {
    for (bad, mask, seen) in SEEN {
        for (trip, normal) in [(0, 0), (BOTH, 0), (0, BOTH)] {
            let mut case = two_effects(Phase::Normal)
                .bad(bad, mask)
                .forced(trip, normal);
            case.row.hold = 7;
            let due = if seen[1] { 7 } else { 0 };
            assert_eq!(case.answer().exercised, due, "{bad} {mask}");
            let options = case.settings.options & !TRIP_IF_BAD;
            assert_eq!(case.options(options).answer().exercised, 0);
        }
    }
    let mut nobody = two_effects(Phase::Normal).bad(2, 0);
    nobody.settings.slots[1].association = 1;
    assert_eq!(nobody.answer().exercised, 0);
}

#[test]
fn sequence_number_wraps() {
    let mut case = corner(Phase::Tripped);
    case.state.next_sequence = 65_535;
    let mut buffer = [0; 12];
    let answer = scan(&case.settings, &case.state, &case.row.words, &mut buffer);
    assert_eq!(buffer[0..2], [0xff, 0xff]);
    assert_eq!(answer.state.next_sequence, 0);
}

// ---- Writing back ----

#[test]
fn session_is_written_back() {
    let recording = read(&session()).expect("accepted");
    assert_eq!(written_back(&recording), session());
}
