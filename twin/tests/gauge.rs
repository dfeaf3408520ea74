//! The gauge: its marks bit for bit, its lamp, and what a call leaves in it.

mod common;

use common::{accept, hpa, live, refuse, tree, with, D, GIB};
use reefnettle_twin::{replay_machine, Call, Gauge, Machine};

const READ: Call = Call::ReadPage { page: D };

fn marks_in_rule(raise: f64, clear: f64, frames: usize) -> bool {
    Gauge {
        raise,
        clear,
        ..Gauge::RESET
    }
    .marks_in_rule(frames)
}

fn next(number: f64, step: i64) -> f64 {
    f64::from_bits(number.to_bits().wrapping_add_signed(step))
}

#[test]
fn every_share_and_its_neighbours() {
    for frames in [512, 1024, 2048, 4096, 8192, 16384] {
        for k in 0..=frames {
            let share = k as f64 / frames as f64;
            assert!(marks_in_rule(1.0, share, frames));
            assert_eq!(marks_in_rule(share, 0.0, frames), k > 0);
            for step in [-1, 1] {
                let off = next(share, step);
                assert!(!marks_in_rule(1.0, off, frames), "{k} {step}");
                assert!(!marks_in_rule(off, 0.0, frames), "{k} {step}");
            }
            assert!(!marks_in_rule(1.0, -share, frames));
            assert!(!marks_in_rule(-share, 0.0, frames));
        }
        let half_step = 0.5 / frames as f64;
        assert!(!marks_in_rule(1.0, half_step, frames));
        assert!(!marks_in_rule(1.0 + 2.0 * half_step, 0.0, frames));
    }
}

const ODD: [f64; 12] = [
    f64::NAN,
    -f64::NAN,
    f64::INFINITY,
    f64::NEG_INFINITY,
    -0.0,
    -0.5,
    -1.0,
    2.0,
    f64::MAX,
    f64::MIN_POSITIVE,
    5e-324,
    0.3,
];

#[test]
fn odd_marks() {
    for odd in ODD {
        assert!(!marks_in_rule(odd, 0.0, 1024), "{odd}");
        assert!(!marks_in_rule(1.0, odd, 1024), "{odd}");
        assert!(!marks_in_rule(odd, odd, 1024), "{odd}");
    }
    assert!(!marks_in_rule(0.0, 0.0, 1024));
    assert!(marks_in_rule(0.5, 0.5, 1024));
    assert!(!marks_in_rule(0.5, next(0.5, 1), 1024));
    assert!(!marks_in_rule(0.5, 0.5 + 1.0 / 1024.0, 1024));
}

#[test]
fn odd_marks_in_a_lent_gauge_give_13() {
    for odd in ODD {
        let mut machine = with(&live(), |m| m.gauge.raise = odd);
        refuse(&mut machine, READ, 13);
        let mut machine = with(&live(), |m| m.gauge.clear = odd);
        refuse(&mut machine, READ, 13);
    }
    for (raise, clear) in [(0.5, 0.75), (0.0, 0.0), (next(0.75, 1), 0.5)] {
        let mut machine = with(&live(), |m| {
            m.gauge.raise = raise;
            m.gauge.clear = clear;
        });
        refuse(&mut machine, READ, 13);
        assert_eq!(machine.set_marks(0.75, 0.5).number, 0);
        accept(&mut machine, READ);
    }
}

#[test]
fn odd_settings_give_1() {
    let mut machine = tree();
    let before = machine.clone();
    for odd in ODD {
        for (raise, clear) in [(odd, 0.0), (1.0, odd), (odd, odd)] {
            assert_eq!(machine.set_marks(raise, clear).number, 1);
        }
    }
    for (raise, clear) in [(0.0, 0.0), (0.25, 0.5), (1.0 / 2048.0, 0.0)] {
        assert_eq!(machine.set_marks(raise, clear).number, 1);
    }
    assert!(machine == before);
}

#[test]
fn setting_reads_nothing_of_the_old_gauge() {
    for odd in ODD {
        for lamp in [false, true] {
            let mut machine = with(&tree(), |m| {
                m.gauge = Gauge {
                    raise: odd,
                    clear: odd,
                    fill: odd,
                    lamp,
                };
            });
            // 17 of 1024 frames are used.
            for (k, lit) in [(16, true), (17, true), (18, false)] {
                let raise = f64::from(k) / 1024.0;
                assert_eq!(machine.set_marks(raise, 0.0).number, 0);
                let expected = Gauge {
                    raise,
                    clear: 0.0,
                    fill: 17.0 / 1024.0,
                    lamp: lit,
                };
                assert_eq!(machine.gauge, expected);
            }
        }
    }
}

#[test]
fn any_last_fill_is_taken_and_replaced() {
    for odd in ODD {
        for lamp in [false, true] {
            let machine = with(&tree(), |m| {
                m.gauge.fill = odd;
                m.gauge.lamp = lamp;
            });
            let refused = Call::Create { page: D, key: 40 };
            refuse(&mut machine.clone(), refused, 2);
            let mut read = machine.clone();
            accept(&mut read, READ);
            // Below the clear mark: an accepted read puts the lamp out.
            let expected = Gauge {
                fill: 17.0 / 1024.0,
                lamp: false,
                ..machine.gauge
            };
            assert_eq!(read.gauge, expected);
        }
    }
}

#[test]
fn the_lamp_between_and_at_the_marks() {
    // 17 frames are used.
    let cases = [
        (17, 17, false, true),
        (17, 16, false, true),
        (18, 17, false, false),
        (18, 17, true, true),
        (18, 18, true, false),
        (18, 18, false, false),
        (19, 0, true, true),
        (19, 0, false, false),
        (16, 0, false, true),
        (1024, 1024, true, false),
    ];
    for (raise, clear, before, after) in cases {
        let mut machine = with(&tree(), |m| {
            m.gauge.raise = f64::from(raise) / 1024.0;
            m.gauge.clear = f64::from(clear) / 1024.0;
            m.gauge.lamp = before;
        });
        accept(&mut machine, READ);
        assert_eq!(machine.gauge.lamp, after, "{raise} {clear} {before}");
    }
}

#[test]
fn reset_and_start() {
    let mut machine = Machine::with_sizes(GIB, 1024, 4, 12);
    machine.gauge = Gauge {
        raise: f64::NAN,
        clear: -0.0,
        fill: f64::INFINITY,
        lamp: true,
    };
    assert_eq!(machine.reset().number, 0);
    let expected = Gauge {
        raise: 1.0,
        clear: 0.0,
        fill: 0.0,
        lamp: false,
    };
    assert_eq!(machine.gauge, expected);
    assert_eq!(machine.gauge.fill.to_bits(), 0);
    let machine = replay_machine();
    assert_eq!(machine.gauge.raise.to_bits(), 0.75f64.to_bits());
    assert_eq!(machine.gauge.clear.to_bits(), 0.5f64.to_bits());
    assert!(!machine.gauge.lamp);
}

#[test]
fn a_count_changed_by_hand_is_seen() {
    let mut machine = live();
    for frame in 100..868 {
        machine.frames[frame].kind = 4;
    }
    let mut marked = machine.clone();
    assert_eq!(marked.set_marks(773.0 / 1024.0, 0.0).number, 0);
    assert_eq!(marked.gauge.fill, 773.0 / 1024.0);
    assert!(marked.gauge.lamp);
    let page = hpa(1);
    accept(&mut machine, Call::ReadPage { page });
    assert_eq!(machine.gauge.fill, 773.0 / 1024.0);
    assert!(machine.gauge.lamp);
    assert_eq!(machine.used_frames(), 773);
}
