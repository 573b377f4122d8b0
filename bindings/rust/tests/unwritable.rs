//! Parameters that [`Params::write`] refuses with number 24: each condition that the crate's types leave, with room and
//! without. Nothing is stored.

use deblock::*;

/// What is left without bits: the default deltas, and all else 0 or false.
fn off() -> Params {
    let lossless = ParamsGiven {
        lossless: true,
        ..ParamsGiven::new(3)
    };
    Params::read(&[], 0, &lossless).unwrap().0
}

/// Refused as unwritable, whether there is room or not.
fn unwritable(given: &ParamsGiven, params: Params, change: fn(&mut Params)) {
    let mut bytes = [0xa5; 20];
    let mut copy = bytes;
    assert!(params.write(&mut copy, 3, given).is_ok());
    let mut changed = params;
    change(&mut changed);
    for at in [3, 80, 160, usize::MAX] {
        let answer = changed.write(&mut bytes, at, given);
        assert_eq!(answer, Err(Refusal::Unwritable), "{changed:?}");
    }
    assert_eq!(changed.write(&mut [], 0, given), Err(Refusal::Unwritable));
    assert_eq!(bytes, [0xa5; 20]);
}

/// Every delta is in the bits.
fn sent() -> Params {
    Params {
        level: [63, 63, 63, 63],
        sharpness: 7,
        delta_enabled: true,
        delta_update: true,
        update_ref: [true; 8],
        update_mode: [true; 2],
        ref_delta: [-64, 63, -64, 63, -64, 63, -64, 63],
        mode_delta: [-64, 63],
    }
}

#[test]
fn values_out_of_range() {
    let given = ParamsGiven::new(3);
    unwritable(&given, sent(), |p| p.level[0] = 64);
    unwritable(&given, sent(), |p| p.level[1] = 64);
    unwritable(&given, sent(), |p| p.level[2] = 64);
    unwritable(&given, sent(), |p| p.level[3] = 255);
    unwritable(&given, sent(), |p| p.sharpness = 8);
    unwritable(&given, sent(), |p| p.ref_delta[0] = -65);
    unwritable(&given, sent(), |p| p.ref_delta[7] = 64);
    unwritable(&given, sent(), |p| p.mode_delta[0] = -128);
    unwritable(&given, sent(), |p| p.mode_delta[1] = 127);
}

#[test]
fn updates_that_cannot_be_sent() {
    let given = ParamsGiven::new(3);
    unwritable(&given, sent(), |p| p.delta_enabled = false);
    unwritable(&given, sent(), |p| p.delta_update = false);
    let enabled = Params {
        delta_enabled: true,
        ..off()
    };
    unwritable(&given, enabled, |p| p.update_ref[7] = true);
    unwritable(&given, enabled, |p| p.update_mode[1] = true);
    unwritable(&given, off(), |p| p.delta_update = true);
}

#[test]
fn chroma_levels_that_are_not_in_the_bits() {
    for planes in [0, 1] {
        let luma = Params {
            level: [63, 63, 0, 0],
            ..sent()
        };
        unwritable(&ParamsGiven::new(planes), luma, |p| p.level[2] = 1);
        unwritable(&ParamsGiven::new(planes), luma, |p| p.level[3] = 1);
    }
    for planes in [2, 3, u32::MAX] {
        let given = ParamsGiven::new(planes);
        let none = Params {
            level: [0; 4],
            ..sent()
        };
        unwritable(&given, none, |p| p.level[2] = 1);
        unwritable(&given, none, |p| p.level[3] = 1);
        for level in [[1, 0, 63, 63], [0, 1, 63, 63]] {
            let params = Params { level, ..sent() };
            assert_eq!(params.write(&mut [0; 14], 3, &given), Ok(109));
        }
    }
}

/// A delta that is not in the bits is the one before, which may lie out of range.
#[test]
fn deltas_that_are_not_in_the_bits() {
    let given = ParamsGiven {
        ref_delta: [-128, -65, 64, 127, 0, 1, 2, 3],
        mode_delta: [-100, 100],
        ..ParamsGiven::new(3)
    };
    let kept = Params {
        update_ref: [false; 8],
        update_mode: [false; 2],
        ref_delta: given.ref_delta,
        mode_delta: given.mode_delta,
        ..sent()
    };
    unwritable(&given, kept, |p| p.ref_delta[0] = -64);
    unwritable(&given, kept, |p| p.ref_delta[7] = 0);
    unwritable(&given, kept, |p| p.mode_delta[0] = 0);
    unwritable(&given, kept, |p| p.mode_delta[1] = 63);
}

#[test]
fn anything_but_the_defaults_without_bits() {
    for (lossless, intrabc) in [(true, false), (false, true), (true, true)] {
        let given = ParamsGiven {
            lossless,
            intrabc,
            ref_delta: [2; 8],
            ..ParamsGiven::new(3)
        };
        unwritable(&given, off(), |p| p.level[0] = 1);
        unwritable(&given, off(), |p| p.level[3] = 1);
        unwritable(&given, off(), |p| p.sharpness = 1);
        unwritable(&given, off(), |p| p.delta_enabled = true);
        unwritable(&given, off(), |p| p.delta_update = true);
        unwritable(&given, off(), |p| p.update_ref[0] = true);
        unwritable(&given, off(), |p| p.update_mode[0] = true);
        unwritable(&given, off(), |p| p.ref_delta = [2; 8]);
        unwritable(&given, off(), |p| p.ref_delta.swap(4, 5));
        unwritable(&given, off(), |p| p.mode_delta[1] = 1);
    }
}
