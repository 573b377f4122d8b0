//! The level values of a header, each by document 01.

use deblock::*;

fn header() -> Header {
    Header {
        base: [20, 40, 30, 63],
        delta_enabled: true,
        ref_delta: [1, 0, -1, 5, 63, -64, 20, -20],
        mode_delta: [3, -7],
        multi: true,
        lf_delta: [2, -9, 4, 63],
        segmentation: true,
        seg_delta: [0; 32].map({
            let mut k = 0;
            move |_: i8| {
                k += 1;
                (k * 29 % 127 - 63) as i8
            }
        }),
    }
}

fn level(h: &Header, segment: usize, area: usize, reference: usize, mode: usize) -> u8 {
    let clip = |level: i32| level.clamp(0, 63);
    if h.base[..2] == [0, 0] || area > 1 && h.base[area] == 0 {
        return 0;
    }
    let lf = h.lf_delta[if h.multi { area } else { 0 }];
    let seg = match h.segmentation {
        true => h.seg_delta[4 * segment + area],
        false => 0,
    };
    let base = clip(clip(i32::from(h.base[area]) + i32::from(lf)) + i32::from(seg));
    if !h.delta_enabled {
        return base as u8;
    }
    let mode = match reference {
        0 => 0,
        _ => i32::from(h.mode_delta[mode]),
    };
    let factor = if base < 32 { 1 } else { 2 };
    clip(base + factor * (i32::from(h.ref_delta[reference]) + mode)) as u8
}

#[test]
fn every_value_is_the_headers() {
    let plain = header();
    let headers = [
        plain,
        Header {
            delta_enabled: false,
            ..plain
        },
        Header {
            multi: false,
            ..plain
        },
        Header {
            segmentation: false,
            ..plain
        },
        Header {
            base: [0, 40, 0, 63],
            ..plain
        },
        Header {
            base: [0, 0, 30, 63],
            ..plain
        },
    ];
    for h in headers {
        let mut values = [99; 512];
        assert_eq!(levels(&mut values, Layout::I420, &h), Ok(()));
        for (k, &value) in values.iter().enumerate() {
            let expected = match h.segmentation || k < 64 {
                true => level(&h, k / 64, k / 16 % 4, k / 2 % 8, k % 2),
                false => 99,
            };
            assert_eq!(value, expected, "{k} of {h:?}");
        }
    }
}
