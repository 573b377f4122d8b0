//! The loop filter parameters of a header, read and written at every place of a byte. Their bits are held to a second
//! reading of the table of 5.9.11. `unwritable.rs` has what is refused with number 24.

use deblock::*;

/// Numbers that look random.
struct Numbers(u64);

impl Numbers {
    fn below(&mut self, n: u64) -> u64 {
        self.0 = self.0.wrapping_mul(6364136223846793005).wrapping_add(1);
        (self.0 >> 33) % n
    }

    fn once_in(&mut self, n: u64) -> bool {
        self.below(n) == 0
    }

    fn delta(&mut self) -> i8 {
        (self.below(128) as i32 - 64) as i8
    }

    /// Deltas before may lie outside -64 to 63.
    fn given(&mut self) -> ParamsGiven {
        let mut any = || self.below(256) as u8 as i8;
        ParamsGiven {
            ref_delta: [0; 8].map(|_: i8| any()),
            mode_delta: [0; 2].map(|_: i8| any()),
            ..ParamsGiven::new(self.below(5) as u32)
        }
    }

    /// Parameters that can be written.
    fn params(&mut self, given: &ParamsGiven) -> Params {
        let luma = [0; 2].map(|_| (!self.once_in(3)) as u8 * self.below(64) as u8);
        let chroma = [0; 2].map(|_| match given.planes > 1 && luma != [0, 0] {
            true => self.below(64) as u8,
            false => 0,
        });
        let delta_enabled = !self.once_in(4);
        let delta_update = delta_enabled && !self.once_in(4);
        let most = self.once_in(2);
        let update = [0; 10].map(|_| delta_update && most != self.once_in(8));
        let sent = [0; 10].map(|_: i8| self.delta());
        Params {
            level: [luma[0], luma[1], chroma[0], chroma[1]],
            sharpness: self.below(8) as u8,
            delta_enabled,
            delta_update,
            update_ref: std::array::from_fn(|i| update[i]),
            update_mode: std::array::from_fn(|i| update[8 + i]),
            ref_delta: std::array::from_fn(|i| {
                if update[i] {
                    sent[i]
                } else {
                    given.ref_delta[i]
                }
            }),
            mode_delta: std::array::from_fn(|i| {
                if update[8 + i] {
                    sent[8 + i]
                } else {
                    given.mode_delta[i]
                }
            }),
        }
    }
}

/// The bits of the parameters, by the table of 5.9.11.
fn bits(params: &Params, given: &ParamsGiven) -> Vec<bool> {
    let mut bits = vec![];
    let mut f = |n: u32, value: u8| bits.extend((0..n).rev().map(|k| value >> k & 1 == 1));
    let level = params.level;
    f(6, level[0]);
    f(6, level[1]);
    if given.planes > 1 && (level[0] != 0 || level[1] != 0) {
        f(6, level[2]);
        f(6, level[3]);
    }
    f(3, params.sharpness);
    f(1, params.delta_enabled.into());
    if params.delta_enabled {
        f(1, params.delta_update.into());
    }
    if params.delta_update {
        let refs = params.update_ref.into_iter().zip(params.ref_delta);
        let modes = params.update_mode.into_iter().zip(params.mode_delta);
        for (update, delta) in refs.chain(modes) {
            f(1, update.into());
            if update {
                f(7, delta as u8 % 128);
            }
        }
    }
    bits
}

/// The bits of bytes, the highest of a byte first.
fn all_bits(bytes: &[u8]) -> Vec<bool> {
    let eight = |byte: &u8| (0..8).rev().map(|k| byte >> k & 1 == 1).collect::<Vec<_>>();
    bytes.iter().flat_map(eight).collect()
}

/// At every place of a byte, with all other bits 0 and with all 1. The least count and the greatest are among these.
#[test]
fn written_and_read() {
    let mut numbers = Numbers(1);
    let mut least_and_most = (usize::MAX, 0);
    for n in 0..8000 {
        let given = numbers.given();
        let params = numbers.params(&given);
        let bits = bits(&params, &given);
        least_and_most = (
            least_and_most.0.min(bits.len()),
            least_and_most.1.max(bits.len()),
        );
        let (at, fill) = (n % 8 + 8 * (n % 3), if n / 8 % 2 == 0 { 0 } else { 0xff });
        let mut bytes = vec![fill; (at + bits.len()).div_ceil(8)];
        let mut expected = all_bits(&bytes);
        expected[at..at + bits.len()].copy_from_slice(&bits);
        assert_eq!(params.write(&mut bytes, at, &given), Ok(bits.len()));
        assert_eq!(all_bits(&bytes), expected, "{params:?} at {at}");
        assert_eq!(Params::read(&bytes, at, &given), Ok((params, bits.len())));
    }
    assert_eq!(least_and_most, (16, 109));
}

/// 16 bytes hold any parameters, at any place of their first byte.
#[test]
fn read_and_written() {
    let mut numbers = Numbers(2);
    for n in 0..8000 {
        let given = numbers.given();
        // Both luma levels are 0 in some.
        let mask = if numbers.once_in(2) { 0xff } else { 0x21 };
        let mut byte = || numbers.below(256) as u8 & mask;
        let bytes: Vec<u8> = (0..16).map(|_| byte()).collect();
        let (from, to) = (n % 8, n / 8 % 8);
        let (params, count) = Params::read(&bytes, from, &given).unwrap();
        let mut written = [byte(); 17];
        assert_eq!(params.write(&mut written, to + 8, &given), Ok(count));
        let written = &all_bits(&written)[to + 8..][..count];
        assert_eq!(written, &all_bits(&bytes)[from..][..count], "{params:?}");
    }
}

/// The parameters end with the last bit of the bytes, or one bit after it.
#[test]
fn exact_room_and_one_bit_less() {
    let mut numbers = Numbers(3);
    for _ in 0..4000 {
        let given = numbers.given();
        let params = numbers.params(&given);
        let count = bits(&params, &given).len();
        let len = count.div_ceil(8) + numbers.below(3) as usize;
        let at = 8 * len - count;
        let mut bytes = vec![0xa5; len + 1];
        assert_eq!(params.write(&mut bytes[..len], at, &given), Ok(count));
        assert_eq!(Params::read(&bytes[..len], at, &given), Ok((params, count)));
        assert_eq!(bytes[len], 0xa5);

        assert_eq!(params.write(&mut bytes, at + 1, &given), Ok(count));
        let few = &mut bytes[..len];
        assert_eq!(Params::read(few, at + 1, &given), Err(Refusal::Bits));
        let before = few.to_vec();
        for at in [at + 1, 8 * len, 8 * len + 1, usize::MAX - 7, usize::MAX] {
            assert_eq!(params.write(few, at, &given), Err(Refusal::Bits));
            assert_eq!(few, before);
        }
        for at in [0, 1, usize::MAX] {
            assert_eq!(Params::read(&[], at, &given), Err(Refusal::Bits));
            assert_eq!(params.write(&mut [], at, &given), Err(Refusal::Bits));
        }
    }
}

/// What is left without bits.
fn off() -> Params {
    Params {
        level: [0; 4],
        sharpness: 0,
        delta_enabled: false,
        delta_update: false,
        update_ref: [false; 8],
        update_mode: [false; 2],
        ref_delta: [1, 0, 0, 0, -1, 0, -1, -1],
        mode_delta: [0, 0],
    }
}

#[test]
fn no_bits() {
    let mut numbers = Numbers(4);
    for (lossless, intrabc) in [(true, false), (false, true), (true, true)] {
        let given = ParamsGiven {
            lossless,
            intrabc,
            ..numbers.given()
        };
        for at in [0, 5, usize::MAX] {
            assert_eq!(Params::read(&[], at, &given), Ok((off(), 0)));
            assert_eq!(Params::read(&[0xff; 9], at, &given), Ok((off(), 0)));
            assert_eq!(off().write(&mut [], at, &given), Ok(0));
            let mut bytes = [0xa5; 9];
            assert_eq!(off().write(&mut bytes, at, &given), Ok(0));
            assert_eq!(bytes, [0xa5; 9]);
        }
    }
    assert_eq!(ParamsGiven::new(3).ref_delta, off().ref_delta);
    assert_eq!(ParamsGiven::new(3).mode_delta, off().mode_delta);
}

/// What is read with deltas before in range is taken by the calls that begin a frame.
#[test]
fn what_is_read_is_taken_on() {
    let mut numbers = Numbers(5);
    for planes in [1, 3] {
        for _ in 0..1000 {
            let given = ParamsGiven::new(planes);
            let written = numbers.params(&given);
            let mut bytes = [0; 14];
            written.write(&mut bytes, 0, &given).unwrap();
            let (params, _) = Params::read(&bytes, 0, &given).unwrap();
            assert!(Limits::new(params.sharpness.into()).is_ok());
            let header = Header::from(params);
            assert_eq!(
                (header.base, header.delta_enabled),
                (written.level, written.delta_enabled)
            );
            assert_eq!(
                (header.ref_delta, header.mode_delta),
                (written.ref_delta, written.mode_delta)
            );
            let layout = if planes == 1 {
                Layout::I400
            } else {
                Layout::I420
            };
            assert_eq!(levels(&mut [0; 512], layout, &header), Ok(()));
        }
    }
}
