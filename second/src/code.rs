//! Codes: seven bits a byte, the lowest seven first, at most three bytes.

use std::slice::IterMut;

const MORE: u8 = 0x80;

/// Reads the code at the front of `part`: its value, and what follows it. `None` when
/// no sound code stands there.
#[inline]
pub fn read(part: &[u8]) -> Option<(u32, &[u8])> {
    match part {
        [a, rest @ ..] if *a < MORE => Some((u32::from(*a), rest)),
        [a, b @ 1..MORE, rest @ ..] => Some((joined([*a, *b, 0]), rest)),
        [a, b @ MORE..=u8::MAX, c @ 1..MORE, rest @ ..] => Some((joined([*a, *b, *c]), rest)),
        _ => None,
    }
}

/// The value of three bytes, seven bits of each.
#[inline]
fn joined(bytes: [u8; 3]) -> u32 {
    let [a, b, c] = bytes.map(|byte| u32::from(byte & !MORE));
    a | b << 7 | c << 14
}

/// How many bytes the code of `value` has, which must be below 2 to the 21st.
#[inline]
pub fn length(value: u32) -> u32 {
    1 + u32::from(value >= 1 << 7) + u32::from(value >= 1 << 14)
}

/// Puts the code of `value` into the next places, which must be there.
#[inline]
pub fn put(places: &mut IterMut<u8>, value: u32) {
    let mut rest = value;
    while rest >= u32::from(MORE) {
        put_byte(places, rest as u8 | MORE);
        rest >>= 7;
    }
    put_byte(places, rest as u8);
}

#[inline]
fn put_byte(places: &mut IterMut<u8>, byte: u8) {
    *places.next().expect("the codes were measured") = byte;
}

#[cfg(test)]
mod tests {
    use super::*;

    fn coded(value: u32) -> Vec<u8> {
        let mut room = [0xEE; 4];
        let mut places = room.iter_mut();
        put(&mut places, value);
        let left = places.len();
        room[..room.len() - left].to_vec()
    }

    /// The value of the code in front, and how many bytes it has.
    fn read(part: &[u8]) -> Option<(u32, usize)> {
        super::read(part).map(|(value, rest)| (value, part.len() - rest.len()))
    }

    #[test]
    fn differences_of_the_paper() {
        assert_eq!(coded(128 - 1), [0x7F]);
        assert_eq!(coded(129 - 1), [0x80, 0x01]);
        assert_eq!(coded(16384 - 1), [0xFF, 0x7F]);
        assert_eq!(coded(16385 - 1), [0x80, 0x80, 0x01]);
        assert_eq!(coded(16512 - 1), [0xFF, 0x80, 0x01]);
    }

    #[test]
    fn unsound_codes() {
        for part in [
            &[][..],
            &[0x80],
            &[0x80, 0x00],
            &[0x80, 0x80],
            &[0x80, 0x80, 0x00],
            &[0x80, 0x80, 0x80],
            &[0x80, 0x80, 0x80, 0x01],
        ] {
            assert_eq!(read(part), None, "{part:?}");
        }
    }

    #[test]
    fn sound_codes() {
        assert_eq!(read(&[0x00]), Some((0, 1)));
        assert_eq!(read(&[0x7F, 0x80]), Some((127, 1)));
        assert_eq!(read(&[0x80, 0x01]), Some((128, 2)));
        assert_eq!(read(&[0x80, 0x80, 0x01, 0x00]), Some((16384, 3)));
        assert_eq!(read(&[0xFF, 0xFF, 0x7F]), Some(((1 << 21) - 1, 3)));
    }

    #[test]
    fn every_value_reads_back() {
        for value in 0..1 << 21 {
            let bytes = coded(value);
            assert_eq!(read(&bytes), Some((value, bytes.len())));
            assert_eq!(length(value) as usize, bytes.len());
        }
    }
}
