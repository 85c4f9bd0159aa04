//! The scanner, one byte at a time. Its four numbers are window, count, place and value.

use super::{window_accepted, ACCEPTED, UNSOUND, WINDOW};

/// Opens a scanner.
pub fn open(window: u32, scanner: &mut [u32]) -> u32 {
    if window_accepted(window) {
        scanner.copy_from_slice(&[window, 0, 0, 0]);
        ACCEPTED
    } else {
        scanner.fill(0);
        WINDOW
    }
}

/// Moves a scanner on over a part, up to and including the byte that ends a chunk. `fed` gets the
/// number of bytes consumed and, where a cut follows, 1 and the place and value of the largest byte.
pub fn feed(scanner: &mut [u32], part: &[u8], fed: &mut [u64]) -> u32 {
    fed.fill(0);
    let refusal = ground(scanner);
    if refusal != ACCEPTED {
        return refusal;
    }
    for &byte in part {
        fed[0] += 1;
        if take(scanner, u32::from(byte)) {
            let [place, value] = [2, 3].map(|index: usize| u64::from(scanner[index]));
            fed[1..].copy_from_slice(&[1, place, value]);
            scanner[1..].fill(0);
            break;
        }
    }
    ACCEPTED
}

/// Ends a job: `count` gets the bytes since the last cut.
pub fn finish(scanner: &mut [u32], count: &mut [u64]) -> u32 {
    count.fill(0);
    let refusal = ground(scanner);
    if refusal == ACCEPTED {
        count[0] = u64::from(scanner[1]);
        scanner[1..].fill(0);
    }
    refusal
}

/// Takes one byte, and tells whether a cut follows it.
fn take(scanner: &mut [u32], byte: u32) -> bool {
    let [window, count, place, value] = scanner else {
        unreachable!("a scanner is four numbers")
    };
    *count += 1;
    if *count == 1 || *value < byte {
        *place = *count;
        *value = byte;
    }
    *count == *place + *window
}

/// The ground on which a feed or a finish is refused.
fn ground(scanner: &[u32]) -> u32 {
    if !window_accepted(scanner[0]) {
        WINDOW
    } else if !is_sound(scanner) {
        UNSOUND
    } else {
        ACCEPTED
    }
}

/// Tells whether a scanner with an accepted window is sound.
fn is_sound(scanner: &[u32]) -> bool {
    let [window, count, place, value] = [0, 1, 2, 3].map(|index| u64::from(scanner[index]));
    let at_a_start = count == 0 && place == 0 && value == 0;
    let inside_a_chunk =
        1 <= place && place <= count && count < place + window && place <= value * window + 1;
    value <= 255 && (at_a_start || inside_a_chunk)
}
