//! The same chunks by SSE2: from the byte after the maximum to the deadline, 64, 32 or 16 bytes at a time are looked at for one
//! that is larger. Within a block that ends by the deadline only the first place of its maximum matters, and the last block
//! before the deadline may overlap bytes already seen, which are not larger.

use core::arch::x86_64::*;

/// The number of chunks of a job; 0 where the window is not 1 to 64. A window that no block fits takes single bytes.
#[inline(never)]
pub fn chunk_count(window: u32, job: &[u8]) -> u64 {
    match window {
        16..=31 => by_blocks::<1>(window as usize, job),
        32..=63 => by_blocks::<2>(window as usize, job),
        64 => by_blocks::<4>(window as usize, job),
        _ => crate::plain::chunker::chunk_count_1(window, job),
    }
}

/// The number of chunks, by blocks of N times 16 bytes, which are at most the window.
fn by_blocks<const N: usize>(window: usize, job: &[u8]) -> u64 {
    let mut at = 0;
    let mut count = 0;
    while at < job.len() {
        // SAFETY: SSE2 is part of x86-64, and `at` is below the length.
        at += unsafe { first_chunk::<N>(window, job.as_ptr().add(at), job.len() - at) };
        count += 1;
    }
    count
}

/// The largest byte in every lane.
#[inline(always)]
unsafe fn largest(block: __m128i) -> __m128i {
    let m = _mm_max_epu8(block, _mm_shuffle_epi32::<0b01_00_11_10>(block));
    let m = _mm_max_epu8(m, _mm_shuffle_epi32::<0b10_11_00_01>(m));
    let m = _mm_max_epu8(
        m,
        _mm_or_si128(_mm_srli_epi32::<16>(m), _mm_slli_epi32::<16>(m)),
    );
    _mm_max_epu8(
        m,
        _mm_or_si128(_mm_srli_epi16::<8>(m), _mm_slli_epi16::<8>(m)),
    )
}

/// The length of the first chunk of `len` bytes at `job`, where `len` is not 0.
#[inline(always)]
unsafe fn first_chunk<const N: usize>(window: usize, job: *const u8, len: usize) -> usize {
    let size = 16 * N;
    let mut max = _mm_set1_epi8(*job as i8);
    let mut i = 1;
    let mut end = window + 1;
    loop {
        let stop = end.min(len);
        if stop < size {
            return by_bytes(window, job, len, i, end, _mm_cvtsi128_si32(max) as u8);
        }
        end = loop {
            let at = i.min(stop - size);
            let blocks: [__m128i; N] =
                core::array::from_fn(|k| _mm_loadu_si128(job.add(at + 16 * k).cast()));
            let joined = blocks
                .into_iter()
                .fold(max, |m, block| _mm_max_epu8(m, block));
            i = at + size;
            if _mm_movemask_epi8(_mm_cmpeq_epi8(joined, max)) != 0xffff {
                max = largest(joined);
                break at + first_place(blocks, max) + 1 + window;
            }
            if i == stop {
                return stop;
            }
        };
    }
}

/// The first place of a byte that stands in every lane of `value`.
#[inline(always)]
unsafe fn first_place<const N: usize>(blocks: [__m128i; N], value: __m128i) -> usize {
    let mut places = 0u64;
    for (k, block) in blocks.into_iter().enumerate() {
        places |= (_mm_movemask_epi8(_mm_cmpeq_epi8(block, value)) as u64) << (16 * k);
    }
    places.trailing_zeros() as usize
}

/// The first chunk of a job that is shorter than a block, from a byte of it on.
#[cold]
unsafe fn by_bytes(
    window: usize,
    job: *const u8,
    len: usize,
    from: usize,
    deadline: usize,
    value: u8,
) -> usize {
    let (mut i, mut end, mut max) = (from, deadline, value);
    while i < len && i < end {
        let byte = *job.add(i);
        i += 1;
        if byte > max {
            max = byte;
            end = i + window;
        }
    }
    i
}
