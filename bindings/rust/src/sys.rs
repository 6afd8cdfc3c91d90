//! The archive's functions, as `gulvane.h` declares them.

use crate::Refusal;

#[repr(C)]
pub struct Count {
    refusal: u32,
    count: usize,
}

impl Count {
    pub fn answer(self) -> Result<usize, Refusal> {
        match self.refusal {
            0 => Ok(self.count),
            number => Err(Refusal::of(number)),
        }
    }
}

#[repr(C)]
pub struct Distance {
    refusal: u32,
    way: u32,
    weight: u64,
}

impl Distance {
    pub fn answer(self) -> Result<Option<u64>, Refusal> {
        match (self.refusal, self.way) {
            (0, 0) => Ok(None),
            (0, _) => Ok(Some(self.weight)),
            (number, _) => Err(Refusal::of(number)),
        }
    }
}

/// Declares each function as the archive has it, a slice as a pointer and a length, and as a safe
/// function of slices.
macro_rules! archive {
    ($(fn $name:ident($($arg:ident: $($value:ident)? $(&[$lent:ty])? $(&mut [$filled:ty])?),* $(,)?) -> $answer:ty;)*) => {
        mod raw {
            use super::{Count, Distance};

            #[link(name = "gulvane", kind = "static")]
            extern "C" {
                $(pub fn $name(
                    $($($arg: $value,)? $($arg: *const $lent, _: usize,)? $($arg: *mut $filled, _: usize,)?)*
                ) -> $answer;)*
            }
        }

        $(#[allow(clippy::too_many_arguments)]
        pub fn $name($($arg: $($value)? $(&[$lent])? $(&mut [$filled])?),*) -> $answer {
            // Safe: it takes slices of any length and contents, none NULL, and none that it writes
            // overlaps another.
            unsafe {
                raw::$name(
                    $($($arg as $value,)?
                      $($arg.as_ptr() as *const $lent, $arg.len(),)?
                      $($arg.as_mut_ptr() as *mut $filled, $arg.len(),)?)*
                )
            }
        })*
    };
}

archive! {
    fn gulvane_cover(
        starts: &[u32], heads: &[u32], weights: &[u32], k: usize, order: &[u32], points: &mut [u8],
        starts_back: &mut [u32], heads_back: &mut [u32], weights_back: &mut [u32],
        marks: &mut [u8], pieces: &mut [u32], sizes: &mut [u32],
    ) -> Count;

    fn gulvane_overlay(
        starts: &[u32], heads: &[u32], weights: &[u32], set: &[u8],
        over_starts: &mut [u32], over_heads: &mut [u32], over_weights: &mut [u32],
        labels: &mut [u64], heap: &mut [u32], places: &mut [u32], touched: &mut [u32],
    ) -> Count;

    fn gulvane_handheld(
        set: &[u8], over_starts: &[u32], over_heads: &[u32], over_weights: &[u32], s: u32, t: u32,
        labels: &mut [u64], heap: &mut [u32], places: &mut [u32], touched: &mut [u32], blocked: &mut [u8],
    ) -> Distance;

    fn gulvane_any_pair(
        starts: &[u32], heads: &[u32], weights: &[u32],
        set: &[u8], over_starts: &[u32], over_heads: &[u32], over_weights: &[u32], s: u32, t: u32,
        starts_back: &mut [u32], heads_back: &mut [u32], weights_back: &mut [u32],
        outward: &mut [u64], inward: &mut [u64],
        labels: &mut [u64], heap: &mut [u32], places: &mut [u32], touched: &mut [u32], blocked: &mut [u8],
    ) -> Distance;

    fn gulvane_thin(
        starts: &[u32], heads: &[u32], weights: &[u32], set: &[u8], drive: &[u32], positions: &mut [u32],
    ) -> Count;
}

#[cfg(test)]
mod tests {
    use super::{Count, Distance};
    use crate::Refusal;

    #[test]
    fn an_answer_is_no_refusal_and_no_number_is_lost() {
        assert_eq!(Count { refusal: 0, count: 3 }.answer(), Ok(3));
        assert_eq!(Count { refusal: 14, count: 0 }.answer(), Err(Refusal::Unknown(14)));
        assert_eq!(Distance { refusal: 0, way: 0, weight: 0 }.answer(), Ok(None));
        assert_eq!(Distance { refusal: 0, way: 1, weight: 0 }.answer(), Ok(Some(0)));
        assert_eq!(Distance { refusal: 14, way: 0, weight: 0 }.answer(), Err(Refusal::Unknown(14)));
    }
}
