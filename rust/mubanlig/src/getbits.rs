//! The bit reader.

use crate::ffi;

/// A place in the data: the byte reached, the bits of it used (0 to 7), and the reader's error.
#[derive(Debug, Clone, Copy, Default, PartialEq, Eq)]
pub struct Place {
    /// The byte reached.
    pub byte: usize,
    /// The bits of it used, 0 to 7.
    pub used: u32,
    /// Whether the reader's error is set.
    pub error: bool,
}

/// A reader that holds the lent bytes together with its place in them. Bits come most significant first.
///
/// Reading past the end answers 0 and sets an error that never clears.
///
/// ```
/// use mubanlig::GetBits;
///
/// let mut gb = GetBits::new(&[0b1010_0000]);
/// assert_eq!(gb.get_bit(), 1);
/// assert_eq!(gb.get_bits(2), 0b01);
/// assert_eq!(gb.get_bits(6), 0); // five bits are left: all are used up, and nothing is padded
/// assert!(gb.has_error());
/// ```
#[derive(Debug, Clone)]
pub struct GetBits<'a> {
    data: &'a [u8],
    /// The bits before the next one; past the last one it counts as the end, as the library answers.
    position: usize,
    /// Any number but 0 is a set error.
    error: u8,
}

impl<'a> GetBits<'a> {
    /// A reader at the first bit.
    #[inline]
    #[must_use]
    pub fn new(data: &'a [u8]) -> Self {
        Self {
            data,
            position: 0,
            error: 0,
        }
    }

    /// A reader at a place. One past the last bit, or with more than 7 bits used, counts as the end, and comes back as
    /// the end.
    ///
    /// ```
    /// use mubanlig::{GetBits, Place};
    ///
    /// let data = [0x00, 0x0F];
    /// let place = Place { byte: 1, used: 4, error: false };
    /// let mut gb = GetBits::at_place(&data, place);
    /// assert_eq!(gb.get_bits(4), 15);
    /// let end = Place { byte: 2, used: 0, error: false };
    /// assert_eq!(gb.place(), end);
    ///
    /// let past = Place { byte: 0, used: 8, error: false };
    /// assert_eq!(GetBits::at_place(&data, past).place(), end);
    /// ```
    #[inline]
    #[must_use]
    pub fn at_place(data: &'a [u8], place: Place) -> Self {
        // More than 7 bits used can't be told by a position: one past every bit stands for it.
        let position = if place.used <= 7 {
            place
                .byte
                .saturating_mul(8)
                .saturating_add(place.used as usize)
        } else {
            usize::MAX
        };
        Self {
            data,
            position,
            error: u8::from(place.error),
        }
    }

    /// Where the reader stands.
    #[inline]
    #[must_use]
    #[allow(clippy::cast_possible_truncation)] // below 8
    pub fn place(&self) -> Place {
        // no bits are read, and the position comes back as the end if it counts as the end
        let mut here = self.clone();
        here.get_bits(0);
        Place {
            byte: here.position / 8,
            used: (here.position % 8) as u32,
            error: here.has_error(),
        }
    }

    /// Whether a reading ran out of data or had a wrong argument, now or earlier.
    #[inline]
    #[must_use]
    pub fn has_error(&self) -> bool {
        self.error != 0
    }

    /// One bit. At the end 0 and the error.
    #[inline]
    pub fn get_bit(&mut self) -> u32 {
        ffi::get_bit(self.data, &mut self.position, &mut self.error)
    }

    /// `n` bits. If fewer remain, all are used up, the error is set and the answer is 0. Outside 0 to 32 the error is
    /// set, the answer is 0 and nothing is used.
    #[inline]
    pub fn get_bits(&mut self, n: i32) -> u32 {
        ffi::get_bits(self.data, &mut self.position, &mut self.error, n)
    }

    /// As [`get_bits`](Self::get_bits), with the top bit as sign.
    ///
    /// ```
    /// # use mubanlig::GetBits;
    /// assert_eq!(GetBits::new(&[0xF0]).get_sbits(4), -1);
    /// ```
    #[inline]
    pub fn get_sbits(&mut self, n: i32) -> i32 {
        ffi::get_sbits(self.data, &mut self.position, &mut self.error, n)
    }

    /// At most eight bytes of seven bits each, the least first. Above 4,294,967,295 the error and 0.
    ///
    /// ```
    /// # use mubanlig::GetBits;
    /// assert_eq!(GetBits::new(&[0xE5, 0x8E, 0x26]).get_uleb128(), 624_485);
    /// ```
    #[inline]
    pub fn get_uleb128(&mut self) -> u32 {
        ffi::get_uleb128(self.data, &mut self.position, &mut self.error)
    }

    /// c ones and a zero, then `k` bits: c · 2^k and those bits. 32 − `k` ones give 4,294,967,295. From `k` = 32 on
    /// the error and 0.
    ///
    /// ```
    /// # use mubanlig::GetBits;
    /// assert_eq!(GetBits::new(&[0b1101_1000]).get_golomb(2), 11);
    /// ```
    #[inline]
    pub fn get_golomb(&mut self, k: u32) -> u32 {
        ffi::get_golomb(self.data, &mut self.position, &mut self.error, k)
    }

    /// A number below `max`, in as few bits as even chances need; 0 without a bit for `max` at most 1. From 2^31 on the
    /// error and 0, and nothing is used.
    ///
    /// ```
    /// # use mubanlig::GetBits;
    /// let mut gb = GetBits::new(&[0b0101_1000]);
    /// assert_eq!(gb.get_uniform(3), 0); // one bit
    /// assert_eq!(gb.get_uniform(3), 1); // two bits
    /// assert_eq!(gb.get_uniform(3), 2);
    /// ```
    #[inline]
    pub fn get_uniform(&mut self, max: u32) -> u32 {
        ffi::get_uniform(self.data, &mut self.position, &mut self.error, max)
    }

    /// z zeros, a one, then z bits: 2^z − 1 and those bits. 32 zeros give 4,294,967,295.
    ///
    /// ```
    /// # use mubanlig::GetBits;
    /// assert_eq!(GetBits::new(&[0b0010_1000]).get_vlc(), 4);
    /// ```
    #[inline]
    pub fn get_vlc(&mut self) -> u32 {
        ffi::get_vlc(self.data, &mut self.position, &mut self.error)
    }

    /// A number below `n`, told by its distance from `ref_val`. Unless `k` is 0 to 31, `ref_val` below `n` and `n` below
    /// 2^31: the error and 0, and nothing is used.
    #[inline]
    pub fn get_bits_subexp_u(&mut self, ref_val: u32, n: u32, k: i32) -> u32 {
        ffi::get_bits_subexp_u(
            self.data,
            &mut self.position,
            &mut self.error,
            ref_val,
            n,
            k,
        )
    }

    /// A number above −`n` and below `n`, told by its distance from `ref_val`; `n` from 1 to 2^30, else the error and 0.
    ///
    /// ```
    /// # use mubanlig::GetBits;
    /// let mut gb = GetBits::new(&[0x00]);
    /// assert_eq!(gb.get_bits_subexp(3, 3), -2); // ref_val is too large
    /// assert!(gb.has_error());
    /// ```
    #[inline]
    pub fn get_bits_subexp(&mut self, ref_val: i32, n: u32) -> i32 {
        ffi::get_bits_subexp(self.data, &mut self.position, &mut self.error, ref_val, n)
    }

    /// `def`, held to `max` − 1, behind a zero bit; behind a one any other number below `max`. From `max` = 2^31 on the
    /// error and 0, and nothing is used.
    #[inline]
    pub fn get_ref_uniform(&mut self, max: u32, def: u32) -> u32 {
        ffi::get_ref_uniform(self.data, &mut self.position, &mut self.error, max, def)
    }

    /// Drops the bits that are left of a byte begun.
    #[inline]
    pub fn bytealign(&mut self) {
        ffi::bytealign(self.data, &mut self.position);
    }

    /// The bytes begun. A byte of which some bits are used counts.
    ///
    /// ```
    /// # use mubanlig::GetBits;
    /// let mut gb = GetBits::new(&[0x00, 0x00]);
    /// gb.get_bits(3);
    /// assert_eq!((gb.byte_pos(), gb.place().byte), (1, 0));
    /// ```
    #[inline]
    #[must_use]
    pub fn byte_pos(&self) -> usize {
        ffi::byte_pos(self.data, self.position)
    }

    /// The bytes not begun.
    #[inline]
    #[must_use]
    pub fn remaining_bytes(&self) -> usize {
        ffi::remaining_bytes(self.data, self.position)
    }

    /// The bytes not begun, themselves.
    #[inline]
    #[must_use]
    pub fn remaining_slice(&self) -> &'a [u8] {
        &self.data[self.byte_pos()..]
    }

    /// The bytes, the position and the error, for the functions that read a record.
    #[inline]
    pub(crate) fn parts(&mut self) -> (&'a [u8], &mut usize, &mut u8) {
        (self.data, &mut self.position, &mut self.error)
    }
}
