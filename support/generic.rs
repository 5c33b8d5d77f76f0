//! The module that a printed crate text stands on: `use crate::generic::*;`.
//!
//! A package that holds a crate text declares this file as `generic` at its root, and the text beside it:
//!
//! ```ignore
//! #![no_std]
//! pub mod generic;
//! #[allow(non_camel_case_types, non_snake_case, unused_imports, clippy::all)]
//! pub mod device; // what `pac generate` printed
//! ```
//!
//! A driver then calls registers as scripts do:
//!
//! ```ignore
//! let device = unsafe { generic::steal::<device::Peripherals>() };
//! device.TIM6.cr().modify(|_, w| w.cen().enabled().mode().bits(2));
//! while device.TIM6.sr().read().uif().bit_is_clear() {}
//! device.TIM6.sr().write(|w| w.uif().clear_bit_by_one());
//! ```
//!
//! | on | call | meaning |
//! |---|---|---|
//! | [`Reg`], readable | [`read`](Reg::read) | one read; gives an [`R`] |
//! | [`Reg`], writable | [`write`](Reg::write) | one write; the word starts as the reset word, made harmless |
//! | | [`write_with_zero`](Reg::write_with_zero) | one write; the word starts as 0 |
//! | | [`reset`](Reg::reset) | one write of the reset word |
//! | [`Reg`], both | [`modify`](Reg::modify) | one read and one write; the word starts as what was read, made harmless |
//!
//! A word is made harmless by clearing the bits in which a 1 would act (`ONE_TO_MODIFY`) and then setting those in
//! which a 0 would (`ZERO_TO_MODIFY`): so a flag that is cleared by writing a one stays unless its writer is called.
//!
//! Where the package has the feature `recording`, and in its own unit tests, no memory is touched: every access goes to
//! the bus of its module `recording`, which answers it and keeps it. The package declares the feature: `recording = []`.
//!
//! What a text means is proved over a fragment of Rust; this file and what rustc makes of both are tested.

#![deny(unsafe_op_in_unsafe_fn)]
#![warn(missing_docs)]
#![allow(dead_code, reason = "a text may have no use for some of it")]

use core::marker::PhantomData;
use core::ops::{BitAnd, BitOr, Deref, Not, Shl};

/// The one place at which memory is touched.
#[cfg(not(any(test, feature = "recording")))]
mod bus {
    /// Reads the word at `place`, once.
    ///
    /// # Safety
    ///
    /// `place` is a register's, which may be read.
    #[inline(always)]
    pub(super) unsafe fn load<U: super::Word>(place: *const U) -> U {
        // SAFETY: by the condition; a register's place is aligned to its width.
        unsafe { place.read_volatile() }
    }

    /// Writes the word at `place`, once.
    ///
    /// # Safety
    ///
    /// `place` is a register's, which may be written.
    #[inline(always)]
    pub(super) unsafe fn store<U: super::Word>(place: *mut U, word: U) {
        // SAFETY: by the condition; a register's place is aligned to its width.
        unsafe { place.write_volatile(word) }
    }
}

#[cfg(any(test, feature = "recording"))]
use recording as bus;

/// A bus on the host that keeps every access: a driver's tests say what it answers and look at what was kept.
///
/// Each thread has its own. Nothing is kept before [`start`](recording::start), and an access before it panics.
#[cfg(any(test, feature = "recording"))]
pub mod recording {
    extern crate std;

    use core::cell::RefCell;
    use core::fmt;
    use std::collections::BTreeMap;
    use std::vec::Vec;

    /// A read or a write of a register. `width` is in bits.
    #[derive(Clone, Copy, Debug, PartialEq, Eq)]
    pub enum Access {
        /// A read, with the word that was answered.
        Read {
            /// The register's address.
            address: u64,
            /// Its width in bits.
            width: u32,
            /// The word that was read.
            value: u64,
        },
        /// A write, with the word that was written.
        Write {
            /// The register's address.
            address: u64,
            /// Its width in bits.
            width: u32,
            /// The word that was written.
            value: u64,
        },
    }

    impl fmt::Display for Access {
        /// As a line of events: `read 0x40000000 32 0x00000003`.
        fn fmt(&self, f: &mut fmt::Formatter<'_>) -> fmt::Result {
            let (name, address, width, value) = match *self {
                Access::Read {
                    address,
                    width,
                    value,
                } => ("read", address, width, value),
                Access::Write {
                    address,
                    width,
                    value,
                } => ("write", address, width, value),
            };
            write!(
                f,
                "{name} 0x{address:08x} {width} 0x{value:0digits$x}",
                digits = width as usize / 4
            )
        }
    }

    /// What reads are answered.
    #[derive(Clone, Debug)]
    pub enum Bus {
        /// Every read is answered 0.
        Zero,
        /// Reads give the bytes that were written or [`preset`], little end first, and 0 elsewhere.
        Memory,
        /// The k-th read gives the k-th number, cut to its width, and 0 where there is none.
        Answers(Vec<u64>),
    }

    struct Recorder {
        bus: Bus,
        bytes: BTreeMap<u64, u8>,
        reads: usize,
        kept: Vec<Access>,
    }

    impl Recorder {
        fn put(&mut self, address: u64, width: u32, value: u64) {
            let bytes = value.to_le_bytes().into_iter().take(width as usize / 8);
            self.bytes.extend((address..=u64::MAX).zip(bytes));
        }

        fn answer(&self, address: u64, width: u32) -> u64 {
            let word = match &self.bus {
                Bus::Zero => 0,
                Bus::Memory => (0..width / 8).rev().fold(0, |word, byte| {
                    let held = self.bytes.get(&(address + u64::from(byte)));
                    word << 8 | u64::from(held.copied().unwrap_or(0))
                }),
                Bus::Answers(answers) => answers.get(self.reads).copied().unwrap_or(0),
            };
            word & u64::MAX >> (64 - width)
        }
    }

    std::thread_local! {
        static RECORDER: RefCell<Option<Recorder>> = const { RefCell::new(None) };
    }

    fn with<T>(f: impl FnOnce(&mut Recorder) -> T) -> T {
        RECORDER.with_borrow_mut(|recorder| {
            f(recorder
                .as_mut()
                .expect("a register is called before recording::start"))
        })
    }

    /// Starts to record on this thread, with nothing kept and every byte 0.
    pub fn start(bus: Bus) {
        RECORDER.set(Some(Recorder {
            bus,
            bytes: BTreeMap::new(),
            reads: 0,
            kept: Vec::new(),
        }));
    }

    /// Sets what [`Bus::Memory`] holds at an address, such as a reset word or a flag that the device raises.
    pub fn preset(address: u64, width: u32, value: u64) {
        with(|recorder| recorder.put(address, width, value));
    }

    /// Gives what was kept since the last time, in order, and keeps on recording.
    pub fn take() -> Vec<Access> {
        with(|recorder| core::mem::take(&mut recorder.kept))
    }

    /// Answers a read and keeps it.
    ///
    /// # Safety
    ///
    /// None is asked: nothing is read from `place`.
    pub(super) unsafe fn load<U: super::Word>(place: *const U) -> U {
        let (address, width) = (place as usize as u64, U::BITS);
        U::cut(with(|recorder| {
            let value = recorder.answer(address, width);
            recorder.reads += 1;
            recorder.kept.push(Access::Read {
                address,
                width,
                value,
            });
            value
        }))
    }

    /// Keeps a write.
    ///
    /// # Safety
    ///
    /// None is asked: nothing is written to `place`.
    pub(super) unsafe fn store<U: super::Word>(place: *mut U, word: U) {
        let (address, width, value) = (place as usize as u64, U::BITS, word.to_u64());
        with(|recorder| {
            recorder.put(address, width, value);
            recorder.kept.push(Access::Write {
                address,
                width,
                value,
            });
        });
    }
}

mod sealed {
    pub trait Sealed {}

    /// No bytes, aligned as a register of so many bits is, whatever the target aligns its words to.
    #[repr(align(1))]
    pub struct Align8;
    #[repr(align(2))]
    pub struct Align16;
    #[repr(align(4))]
    pub struct Align32;
    #[repr(align(8))]
    pub struct Align64;
}

/// The words of registers: `u8`, `u16`, `u32` and `u64`.
pub trait Word:
    Copy
    + BitAnd<Output = Self>
    + BitOr<Output = Self>
    + Not<Output = Self>
    + Shl<u32, Output = Self>
    + sealed::Sealed
{
    /// The width in bits.
    const BITS: u32;
    /// The word 0.
    const ZERO: Self;
    #[doc(hidden)]
    type Align;
    /// The word that has its lowest `width` bits set, for a width of 1 to [`BITS`](Word::BITS).
    fn ones(width: u32) -> Self;
    /// The number modulo 2 to the power of [`BITS`](Word::BITS).
    fn cut(number: u64) -> Self;
    /// The word as a number.
    fn to_u64(self) -> u64;
}

macro_rules! word {
    ($($word:ident $align:ident)*) => { $(
        impl sealed::Sealed for $word {}

        impl Word for $word {
            const BITS: u32 = $word::BITS;
            const ZERO: $word = 0;
            type Align = sealed::$align;

            #[inline(always)]
            fn ones(width: u32) -> $word {
                $word::MAX >> ($word::BITS - width)
            }

            #[inline(always)]
            fn cut(number: u64) -> $word {
                number as $word
            }

            #[inline(always)]
            fn to_u64(self) -> u64 {
                self as u64
            }
        }
    )* };
}

word! { u8 Align8 u16 Align16 u32 Align32 u64 Align64 }

/// What a register is. A crate text's `Spec` types implement it.
pub trait RegisterSpec {
    /// The register's word: `u8`, `u16`, `u32` or `u64`.
    type Ux: Word;
}

/// A register that can be read: it has [`Reg::read`].
pub trait Readable: RegisterSpec {}

/// A register that can be written: it has [`Reg::write`], [`Reg::write_with_zero`] and [`Reg::reset`].
pub trait Writable: RegisterSpec {
    /// The bits in which writing a 0 acts, and a 1 does nothing.
    const ZERO_TO_MODIFY: Self::Ux;
    /// The bits in which writing a 1 acts, and a 0 does nothing.
    const ONE_TO_MODIFY: Self::Ux;
}

/// A register of which the reset word is known.
pub trait Resettable: RegisterSpec {
    /// The word after a reset; bits outside the description's reset mask are 0.
    const RESET_VALUE: Self::Ux;
}

/// A peripheral, at a fixed address: its registers and clusters are the calls of the block `B`.
///
/// It has no size. That there is one handle is a convention of those who [`steal`](Periph::steal) it.
pub struct Periph<B, const ADDRESS: usize> {
    block: PhantomData<*const B>,
}

// SAFETY: a handle is an address alone; threads that hold handles of one peripheral were given them by `steal`.
unsafe impl<B, const ADDRESS: usize> Send for Periph<B, ADDRESS> {}

impl<B, const ADDRESS: usize> Periph<B, ADDRESS> {
    /// The address of the peripheral's block.
    pub const PTR: *const B = ADDRESS as *const B;

    /// The address of the peripheral's block.
    #[inline(always)]
    pub const fn ptr() -> *const B {
        Self::PTR
    }

    /// Makes a handle out of nothing.
    ///
    /// # Safety
    ///
    /// The device has this peripheral, and whoever else holds a handle of it doesn't mind the calls of this one.
    #[inline(always)]
    pub const unsafe fn steal() -> Self {
        Periph { block: PhantomData }
    }
}

impl<B, const ADDRESS: usize> Deref for Periph<B, ADDRESS> {
    type Target = B;

    #[inline(always)]
    fn deref(&self) -> &B {
        // SAFETY: whoever made the handle said that the device has the block here.
        unsafe { &*Self::PTR }
    }
}

/// Makes the handles of all peripherals at once: `steal::<device::Peripherals>()`.
///
/// # Safety
///
/// `P` is the `Peripherals` of a crate text. The program runs on this device, and whoever else holds handles doesn't mind
/// the calls of these.
#[inline(always)]
pub const unsafe fn steal<P>() -> P {
    const { assert!(size_of::<P>() == 0, "only handles can be stolen") };
    // SAFETY: a struct of handles has no bytes, so any aligned place holds one.
    unsafe { core::ptr::NonNull::<P>::dangling().as_ptr().read() }
}

/// A register, in its place in a block. Its size and its alignment are its width.
#[repr(C)]
pub struct Reg<S: RegisterSpec> {
    align: [<S::Ux as Word>::Align; 0],
    word: core::cell::UnsafeCell<S::Ux>,
}

impl<S: RegisterSpec> Reg<S> {
    /// The register's address.
    #[inline(always)]
    pub const fn as_ptr(&self) -> *mut S::Ux {
        self.word.get()
    }
}

impl<S: RegisterSpec> Reg<S> {
    #[inline(always)]
    fn load(&self) -> S::Ux
    where
        S: Readable,
    {
        // SAFETY: the register stands here, and can be read.
        unsafe { bus::load(self.as_ptr()) }
    }

    #[inline(always)]
    fn store(&self, word: S::Ux)
    where
        S: Writable,
    {
        // SAFETY: the register stands here, and can be written.
        unsafe { bus::store(self.as_ptr(), word) }
    }
}

/// The word from which a write starts: no bit in it acts by itself.
#[inline(always)]
fn harmless<S: Writable>(word: S::Ux) -> S::Ux {
    (word & !S::ONE_TO_MODIFY) | S::ZERO_TO_MODIFY
}

impl<S: Readable> Reg<S> {
    /// Reads the register, once.
    ///
    /// ```ignore
    /// let status = device.TIM6.sr().read();
    /// if status.uif().bit_is_set() && !status.ovf().bit() {}
    /// ```
    #[inline(always)]
    pub fn read(&self) -> R<S> {
        R { bits: self.load() }
    }
}

impl<S: Writable + Resettable> Reg<S> {
    /// Writes the register, once. Fields that aren't called have their reset value; where a one or a zero would act, that
    /// which doesn't is written.
    ///
    /// ```ignore
    /// device.TIM6.sr().write(|w| w.uif().clear_bit_by_one());
    /// ```
    #[inline(always)]
    pub fn write<F>(&self, f: F)
    where
        F: FnOnce(&mut W<S>) -> &mut W<S>,
    {
        self.store(
            f(&mut W {
                bits: harmless::<S>(S::RESET_VALUE),
            })
            .bits,
        );
    }

    /// Writes the register, once. Bits that aren't called are 0, also where a zero acts.
    #[inline(always)]
    pub fn write_with_zero<F>(&self, f: F)
    where
        F: FnOnce(&mut W<S>) -> &mut W<S>,
    {
        self.store(f(&mut W { bits: S::Ux::ZERO }).bits);
    }

    /// Writes the reset word, once.
    #[inline(always)]
    pub fn reset(&self) {
        self.store(S::RESET_VALUE);
    }
}

impl<S: Readable + Writable> Reg<S> {
    /// Reads the register and writes it, each once. Fields that aren't called have what was read; where a one or a zero
    /// would act, that which doesn't is written.
    ///
    /// ```ignore
    /// device.TIM6.cr().modify(|r, w| w.mode().bits(r.mode().bits() ^ 1));
    /// ```
    #[inline(always)]
    pub fn modify<F>(&self, f: F)
    where
        F: for<'w> FnOnce(&R<S>, &'w mut W<S>) -> &'w mut W<S>,
    {
        let bits = self.load();
        self.store(
            f(
                &R { bits },
                &mut W {
                    bits: harmless::<S>(bits),
                },
            )
            .bits,
        );
    }
}

/// What was read of a register. A crate text adds a call for each field that can be read.
///
/// The call of a field named `INTO` or `TRY_INTO` is hidden by the trait of that name on a value: `(&status).into()`.
pub struct R<S: RegisterSpec> {
    pub(crate) bits: S::Ux,
}

impl<S: RegisterSpec> R<S> {
    /// The whole word.
    #[inline(always)]
    pub fn bits(&self) -> S::Ux {
        self.bits
    }
}

/// What is to be written to a register. A crate text adds a call for each field that can be written.
pub struct W<S: RegisterSpec> {
    bits: S::Ux,
}

impl<S: RegisterSpec> W<S> {
    /// Sets the whole word.
    #[inline(always)]
    pub fn bits(&mut self, bits: S::Ux) -> &mut Self {
        self.bits = bits;
        self
    }
}

/// Sets `width` bits of what is to be written, from bit `offset` on, to the lowest bits of `value`.
#[inline(always)]
fn put<S: RegisterSpec>(w: &mut W<S>, offset: u32, width: u32, value: S::Ux) -> &mut W<S> {
    let ones = S::Ux::ones(width);
    w.bits = (w.bits & !(ones << offset)) | ((value & ones) << offset);
    w
}

/// What was read of a field of one bit. A crate text adds a call for each named value.
pub struct BitReader<F> {
    bit: bool,
    field: PhantomData<F>,
}

impl<F> BitReader<F> {
    #[inline(always)]
    pub(crate) fn new(bit: bool) -> Self {
        BitReader {
            bit,
            field: PhantomData,
        }
    }

    /// The bit.
    #[inline(always)]
    pub fn bit(&self) -> bool {
        self.bit
    }

    /// Whether the bit is 1.
    #[inline(always)]
    pub fn bit_is_set(&self) -> bool {
        self.bit
    }

    /// Whether the bit is 0.
    #[inline(always)]
    pub fn bit_is_clear(&self) -> bool {
        !self.bit
    }
}

/// What was read of a field of several bits. A crate text adds a call for each named value.
pub struct FieldReader<F, V> {
    bits: V,
    field: PhantomData<F>,
}

impl<F, V: Word> FieldReader<F, V> {
    #[inline(always)]
    pub(crate) fn new(bits: V) -> Self {
        FieldReader {
            bits,
            field: PhantomData,
        }
    }

    /// The field's value.
    #[inline(always)]
    pub fn bits(&self) -> V {
        self.bits
    }
}

/// Writes a field of `WIDTH` bits. A crate text adds a call for each named value.
pub struct FieldWriter<'a, S: RegisterSpec, F, V, const WIDTH: u32> {
    w: &'a mut W<S>,
    offset: u32,
    field: PhantomData<(F, V)>,
}

impl<'a, S: RegisterSpec, F, V: Word, const WIDTH: u32> FieldWriter<'a, S, F, V, WIDTH> {
    #[inline(always)]
    pub(crate) fn new(w: &'a mut W<S>, offset: u32) -> Self {
        FieldWriter {
            w,
            offset,
            field: PhantomData,
        }
    }

    /// Sets the field to the lowest `WIDTH` bits of a value.
    #[inline(always)]
    pub fn bits(self, bits: V) -> &'a mut W<S> {
        put(self.w, self.offset, WIDTH, S::Ux::cut(bits.to_u64()))
    }
}

macro_rules! bit_writers {
    ($($(#[$about:meta])* $name:ident { $($(#[$meaning:meta])* $call:ident: $bit:literal)* })*) => { $(
        $(#[$about])*
        pub struct $name<'a, S: RegisterSpec, F> {
            w: &'a mut W<S>,
            offset: u32,
            field: PhantomData<F>,
        }

        impl<'a, S: RegisterSpec, F> $name<'a, S, F> {
            #[inline(always)]
            pub(crate) fn new(w: &'a mut W<S>, offset: u32) -> Self {
                $name { w, offset, field: PhantomData }
            }

            /// Writes the bit as it is given.
            #[inline(always)]
            pub fn bit(self, bit: bool) -> &'a mut W<S> {
                put(self.w, self.offset, 1, S::Ux::cut(bit as u64))
            }

            $(
                $(#[$meaning])*
                #[inline(always)]
                pub fn $call(self) -> &'a mut W<S> {
                    self.bit($bit)
                }
            )*
        }
    )* };
}

bit_writers! {
    /// Writes a bit that is as it was written. A crate text adds a call for each named value, to this and to the others.
    BitWriter {
        /// Sets the bit.
        set_bit: true
        /// Clears the bit.
        clear_bit: false
    }
    /// Writes a bit that a one sets (`oneToSet`).
    BitWriter1S {
        /// Sets the bit, by a one.
        set_bit: true
    }
    /// Writes a bit that a zero clears (`zeroToClear`).
    BitWriter0C {
        /// Clears the bit, by a zero.
        clear_bit: false
    }
    /// Writes a bit that a one clears (`oneToClear`).
    BitWriter1C {
        /// Clears the bit, by a one.
        clear_bit_by_one: true
    }
    /// Writes a bit that a zero sets (`zeroToSet`).
    BitWriter0S {
        /// Sets the bit, by a zero.
        set_bit_by_zero: false
    }
    /// Writes a bit that a one toggles (`oneToToggle`).
    BitWriter1T {
        /// Toggles the bit, by a one.
        toggle_bit: true
    }
    /// Writes a bit that a zero toggles (`zeroToToggle`).
    BitWriter0T {
        /// Toggles the bit, by a zero.
        toggle_bit: false
    }
}

/// What stands `offset` bytes after the start of a block: where registers overlap, one of them is no field of the struct.
///
/// Only a crate text calls this and the next: what they give is what the text says that it is.
#[inline(always)]
pub(crate) fn at<B, T>(block: &B, offset: usize) -> &T {
    let address = core::ptr::from_ref(block) as usize + offset;
    // SAFETY: the text says that this stands here, and is never null: the block isn't.
    unsafe { &*(address as *const T) }
}

/// Member `n` of `count` that stand `stride` bytes apart, the first `offset` bytes after the start of a block. Panics
/// where there is none.
#[inline(always)]
pub(crate) fn at_index<B, T>(
    block: &B,
    offset: usize,
    stride: usize,
    count: usize,
    n: usize,
) -> &T {
    assert!(n < count, "member {n} of {count}");
    at(block, offset + stride * n)
}

/// The lowest bit of member `n` of `count` that stand `step` bits apart, the first at bit `offset`. Panics where there is
/// none.
#[inline(always)]
pub(crate) fn at_bit(offset: usize, step: usize, count: usize, n: usize) -> u32 {
    assert!(n < count, "member {n} of {count}");
    (offset + step * n) as u32
}
