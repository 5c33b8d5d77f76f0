use crate::generic::*;

pub struct Peripherals {
    pub MTIMER: Periph<mtimer::RegisterBlock, 0x2000000>,
}

pub mod mtimer {
    use crate::generic::*;
    #[repr(C)]
    pub struct RegisterBlock {
        _reserved0: [u8; 16384],
        mtimecmp: [Reg<mtimecmp::Spec>; 4],
        _reserved1: [u8; 32728],
        mtime: Reg<mtime::Spec>,
        ctrl: Reg<ctrl::Spec>,
    }
    impl RegisterBlock {
        pub fn mtimecmp(&self, n: usize) -> &Reg<mtimecmp::Spec> { &self.mtimecmp[n] }
        pub fn mtimecmp_lo(&self, n: usize) -> &Reg<mtimecmp_lo::Spec> { at_index(self, 0x4000, 8, 4, n) }
        pub fn mtimecmp_hi(&self, n: usize) -> &Reg<mtimecmp_hi::Spec> { at_index(self, 0x4004, 8, 4, n) }
        pub fn mtime(&self) -> &Reg<mtime::Spec> { &self.mtime }
        pub fn ctrl(&self) -> &Reg<ctrl::Spec> { &self.ctrl }
    }
    pub mod mtimecmp {
        use crate::generic::*;
        pub struct Spec;
        impl RegisterSpec for Spec { type Ux = u64; }
        impl Readable for Spec {}
        impl Writable for Spec { const ZERO_TO_MODIFY: u64 = 0x0; const ONE_TO_MODIFY: u64 = 0x0; }
        impl Resettable for Spec { const RESET_VALUE: u64 = 0xffffffffffffffff; }
        impl R<Spec> {
        }
        impl W<Spec> {
        }
    }
    pub mod mtimecmp_lo {
        use crate::generic::*;
        pub struct Spec;
        impl RegisterSpec for Spec { type Ux = u32; }
        impl Readable for Spec {}
        impl Writable for Spec { const ZERO_TO_MODIFY: u32 = 0x0; const ONE_TO_MODIFY: u32 = 0x0; }
        impl Resettable for Spec { const RESET_VALUE: u32 = 0xffffffff; }
        impl R<Spec> {
        }
        impl W<Spec> {
        }
    }
    pub mod mtimecmp_hi {
        use crate::generic::*;
        pub struct Spec;
        impl RegisterSpec for Spec { type Ux = u32; }
        impl Readable for Spec {}
        impl Writable for Spec { const ZERO_TO_MODIFY: u32 = 0x0; const ONE_TO_MODIFY: u32 = 0x0; }
        impl Resettable for Spec { const RESET_VALUE: u32 = 0xffffffff; }
        impl R<Spec> {
        }
        impl W<Spec> {
        }
    }
    pub mod mtime {
        use crate::generic::*;
        pub struct Spec;
        impl RegisterSpec for Spec { type Ux = u64; }
        impl Readable for Spec {}
        impl Writable for Spec { const ZERO_TO_MODIFY: u64 = 0x0; const ONE_TO_MODIFY: u64 = 0x0; }
        impl Resettable for Spec { const RESET_VALUE: u64 = 0x0; }
        pub struct SECONDS_F;
        pub struct FRACTION_F;
        impl R<Spec> {
            pub fn seconds(&self) -> FieldReader<SECONDS_F, u32> { FieldReader::new(((self.bits >> 32) & 0xffffffff) as u32) }
            pub fn fraction(&self) -> FieldReader<FRACTION_F, u32> { FieldReader::new(((self.bits >> 0) & 0xffffffff) as u32) }
        }
        impl W<Spec> {
            pub fn seconds(&mut self) -> FieldWriter<'_, Spec, SECONDS_F, u32, 32> { FieldWriter::new(self, 32) }
            pub fn fraction(&mut self) -> FieldWriter<'_, Spec, FRACTION_F, u32, 32> { FieldWriter::new(self, 0) }
        }
    }
    pub mod ctrl {
        use crate::generic::*;
        pub struct Spec;
        impl RegisterSpec for Spec { type Ux = u64; }
        impl Readable for Spec {}
        impl Writable for Spec { const ZERO_TO_MODIFY: u64 = 0x8000000000000000; const ONE_TO_MODIFY: u64 = 0x0; }
        impl Resettable for Spec { const RESET_VALUE: u64 = 0x0; }
        pub struct RUN_F;
        pub struct DIVIDER_F;
        pub struct LOCK_F;
        impl R<Spec> {
            pub fn run(&self) -> BitReader<RUN_F> { BitReader::new(((self.bits >> 0) & 0x1) != 0x0) }
            pub fn divider(&self) -> FieldReader<DIVIDER_F, u64> { FieldReader::new(((self.bits >> 8) & 0x1ffffffffff) as u64) }
            pub fn lock(&self) -> BitReader<LOCK_F> { BitReader::new(((self.bits >> 63) & 0x1) != 0x0) }
        }
        impl W<Spec> {
            pub fn run(&mut self) -> BitWriter<'_, Spec, RUN_F> { BitWriter::new(self, 0) }
            pub fn divider(&mut self) -> FieldWriter<'_, Spec, DIVIDER_F, u64, 41> { FieldWriter::new(self, 8) }
            pub fn lock(&mut self) -> BitWriter0S<'_, Spec, LOCK_F> { BitWriter0S::new(self, 63) }
        }
    }
}
