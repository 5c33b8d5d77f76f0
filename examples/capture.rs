use crate::generic::*;

pub struct Peripherals {
    pub TIM8: Periph<tim8::RegisterBlock, 0x40013400>,
    pub TIM1: Periph<tim1::RegisterBlock, 0x40012c00>,
}

pub mod tim8 {
    use crate::generic::*;
    #[repr(C)]
    pub struct RegisterBlock {
        cr1: Reg<cr1::Spec>,
        cr2: Reg<cr2::Spec>,
        _reserved0: [u8; 12],
        sr: Reg<sr::Spec>,
        egr: Reg<egr::Spec>,
        _reserved1: [u8; 12],
        cnt: Reg<cnt::Spec>,
        _reserved2: [u8; 4],
        arr: Reg<arr::Spec>,
        _reserved3: [u8; 4],
        ccr: [Reg<ccr::Spec>; 3],
    }
    impl RegisterBlock {
        pub fn cr1(&self) -> &Reg<cr1::Spec> { &self.cr1 }
        pub fn cr2(&self) -> &Reg<cr2::Spec> { &self.cr2 }
        pub fn sr(&self) -> &Reg<sr::Spec> { &self.sr }
        pub fn cnt(&self) -> &Reg<cnt::Spec> { &self.cnt }
        pub fn ccr(&self, n: usize) -> &Reg<ccr::Spec> { &self.ccr[n] }
        pub fn arr(&self) -> &Reg<arr::Spec> { &self.arr }
        pub fn egr(&self) -> &Reg<egr::Spec> { &self.egr }
    }
    pub mod cr1 {
        use crate::generic::*;
        pub struct Spec;
        impl RegisterSpec for Spec { type Ux = u16; }
        impl Readable for Spec {}
        impl Writable for Spec { const ZERO_TO_MODIFY: u16 = 0x0; const ONE_TO_MODIFY: u16 = 0x0; }
        impl Resettable for Spec { const RESET_VALUE: u16 = 0x0; }
        pub struct CEN_F;
        impl R<Spec> {
            pub fn cen(&self) -> BitReader<CEN_F> { BitReader::new(((self.bits >> 0) & 0x1) != 0x0) }
        }
        impl W<Spec> {
            pub fn cen(&mut self) -> BitWriter<'_, Spec, CEN_F> { BitWriter::new(self, 0) }
        }
    }
    pub mod cr2 {
        use crate::generic::*;
        pub struct Spec;
        impl RegisterSpec for Spec { type Ux = u16; }
        impl Readable for Spec {}
        impl Writable for Spec { const ZERO_TO_MODIFY: u16 = 0x0; const ONE_TO_MODIFY: u16 = 0x0; }
        impl Resettable for Spec { const RESET_VALUE: u16 = 0x0; }
        impl R<Spec> {
        }
        impl W<Spec> {
        }
    }
    pub mod sr {
        use crate::generic::*;
        pub struct Spec;
        impl RegisterSpec for Spec { type Ux = u32; }
        impl Readable for Spec {}
        impl Writable for Spec { const ZERO_TO_MODIFY: u32 = 0x3; const ONE_TO_MODIFY: u32 = 0x0; }
        impl Resettable for Spec { const RESET_VALUE: u32 = 0x0; }
        pub struct UIF_F;
        pub struct CC1IF_F;
        impl R<Spec> {
            pub fn uif(&self) -> BitReader<UIF_F> { BitReader::new(((self.bits >> 0) & 0x1) != 0x0) }
            pub fn cc1if(&self) -> BitReader<CC1IF_F> { BitReader::new(((self.bits >> 1) & 0x1) != 0x0) }
        }
        impl W<Spec> {
            pub fn uif(&mut self) -> BitWriter0C<'_, Spec, UIF_F> { BitWriter0C::new(self, 0) }
            pub fn cc1if(&mut self) -> BitWriter0C<'_, Spec, CC1IF_F> { BitWriter0C::new(self, 1) }
        }
    }
    pub mod cnt {
        use crate::generic::*;
        pub struct Spec;
        impl RegisterSpec for Spec { type Ux = u32; }
        impl Readable for Spec {}
        impl Writable for Spec { const ZERO_TO_MODIFY: u32 = 0x0; const ONE_TO_MODIFY: u32 = 0x0; }
        impl Resettable for Spec { const RESET_VALUE: u32 = 0x0; }
        impl R<Spec> {
        }
        impl W<Spec> {
        }
    }
    pub mod ccr {
        use crate::generic::*;
        pub struct Spec;
        impl RegisterSpec for Spec { type Ux = u32; }
        impl Readable for Spec {}
        impl Writable for Spec { const ZERO_TO_MODIFY: u32 = 0x0; const ONE_TO_MODIFY: u32 = 0x0; }
        impl Resettable for Spec { const RESET_VALUE: u32 = 0x0; }
        impl R<Spec> {
        }
        impl W<Spec> {
        }
    }
    pub mod arr {
        use crate::generic::*;
        pub struct Spec;
        impl RegisterSpec for Spec { type Ux = u32; }
        impl Readable for Spec {}
        impl Writable for Spec { const ZERO_TO_MODIFY: u32 = 0x0; const ONE_TO_MODIFY: u32 = 0x0; }
        impl Resettable for Spec { const RESET_VALUE: u32 = 0xffff; }
        impl R<Spec> {
        }
        impl W<Spec> {
        }
    }
    pub mod egr {
        use crate::generic::*;
        pub struct Spec;
        impl RegisterSpec for Spec { type Ux = u32; }
        impl Writable for Spec { const ZERO_TO_MODIFY: u32 = 0x0; const ONE_TO_MODIFY: u32 = 0x0; }
        impl Resettable for Spec { const RESET_VALUE: u32 = 0x0; }
        pub struct UG_F;
        impl W<Spec> {
            pub fn ug(&mut self) -> BitWriter<'_, Spec, UG_F> { BitWriter::new(self, 0) }
        }
    }
}

pub mod tim1 {
    use crate::generic::*;
    #[repr(C)]
    pub struct RegisterBlock {
        cr1: Reg<cr1::Spec>,
        cr2: Reg<cr2::Spec>,
        _reserved0: [u8; 12],
        sr: Reg<sr::Spec>,
        egr: Reg<egr::Spec>,
        _reserved1: [u8; 12],
        cnt: Reg<cnt::Spec>,
        _reserved2: [u8; 4],
        arr: Reg<arr::Spec>,
        _reserved3: [u8; 4],
        ccr: [Reg<ccr::Spec>; 3],
    }
    impl RegisterBlock {
        pub fn cr1(&self) -> &Reg<cr1::Spec> { &self.cr1 }
        pub fn cr2(&self) -> &Reg<cr2::Spec> { &self.cr2 }
        pub fn sr(&self) -> &Reg<sr::Spec> { &self.sr }
        pub fn cnt(&self) -> &Reg<cnt::Spec> { &self.cnt }
        pub fn ccr(&self, n: usize) -> &Reg<ccr::Spec> { &self.ccr[n] }
        pub fn arr(&self) -> &Reg<arr::Spec> { &self.arr }
        pub fn egr(&self) -> &Reg<egr::Spec> { &self.egr }
    }
    pub mod cr1 {
        use crate::generic::*;
        pub struct Spec;
        impl RegisterSpec for Spec { type Ux = u16; }
        impl Readable for Spec {}
        impl Writable for Spec { const ZERO_TO_MODIFY: u16 = 0x0; const ONE_TO_MODIFY: u16 = 0x0; }
        impl Resettable for Spec { const RESET_VALUE: u16 = 0x0; }
        pub struct CEN_F;
        impl R<Spec> {
            pub fn cen(&self) -> BitReader<CEN_F> { BitReader::new(((self.bits >> 0) & 0x1) != 0x0) }
        }
        impl W<Spec> {
            pub fn cen(&mut self) -> BitWriter<'_, Spec, CEN_F> { BitWriter::new(self, 0) }
        }
    }
    pub mod cr2 {
        use crate::generic::*;
        pub struct Spec;
        impl RegisterSpec for Spec { type Ux = u16; }
        impl Readable for Spec {}
        impl Writable for Spec { const ZERO_TO_MODIFY: u16 = 0x0; const ONE_TO_MODIFY: u16 = 0x0; }
        impl Resettable for Spec { const RESET_VALUE: u16 = 0x0; }
        impl R<Spec> {
        }
        impl W<Spec> {
        }
    }
    pub mod sr {
        use crate::generic::*;
        pub struct Spec;
        impl RegisterSpec for Spec { type Ux = u32; }
        impl Readable for Spec {}
        impl Writable for Spec { const ZERO_TO_MODIFY: u32 = 0x3; const ONE_TO_MODIFY: u32 = 0x0; }
        impl Resettable for Spec { const RESET_VALUE: u32 = 0x0; }
        pub struct UIF_F;
        pub struct CC1IF_F;
        impl R<Spec> {
            pub fn uif(&self) -> BitReader<UIF_F> { BitReader::new(((self.bits >> 0) & 0x1) != 0x0) }
            pub fn cc1if(&self) -> BitReader<CC1IF_F> { BitReader::new(((self.bits >> 1) & 0x1) != 0x0) }
        }
        impl W<Spec> {
            pub fn uif(&mut self) -> BitWriter0C<'_, Spec, UIF_F> { BitWriter0C::new(self, 0) }
            pub fn cc1if(&mut self) -> BitWriter0C<'_, Spec, CC1IF_F> { BitWriter0C::new(self, 1) }
        }
    }
    pub mod cnt {
        use crate::generic::*;
        pub struct Spec;
        impl RegisterSpec for Spec { type Ux = u32; }
        impl Readable for Spec {}
        impl Writable for Spec { const ZERO_TO_MODIFY: u32 = 0x0; const ONE_TO_MODIFY: u32 = 0x0; }
        impl Resettable for Spec { const RESET_VALUE: u32 = 0x0; }
        impl R<Spec> {
        }
        impl W<Spec> {
        }
    }
    pub mod ccr {
        use crate::generic::*;
        pub struct Spec;
        impl RegisterSpec for Spec { type Ux = u32; }
        impl Readable for Spec {}
        impl Writable for Spec { const ZERO_TO_MODIFY: u32 = 0x0; const ONE_TO_MODIFY: u32 = 0x0; }
        impl Resettable for Spec { const RESET_VALUE: u32 = 0x0; }
        impl R<Spec> {
        }
        impl W<Spec> {
        }
    }
    pub mod arr {
        use crate::generic::*;
        pub struct Spec;
        impl RegisterSpec for Spec { type Ux = u32; }
        impl Readable for Spec {}
        impl Writable for Spec { const ZERO_TO_MODIFY: u32 = 0x0; const ONE_TO_MODIFY: u32 = 0x0; }
        impl Resettable for Spec { const RESET_VALUE: u32 = 0xffff; }
        impl R<Spec> {
        }
        impl W<Spec> {
        }
    }
    pub mod egr {
        use crate::generic::*;
        pub struct Spec;
        impl RegisterSpec for Spec { type Ux = u32; }
        impl Writable for Spec { const ZERO_TO_MODIFY: u32 = 0x0; const ONE_TO_MODIFY: u32 = 0x0; }
        impl Resettable for Spec { const RESET_VALUE: u32 = 0x0; }
        pub struct UG_F;
        impl W<Spec> {
            pub fn ug(&mut self) -> BitWriter<'_, Spec, UG_F> { BitWriter::new(self, 0) }
        }
    }
}
