use crate::generic::*;

pub struct Peripherals {
    pub TIM2: Periph<tim2::RegisterBlock, 0x40000000>,
    pub TIM3: Periph<tim3::RegisterBlock, 0x40000400>,
    pub TIM4: Periph<tim4::RegisterBlock, 0x40000800>,
}

pub mod tim2 {
    use crate::generic::*;
    #[repr(C)]
    pub struct RegisterBlock {
        cr1: Reg<cr1::Spec>,
        _reserved0: [u8; 14],
        sr: Reg<sr::Spec>,
        egr: Reg<egr::Spec>,
        _reserved1: [u8; 12],
        cnt: Reg<cnt::Spec>,
        _reserved2: [u8; 4],
        arr: Reg<arr::Spec>,
        _reserved3: [u8; 4],
        ccr1: Reg<ccr1::Spec>,
        ccr2: Reg<ccr2::Spec>,
    }
    impl RegisterBlock {
        pub fn cr1(&self) -> &Reg<cr1::Spec> { &self.cr1 }
        pub fn sr(&self) -> &Reg<sr::Spec> { &self.sr }
        pub fn egr(&self) -> &Reg<egr::Spec> { &self.egr }
        pub fn cnt(&self) -> &Reg<cnt::Spec> { &self.cnt }
        pub fn arr(&self) -> &Reg<arr::Spec> { &self.arr }
        pub fn ccr1(&self) -> &Reg<ccr1::Spec> { &self.ccr1 }
        pub fn ccr2(&self) -> &Reg<ccr2::Spec> { &self.ccr2 }
    }
    pub mod cr1 {
        use crate::generic::*;
        pub struct Spec;
        impl RegisterSpec for Spec { type Ux = u16; }
        impl Readable for Spec {}
        impl Writable for Spec { const ZERO_TO_MODIFY: u16 = 0x0; const ONE_TO_MODIFY: u16 = 0x0; }
        impl Resettable for Spec { const RESET_VALUE: u16 = 0x0; }
        pub struct CEN_F;
        pub struct DIR_F;
        pub struct CKD_F;
        impl R<Spec> {
            pub fn cen(&self) -> BitReader<CEN_F> { BitReader::new(((self.bits >> 0) & 0x1) != 0x0) }
            pub fn dir(&self) -> BitReader<DIR_F> { BitReader::new(((self.bits >> 4) & 0x1) != 0x0) }
            pub fn ckd(&self) -> FieldReader<CKD_F, u8> { FieldReader::new(((self.bits >> 8) & 0x3) as u8) }
        }
        impl W<Spec> {
            pub fn cen(&mut self) -> BitWriter<'_, Spec, CEN_F> { BitWriter::new(self, 0) }
            pub fn dir(&mut self) -> BitWriter<'_, Spec, DIR_F> { BitWriter::new(self, 4) }
            pub fn ckd(&mut self) -> FieldWriter<'_, Spec, CKD_F, u8, 2> { FieldWriter::new(self, 8) }
        }
        impl BitReader<DIR_F> {
            pub fn is_up(&self) -> bool { self.bit() == false }
            pub fn is_down(&self) -> bool { self.bit() == true }
        }
        impl<'a> BitWriter<'a, Spec, DIR_F> {
            pub fn up(self) -> &'a mut W<Spec> { self.bit(false) }
            pub fn down(self) -> &'a mut W<Spec> { self.bit(true) }
        }
    }
    pub mod sr {
        use crate::generic::*;
        pub struct Spec;
        impl RegisterSpec for Spec { type Ux = u32; }
        impl Readable for Spec {}
        impl Writable for Spec { const ZERO_TO_MODIFY: u32 = 0x7; const ONE_TO_MODIFY: u32 = 0x0; }
        impl Resettable for Spec { const RESET_VALUE: u32 = 0x0; }
        pub struct UIF_F;
        pub struct CC1IF_F;
        pub struct CC2IF_F;
        impl R<Spec> {
            pub fn uif(&self) -> BitReader<UIF_F> { BitReader::new(((self.bits >> 0) & 0x1) != 0x0) }
            pub fn cc1if(&self) -> BitReader<CC1IF_F> { BitReader::new(((self.bits >> 1) & 0x1) != 0x0) }
            pub fn cc2if(&self) -> BitReader<CC2IF_F> { BitReader::new(((self.bits >> 2) & 0x1) != 0x0) }
        }
        impl W<Spec> {
            pub fn uif(&mut self) -> BitWriter0C<'_, Spec, UIF_F> { BitWriter0C::new(self, 0) }
            pub fn cc1if(&mut self) -> BitWriter0C<'_, Spec, CC1IF_F> { BitWriter0C::new(self, 1) }
            pub fn cc2if(&mut self) -> BitWriter0C<'_, Spec, CC2IF_F> { BitWriter0C::new(self, 2) }
        }
    }
    pub mod egr {
        use crate::generic::*;
        pub struct Spec;
        impl RegisterSpec for Spec { type Ux = u32; }
        impl Writable for Spec { const ZERO_TO_MODIFY: u32 = 0x0; const ONE_TO_MODIFY: u32 = 0x0; }
        impl Resettable for Spec { const RESET_VALUE: u32 = 0x0; }
        pub struct UG_F;
        impl W<Spec> {
            pub fn ug(&mut self) -> BitWriter<'_, Spec, UG_F> { BitWriter::new(self, 0) }
        }
    }
    pub mod cnt {
        use crate::generic::*;
        pub struct Spec;
        impl RegisterSpec for Spec { type Ux = u32; }
        impl Readable for Spec {}
        impl Writable for Spec { const ZERO_TO_MODIFY: u32 = 0x0; const ONE_TO_MODIFY: u32 = 0x0; }
        impl Resettable for Spec { const RESET_VALUE: u32 = 0x0; }
        impl R<Spec> {
        }
        impl W<Spec> {
        }
    }
    pub mod arr {
        use crate::generic::*;
        pub struct Spec;
        impl RegisterSpec for Spec { type Ux = u32; }
        impl Readable for Spec {}
        impl Writable for Spec { const ZERO_TO_MODIFY: u32 = 0x0; const ONE_TO_MODIFY: u32 = 0x0; }
        impl Resettable for Spec { const RESET_VALUE: u32 = 0xffffffff; }
        impl R<Spec> {
        }
        impl W<Spec> {
        }
    }
    pub mod ccr1 {
        use crate::generic::*;
        pub struct Spec;
        impl RegisterSpec for Spec { type Ux = u32; }
        impl Readable for Spec {}
        impl Writable for Spec { const ZERO_TO_MODIFY: u32 = 0x0; const ONE_TO_MODIFY: u32 = 0x0; }
        impl Resettable for Spec { const RESET_VALUE: u32 = 0x0; }
        impl R<Spec> {
        }
        impl W<Spec> {
        }
    }
    pub mod ccr2 {
        use crate::generic::*;
        pub struct Spec;
        impl RegisterSpec for Spec { type Ux = u32; }
        impl Readable for Spec {}
        impl Writable for Spec { const ZERO_TO_MODIFY: u32 = 0x0; const ONE_TO_MODIFY: u32 = 0x0; }
        impl Resettable for Spec { const RESET_VALUE: u32 = 0x0; }
        impl R<Spec> {
        }
        impl W<Spec> {
        }
    }
}

pub mod tim3 {
    use crate::generic::*;
    #[repr(C)]
    pub struct RegisterBlock {
        cr1: Reg<cr1::Spec>,
        _reserved0: [u8; 14],
        sr: Reg<sr::Spec>,
        egr: Reg<egr::Spec>,
        _reserved1: [u8; 12],
        cnt: Reg<cnt::Spec>,
        _reserved2: [u8; 4],
        arr: Reg<arr::Spec>,
        _reserved3: [u8; 4],
        ccr1: Reg<ccr1::Spec>,
        ccr2: Reg<ccr2::Spec>,
    }
    impl RegisterBlock {
        pub fn cr1(&self) -> &Reg<cr1::Spec> { &self.cr1 }
        pub fn sr(&self) -> &Reg<sr::Spec> { &self.sr }
        pub fn egr(&self) -> &Reg<egr::Spec> { &self.egr }
        pub fn cnt(&self) -> &Reg<cnt::Spec> { &self.cnt }
        pub fn arr(&self) -> &Reg<arr::Spec> { &self.arr }
        pub fn ccr1(&self) -> &Reg<ccr1::Spec> { &self.ccr1 }
        pub fn ccr2(&self) -> &Reg<ccr2::Spec> { &self.ccr2 }
    }
    pub mod cr1 {
        use crate::generic::*;
        pub struct Spec;
        impl RegisterSpec for Spec { type Ux = u16; }
        impl Readable for Spec {}
        impl Writable for Spec { const ZERO_TO_MODIFY: u16 = 0x0; const ONE_TO_MODIFY: u16 = 0x0; }
        impl Resettable for Spec { const RESET_VALUE: u16 = 0x0; }
        pub struct CEN_F;
        pub struct DIR_F;
        pub struct CKD_F;
        impl R<Spec> {
            pub fn cen(&self) -> BitReader<CEN_F> { BitReader::new(((self.bits >> 0) & 0x1) != 0x0) }
            pub fn dir(&self) -> BitReader<DIR_F> { BitReader::new(((self.bits >> 4) & 0x1) != 0x0) }
            pub fn ckd(&self) -> FieldReader<CKD_F, u8> { FieldReader::new(((self.bits >> 8) & 0x3) as u8) }
        }
        impl W<Spec> {
            pub fn cen(&mut self) -> BitWriter<'_, Spec, CEN_F> { BitWriter::new(self, 0) }
            pub fn dir(&mut self) -> BitWriter<'_, Spec, DIR_F> { BitWriter::new(self, 4) }
            pub fn ckd(&mut self) -> FieldWriter<'_, Spec, CKD_F, u8, 2> { FieldWriter::new(self, 8) }
        }
        impl BitReader<DIR_F> {
            pub fn is_up(&self) -> bool { self.bit() == false }
            pub fn is_down(&self) -> bool { self.bit() == true }
        }
        impl<'a> BitWriter<'a, Spec, DIR_F> {
            pub fn up(self) -> &'a mut W<Spec> { self.bit(false) }
            pub fn down(self) -> &'a mut W<Spec> { self.bit(true) }
        }
    }
    pub mod sr {
        use crate::generic::*;
        pub struct Spec;
        impl RegisterSpec for Spec { type Ux = u32; }
        impl Readable for Spec {}
        impl Writable for Spec { const ZERO_TO_MODIFY: u32 = 0x7; const ONE_TO_MODIFY: u32 = 0x0; }
        impl Resettable for Spec { const RESET_VALUE: u32 = 0x0; }
        pub struct UIF_F;
        pub struct CC1IF_F;
        pub struct CC2IF_F;
        impl R<Spec> {
            pub fn uif(&self) -> BitReader<UIF_F> { BitReader::new(((self.bits >> 0) & 0x1) != 0x0) }
            pub fn cc1if(&self) -> BitReader<CC1IF_F> { BitReader::new(((self.bits >> 1) & 0x1) != 0x0) }
            pub fn cc2if(&self) -> BitReader<CC2IF_F> { BitReader::new(((self.bits >> 2) & 0x1) != 0x0) }
        }
        impl W<Spec> {
            pub fn uif(&mut self) -> BitWriter0C<'_, Spec, UIF_F> { BitWriter0C::new(self, 0) }
            pub fn cc1if(&mut self) -> BitWriter0C<'_, Spec, CC1IF_F> { BitWriter0C::new(self, 1) }
            pub fn cc2if(&mut self) -> BitWriter0C<'_, Spec, CC2IF_F> { BitWriter0C::new(self, 2) }
        }
    }
    pub mod egr {
        use crate::generic::*;
        pub struct Spec;
        impl RegisterSpec for Spec { type Ux = u32; }
        impl Writable for Spec { const ZERO_TO_MODIFY: u32 = 0x0; const ONE_TO_MODIFY: u32 = 0x0; }
        impl Resettable for Spec { const RESET_VALUE: u32 = 0x0; }
        pub struct UG_F;
        impl W<Spec> {
            pub fn ug(&mut self) -> BitWriter<'_, Spec, UG_F> { BitWriter::new(self, 0) }
        }
    }
    pub mod cnt {
        use crate::generic::*;
        pub struct Spec;
        impl RegisterSpec for Spec { type Ux = u32; }
        impl Readable for Spec {}
        impl Writable for Spec { const ZERO_TO_MODIFY: u32 = 0x0; const ONE_TO_MODIFY: u32 = 0x0; }
        impl Resettable for Spec { const RESET_VALUE: u32 = 0x0; }
        impl R<Spec> {
        }
        impl W<Spec> {
        }
    }
    pub mod arr {
        use crate::generic::*;
        pub struct Spec;
        impl RegisterSpec for Spec { type Ux = u32; }
        impl Readable for Spec {}
        impl Writable for Spec { const ZERO_TO_MODIFY: u32 = 0x0; const ONE_TO_MODIFY: u32 = 0x0; }
        impl Resettable for Spec { const RESET_VALUE: u32 = 0xffffffff; }
        impl R<Spec> {
        }
        impl W<Spec> {
        }
    }
    pub mod ccr1 {
        use crate::generic::*;
        pub struct Spec;
        impl RegisterSpec for Spec { type Ux = u32; }
        impl Readable for Spec {}
        impl Writable for Spec { const ZERO_TO_MODIFY: u32 = 0x0; const ONE_TO_MODIFY: u32 = 0x0; }
        impl Resettable for Spec { const RESET_VALUE: u32 = 0x0; }
        impl R<Spec> {
        }
        impl W<Spec> {
        }
    }
    pub mod ccr2 {
        use crate::generic::*;
        pub struct Spec;
        impl RegisterSpec for Spec { type Ux = u32; }
        impl Readable for Spec {}
        impl Writable for Spec { const ZERO_TO_MODIFY: u32 = 0x0; const ONE_TO_MODIFY: u32 = 0x0; }
        impl Resettable for Spec { const RESET_VALUE: u32 = 0x0; }
        impl R<Spec> {
        }
        impl W<Spec> {
        }
    }
}

pub mod tim4 {
    use crate::generic::*;
    #[repr(C)]
    pub struct RegisterBlock {
        cr1: Reg<cr1::Spec>,
        _reserved0: [u8; 14],
        sr: Reg<sr::Spec>,
        egr: Reg<egr::Spec>,
        _reserved1: [u8; 12],
        cnt: Reg<cnt::Spec>,
        _reserved2: [u8; 6],
        arr: Reg<arr::Spec>,
        _reserved3: [u8; 4],
        ccr1: Reg<ccr1::Spec>,
        ccr2: Reg<ccr2::Spec>,
        _reserved4: [u8; 12],
        dcr: Reg<dcr::Spec>,
    }
    impl RegisterBlock {
        pub fn cr1(&self) -> &Reg<cr1::Spec> { &self.cr1 }
        pub fn sr(&self) -> &Reg<sr::Spec> { &self.sr }
        pub fn egr(&self) -> &Reg<egr::Spec> { &self.egr }
        pub fn cnt(&self) -> &Reg<cnt::Spec> { &self.cnt }
        pub fn arr(&self) -> &Reg<arr::Spec> { &self.arr }
        pub fn ccr1(&self) -> &Reg<ccr1::Spec> { &self.ccr1 }
        pub fn ccr2(&self) -> &Reg<ccr2::Spec> { &self.ccr2 }
        pub fn dcr(&self) -> &Reg<dcr::Spec> { &self.dcr }
    }
    pub mod cr1 {
        use crate::generic::*;
        pub struct Spec;
        impl RegisterSpec for Spec { type Ux = u16; }
        impl Readable for Spec {}
        impl Writable for Spec { const ZERO_TO_MODIFY: u16 = 0x0; const ONE_TO_MODIFY: u16 = 0x0; }
        impl Resettable for Spec { const RESET_VALUE: u16 = 0x0; }
        pub struct CEN_F;
        pub struct DIR_F;
        pub struct CKD_F;
        impl R<Spec> {
            pub fn cen(&self) -> BitReader<CEN_F> { BitReader::new(((self.bits >> 0) & 0x1) != 0x0) }
            pub fn dir(&self) -> BitReader<DIR_F> { BitReader::new(((self.bits >> 4) & 0x1) != 0x0) }
            pub fn ckd(&self) -> FieldReader<CKD_F, u8> { FieldReader::new(((self.bits >> 8) & 0x3) as u8) }
        }
        impl W<Spec> {
            pub fn cen(&mut self) -> BitWriter<'_, Spec, CEN_F> { BitWriter::new(self, 0) }
            pub fn dir(&mut self) -> BitWriter<'_, Spec, DIR_F> { BitWriter::new(self, 4) }
            pub fn ckd(&mut self) -> FieldWriter<'_, Spec, CKD_F, u8, 2> { FieldWriter::new(self, 8) }
        }
        impl BitReader<DIR_F> {
            pub fn is_up(&self) -> bool { self.bit() == false }
            pub fn is_down(&self) -> bool { self.bit() == true }
        }
        impl<'a> BitWriter<'a, Spec, DIR_F> {
            pub fn up(self) -> &'a mut W<Spec> { self.bit(false) }
            pub fn down(self) -> &'a mut W<Spec> { self.bit(true) }
        }
    }
    pub mod sr {
        use crate::generic::*;
        pub struct Spec;
        impl RegisterSpec for Spec { type Ux = u32; }
        impl Readable for Spec {}
        impl Writable for Spec { const ZERO_TO_MODIFY: u32 = 0x7; const ONE_TO_MODIFY: u32 = 0x0; }
        impl Resettable for Spec { const RESET_VALUE: u32 = 0x0; }
        pub struct UIF_F;
        pub struct CC1IF_F;
        pub struct CC2IF_F;
        impl R<Spec> {
            pub fn uif(&self) -> BitReader<UIF_F> { BitReader::new(((self.bits >> 0) & 0x1) != 0x0) }
            pub fn cc1if(&self) -> BitReader<CC1IF_F> { BitReader::new(((self.bits >> 1) & 0x1) != 0x0) }
            pub fn cc2if(&self) -> BitReader<CC2IF_F> { BitReader::new(((self.bits >> 2) & 0x1) != 0x0) }
        }
        impl W<Spec> {
            pub fn uif(&mut self) -> BitWriter0C<'_, Spec, UIF_F> { BitWriter0C::new(self, 0) }
            pub fn cc1if(&mut self) -> BitWriter0C<'_, Spec, CC1IF_F> { BitWriter0C::new(self, 1) }
            pub fn cc2if(&mut self) -> BitWriter0C<'_, Spec, CC2IF_F> { BitWriter0C::new(self, 2) }
        }
    }
    pub mod egr {
        use crate::generic::*;
        pub struct Spec;
        impl RegisterSpec for Spec { type Ux = u32; }
        impl Writable for Spec { const ZERO_TO_MODIFY: u32 = 0x0; const ONE_TO_MODIFY: u32 = 0x0; }
        impl Resettable for Spec { const RESET_VALUE: u32 = 0x0; }
        pub struct UG_F;
        impl W<Spec> {
            pub fn ug(&mut self) -> BitWriter<'_, Spec, UG_F> { BitWriter::new(self, 0) }
        }
    }
    pub mod cnt {
        use crate::generic::*;
        pub struct Spec;
        impl RegisterSpec for Spec { type Ux = u16; }
        impl Readable for Spec {}
        impl Writable for Spec { const ZERO_TO_MODIFY: u16 = 0x0; const ONE_TO_MODIFY: u16 = 0x0; }
        impl Resettable for Spec { const RESET_VALUE: u16 = 0x0; }
        impl R<Spec> {
        }
        impl W<Spec> {
        }
    }
    pub mod arr {
        use crate::generic::*;
        pub struct Spec;
        impl RegisterSpec for Spec { type Ux = u32; }
        impl Readable for Spec {}
        impl Writable for Spec { const ZERO_TO_MODIFY: u32 = 0x0; const ONE_TO_MODIFY: u32 = 0x0; }
        impl Resettable for Spec { const RESET_VALUE: u32 = 0xffffffff; }
        impl R<Spec> {
        }
        impl W<Spec> {
        }
    }
    pub mod ccr1 {
        use crate::generic::*;
        pub struct Spec;
        impl RegisterSpec for Spec { type Ux = u32; }
        impl Readable for Spec {}
        impl Writable for Spec { const ZERO_TO_MODIFY: u32 = 0x0; const ONE_TO_MODIFY: u32 = 0x0; }
        impl Resettable for Spec { const RESET_VALUE: u32 = 0x0; }
        impl R<Spec> {
        }
        impl W<Spec> {
        }
    }
    pub mod ccr2 {
        use crate::generic::*;
        pub struct Spec;
        impl RegisterSpec for Spec { type Ux = u32; }
        impl Readable for Spec {}
        impl Writable for Spec { const ZERO_TO_MODIFY: u32 = 0x0; const ONE_TO_MODIFY: u32 = 0x0; }
        impl Resettable for Spec { const RESET_VALUE: u32 = 0x0; }
        impl R<Spec> {
        }
        impl W<Spec> {
        }
    }
    pub mod dcr {
        use crate::generic::*;
        pub struct Spec;
        impl RegisterSpec for Spec { type Ux = u16; }
        impl Readable for Spec {}
        impl Writable for Spec { const ZERO_TO_MODIFY: u16 = 0x0; const ONE_TO_MODIFY: u16 = 0x0; }
        impl Resettable for Spec { const RESET_VALUE: u16 = 0x0; }
        impl R<Spec> {
        }
        impl W<Spec> {
        }
    }
}
