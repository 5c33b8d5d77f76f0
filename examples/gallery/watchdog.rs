use crate::generic::*;

pub struct Peripherals {
    pub WDT: Periph<wdt::RegisterBlock, 0x100>,
}

pub mod wdt {
    use crate::generic::*;
    #[repr(C)]
    pub struct RegisterBlock {
        ctrla: Reg<ctrla::Spec>,
        status: Reg<status::Spec>,
        _reserved0: [u8; 2],
        key: Reg<key::Spec>,
        _reserved1: [u8; 1],
        count: Reg<count::Spec>,
        loop_: Reg<loop_::Spec>,
    }
    impl RegisterBlock {
        pub fn ctrla(&self) -> &Reg<ctrla::Spec> { &self.ctrla }
        pub fn status(&self) -> &Reg<status::Spec> { &self.status }
        pub fn key(&self) -> &Reg<key::Spec> { &self.key }
        pub fn count(&self) -> &Reg<count::Spec> { &self.count }
        pub fn countl(&self) -> &Reg<countl::Spec> { at(self, 0x6) }
        pub fn counth(&self) -> &Reg<counth::Spec> { at(self, 0x7) }
        pub fn loop_(&self) -> &Reg<loop_::Spec> { &self.loop_ }
    }
    pub mod ctrla {
        use crate::generic::*;
        pub struct Spec;
        impl RegisterSpec for Spec { type Ux = u8; }
        impl Readable for Spec {}
        impl Writable for Spec { const ZERO_TO_MODIFY: u8 = 0x0; const ONE_TO_MODIFY: u8 = 0x0; }
        impl Resettable for Spec { const RESET_VALUE: u8 = 0x0; }
        pub struct PERIOD_F;
        pub struct WINDOW_F;
        impl R<Spec> {
            pub fn period(&self) -> FieldReader<PERIOD_F, u8> { FieldReader::new(((self.bits >> 0) & 0xf) as u8) }
            pub fn window(&self) -> FieldReader<WINDOW_F, u8> { FieldReader::new(((self.bits >> 4) & 0xf) as u8) }
        }
        impl W<Spec> {
            pub fn period(&mut self) -> FieldWriter<'_, Spec, PERIOD_F, u8, 4> { FieldWriter::new(self, 0) }
            pub fn window(&mut self) -> FieldWriter<'_, Spec, WINDOW_F, u8, 4> { FieldWriter::new(self, 4) }
        }
        impl FieldReader<PERIOD_F, u8> {
            pub fn is_off(&self) -> bool { self.bits() == 0x0 }
            pub fn is_8clk(&self) -> bool { self.bits() == 0x1 }
            pub fn is_1kclk(&self) -> bool { self.bits() == 0x8 }
            pub fn is_8kclk(&self) -> bool { self.bits() == 0xb }
        }
        impl<'a> FieldWriter<'a, Spec, PERIOD_F, u8, 4> {
            pub fn off(self) -> &'a mut W<Spec> { self.bits(0x0) }
            pub fn _8clk(self) -> &'a mut W<Spec> { self.bits(0x1) }
            pub fn _1kclk(self) -> &'a mut W<Spec> { self.bits(0x8) }
            pub fn _8kclk(self) -> &'a mut W<Spec> { self.bits(0xb) }
        }
    }
    pub mod status {
        use crate::generic::*;
        pub struct Spec;
        impl RegisterSpec for Spec { type Ux = u8; }
        impl Readable for Spec {}
        impl Writable for Spec { const ZERO_TO_MODIFY: u8 = 0x80; const ONE_TO_MODIFY: u8 = 0x0; }
        impl Resettable for Spec { const RESET_VALUE: u8 = 0x80; }
        pub struct SYNCBUSY_F;
        pub struct LOCK_F;
        impl R<Spec> {
            pub fn syncbusy(&self) -> BitReader<SYNCBUSY_F> { BitReader::new(((self.bits >> 0) & 0x1) != 0x0) }
            pub fn lock(&self) -> BitReader<LOCK_F> { BitReader::new(((self.bits >> 7) & 0x1) != 0x0) }
        }
        impl W<Spec> {
            pub fn lock(&mut self) -> BitWriter0T<'_, Spec, LOCK_F> { BitWriter0T::new(self, 7) }
        }
    }
    pub mod key {
        use crate::generic::*;
        pub struct Spec;
        impl RegisterSpec for Spec { type Ux = u8; }
        impl Writable for Spec { const ZERO_TO_MODIFY: u8 = 0x0; const ONE_TO_MODIFY: u8 = 0x0; }
        impl Resettable for Spec { const RESET_VALUE: u8 = 0x0; }
        pub struct CCP_F;
        impl W<Spec> {
            pub fn ccp(&mut self) -> FieldWriter<'_, Spec, CCP_F, u8, 8> { FieldWriter::new(self, 0) }
        }
        impl<'a> FieldWriter<'a, Spec, CCP_F, u8, 8> {
            pub fn spm(self) -> &'a mut W<Spec> { self.bits(0x9d) }
            pub fn ioreg(self) -> &'a mut W<Spec> { self.bits(0xd8) }
        }
    }
    pub mod count {
        use crate::generic::*;
        pub struct Spec;
        impl RegisterSpec for Spec { type Ux = u16; }
        impl Readable for Spec {}
        impl Resettable for Spec { const RESET_VALUE: u16 = 0x1ff; }
        impl R<Spec> {
        }
    }
    pub mod countl {
        use crate::generic::*;
        pub struct Spec;
        impl RegisterSpec for Spec { type Ux = u8; }
        impl Readable for Spec {}
        impl Resettable for Spec { const RESET_VALUE: u8 = 0xff; }
        impl R<Spec> {
        }
    }
    pub mod counth {
        use crate::generic::*;
        pub struct Spec;
        impl RegisterSpec for Spec { type Ux = u8; }
        impl Readable for Spec {}
        impl Resettable for Spec { const RESET_VALUE: u8 = 0x1; }
        impl R<Spec> {
        }
    }
    pub mod loop_ {
        use crate::generic::*;
        pub struct Spec;
        impl RegisterSpec for Spec { type Ux = u8; }
        impl Readable for Spec {}
        impl Writable for Spec { const ZERO_TO_MODIFY: u8 = 0x0; const ONE_TO_MODIFY: u8 = 0x0; }
        impl Resettable for Spec { const RESET_VALUE: u8 = 0x0; }
        impl R<Spec> {
        }
        impl W<Spec> {
        }
    }
}
