use crate::generic::*;

pub struct Peripherals {
    pub ADC: Periph<adc::RegisterBlock, 0x50000000>,
}

pub mod adc {
    use crate::generic::*;
    #[repr(C)]
    pub struct RegisterBlock {
        master: master::RegisterBlock,
        _reserved0: [u8; 188],
        slave: slave::RegisterBlock,
        _reserved1: [u8; 456],
        cdr: Reg<cdr::Spec>,
    }
    impl RegisterBlock {
        pub fn master(&self) -> &master::RegisterBlock { &self.master }
        pub fn slave(&self) -> &slave::RegisterBlock { &self.slave }
        pub fn cdr(&self) -> &Reg<cdr::Spec> { &self.cdr }
    }
    pub mod master {
        use crate::generic::*;
        #[repr(C)]
        pub struct RegisterBlock {
            isr: Reg<isr::Spec>,
            _reserved0: [u8; 16],
            smpr: Reg<smpr::Spec>,
            _reserved1: [u8; 40],
            dr: Reg<dr::Spec>,
        }
        impl RegisterBlock {
            pub fn isr(&self) -> &Reg<isr::Spec> { &self.isr }
            pub fn smpr(&self) -> &Reg<smpr::Spec> { &self.smpr }
            pub fn dr(&self) -> &Reg<dr::Spec> { &self.dr }
        }
        pub mod isr {
            use crate::generic::*;
            pub struct Spec;
            impl RegisterSpec for Spec { type Ux = u32; }
            impl Readable for Spec {}
            impl Writable for Spec { const ZERO_TO_MODIFY: u32 = 0x0; const ONE_TO_MODIFY: u32 = 0x5; }
            impl Resettable for Spec { const RESET_VALUE: u32 = 0x0; }
            pub struct ADRDY_F;
            pub struct EOC_F;
            impl R<Spec> {
                pub fn adrdy(&self) -> BitReader<ADRDY_F> { BitReader::new(((self.bits >> 0) & 0x1) != 0x0) }
                pub fn eoc(&self) -> BitReader<EOC_F> { BitReader::new(((self.bits >> 2) & 0x1) != 0x0) }
            }
            impl W<Spec> {
                pub fn adrdy(&mut self) -> BitWriter1C<'_, Spec, ADRDY_F> { BitWriter1C::new(self, 0) }
                pub fn eoc(&mut self) -> BitWriter1C<'_, Spec, EOC_F> { BitWriter1C::new(self, 2) }
            }
        }
        pub mod smpr {
            use crate::generic::*;
            pub struct Spec;
            impl RegisterSpec for Spec { type Ux = u32; }
            impl Readable for Spec {}
            impl Writable for Spec { const ZERO_TO_MODIFY: u32 = 0x0; const ONE_TO_MODIFY: u32 = 0x0; }
            impl Resettable for Spec { const RESET_VALUE: u32 = 0x0; }
            pub struct SMP1_F;
            pub struct SMP2_F;
            pub struct SMP3_F;
            impl R<Spec> {
                pub fn smp1(&self) -> FieldReader<SMP1_F, u8> { FieldReader::new(((self.bits >> 3) & 0x7) as u8) }
                pub fn smp2(&self) -> FieldReader<SMP2_F, u8> { FieldReader::new(((self.bits >> 6) & 0x7) as u8) }
                pub fn smp3(&self) -> FieldReader<SMP3_F, u8> { FieldReader::new(((self.bits >> 9) & 0x7) as u8) }
            }
            impl W<Spec> {
                pub fn smp1(&mut self) -> FieldWriter<'_, Spec, SMP1_F, u8, 3> { FieldWriter::new(self, 3) }
                pub fn smp2(&mut self) -> FieldWriter<'_, Spec, SMP2_F, u8, 3> { FieldWriter::new(self, 6) }
                pub fn smp3(&mut self) -> FieldWriter<'_, Spec, SMP3_F, u8, 3> { FieldWriter::new(self, 9) }
            }
            impl FieldReader<SMP1_F, u8> {
                pub fn is_cycles1_5(&self) -> bool { self.bits() == 0x0 }
                pub fn is_cycles2_5(&self) -> bool { self.bits() == 0x1 }
                pub fn is_cycles601_5(&self) -> bool { self.bits() == 0x7 }
            }
            impl<'a> FieldWriter<'a, Spec, SMP1_F, u8, 3> {
                pub fn cycles1_5(self) -> &'a mut W<Spec> { self.bits(0x0) }
                pub fn cycles2_5(self) -> &'a mut W<Spec> { self.bits(0x1) }
                pub fn cycles601_5(self) -> &'a mut W<Spec> { self.bits(0x7) }
            }
            impl FieldReader<SMP2_F, u8> {
                pub fn is_cycles1_5(&self) -> bool { self.bits() == 0x0 }
                pub fn is_cycles2_5(&self) -> bool { self.bits() == 0x1 }
                pub fn is_cycles601_5(&self) -> bool { self.bits() == 0x7 }
            }
            impl<'a> FieldWriter<'a, Spec, SMP2_F, u8, 3> {
                pub fn cycles1_5(self) -> &'a mut W<Spec> { self.bits(0x0) }
                pub fn cycles2_5(self) -> &'a mut W<Spec> { self.bits(0x1) }
                pub fn cycles601_5(self) -> &'a mut W<Spec> { self.bits(0x7) }
            }
            impl FieldReader<SMP3_F, u8> {
                pub fn is_cycles1_5(&self) -> bool { self.bits() == 0x0 }
                pub fn is_cycles2_5(&self) -> bool { self.bits() == 0x2 }
                pub fn is_cycles601_5(&self) -> bool { self.bits() == 0x7 }
                pub fn is_off(&self) -> bool { self.bits() == 0x6 }
            }
            impl<'a> FieldWriter<'a, Spec, SMP3_F, u8, 3> {
                pub fn cycles1_5(self) -> &'a mut W<Spec> { self.bits(0x0) }
                pub fn cycles2_5(self) -> &'a mut W<Spec> { self.bits(0x2) }
                pub fn cycles601_5(self) -> &'a mut W<Spec> { self.bits(0x7) }
                pub fn off(self) -> &'a mut W<Spec> { self.bits(0x6) }
            }
        }
        pub mod dr {
            use crate::generic::*;
            pub struct Spec;
            impl RegisterSpec for Spec { type Ux = u16; }
            impl Readable for Spec {}
            impl Resettable for Spec { const RESET_VALUE: u16 = 0x0; }
            pub struct RDATA_F;
            impl R<Spec> {
                pub fn rdata(&self) -> FieldReader<RDATA_F, u16> { FieldReader::new(((self.bits >> 0) & 0xffff) as u16) }
            }
        }
    }
    pub mod slave {
        use crate::generic::*;
        #[repr(C)]
        pub struct RegisterBlock {
            isr: Reg<isr::Spec>,
            _reserved0: [u8; 16],
            smpr: Reg<smpr::Spec>,
            _reserved1: [u8; 40],
            dr: Reg<dr::Spec>,
        }
        impl RegisterBlock {
            pub fn isr(&self) -> &Reg<isr::Spec> { &self.isr }
            pub fn smpr(&self) -> &Reg<smpr::Spec> { &self.smpr }
            pub fn dr(&self) -> &Reg<dr::Spec> { &self.dr }
        }
        pub mod isr {
            use crate::generic::*;
            pub struct Spec;
            impl RegisterSpec for Spec { type Ux = u32; }
            impl Readable for Spec {}
            impl Writable for Spec { const ZERO_TO_MODIFY: u32 = 0x0; const ONE_TO_MODIFY: u32 = 0x5; }
            impl Resettable for Spec { const RESET_VALUE: u32 = 0x0; }
            pub struct ADRDY_F;
            pub struct EOC_F;
            impl R<Spec> {
                pub fn adrdy(&self) -> BitReader<ADRDY_F> { BitReader::new(((self.bits >> 0) & 0x1) != 0x0) }
                pub fn eoc(&self) -> BitReader<EOC_F> { BitReader::new(((self.bits >> 2) & 0x1) != 0x0) }
            }
            impl W<Spec> {
                pub fn adrdy(&mut self) -> BitWriter1C<'_, Spec, ADRDY_F> { BitWriter1C::new(self, 0) }
                pub fn eoc(&mut self) -> BitWriter1C<'_, Spec, EOC_F> { BitWriter1C::new(self, 2) }
            }
        }
        pub mod smpr {
            use crate::generic::*;
            pub struct Spec;
            impl RegisterSpec for Spec { type Ux = u32; }
            impl Readable for Spec {}
            impl Writable for Spec { const ZERO_TO_MODIFY: u32 = 0x0; const ONE_TO_MODIFY: u32 = 0x0; }
            impl Resettable for Spec { const RESET_VALUE: u32 = 0x0; }
            pub struct SMP1_F;
            pub struct SMP2_F;
            pub struct SMP3_F;
            impl R<Spec> {
                pub fn smp1(&self) -> FieldReader<SMP1_F, u8> { FieldReader::new(((self.bits >> 3) & 0x7) as u8) }
                pub fn smp2(&self) -> FieldReader<SMP2_F, u8> { FieldReader::new(((self.bits >> 6) & 0x7) as u8) }
                pub fn smp3(&self) -> FieldReader<SMP3_F, u8> { FieldReader::new(((self.bits >> 9) & 0x7) as u8) }
            }
            impl W<Spec> {
                pub fn smp1(&mut self) -> FieldWriter<'_, Spec, SMP1_F, u8, 3> { FieldWriter::new(self, 3) }
                pub fn smp2(&mut self) -> FieldWriter<'_, Spec, SMP2_F, u8, 3> { FieldWriter::new(self, 6) }
                pub fn smp3(&mut self) -> FieldWriter<'_, Spec, SMP3_F, u8, 3> { FieldWriter::new(self, 9) }
            }
            impl FieldReader<SMP1_F, u8> {
                pub fn is_cycles1_5(&self) -> bool { self.bits() == 0x0 }
                pub fn is_cycles2_5(&self) -> bool { self.bits() == 0x1 }
                pub fn is_cycles601_5(&self) -> bool { self.bits() == 0x7 }
            }
            impl<'a> FieldWriter<'a, Spec, SMP1_F, u8, 3> {
                pub fn cycles1_5(self) -> &'a mut W<Spec> { self.bits(0x0) }
                pub fn cycles2_5(self) -> &'a mut W<Spec> { self.bits(0x1) }
                pub fn cycles601_5(self) -> &'a mut W<Spec> { self.bits(0x7) }
            }
            impl FieldReader<SMP2_F, u8> {
                pub fn is_cycles1_5(&self) -> bool { self.bits() == 0x0 }
                pub fn is_cycles2_5(&self) -> bool { self.bits() == 0x1 }
                pub fn is_cycles601_5(&self) -> bool { self.bits() == 0x7 }
            }
            impl<'a> FieldWriter<'a, Spec, SMP2_F, u8, 3> {
                pub fn cycles1_5(self) -> &'a mut W<Spec> { self.bits(0x0) }
                pub fn cycles2_5(self) -> &'a mut W<Spec> { self.bits(0x1) }
                pub fn cycles601_5(self) -> &'a mut W<Spec> { self.bits(0x7) }
            }
            impl FieldReader<SMP3_F, u8> {
                pub fn is_cycles1_5(&self) -> bool { self.bits() == 0x0 }
                pub fn is_cycles2_5(&self) -> bool { self.bits() == 0x2 }
                pub fn is_cycles601_5(&self) -> bool { self.bits() == 0x7 }
                pub fn is_off(&self) -> bool { self.bits() == 0x6 }
            }
            impl<'a> FieldWriter<'a, Spec, SMP3_F, u8, 3> {
                pub fn cycles1_5(self) -> &'a mut W<Spec> { self.bits(0x0) }
                pub fn cycles2_5(self) -> &'a mut W<Spec> { self.bits(0x2) }
                pub fn cycles601_5(self) -> &'a mut W<Spec> { self.bits(0x7) }
                pub fn off(self) -> &'a mut W<Spec> { self.bits(0x6) }
            }
        }
        pub mod dr {
            use crate::generic::*;
            pub struct Spec;
            impl RegisterSpec for Spec { type Ux = u16; }
            impl Readable for Spec {}
            impl Resettable for Spec { const RESET_VALUE: u16 = 0x0; }
            pub struct RDATA_F;
            impl R<Spec> {
                pub fn rdata(&self) -> FieldReader<RDATA_F, u16> { FieldReader::new(((self.bits >> 0) & 0xffff) as u16) }
            }
        }
    }
    pub mod cdr {
        use crate::generic::*;
        pub struct Spec;
        impl RegisterSpec for Spec { type Ux = u32; }
        impl Readable for Spec {}
        impl Resettable for Spec { const RESET_VALUE: u32 = 0x0; }
        pub struct RDATA_F;
        impl R<Spec> {
            pub fn rdata(&self) -> FieldReader<RDATA_F, u16> { FieldReader::new(((self.bits >> 0) & 0xffff) as u16) }
        }
    }
}
