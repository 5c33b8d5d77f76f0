use crate::generic::*;

pub struct Peripherals {
    pub RCC: Periph<rcc::RegisterBlock, 0x40021000>,
}

pub mod rcc {
    use crate::generic::*;
    #[repr(C)]
    pub struct RegisterBlock {
        cr: Reg<cr::Spec>,
        cfgr: Reg<cfgr::Spec>,
        _reserved0: [u8; 12],
        ahbenset: Reg<ahbenset::Spec>,
        ahbenclr: Reg<ahbenclr::Spec>,
        _reserved1: [u8; 8],
        csr: Reg<csr::Spec>,
    }
    impl RegisterBlock {
        pub fn cr(&self) -> &Reg<cr::Spec> { &self.cr }
        pub fn cfgr(&self) -> &Reg<cfgr::Spec> { &self.cfgr }
        pub fn ahbenset(&self) -> &Reg<ahbenset::Spec> { &self.ahbenset }
        pub fn ahbenclr(&self) -> &Reg<ahbenclr::Spec> { &self.ahbenclr }
        pub fn csr(&self) -> &Reg<csr::Spec> { &self.csr }
    }
    pub mod cr {
        use crate::generic::*;
        pub struct Spec;
        impl RegisterSpec for Spec { type Ux = u32; }
        impl Readable for Spec {}
        impl Writable for Spec { const ZERO_TO_MODIFY: u32 = 0x0; const ONE_TO_MODIFY: u32 = 0x0; }
        impl Resettable for Spec { const RESET_VALUE: u32 = 0x83; }
        pub struct HSION_F;
        pub struct HSIRDY_F;
        pub struct HSITRIM_F;
        pub struct HSICAL_F;
        pub struct HSEON_F;
        pub struct HSERDY_F;
        impl R<Spec> {
            pub fn hsion(&self) -> BitReader<HSION_F> { BitReader::new(((self.bits >> 0) & 0x1) != 0x0) }
            pub fn hsirdy(&self) -> BitReader<HSIRDY_F> { BitReader::new(((self.bits >> 1) & 0x1) != 0x0) }
            pub fn hsitrim(&self) -> FieldReader<HSITRIM_F, u8> { FieldReader::new(((self.bits >> 3) & 0x1f) as u8) }
            pub fn hsical(&self) -> FieldReader<HSICAL_F, u8> { FieldReader::new(((self.bits >> 8) & 0xff) as u8) }
            pub fn hseon(&self) -> BitReader<HSEON_F> { BitReader::new(((self.bits >> 16) & 0x1) != 0x0) }
            pub fn hserdy(&self) -> BitReader<HSERDY_F> { BitReader::new(((self.bits >> 17) & 0x1) != 0x0) }
        }
        impl W<Spec> {
            pub fn hsion(&mut self) -> BitWriter<'_, Spec, HSION_F> { BitWriter::new(self, 0) }
            pub fn hsitrim(&mut self) -> FieldWriter<'_, Spec, HSITRIM_F, u8, 5> { FieldWriter::new(self, 3) }
            pub fn hseon(&mut self) -> BitWriter<'_, Spec, HSEON_F> { BitWriter::new(self, 16) }
        }
    }
    pub mod cfgr {
        use crate::generic::*;
        pub struct Spec;
        impl RegisterSpec for Spec { type Ux = u32; }
        impl Readable for Spec {}
        impl Writable for Spec { const ZERO_TO_MODIFY: u32 = 0x0; const ONE_TO_MODIFY: u32 = 0x0; }
        impl Resettable for Spec { const RESET_VALUE: u32 = 0x0; }
        pub struct SW_F;
        pub struct SWS_F;
        pub struct HPRE_F;
        impl R<Spec> {
            pub fn sw(&self) -> FieldReader<SW_F, u8> { FieldReader::new(((self.bits >> 0) & 0x3) as u8) }
            pub fn sws(&self) -> FieldReader<SWS_F, u8> { FieldReader::new(((self.bits >> 2) & 0x3) as u8) }
            pub fn hpre(&self) -> FieldReader<HPRE_F, u8> { FieldReader::new(((self.bits >> 4) & 0xf) as u8) }
        }
        impl W<Spec> {
            pub fn sw(&mut self) -> FieldWriter<'_, Spec, SW_F, u8, 2> { FieldWriter::new(self, 0) }
            pub fn hpre(&mut self) -> FieldWriter<'_, Spec, HPRE_F, u8, 4> { FieldWriter::new(self, 4) }
        }
        impl FieldReader<SW_F, u8> {
            pub fn is_hsi(&self) -> bool { self.bits() == 0x0 }
            pub fn is_hse(&self) -> bool { self.bits() == 0x1 }
            pub fn is_pll(&self) -> bool { self.bits() == 0x2 }
            pub fn is_forbidden(&self) -> bool { self.bits() == 0x3 }
        }
        impl<'a> FieldWriter<'a, Spec, SW_F, u8, 2> {
            pub fn hsi(self) -> &'a mut W<Spec> { self.bits(0x0) }
            pub fn hse(self) -> &'a mut W<Spec> { self.bits(0x1) }
            pub fn pll(self) -> &'a mut W<Spec> { self.bits(0x2) }
        }
        impl FieldReader<SWS_F, u8> {
            pub fn is_hsi(&self) -> bool { self.bits() == 0x0 }
            pub fn is_hse(&self) -> bool { self.bits() == 0x1 }
            pub fn is_pll(&self) -> bool { self.bits() == 0x2 }
        }
        impl FieldReader<HPRE_F, u8> {
            pub fn is_div1(&self) -> bool { self.bits() == 0x0 }
            pub fn is_div2(&self) -> bool { self.bits() == 0x8 }
            pub fn is_div4(&self) -> bool { self.bits() == 0x9 }
            pub fn is_div512(&self) -> bool { self.bits() == 0xf }
        }
        impl<'a> FieldWriter<'a, Spec, HPRE_F, u8, 4> {
            pub fn div1(self) -> &'a mut W<Spec> { self.bits(0x0) }
            pub fn div2(self) -> &'a mut W<Spec> { self.bits(0x8) }
            pub fn div4(self) -> &'a mut W<Spec> { self.bits(0x9) }
            pub fn div512(self) -> &'a mut W<Spec> { self.bits(0xf) }
        }
    }
    pub mod ahbenset {
        use crate::generic::*;
        pub struct Spec;
        impl RegisterSpec for Spec { type Ux = u32; }
        impl Readable for Spec {}
        impl Writable for Spec { const ZERO_TO_MODIFY: u32 = 0x0; const ONE_TO_MODIFY: u32 = 0x15; }
        impl Resettable for Spec { const RESET_VALUE: u32 = 0x14; }
        pub struct DMAEN_F;
        pub struct SRAMEN_F;
        pub struct FLITFEN_F;
        impl R<Spec> {
            pub fn dmaen(&self) -> BitReader<DMAEN_F> { BitReader::new(((self.bits >> 0) & 0x1) != 0x0) }
            pub fn sramen(&self) -> BitReader<SRAMEN_F> { BitReader::new(((self.bits >> 2) & 0x1) != 0x0) }
            pub fn flitfen(&self) -> BitReader<FLITFEN_F> { BitReader::new(((self.bits >> 4) & 0x1) != 0x0) }
        }
        impl W<Spec> {
            pub fn dmaen(&mut self) -> BitWriter1S<'_, Spec, DMAEN_F> { BitWriter1S::new(self, 0) }
            pub fn sramen(&mut self) -> BitWriter1S<'_, Spec, SRAMEN_F> { BitWriter1S::new(self, 2) }
            pub fn flitfen(&mut self) -> BitWriter1S<'_, Spec, FLITFEN_F> { BitWriter1S::new(self, 4) }
        }
    }
    pub mod ahbenclr {
        use crate::generic::*;
        pub struct Spec;
        impl RegisterSpec for Spec { type Ux = u32; }
        impl Readable for Spec {}
        impl Writable for Spec { const ZERO_TO_MODIFY: u32 = 0x0; const ONE_TO_MODIFY: u32 = 0x15; }
        impl Resettable for Spec { const RESET_VALUE: u32 = 0x14; }
        pub struct DMAEN_F;
        pub struct SRAMEN_F;
        pub struct FLITFEN_F;
        impl R<Spec> {
            pub fn dmaen(&self) -> BitReader<DMAEN_F> { BitReader::new(((self.bits >> 0) & 0x1) != 0x0) }
            pub fn sramen(&self) -> BitReader<SRAMEN_F> { BitReader::new(((self.bits >> 2) & 0x1) != 0x0) }
            pub fn flitfen(&self) -> BitReader<FLITFEN_F> { BitReader::new(((self.bits >> 4) & 0x1) != 0x0) }
        }
        impl W<Spec> {
            pub fn dmaen(&mut self) -> BitWriter1C<'_, Spec, DMAEN_F> { BitWriter1C::new(self, 0) }
            pub fn sramen(&mut self) -> BitWriter1C<'_, Spec, SRAMEN_F> { BitWriter1C::new(self, 2) }
            pub fn flitfen(&mut self) -> BitWriter1C<'_, Spec, FLITFEN_F> { BitWriter1C::new(self, 4) }
        }
    }
    pub mod csr {
        use crate::generic::*;
        pub struct Spec;
        impl RegisterSpec for Spec { type Ux = u32; }
        impl Readable for Spec {}
        impl Writable for Spec { const ZERO_TO_MODIFY: u32 = 0x0; const ONE_TO_MODIFY: u32 = 0x1000000; }
        impl Resettable for Spec { const RESET_VALUE: u32 = 0xc000000; }
        pub struct LSION_F;
        pub struct LSIRDY_F;
        pub struct RMVF_F;
        pub struct PINRSTF_F;
        pub struct PORRSTF_F;
        impl R<Spec> {
            pub fn lsion(&self) -> BitReader<LSION_F> { BitReader::new(((self.bits >> 0) & 0x1) != 0x0) }
            pub fn lsirdy(&self) -> BitReader<LSIRDY_F> { BitReader::new(((self.bits >> 1) & 0x1) != 0x0) }
            pub fn pinrstf(&self) -> BitReader<PINRSTF_F> { BitReader::new(((self.bits >> 26) & 0x1) != 0x0) }
            pub fn porrstf(&self) -> BitReader<PORRSTF_F> { BitReader::new(((self.bits >> 27) & 0x1) != 0x0) }
        }
        impl W<Spec> {
            pub fn lsion(&mut self) -> BitWriter<'_, Spec, LSION_F> { BitWriter::new(self, 0) }
            pub fn rmvf(&mut self) -> BitWriter1S<'_, Spec, RMVF_F> { BitWriter1S::new(self, 24) }
        }
    }
}
