use crate::generic::*;

pub struct Peripherals {
    pub SPI1: Periph<spi1::RegisterBlock, 0x40013000>,
}

pub mod spi1 {
    use crate::generic::*;
    #[repr(C)]
    pub struct RegisterBlock {
        cr1: Reg<cr1::Spec>,
        cr2: Reg<cr2::Spec>,
        sr: Reg<sr::Spec>,
        dr: Reg<dr::Spec>,
        _reserved0: [u8; 2],
        i2spr: Reg<i2spr::Spec>,
        _reserved1: [u8; 14],
        crc: [Reg<crc::Spec>; 4],
    }
    impl RegisterBlock {
        pub fn cr1(&self) -> &Reg<cr1::Spec> { &self.cr1 }
        pub fn sr(&self) -> &Reg<sr::Spec> { &self.sr }
        pub fn dr(&self) -> &Reg<dr::Spec> { &self.dr }
        pub fn crc(&self, n: usize) -> &Reg<crc::Spec> { &self.crc[n] }
        pub fn cr2(&self) -> &Reg<cr2::Spec> { &self.cr2 }
        pub fn i2spr(&self) -> &Reg<i2spr::Spec> { &self.i2spr }
    }
    pub mod cr1 {
        use crate::generic::*;
        pub struct Spec;
        impl RegisterSpec for Spec { type Ux = u32; }
        impl Readable for Spec {}
        impl Writable for Spec { const ZERO_TO_MODIFY: u32 = 0x0; const ONE_TO_MODIFY: u32 = 0x0; }
        impl Resettable for Spec { const RESET_VALUE: u32 = 0x0; }
        pub struct CPHA_F;
        pub struct CPOL_F;
        pub struct MSTR_F;
        pub struct BR_F;
        pub struct SPE_F;
        impl R<Spec> {
            pub fn cpha(&self) -> BitReader<CPHA_F> { BitReader::new(((self.bits >> 0) & 0x1) != 0x0) }
            pub fn cpol(&self) -> BitReader<CPOL_F> { BitReader::new(((self.bits >> 1) & 0x1) != 0x0) }
            pub fn mstr(&self) -> BitReader<MSTR_F> { BitReader::new(((self.bits >> 2) & 0x1) != 0x0) }
            pub fn br(&self) -> FieldReader<BR_F, u8> { FieldReader::new(((self.bits >> 3) & 0x7) as u8) }
            pub fn spe(&self) -> BitReader<SPE_F> { BitReader::new(((self.bits >> 6) & 0x1) != 0x0) }
        }
        impl W<Spec> {
            pub fn cpha(&mut self) -> BitWriter<'_, Spec, CPHA_F> { BitWriter::new(self, 0) }
            pub fn cpol(&mut self) -> BitWriter<'_, Spec, CPOL_F> { BitWriter::new(self, 1) }
            pub fn mstr(&mut self) -> BitWriter<'_, Spec, MSTR_F> { BitWriter::new(self, 2) }
            pub fn br(&mut self) -> FieldWriter<'_, Spec, BR_F, u8, 3> { FieldWriter::new(self, 3) }
            pub fn spe(&mut self) -> BitWriter<'_, Spec, SPE_F> { BitWriter::new(self, 6) }
        }
    }
    pub mod sr {
        use crate::generic::*;
        pub struct Spec;
        impl RegisterSpec for Spec { type Ux = u32; }
        impl Readable for Spec {}
        impl Writable for Spec { const ZERO_TO_MODIFY: u32 = 0x40; const ONE_TO_MODIFY: u32 = 0x0; }
        impl Resettable for Spec { const RESET_VALUE: u32 = 0x2; }
        pub struct RXNE_F;
        pub struct TXE_F;
        pub struct OVR_F;
        impl R<Spec> {
            pub fn rxne(&self) -> BitReader<RXNE_F> { BitReader::new(((self.bits >> 0) & 0x1) != 0x0) }
            pub fn txe(&self) -> BitReader<TXE_F> { BitReader::new(((self.bits >> 1) & 0x1) != 0x0) }
            pub fn ovr(&self) -> BitReader<OVR_F> { BitReader::new(((self.bits >> 6) & 0x1) != 0x0) }
        }
        impl W<Spec> {
            pub fn ovr(&mut self) -> BitWriter0C<'_, Spec, OVR_F> { BitWriter0C::new(self, 6) }
        }
    }
    pub mod dr {
        use crate::generic::*;
        pub struct Spec;
        impl RegisterSpec for Spec { type Ux = u16; }
        impl Readable for Spec {}
        impl Writable for Spec { const ZERO_TO_MODIFY: u16 = 0x0; const ONE_TO_MODIFY: u16 = 0x0; }
        impl Resettable for Spec { const RESET_VALUE: u16 = 0x0; }
        impl R<Spec> {
        }
        impl W<Spec> {
        }
    }
    pub mod crc {
        use crate::generic::*;
        pub struct Spec;
        impl RegisterSpec for Spec { type Ux = u32; }
        impl Readable for Spec {}
        impl Writable for Spec { const ZERO_TO_MODIFY: u32 = 0x0; const ONE_TO_MODIFY: u32 = 0x0; }
        impl Resettable for Spec { const RESET_VALUE: u32 = 0x0; }
        impl R<Spec> {
        }
        impl W<Spec> {
        }
    }
    pub mod cr2 {
        use crate::generic::*;
        pub struct Spec;
        impl RegisterSpec for Spec { type Ux = u32; }
        impl Readable for Spec {}
        impl Writable for Spec { const ZERO_TO_MODIFY: u32 = 0x0; const ONE_TO_MODIFY: u32 = 0x0; }
        impl Resettable for Spec { const RESET_VALUE: u32 = 0x0; }
        pub struct CPHA_F;
        pub struct CPOL_F;
        pub struct MSTR_F;
        pub struct BR_F;
        pub struct SPE_F;
        impl R<Spec> {
            pub fn cpha(&self) -> BitReader<CPHA_F> { BitReader::new(((self.bits >> 0) & 0x1) != 0x0) }
            pub fn cpol(&self) -> BitReader<CPOL_F> { BitReader::new(((self.bits >> 1) & 0x1) != 0x0) }
            pub fn mstr(&self) -> BitReader<MSTR_F> { BitReader::new(((self.bits >> 2) & 0x1) != 0x0) }
            pub fn br(&self) -> FieldReader<BR_F, u8> { FieldReader::new(((self.bits >> 3) & 0x7) as u8) }
            pub fn spe(&self) -> BitReader<SPE_F> { BitReader::new(((self.bits >> 6) & 0x1) != 0x0) }
        }
        impl W<Spec> {
            pub fn cpha(&mut self) -> BitWriter<'_, Spec, CPHA_F> { BitWriter::new(self, 0) }
            pub fn cpol(&mut self) -> BitWriter<'_, Spec, CPOL_F> { BitWriter::new(self, 1) }
            pub fn mstr(&mut self) -> BitWriter<'_, Spec, MSTR_F> { BitWriter::new(self, 2) }
            pub fn br(&mut self) -> FieldWriter<'_, Spec, BR_F, u8, 3> { FieldWriter::new(self, 3) }
            pub fn spe(&mut self) -> BitWriter<'_, Spec, SPE_F> { BitWriter::new(self, 6) }
        }
    }
    pub mod i2spr {
        use crate::generic::*;
        pub struct Spec;
        impl RegisterSpec for Spec { type Ux = u16; }
        impl Readable for Spec {}
        impl Writable for Spec { const ZERO_TO_MODIFY: u16 = 0x0; const ONE_TO_MODIFY: u16 = 0x0; }
        impl Resettable for Spec { const RESET_VALUE: u16 = 0x2; }
        pub struct I2SDIV_F;
        pub struct ODD_F;
        impl R<Spec> {
            pub fn i2sdiv(&self) -> FieldReader<I2SDIV_F, u8> { FieldReader::new(((self.bits >> 0) & 0xff) as u8) }
            pub fn odd(&self) -> BitReader<ODD_F> { BitReader::new(((self.bits >> 8) & 0x1) != 0x0) }
        }
        impl W<Spec> {
            pub fn i2sdiv(&mut self) -> FieldWriter<'_, Spec, I2SDIV_F, u8, 8> { FieldWriter::new(self, 0) }
            pub fn odd(&mut self) -> BitWriter<'_, Spec, ODD_F> { BitWriter::new(self, 8) }
        }
    }
}
