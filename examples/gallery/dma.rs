use crate::generic::*;

pub struct Peripherals {
    pub DMA1: Periph<dma1::RegisterBlock, 0x40020000>,
    pub DMA2: Periph<dma2::RegisterBlock, 0x40020400>,
}

pub mod dma1 {
    use crate::generic::*;
    #[repr(C)]
    pub struct RegisterBlock {
        isr: Reg<isr::Spec>,
        ifcr: Reg<ifcr::Spec>,
        ch: [ch::RegisterBlock; 4],
    }
    impl RegisterBlock {
        pub fn isr(&self) -> &Reg<isr::Spec> { &self.isr }
        pub fn ifcr(&self) -> &Reg<ifcr::Spec> { &self.ifcr }
        pub fn ch(&self, n: usize) -> &ch::RegisterBlock { &self.ch[n] }
    }
    pub mod isr {
        use crate::generic::*;
        pub struct Spec;
        impl RegisterSpec for Spec { type Ux = u32; }
        impl Readable for Spec {}
        impl Resettable for Spec { const RESET_VALUE: u32 = 0x0; }
        pub struct GIF1_F;
        pub struct GIF2_F;
        pub struct GIF3_F;
        pub struct GIF4_F;
        pub struct TCIF1_F;
        pub struct TCIF2_F;
        pub struct TCIF3_F;
        pub struct TCIF4_F;
        pub struct TEIF1_F;
        pub struct TEIF2_F;
        pub struct TEIF3_F;
        pub struct TEIF4_F;
        impl R<Spec> {
            pub fn gif1(&self) -> BitReader<GIF1_F> { BitReader::new(((self.bits >> 0) & 0x1) != 0x0) }
            pub fn gif2(&self) -> BitReader<GIF2_F> { BitReader::new(((self.bits >> 4) & 0x1) != 0x0) }
            pub fn gif3(&self) -> BitReader<GIF3_F> { BitReader::new(((self.bits >> 8) & 0x1) != 0x0) }
            pub fn gif4(&self) -> BitReader<GIF4_F> { BitReader::new(((self.bits >> 12) & 0x1) != 0x0) }
            pub fn tcif1(&self) -> BitReader<TCIF1_F> { BitReader::new(((self.bits >> 1) & 0x1) != 0x0) }
            pub fn tcif2(&self) -> BitReader<TCIF2_F> { BitReader::new(((self.bits >> 5) & 0x1) != 0x0) }
            pub fn tcif3(&self) -> BitReader<TCIF3_F> { BitReader::new(((self.bits >> 9) & 0x1) != 0x0) }
            pub fn tcif4(&self) -> BitReader<TCIF4_F> { BitReader::new(((self.bits >> 13) & 0x1) != 0x0) }
            pub fn teif1(&self) -> BitReader<TEIF1_F> { BitReader::new(((self.bits >> 3) & 0x1) != 0x0) }
            pub fn teif2(&self) -> BitReader<TEIF2_F> { BitReader::new(((self.bits >> 7) & 0x1) != 0x0) }
            pub fn teif3(&self) -> BitReader<TEIF3_F> { BitReader::new(((self.bits >> 11) & 0x1) != 0x0) }
            pub fn teif4(&self) -> BitReader<TEIF4_F> { BitReader::new(((self.bits >> 15) & 0x1) != 0x0) }
        }
    }
    pub mod ifcr {
        use crate::generic::*;
        pub struct Spec;
        impl RegisterSpec for Spec { type Ux = u32; }
        impl Writable for Spec { const ZERO_TO_MODIFY: u32 = 0x0; const ONE_TO_MODIFY: u32 = 0x3333; }
        impl Resettable for Spec { const RESET_VALUE: u32 = 0x0; }
        pub struct CGIF1_F;
        pub struct CGIF2_F;
        pub struct CGIF3_F;
        pub struct CGIF4_F;
        pub struct CTCIF1_F;
        pub struct CTCIF2_F;
        pub struct CTCIF3_F;
        pub struct CTCIF4_F;
        impl W<Spec> {
            pub fn cgif1(&mut self) -> BitWriter1C<'_, Spec, CGIF1_F> { BitWriter1C::new(self, 0) }
            pub fn cgif2(&mut self) -> BitWriter1C<'_, Spec, CGIF2_F> { BitWriter1C::new(self, 4) }
            pub fn cgif3(&mut self) -> BitWriter1C<'_, Spec, CGIF3_F> { BitWriter1C::new(self, 8) }
            pub fn cgif4(&mut self) -> BitWriter1C<'_, Spec, CGIF4_F> { BitWriter1C::new(self, 12) }
            pub fn ctcif1(&mut self) -> BitWriter1C<'_, Spec, CTCIF1_F> { BitWriter1C::new(self, 1) }
            pub fn ctcif2(&mut self) -> BitWriter1C<'_, Spec, CTCIF2_F> { BitWriter1C::new(self, 5) }
            pub fn ctcif3(&mut self) -> BitWriter1C<'_, Spec, CTCIF3_F> { BitWriter1C::new(self, 9) }
            pub fn ctcif4(&mut self) -> BitWriter1C<'_, Spec, CTCIF4_F> { BitWriter1C::new(self, 13) }
        }
    }
    pub mod ch {
        use crate::generic::*;
        #[repr(C)]
        pub struct RegisterBlock {
            cr: Reg<cr::Spec>,
            ndtr: Reg<ndtr::Spec>,
            _reserved0: [u8; 2],
            par: Reg<par::Spec>,
            mar: Reg<mar::Spec>,
            psr: Reg<psr::Spec>,
        }
        impl RegisterBlock {
            pub fn cr(&self) -> &Reg<cr::Spec> { &self.cr }
            pub fn ndtr(&self) -> &Reg<ndtr::Spec> { &self.ndtr }
            pub fn par(&self) -> &Reg<par::Spec> { &self.par }
            pub fn mar(&self) -> &Reg<mar::Spec> { &self.mar }
            pub fn psr(&self) -> &Reg<psr::Spec> { &self.psr }
        }
        pub mod cr {
            use crate::generic::*;
            pub struct Spec;
            impl RegisterSpec for Spec { type Ux = u32; }
            impl Readable for Spec {}
            impl Writable for Spec { const ZERO_TO_MODIFY: u32 = 0x0; const ONE_TO_MODIFY: u32 = 0x0; }
            impl Resettable for Spec { const RESET_VALUE: u32 = 0x0; }
            pub struct EN_F;
            pub struct TCIE_F;
            pub struct DIR_F;
            pub struct PL_F;
            impl R<Spec> {
                pub fn en(&self) -> BitReader<EN_F> { BitReader::new(((self.bits >> 0) & 0x1) != 0x0) }
                pub fn tcie(&self) -> BitReader<TCIE_F> { BitReader::new(((self.bits >> 1) & 0x1) != 0x0) }
                pub fn dir(&self) -> BitReader<DIR_F> { BitReader::new(((self.bits >> 4) & 0x1) != 0x0) }
                pub fn pl(&self) -> FieldReader<PL_F, u8> { FieldReader::new(((self.bits >> 12) & 0x3) as u8) }
            }
            impl W<Spec> {
                pub fn en(&mut self) -> BitWriter<'_, Spec, EN_F> { BitWriter::new(self, 0) }
                pub fn tcie(&mut self) -> BitWriter<'_, Spec, TCIE_F> { BitWriter::new(self, 1) }
                pub fn dir(&mut self) -> BitWriter<'_, Spec, DIR_F> { BitWriter::new(self, 4) }
                pub fn pl(&mut self) -> FieldWriter<'_, Spec, PL_F, u8, 2> { FieldWriter::new(self, 12) }
            }
            impl BitReader<DIR_F> {
                pub fn is_fromperipheral(&self) -> bool { self.bit() == false }
                pub fn is_frommemory(&self) -> bool { self.bit() == true }
            }
            impl<'a> BitWriter<'a, Spec, DIR_F> {
                pub fn fromperipheral(self) -> &'a mut W<Spec> { self.bit(false) }
                pub fn frommemory(self) -> &'a mut W<Spec> { self.bit(true) }
            }
        }
        pub mod ndtr {
            use crate::generic::*;
            pub struct Spec;
            impl RegisterSpec for Spec { type Ux = u16; }
            impl Readable for Spec {}
            impl Writable for Spec { const ZERO_TO_MODIFY: u16 = 0x0; const ONE_TO_MODIFY: u16 = 0x0; }
            impl Resettable for Spec { const RESET_VALUE: u16 = 0x0; }
            impl R<Spec> {
            }
            impl W<Spec> {
            }
        }
        pub mod par {
            use crate::generic::*;
            pub struct Spec;
            impl RegisterSpec for Spec { type Ux = u32; }
            impl Readable for Spec {}
            impl Writable for Spec { const ZERO_TO_MODIFY: u32 = 0x0; const ONE_TO_MODIFY: u32 = 0x0; }
            impl Resettable for Spec { const RESET_VALUE: u32 = 0x0; }
            impl R<Spec> {
            }
            impl W<Spec> {
            }
        }
        pub mod mar {
            use crate::generic::*;
            pub struct Spec;
            impl RegisterSpec for Spec { type Ux = u32; }
            impl Readable for Spec {}
            impl Writable for Spec { const ZERO_TO_MODIFY: u32 = 0x0; const ONE_TO_MODIFY: u32 = 0x0; }
            impl Resettable for Spec { const RESET_VALUE: u32 = 0x0; }
            impl R<Spec> {
            }
            impl W<Spec> {
            }
        }
        pub mod psr {
            use crate::generic::*;
            pub struct Spec;
            impl RegisterSpec for Spec { type Ux = u8; }
            impl Readable for Spec {}
            impl Resettable for Spec { const RESET_VALUE: u8 = 0x0; }
            impl R<Spec> {
            }
        }
    }
}

pub mod dma2 {
    use crate::generic::*;
    #[repr(C)]
    pub struct RegisterBlock {
        isr: Reg<isr::Spec>,
        ifcr: Reg<ifcr::Spec>,
        ch: [ch::RegisterBlock; 4],
    }
    impl RegisterBlock {
        pub fn isr(&self) -> &Reg<isr::Spec> { &self.isr }
        pub fn ifcr(&self) -> &Reg<ifcr::Spec> { &self.ifcr }
        pub fn ch(&self, n: usize) -> &ch::RegisterBlock { &self.ch[n] }
    }
    pub mod isr {
        use crate::generic::*;
        pub struct Spec;
        impl RegisterSpec for Spec { type Ux = u32; }
        impl Readable for Spec {}
        impl Resettable for Spec { const RESET_VALUE: u32 = 0x0; }
        pub struct GIF1_F;
        pub struct GIF2_F;
        pub struct GIF3_F;
        pub struct GIF4_F;
        pub struct TCIF1_F;
        pub struct TCIF2_F;
        pub struct TCIF3_F;
        pub struct TCIF4_F;
        pub struct TEIF1_F;
        pub struct TEIF2_F;
        pub struct TEIF3_F;
        pub struct TEIF4_F;
        impl R<Spec> {
            pub fn gif1(&self) -> BitReader<GIF1_F> { BitReader::new(((self.bits >> 0) & 0x1) != 0x0) }
            pub fn gif2(&self) -> BitReader<GIF2_F> { BitReader::new(((self.bits >> 4) & 0x1) != 0x0) }
            pub fn gif3(&self) -> BitReader<GIF3_F> { BitReader::new(((self.bits >> 8) & 0x1) != 0x0) }
            pub fn gif4(&self) -> BitReader<GIF4_F> { BitReader::new(((self.bits >> 12) & 0x1) != 0x0) }
            pub fn tcif1(&self) -> BitReader<TCIF1_F> { BitReader::new(((self.bits >> 1) & 0x1) != 0x0) }
            pub fn tcif2(&self) -> BitReader<TCIF2_F> { BitReader::new(((self.bits >> 5) & 0x1) != 0x0) }
            pub fn tcif3(&self) -> BitReader<TCIF3_F> { BitReader::new(((self.bits >> 9) & 0x1) != 0x0) }
            pub fn tcif4(&self) -> BitReader<TCIF4_F> { BitReader::new(((self.bits >> 13) & 0x1) != 0x0) }
            pub fn teif1(&self) -> BitReader<TEIF1_F> { BitReader::new(((self.bits >> 3) & 0x1) != 0x0) }
            pub fn teif2(&self) -> BitReader<TEIF2_F> { BitReader::new(((self.bits >> 7) & 0x1) != 0x0) }
            pub fn teif3(&self) -> BitReader<TEIF3_F> { BitReader::new(((self.bits >> 11) & 0x1) != 0x0) }
            pub fn teif4(&self) -> BitReader<TEIF4_F> { BitReader::new(((self.bits >> 15) & 0x1) != 0x0) }
        }
    }
    pub mod ifcr {
        use crate::generic::*;
        pub struct Spec;
        impl RegisterSpec for Spec { type Ux = u32; }
        impl Writable for Spec { const ZERO_TO_MODIFY: u32 = 0x0; const ONE_TO_MODIFY: u32 = 0x3333; }
        impl Resettable for Spec { const RESET_VALUE: u32 = 0x0; }
        pub struct CGIF1_F;
        pub struct CGIF2_F;
        pub struct CGIF3_F;
        pub struct CGIF4_F;
        pub struct CTCIF1_F;
        pub struct CTCIF2_F;
        pub struct CTCIF3_F;
        pub struct CTCIF4_F;
        impl W<Spec> {
            pub fn cgif1(&mut self) -> BitWriter1C<'_, Spec, CGIF1_F> { BitWriter1C::new(self, 0) }
            pub fn cgif2(&mut self) -> BitWriter1C<'_, Spec, CGIF2_F> { BitWriter1C::new(self, 4) }
            pub fn cgif3(&mut self) -> BitWriter1C<'_, Spec, CGIF3_F> { BitWriter1C::new(self, 8) }
            pub fn cgif4(&mut self) -> BitWriter1C<'_, Spec, CGIF4_F> { BitWriter1C::new(self, 12) }
            pub fn ctcif1(&mut self) -> BitWriter1C<'_, Spec, CTCIF1_F> { BitWriter1C::new(self, 1) }
            pub fn ctcif2(&mut self) -> BitWriter1C<'_, Spec, CTCIF2_F> { BitWriter1C::new(self, 5) }
            pub fn ctcif3(&mut self) -> BitWriter1C<'_, Spec, CTCIF3_F> { BitWriter1C::new(self, 9) }
            pub fn ctcif4(&mut self) -> BitWriter1C<'_, Spec, CTCIF4_F> { BitWriter1C::new(self, 13) }
        }
    }
    pub mod ch {
        use crate::generic::*;
        #[repr(C)]
        pub struct RegisterBlock {
            cr: Reg<cr::Spec>,
            ndtr: Reg<ndtr::Spec>,
            _reserved0: [u8; 2],
            par: Reg<par::Spec>,
            mar: Reg<mar::Spec>,
            psr: Reg<psr::Spec>,
        }
        impl RegisterBlock {
            pub fn cr(&self) -> &Reg<cr::Spec> { &self.cr }
            pub fn ndtr(&self) -> &Reg<ndtr::Spec> { &self.ndtr }
            pub fn par(&self) -> &Reg<par::Spec> { &self.par }
            pub fn mar(&self) -> &Reg<mar::Spec> { &self.mar }
            pub fn psr(&self) -> &Reg<psr::Spec> { &self.psr }
        }
        pub mod cr {
            use crate::generic::*;
            pub struct Spec;
            impl RegisterSpec for Spec { type Ux = u32; }
            impl Readable for Spec {}
            impl Writable for Spec { const ZERO_TO_MODIFY: u32 = 0x0; const ONE_TO_MODIFY: u32 = 0x0; }
            impl Resettable for Spec { const RESET_VALUE: u32 = 0x0; }
            pub struct EN_F;
            pub struct TCIE_F;
            pub struct DIR_F;
            pub struct PL_F;
            impl R<Spec> {
                pub fn en(&self) -> BitReader<EN_F> { BitReader::new(((self.bits >> 0) & 0x1) != 0x0) }
                pub fn tcie(&self) -> BitReader<TCIE_F> { BitReader::new(((self.bits >> 1) & 0x1) != 0x0) }
                pub fn dir(&self) -> BitReader<DIR_F> { BitReader::new(((self.bits >> 4) & 0x1) != 0x0) }
                pub fn pl(&self) -> FieldReader<PL_F, u8> { FieldReader::new(((self.bits >> 12) & 0x3) as u8) }
            }
            impl W<Spec> {
                pub fn en(&mut self) -> BitWriter<'_, Spec, EN_F> { BitWriter::new(self, 0) }
                pub fn tcie(&mut self) -> BitWriter<'_, Spec, TCIE_F> { BitWriter::new(self, 1) }
                pub fn dir(&mut self) -> BitWriter<'_, Spec, DIR_F> { BitWriter::new(self, 4) }
                pub fn pl(&mut self) -> FieldWriter<'_, Spec, PL_F, u8, 2> { FieldWriter::new(self, 12) }
            }
            impl BitReader<DIR_F> {
                pub fn is_fromperipheral(&self) -> bool { self.bit() == false }
                pub fn is_frommemory(&self) -> bool { self.bit() == true }
            }
            impl<'a> BitWriter<'a, Spec, DIR_F> {
                pub fn fromperipheral(self) -> &'a mut W<Spec> { self.bit(false) }
                pub fn frommemory(self) -> &'a mut W<Spec> { self.bit(true) }
            }
        }
        pub mod ndtr {
            use crate::generic::*;
            pub struct Spec;
            impl RegisterSpec for Spec { type Ux = u16; }
            impl Readable for Spec {}
            impl Writable for Spec { const ZERO_TO_MODIFY: u16 = 0x0; const ONE_TO_MODIFY: u16 = 0x0; }
            impl Resettable for Spec { const RESET_VALUE: u16 = 0x0; }
            impl R<Spec> {
            }
            impl W<Spec> {
            }
        }
        pub mod par {
            use crate::generic::*;
            pub struct Spec;
            impl RegisterSpec for Spec { type Ux = u32; }
            impl Readable for Spec {}
            impl Writable for Spec { const ZERO_TO_MODIFY: u32 = 0x0; const ONE_TO_MODIFY: u32 = 0x0; }
            impl Resettable for Spec { const RESET_VALUE: u32 = 0x0; }
            impl R<Spec> {
            }
            impl W<Spec> {
            }
        }
        pub mod mar {
            use crate::generic::*;
            pub struct Spec;
            impl RegisterSpec for Spec { type Ux = u32; }
            impl Readable for Spec {}
            impl Writable for Spec { const ZERO_TO_MODIFY: u32 = 0x0; const ONE_TO_MODIFY: u32 = 0x0; }
            impl Resettable for Spec { const RESET_VALUE: u32 = 0x0; }
            impl R<Spec> {
            }
            impl W<Spec> {
            }
        }
        pub mod psr {
            use crate::generic::*;
            pub struct Spec;
            impl RegisterSpec for Spec { type Ux = u8; }
            impl Readable for Spec {}
            impl Resettable for Spec { const RESET_VALUE: u8 = 0x0; }
            impl R<Spec> {
            }
        }
    }
}
