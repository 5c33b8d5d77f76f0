use crate::generic::*;

pub struct Peripherals {
    pub CAN1: Periph<can1::RegisterBlock, 0x40006400>,
}

pub mod can1 {
    use crate::generic::*;
    #[repr(C)]
    pub struct RegisterBlock {
        mcr: Reg<mcr::Spec>,
        _reserved0: [u8; 4],
        tsr: Reg<tsr::Spec>,
        _reserved1: [u8; 372],
        tx: [tx::RegisterBlock; 3],
    }
    impl RegisterBlock {
        pub fn mcr(&self) -> &Reg<mcr::Spec> { &self.mcr }
        pub fn tsr(&self) -> &Reg<tsr::Spec> { &self.tsr }
        pub fn tx(&self, n: usize) -> &tx::RegisterBlock { &self.tx[n] }
        pub fn bank(&self, n: usize) -> &bank::RegisterBlock { at_index(self, 0x240, 64, 2, n) }
    }
    pub mod mcr {
        use crate::generic::*;
        pub struct Spec;
        impl RegisterSpec for Spec { type Ux = u32; }
        impl Readable for Spec {}
        impl Writable for Spec { const ZERO_TO_MODIFY: u32 = 0x0; const ONE_TO_MODIFY: u32 = 0x0; }
        impl Resettable for Spec { const RESET_VALUE: u32 = 0x10002; }
        pub struct INRQ_F;
        pub struct SLEEP_F;
        pub struct RESET_F;
        impl R<Spec> {
            pub fn inrq(&self) -> BitReader<INRQ_F> { BitReader::new(((self.bits >> 0) & 0x1) != 0x0) }
            pub fn sleep(&self) -> BitReader<SLEEP_F> { BitReader::new(((self.bits >> 1) & 0x1) != 0x0) }
            pub fn reset_(&self) -> BitReader<RESET_F> { BitReader::new(((self.bits >> 15) & 0x1) != 0x0) }
        }
        impl W<Spec> {
            pub fn inrq(&mut self) -> BitWriter<'_, Spec, INRQ_F> { BitWriter::new(self, 0) }
            pub fn sleep(&mut self) -> BitWriter<'_, Spec, SLEEP_F> { BitWriter::new(self, 1) }
            pub fn reset_(&mut self) -> BitWriter<'_, Spec, RESET_F> { BitWriter::new(self, 15) }
        }
    }
    pub mod tsr {
        use crate::generic::*;
        pub struct Spec;
        impl RegisterSpec for Spec { type Ux = u32; }
        impl Readable for Spec {}
        impl Writable for Spec { const ZERO_TO_MODIFY: u32 = 0x0; const ONE_TO_MODIFY: u32 = 0x818181; }
        impl Resettable for Spec { const RESET_VALUE: u32 = 0x1c000000; }
        pub struct RQCP0_F;
        pub struct RQCP1_F;
        pub struct RQCP2_F;
        pub struct ABRQ0_F;
        pub struct ABRQ1_F;
        pub struct ABRQ2_F;
        pub struct CODE_F;
        impl R<Spec> {
            pub fn rqcp0(&self) -> BitReader<RQCP0_F> { BitReader::new(((self.bits >> 0) & 0x1) != 0x0) }
            pub fn rqcp1(&self) -> BitReader<RQCP1_F> { BitReader::new(((self.bits >> 8) & 0x1) != 0x0) }
            pub fn rqcp2(&self) -> BitReader<RQCP2_F> { BitReader::new(((self.bits >> 16) & 0x1) != 0x0) }
            pub fn abrq0(&self) -> BitReader<ABRQ0_F> { BitReader::new(((self.bits >> 7) & 0x1) != 0x0) }
            pub fn abrq1(&self) -> BitReader<ABRQ1_F> { BitReader::new(((self.bits >> 15) & 0x1) != 0x0) }
            pub fn abrq2(&self) -> BitReader<ABRQ2_F> { BitReader::new(((self.bits >> 23) & 0x1) != 0x0) }
            pub fn code(&self) -> FieldReader<CODE_F, u8> { FieldReader::new(((self.bits >> 24) & 0x3) as u8) }
        }
        impl W<Spec> {
            pub fn rqcp0(&mut self) -> BitWriter1C<'_, Spec, RQCP0_F> { BitWriter1C::new(self, 0) }
            pub fn rqcp1(&mut self) -> BitWriter1C<'_, Spec, RQCP1_F> { BitWriter1C::new(self, 8) }
            pub fn rqcp2(&mut self) -> BitWriter1C<'_, Spec, RQCP2_F> { BitWriter1C::new(self, 16) }
            pub fn abrq0(&mut self) -> BitWriter1S<'_, Spec, ABRQ0_F> { BitWriter1S::new(self, 7) }
            pub fn abrq1(&mut self) -> BitWriter1S<'_, Spec, ABRQ1_F> { BitWriter1S::new(self, 15) }
            pub fn abrq2(&mut self) -> BitWriter1S<'_, Spec, ABRQ2_F> { BitWriter1S::new(self, 23) }
        }
    }
    pub mod tx {
        use crate::generic::*;
        #[repr(C)]
        pub struct RegisterBlock {
            ir: Reg<ir::Spec>,
            dlc: Reg<dlc::Spec>,
            _reserved0: [u8; 3],
            data: [Reg<data::Spec>; 8],
        }
        impl RegisterBlock {
            pub fn ir(&self) -> &Reg<ir::Spec> { &self.ir }
            pub fn dlc(&self) -> &Reg<dlc::Spec> { &self.dlc }
            pub fn data(&self, n: usize) -> &Reg<data::Spec> { &self.data[n] }
            pub fn datalr(&self) -> &Reg<datalr::Spec> { at(self, 0x8) }
            pub fn datahr(&self) -> &Reg<datahr::Spec> { at(self, 0xc) }
        }
        pub mod ir {
            use crate::generic::*;
            pub struct Spec;
            impl RegisterSpec for Spec { type Ux = u32; }
            impl Readable for Spec {}
            impl Writable for Spec { const ZERO_TO_MODIFY: u32 = 0x0; const ONE_TO_MODIFY: u32 = 0x0; }
            impl Resettable for Spec { const RESET_VALUE: u32 = 0x0; }
            pub struct TXRQ_F;
            pub struct RTR_F;
            pub struct STID_F;
            impl R<Spec> {
                pub fn txrq(&self) -> BitReader<TXRQ_F> { BitReader::new(((self.bits >> 0) & 0x1) != 0x0) }
                pub fn rtr(&self) -> BitReader<RTR_F> { BitReader::new(((self.bits >> 1) & 0x1) != 0x0) }
                pub fn stid(&self) -> FieldReader<STID_F, u16> { FieldReader::new(((self.bits >> 21) & 0x7ff) as u16) }
            }
            impl W<Spec> {
                pub fn txrq(&mut self) -> BitWriter<'_, Spec, TXRQ_F> { BitWriter::new(self, 0) }
                pub fn rtr(&mut self) -> BitWriter<'_, Spec, RTR_F> { BitWriter::new(self, 1) }
                pub fn stid(&mut self) -> FieldWriter<'_, Spec, STID_F, u16, 11> { FieldWriter::new(self, 21) }
            }
        }
        pub mod dlc {
            use crate::generic::*;
            pub struct Spec;
            impl RegisterSpec for Spec { type Ux = u8; }
            impl Readable for Spec {}
            impl Writable for Spec { const ZERO_TO_MODIFY: u8 = 0x0; const ONE_TO_MODIFY: u8 = 0x0; }
            impl Resettable for Spec { const RESET_VALUE: u8 = 0x0; }
            impl R<Spec> {
            }
            impl W<Spec> {
            }
        }
        pub mod data {
            use crate::generic::*;
            pub struct Spec;
            impl RegisterSpec for Spec { type Ux = u8; }
            impl Readable for Spec {}
            impl Writable for Spec { const ZERO_TO_MODIFY: u8 = 0x0; const ONE_TO_MODIFY: u8 = 0x0; }
            impl Resettable for Spec { const RESET_VALUE: u8 = 0x0; }
            impl R<Spec> {
            }
            impl W<Spec> {
            }
        }
        pub mod datalr {
            use crate::generic::*;
            pub struct Spec;
            impl RegisterSpec for Spec { type Ux = u32; }
            impl Readable for Spec {}
            impl Writable for Spec { const ZERO_TO_MODIFY: u32 = 0x0; const ONE_TO_MODIFY: u32 = 0x0; }
            impl Resettable for Spec { const RESET_VALUE: u32 = 0x0; }
            impl R<Spec> {
            }
            impl W<Spec> {
            }
        }
        pub mod datahr {
            use crate::generic::*;
            pub struct Spec;
            impl RegisterSpec for Spec { type Ux = u32; }
            impl Readable for Spec {}
            impl Writable for Spec { const ZERO_TO_MODIFY: u32 = 0x0; const ONE_TO_MODIFY: u32 = 0x0; }
            impl Resettable for Spec { const RESET_VALUE: u32 = 0x0; }
            impl R<Spec> {
            }
            impl W<Spec> {
            }
        }
    }
    pub mod bank {
        use crate::generic::*;
        #[repr(C)]
        pub struct RegisterBlock {
            active: Reg<active::Spec>,
        }
        impl RegisterBlock {
            pub fn filter(&self, n: usize) -> &filter::RegisterBlock { at_index(self, 0x8, 16, 2, n) }
            pub fn active(&self) -> &Reg<active::Spec> { &self.active }
        }
        pub mod filter {
            use crate::generic::*;
            #[repr(C)]
            pub struct RegisterBlock {
                r: [Reg<r::Spec>; 2],
            }
            impl RegisterBlock {
                pub fn r(&self, n: usize) -> &Reg<r::Spec> { &self.r[n] }
            }
            pub mod r {
                use crate::generic::*;
                pub struct Spec;
                impl RegisterSpec for Spec { type Ux = u32; }
                impl Readable for Spec {}
                impl Writable for Spec { const ZERO_TO_MODIFY: u32 = 0x0; const ONE_TO_MODIFY: u32 = 0x0; }
                impl Resettable for Spec { const RESET_VALUE: u32 = 0x0; }
                impl R<Spec> {
                }
                impl W<Spec> {
                }
            }
        }
        pub mod active {
            use crate::generic::*;
            pub struct Spec;
            impl RegisterSpec for Spec { type Ux = u16; }
            impl Readable for Spec {}
            impl Writable for Spec { const ZERO_TO_MODIFY: u16 = 0x0; const ONE_TO_MODIFY: u16 = 0x0; }
            impl Resettable for Spec { const RESET_VALUE: u16 = 0x0; }
            impl R<Spec> {
            }
            impl W<Spec> {
            }
        }
    }
}
