use crate::generic::*;

pub struct Peripherals {
    pub USART1: Periph<usart1::RegisterBlock, 0x40013800>,
}

pub mod usart1 {
    use crate::generic::*;
    #[repr(C)]
    pub struct RegisterBlock {
        cr1: Reg<cr1::Spec>,
        cr2: Reg<cr2::Spec>,
        _reserved0: [u8; 4],
        brr: Reg<brr::Spec>,
        _reserved1: [u8; 14],
        isr: Reg<isr::Spec>,
        icr: Reg<icr::Spec>,
        rdr: Reg<rdr::Spec>,
    }
    impl RegisterBlock {
        pub fn cr1(&self) -> &Reg<cr1::Spec> { &self.cr1 }
        pub fn cr2(&self) -> &Reg<cr2::Spec> { &self.cr2 }
        pub fn brr(&self) -> &Reg<brr::Spec> { &self.brr }
        pub fn isr(&self) -> &Reg<isr::Spec> { &self.isr }
        pub fn icr(&self) -> &Reg<icr::Spec> { &self.icr }
        pub fn rdr(&self) -> &Reg<rdr::Spec> { &self.rdr }
        pub fn tdr(&self) -> &Reg<tdr::Spec> { at(self, 0x24) }
    }
    pub mod cr1 {
        use crate::generic::*;
        pub struct Spec;
        impl RegisterSpec for Spec { type Ux = u32; }
        impl Readable for Spec {}
        impl Writable for Spec { const ZERO_TO_MODIFY: u32 = 0x0; const ONE_TO_MODIFY: u32 = 0x0; }
        impl Resettable for Spec { const RESET_VALUE: u32 = 0x0; }
        pub struct UE_F;
        pub struct RE_F;
        pub struct TE_F;
        pub struct RXNEIE_F;
        pub struct M_F;
        impl R<Spec> {
            pub fn ue(&self) -> BitReader<UE_F> { BitReader::new(((self.bits >> 0) & 0x1) != 0x0) }
            pub fn re(&self) -> BitReader<RE_F> { BitReader::new(((self.bits >> 2) & 0x1) != 0x0) }
            pub fn te(&self) -> BitReader<TE_F> { BitReader::new(((self.bits >> 3) & 0x1) != 0x0) }
            pub fn rxneie(&self) -> BitReader<RXNEIE_F> { BitReader::new(((self.bits >> 5) & 0x1) != 0x0) }
            pub fn m(&self) -> BitReader<M_F> { BitReader::new(((self.bits >> 12) & 0x1) != 0x0) }
        }
        impl W<Spec> {
            pub fn ue(&mut self) -> BitWriter<'_, Spec, UE_F> { BitWriter::new(self, 0) }
            pub fn re(&mut self) -> BitWriter<'_, Spec, RE_F> { BitWriter::new(self, 2) }
            pub fn te(&mut self) -> BitWriter<'_, Spec, TE_F> { BitWriter::new(self, 3) }
            pub fn rxneie(&mut self) -> BitWriter<'_, Spec, RXNEIE_F> { BitWriter::new(self, 5) }
            pub fn m(&mut self) -> BitWriter<'_, Spec, M_F> { BitWriter::new(self, 12) }
        }
        impl BitReader<M_F> {
            pub fn is_8_data_bits(&self) -> bool { self.bit() == false }
            pub fn is_9_data_bits(&self) -> bool { self.bit() == true }
        }
        impl<'a> BitWriter<'a, Spec, M_F> {
            pub fn _8_data_bits(self) -> &'a mut W<Spec> { self.bit(false) }
            pub fn _9_data_bits(self) -> &'a mut W<Spec> { self.bit(true) }
        }
    }
    pub mod cr2 {
        use crate::generic::*;
        pub struct Spec;
        impl RegisterSpec for Spec { type Ux = u32; }
        impl Readable for Spec {}
        impl Writable for Spec { const ZERO_TO_MODIFY: u32 = 0x0; const ONE_TO_MODIFY: u32 = 0x0; }
        impl Resettable for Spec { const RESET_VALUE: u32 = 0x0; }
        pub struct STOP_F;
        impl R<Spec> {
            pub fn stop(&self) -> FieldReader<STOP_F, u8> { FieldReader::new(((self.bits >> 12) & 0x3) as u8) }
        }
        impl W<Spec> {
            pub fn stop(&mut self) -> FieldWriter<'_, Spec, STOP_F, u8, 2> { FieldWriter::new(self, 12) }
        }
        impl FieldReader<STOP_F, u8> {
            pub fn is_one(&self) -> bool { self.bits() == 0x0 }
            pub fn is_half(&self) -> bool { self.bits() == 0x1 }
            pub fn is_two(&self) -> bool { self.bits() == 0x2 }
            pub fn is_one_and_a_half(&self) -> bool { self.bits() == 0x3 }
        }
        impl<'a> FieldWriter<'a, Spec, STOP_F, u8, 2> {
            pub fn one(self) -> &'a mut W<Spec> { self.bits(0x0) }
            pub fn half(self) -> &'a mut W<Spec> { self.bits(0x1) }
            pub fn two(self) -> &'a mut W<Spec> { self.bits(0x2) }
            pub fn one_and_a_half(self) -> &'a mut W<Spec> { self.bits(0x3) }
        }
    }
    pub mod brr {
        use crate::generic::*;
        pub struct Spec;
        impl RegisterSpec for Spec { type Ux = u16; }
        impl Readable for Spec {}
        impl Writable for Spec { const ZERO_TO_MODIFY: u16 = 0x0; const ONE_TO_MODIFY: u16 = 0x0; }
        impl Resettable for Spec { const RESET_VALUE: u16 = 0x0; }
        pub struct FRACTION_F;
        pub struct MANTISSA_F;
        impl R<Spec> {
            pub fn fraction(&self) -> FieldReader<FRACTION_F, u8> { FieldReader::new(((self.bits >> 0) & 0xf) as u8) }
            pub fn mantissa(&self) -> FieldReader<MANTISSA_F, u16> { FieldReader::new(((self.bits >> 4) & 0xfff) as u16) }
        }
        impl W<Spec> {
            pub fn fraction(&mut self) -> FieldWriter<'_, Spec, FRACTION_F, u8, 4> { FieldWriter::new(self, 0) }
            pub fn mantissa(&mut self) -> FieldWriter<'_, Spec, MANTISSA_F, u16, 12> { FieldWriter::new(self, 4) }
        }
    }
    pub mod isr {
        use crate::generic::*;
        pub struct Spec;
        impl RegisterSpec for Spec { type Ux = u32; }
        impl Readable for Spec {}
        impl Resettable for Spec { const RESET_VALUE: u32 = 0xc0; }
        pub struct PE_F;
        pub struct ORE_F;
        pub struct RXNE_F;
        pub struct TC_F;
        pub struct TXE_F;
        impl R<Spec> {
            pub fn pe(&self) -> BitReader<PE_F> { BitReader::new(((self.bits >> 0) & 0x1) != 0x0) }
            pub fn ore(&self) -> BitReader<ORE_F> { BitReader::new(((self.bits >> 3) & 0x1) != 0x0) }
            pub fn rxne(&self) -> BitReader<RXNE_F> { BitReader::new(((self.bits >> 5) & 0x1) != 0x0) }
            pub fn tc(&self) -> BitReader<TC_F> { BitReader::new(((self.bits >> 6) & 0x1) != 0x0) }
            pub fn txe(&self) -> BitReader<TXE_F> { BitReader::new(((self.bits >> 7) & 0x1) != 0x0) }
        }
    }
    pub mod icr {
        use crate::generic::*;
        pub struct Spec;
        impl RegisterSpec for Spec { type Ux = u32; }
        impl Writable for Spec { const ZERO_TO_MODIFY: u32 = 0x0; const ONE_TO_MODIFY: u32 = 0x49; }
        impl Resettable for Spec { const RESET_VALUE: u32 = 0x0; }
        pub struct PECF_F;
        pub struct ORECF_F;
        pub struct TCCF_F;
        impl W<Spec> {
            pub fn pecf(&mut self) -> BitWriter1C<'_, Spec, PECF_F> { BitWriter1C::new(self, 0) }
            pub fn orecf(&mut self) -> BitWriter1C<'_, Spec, ORECF_F> { BitWriter1C::new(self, 3) }
            pub fn tccf(&mut self) -> BitWriter1C<'_, Spec, TCCF_F> { BitWriter1C::new(self, 6) }
        }
    }
    pub mod rdr {
        use crate::generic::*;
        pub struct Spec;
        impl RegisterSpec for Spec { type Ux = u8; }
        impl Readable for Spec {}
        impl Resettable for Spec { const RESET_VALUE: u8 = 0x0; }
        impl R<Spec> {
        }
    }
    pub mod tdr {
        use crate::generic::*;
        pub struct Spec;
        impl RegisterSpec for Spec { type Ux = u8; }
        impl Writable for Spec { const ZERO_TO_MODIFY: u8 = 0x0; const ONE_TO_MODIFY: u8 = 0x0; }
        impl Resettable for Spec { const RESET_VALUE: u8 = 0x0; }
        impl W<Spec> {
        }
    }
}
