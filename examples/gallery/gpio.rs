pub const CRATE_TEXT: u32 = 0x2;
use crate::generic::*;

pub struct Peripherals {
    pub GPIOA: Periph<gpioa::RegisterBlock, 0x48000000>,
    pub GPIOB: Periph<gpiob::RegisterBlock, 0x48000400>,
}

pub mod gpioa {
    use crate::generic::*;
    #[repr(C)]
    pub struct RegisterBlock {
        moder: Reg<moder::Spec>,
        _reserved0: [u8; 12],
        idr: Reg<idr::Spec>,
        odr: Reg<odr::Spec>,
        bsrr: Reg<bsrr::Spec>,
        _reserved1: [u8; 4],
        afr: [Reg<afr::Spec>; 2],
    }
    impl RegisterBlock {
        pub fn moder(&self) -> &Reg<moder::Spec> { &self.moder }
        pub fn idr(&self) -> &Reg<idr::Spec> { &self.idr }
        pub fn odr(&self) -> &Reg<odr::Spec> { &self.odr }
        pub fn bsrr(&self) -> &Reg<bsrr::Spec> { &self.bsrr }
        pub fn afr(&self, n: usize) -> &Reg<afr::Spec> { &self.afr[n] }
    }
    pub mod moder {
        use crate::generic::*;
        pub struct Spec;
        impl RegisterSpec for Spec { type Ux = u32; }
        impl Readable for Spec {}
        impl Writable for Spec { const ZERO_TO_MODIFY: u32 = 0x0; const ONE_TO_MODIFY: u32 = 0x0; }
        impl Resettable for Spec { const RESET_VALUE: u32 = 0xabffffff; }
        pub struct MODE_F;
        impl R<Spec> {
            pub fn mode(&self, n: usize) -> FieldReader<MODE_F, u8> { FieldReader::new(((self.bits >> at_bit(0, 2, 16, n)) & 0x3) as u8) }
        }
        impl W<Spec> {
            pub fn mode(&mut self, n: usize) -> FieldWriter<'_, Spec, MODE_F, u8, 2> { FieldWriter::new(self, at_bit(0, 2, 16, n)) }
        }
        impl FieldReader<MODE_F, u8> {
            pub fn is_input(&self) -> bool { self.bits() == 0x0 }
            pub fn is_output(&self) -> bool { self.bits() == 0x1 }
            pub fn is_alternate(&self) -> bool { self.bits() == 0x2 }
            pub fn is_analog(&self) -> bool { self.bits() == 0x3 }
        }
        impl<'a> FieldWriter<'a, Spec, MODE_F, u8, 2> {
            pub fn input(self) -> &'a mut W<Spec> { self.bits(0x0) }
            pub fn output(self) -> &'a mut W<Spec> { self.bits(0x1) }
            pub fn alternate(self) -> &'a mut W<Spec> { self.bits(0x2) }
            pub fn analog(self) -> &'a mut W<Spec> { self.bits(0x3) }
        }
    }
    pub mod idr {
        use crate::generic::*;
        pub struct Spec;
        impl RegisterSpec for Spec { type Ux = u32; }
        impl Readable for Spec {}
        impl Resettable for Spec { const RESET_VALUE: u32 = 0x0; }
        pub struct ID_F;
        impl R<Spec> {
            pub fn id(&self, n: usize) -> BitReader<ID_F> { BitReader::new(((self.bits >> at_bit(0, 1, 16, n)) & 0x1) != 0x0) }
        }
    }
    pub mod odr {
        use crate::generic::*;
        pub struct Spec;
        impl RegisterSpec for Spec { type Ux = u32; }
        impl Readable for Spec {}
        impl Writable for Spec { const ZERO_TO_MODIFY: u32 = 0x0; const ONE_TO_MODIFY: u32 = 0x0; }
        impl Resettable for Spec { const RESET_VALUE: u32 = 0x0; }
        pub struct OD_F;
        impl R<Spec> {
            pub fn od(&self, n: usize) -> BitReader<OD_F> { BitReader::new(((self.bits >> at_bit(0, 1, 16, n)) & 0x1) != 0x0) }
        }
        impl W<Spec> {
            pub fn od(&mut self, n: usize) -> BitWriter<'_, Spec, OD_F> { BitWriter::new(self, at_bit(0, 1, 16, n)) }
        }
    }
    pub mod bsrr {
        use crate::generic::*;
        pub struct Spec;
        impl RegisterSpec for Spec { type Ux = u32; }
        impl Writable for Spec { const ZERO_TO_MODIFY: u32 = 0x0; const ONE_TO_MODIFY: u32 = 0xffffffff; }
        impl Resettable for Spec { const RESET_VALUE: u32 = 0x0; }
        pub struct BS_F;
        pub struct BR_F;
        impl W<Spec> {
            pub fn bs(&mut self, n: usize) -> BitWriter1S<'_, Spec, BS_F> { BitWriter1S::new(self, at_bit(0, 1, 16, n)) }
            pub fn br(&mut self, n: usize) -> BitWriter1C<'_, Spec, BR_F> { BitWriter1C::new(self, at_bit(16, 1, 16, n)) }
        }
    }
    pub mod afr {
        use crate::generic::*;
        pub struct Spec;
        impl RegisterSpec for Spec { type Ux = u32; }
        impl Readable for Spec {}
        impl Writable for Spec { const ZERO_TO_MODIFY: u32 = 0x0; const ONE_TO_MODIFY: u32 = 0x0; }
        impl Resettable for Spec { const RESET_VALUE: u32 = 0x0; }
        pub struct AF_F;
        impl R<Spec> {
            pub fn af(&self, n: usize) -> FieldReader<AF_F, u8> { FieldReader::new(((self.bits >> at_bit(0, 4, 8, n)) & 0xf) as u8) }
        }
        impl W<Spec> {
            pub fn af(&mut self, n: usize) -> FieldWriter<'_, Spec, AF_F, u8, 4> { FieldWriter::new(self, at_bit(0, 4, 8, n)) }
        }
    }
}

pub mod gpiob {
    use crate::generic::*;
    #[repr(C)]
    pub struct RegisterBlock {
        moder: Reg<moder::Spec>,
        _reserved0: [u8; 12],
        idr: Reg<idr::Spec>,
        odr: Reg<odr::Spec>,
        bsrr: Reg<bsrr::Spec>,
        _reserved1: [u8; 4],
        afr: [Reg<afr::Spec>; 2],
    }
    impl RegisterBlock {
        pub fn moder(&self) -> &Reg<moder::Spec> { &self.moder }
        pub fn idr(&self) -> &Reg<idr::Spec> { &self.idr }
        pub fn odr(&self) -> &Reg<odr::Spec> { &self.odr }
        pub fn bsrr(&self) -> &Reg<bsrr::Spec> { &self.bsrr }
        pub fn afr(&self, n: usize) -> &Reg<afr::Spec> { &self.afr[n] }
    }
    pub mod moder {
        use crate::generic::*;
        pub struct Spec;
        impl RegisterSpec for Spec { type Ux = u32; }
        impl Readable for Spec {}
        impl Writable for Spec { const ZERO_TO_MODIFY: u32 = 0x0; const ONE_TO_MODIFY: u32 = 0x0; }
        impl Resettable for Spec { const RESET_VALUE: u32 = 0xabffffff; }
        pub struct MODE_F;
        impl R<Spec> {
            pub fn mode(&self, n: usize) -> FieldReader<MODE_F, u8> { FieldReader::new(((self.bits >> at_bit(0, 2, 16, n)) & 0x3) as u8) }
        }
        impl W<Spec> {
            pub fn mode(&mut self, n: usize) -> FieldWriter<'_, Spec, MODE_F, u8, 2> { FieldWriter::new(self, at_bit(0, 2, 16, n)) }
        }
        impl FieldReader<MODE_F, u8> {
            pub fn is_input(&self) -> bool { self.bits() == 0x0 }
            pub fn is_output(&self) -> bool { self.bits() == 0x1 }
            pub fn is_alternate(&self) -> bool { self.bits() == 0x2 }
            pub fn is_analog(&self) -> bool { self.bits() == 0x3 }
        }
        impl<'a> FieldWriter<'a, Spec, MODE_F, u8, 2> {
            pub fn input(self) -> &'a mut W<Spec> { self.bits(0x0) }
            pub fn output(self) -> &'a mut W<Spec> { self.bits(0x1) }
            pub fn alternate(self) -> &'a mut W<Spec> { self.bits(0x2) }
            pub fn analog(self) -> &'a mut W<Spec> { self.bits(0x3) }
        }
    }
    pub mod idr {
        use crate::generic::*;
        pub struct Spec;
        impl RegisterSpec for Spec { type Ux = u32; }
        impl Readable for Spec {}
        impl Resettable for Spec { const RESET_VALUE: u32 = 0x0; }
        pub struct ID_F;
        impl R<Spec> {
            pub fn id(&self, n: usize) -> BitReader<ID_F> { BitReader::new(((self.bits >> at_bit(0, 1, 16, n)) & 0x1) != 0x0) }
        }
    }
    pub mod odr {
        use crate::generic::*;
        pub struct Spec;
        impl RegisterSpec for Spec { type Ux = u32; }
        impl Readable for Spec {}
        impl Writable for Spec { const ZERO_TO_MODIFY: u32 = 0x0; const ONE_TO_MODIFY: u32 = 0x0; }
        impl Resettable for Spec { const RESET_VALUE: u32 = 0x0; }
        pub struct OD_F;
        impl R<Spec> {
            pub fn od(&self, n: usize) -> BitReader<OD_F> { BitReader::new(((self.bits >> at_bit(0, 1, 16, n)) & 0x1) != 0x0) }
        }
        impl W<Spec> {
            pub fn od(&mut self, n: usize) -> BitWriter<'_, Spec, OD_F> { BitWriter::new(self, at_bit(0, 1, 16, n)) }
        }
    }
    pub mod bsrr {
        use crate::generic::*;
        pub struct Spec;
        impl RegisterSpec for Spec { type Ux = u32; }
        impl Writable for Spec { const ZERO_TO_MODIFY: u32 = 0x0; const ONE_TO_MODIFY: u32 = 0xffffffff; }
        impl Resettable for Spec { const RESET_VALUE: u32 = 0x0; }
        pub struct BS_F;
        pub struct BR_F;
        impl W<Spec> {
            pub fn bs(&mut self, n: usize) -> BitWriter1S<'_, Spec, BS_F> { BitWriter1S::new(self, at_bit(0, 1, 16, n)) }
            pub fn br(&mut self, n: usize) -> BitWriter1C<'_, Spec, BR_F> { BitWriter1C::new(self, at_bit(16, 1, 16, n)) }
        }
    }
    pub mod afr {
        use crate::generic::*;
        pub struct Spec;
        impl RegisterSpec for Spec { type Ux = u32; }
        impl Readable for Spec {}
        impl Writable for Spec { const ZERO_TO_MODIFY: u32 = 0x0; const ONE_TO_MODIFY: u32 = 0x0; }
        impl Resettable for Spec { const RESET_VALUE: u32 = 0x0; }
        pub struct AF_F;
        impl R<Spec> {
            pub fn af(&self, n: usize) -> FieldReader<AF_F, u8> { FieldReader::new(((self.bits >> at_bit(0, 4, 8, n)) & 0xf) as u8) }
        }
        impl W<Spec> {
            pub fn af(&mut self, n: usize) -> FieldWriter<'_, Spec, AF_F, u8, 4> { FieldWriter::new(self, at_bit(0, 4, 8, n)) }
        }
    }
}
