use crate::generic::*;

pub struct Peripherals {
    pub TIM6: Periph<tim6::RegisterBlock, 0x40001000>,
}

pub mod tim6 {
    use crate::generic::*;
    #[repr(C)]
    pub struct RegisterBlock {
        cr: Reg<cr::Spec>,
        _reserved0: [u8; 2],
        sr: Reg<sr::Spec>,
        cnt: Reg<cnt::Spec>,
        arr: Reg<arr::Spec>,
        type_: Reg<type_::Spec>,
    }
    impl RegisterBlock {
        pub fn cr(&self) -> &Reg<cr::Spec> { &self.cr }
        pub fn sr(&self) -> &Reg<sr::Spec> { &self.sr }
        pub fn cnt(&self) -> &Reg<cnt::Spec> { &self.cnt }
        pub fn arr(&self) -> &Reg<arr::Spec> { &self.arr }
        pub fn type_(&self) -> &Reg<type_::Spec> { &self.type_ }
    }
    pub mod cr {
        use crate::generic::*;
        pub struct Spec;
        impl RegisterSpec for Spec { type Ux = u16; }
        impl Readable for Spec {}
        impl Writable for Spec { const ZERO_TO_MODIFY: u16 = 0x0; const ONE_TO_MODIFY: u16 = 0x0; }
        impl Resettable for Spec { const RESET_VALUE: u16 = 0x0; }
        pub struct CEN_F;
        pub struct MODE_F;
        pub struct UG_F;
        impl R<Spec> {
            pub fn cen(&self) -> BitReader<CEN_F> { BitReader::new(((self.bits >> 0) & 0x1) != 0x0) }
            pub fn mode(&self) -> FieldReader<MODE_F, u8> { FieldReader::new(((self.bits >> 4) & 0x3) as u8) }
        }
        impl W<Spec> {
            pub fn cen(&mut self) -> BitWriter<'_, Spec, CEN_F> { BitWriter::new(self, 0) }
            pub fn mode(&mut self) -> FieldWriter<'_, Spec, MODE_F, u8, 2> { FieldWriter::new(self, 4) }
            pub fn ug(&mut self) -> BitWriter<'_, Spec, UG_F> { BitWriter::new(self, 8) }
        }
        impl BitReader<CEN_F> {
            pub fn is_disabled(&self) -> bool { self.bit() == false }
            pub fn is_enabled(&self) -> bool { self.bit() == true }
        }
        impl<'a> BitWriter<'a, Spec, CEN_F> {
            pub fn disabled(self) -> &'a mut W<Spec> { self.bit(false) }
            pub fn enabled(self) -> &'a mut W<Spec> { self.bit(true) }
        }
        impl FieldReader<MODE_F, u8> {
            pub fn is_up(&self) -> bool { self.bits() == 0x0 }
            pub fn is_down(&self) -> bool { self.bits() == 0x1 }
            pub fn is_centre(&self) -> bool { self.bits() == 0x2 }
        }
        impl<'a> FieldWriter<'a, Spec, MODE_F, u8, 2> {
            pub fn up(self) -> &'a mut W<Spec> { self.bits(0x0) }
            pub fn down(self) -> &'a mut W<Spec> { self.bits(0x1) }
            pub fn centre(self) -> &'a mut W<Spec> { self.bits(0x2) }
        }
    }
    pub mod sr {
        use crate::generic::*;
        pub struct Spec;
        impl RegisterSpec for Spec { type Ux = u32; }
        impl Readable for Spec {}
        impl Writable for Spec { const ZERO_TO_MODIFY: u32 = 0x0; const ONE_TO_MODIFY: u32 = 0x3; }
        impl Resettable for Spec { const RESET_VALUE: u32 = 0x0; }
        pub struct UIF_F;
        pub struct OVF_F;
        pub struct BUSY_F;
        impl R<Spec> {
            pub fn uif(&self) -> BitReader<UIF_F> { BitReader::new(((self.bits >> 0) & 0x1) != 0x0) }
            pub fn ovf(&self) -> BitReader<OVF_F> { BitReader::new(((self.bits >> 1) & 0x1) != 0x0) }
            pub fn busy(&self) -> BitReader<BUSY_F> { BitReader::new(((self.bits >> 31) & 0x1) != 0x0) }
        }
        impl W<Spec> {
            pub fn uif(&mut self) -> BitWriter1C<'_, Spec, UIF_F> { BitWriter1C::new(self, 0) }
            pub fn ovf(&mut self) -> BitWriter1C<'_, Spec, OVF_F> { BitWriter1C::new(self, 1) }
        }
    }
    pub mod cnt {
        use crate::generic::*;
        pub struct Spec;
        impl RegisterSpec for Spec { type Ux = u32; }
        impl Readable for Spec {}
        impl Writable for Spec { const ZERO_TO_MODIFY: u32 = 0x0; const ONE_TO_MODIFY: u32 = 0x0; }
        impl Resettable for Spec { const RESET_VALUE: u32 = 0x0; }
        impl R<Spec> {
        }
        impl W<Spec> {
        }
    }
    pub mod arr {
        use crate::generic::*;
        pub struct Spec;
        impl RegisterSpec for Spec { type Ux = u32; }
        impl Readable for Spec {}
        impl Writable for Spec { const ZERO_TO_MODIFY: u32 = 0x0; const ONE_TO_MODIFY: u32 = 0x0; }
        impl Resettable for Spec { const RESET_VALUE: u32 = 0xffff; }
        impl R<Spec> {
        }
        impl W<Spec> {
        }
    }
    pub mod type_ {
        use crate::generic::*;
        pub struct Spec;
        impl RegisterSpec for Spec { type Ux = u8; }
        impl Readable for Spec {}
        impl Resettable for Spec { const RESET_VALUE: u8 = 0x6; }
        impl R<Spec> {
        }
    }
}
