use crate::generic::*;

pub struct Peripherals {
    pub PORT: Periph<port::RegisterBlock, 0x41004400>,
    pub TIMER: Periph<timer::RegisterBlock, 0x42002c00>,
}

pub mod port {
    use crate::generic::*;
    #[repr(C)]
    pub struct RegisterBlock {
        dir: Reg<dir::Spec>,
        _reserved0: [u8; 15],
        out: Reg<out::Spec>,
        _reserved1: [u8; 11],
        outtgl: Reg<outtgl::Spec>,
    }
    impl RegisterBlock {
        pub fn dir(&self) -> &Reg<dir::Spec> { &self.dir }
        pub fn out(&self) -> &Reg<out::Spec> { &self.out }
        pub fn outtgl(&self) -> &Reg<outtgl::Spec> { &self.outtgl }
    }
    pub mod dir {
        use crate::generic::*;
        pub struct Spec;
        impl RegisterSpec for Spec { type Ux = u8; }
        impl Readable for Spec {}
        impl Writable for Spec { const ZERO_TO_MODIFY: u8 = 0x0; const ONE_TO_MODIFY: u8 = 0x0; }
        impl Resettable for Spec { const RESET_VALUE: u8 = 0x0; }
        pub struct PIN0_F;
        pub struct PIN1_F;
        pub struct PIN2_F;
        pub struct PIN3_F;
        pub struct PIN4_F;
        pub struct PIN5_F;
        pub struct PIN6_F;
        pub struct PIN7_F;
        impl R<Spec> {
            pub fn pin0(&self) -> BitReader<PIN0_F> { BitReader::new(((self.bits >> 0) & 0x1) != 0x0) }
            pub fn pin1(&self) -> BitReader<PIN1_F> { BitReader::new(((self.bits >> 1) & 0x1) != 0x0) }
            pub fn pin2(&self) -> BitReader<PIN2_F> { BitReader::new(((self.bits >> 2) & 0x1) != 0x0) }
            pub fn pin3(&self) -> BitReader<PIN3_F> { BitReader::new(((self.bits >> 3) & 0x1) != 0x0) }
            pub fn pin4(&self) -> BitReader<PIN4_F> { BitReader::new(((self.bits >> 4) & 0x1) != 0x0) }
            pub fn pin5(&self) -> BitReader<PIN5_F> { BitReader::new(((self.bits >> 5) & 0x1) != 0x0) }
            pub fn pin6(&self) -> BitReader<PIN6_F> { BitReader::new(((self.bits >> 6) & 0x1) != 0x0) }
            pub fn pin7(&self) -> BitReader<PIN7_F> { BitReader::new(((self.bits >> 7) & 0x1) != 0x0) }
        }
        impl W<Spec> {
            pub fn pin0(&mut self) -> BitWriter<'_, Spec, PIN0_F> { BitWriter::new(self, 0) }
            pub fn pin1(&mut self) -> BitWriter<'_, Spec, PIN1_F> { BitWriter::new(self, 1) }
            pub fn pin2(&mut self) -> BitWriter<'_, Spec, PIN2_F> { BitWriter::new(self, 2) }
            pub fn pin3(&mut self) -> BitWriter<'_, Spec, PIN3_F> { BitWriter::new(self, 3) }
            pub fn pin4(&mut self) -> BitWriter<'_, Spec, PIN4_F> { BitWriter::new(self, 4) }
            pub fn pin5(&mut self) -> BitWriter<'_, Spec, PIN5_F> { BitWriter::new(self, 5) }
            pub fn pin6(&mut self) -> BitWriter<'_, Spec, PIN6_F> { BitWriter::new(self, 6) }
            pub fn pin7(&mut self) -> BitWriter<'_, Spec, PIN7_F> { BitWriter::new(self, 7) }
        }
        impl BitReader<PIN0_F> {
            pub fn is_input(&self) -> bool { self.bit() == false }
            pub fn is_output(&self) -> bool { self.bit() == true }
        }
        impl<'a> BitWriter<'a, Spec, PIN0_F> {
            pub fn input(self) -> &'a mut W<Spec> { self.bit(false) }
            pub fn output(self) -> &'a mut W<Spec> { self.bit(true) }
        }
        impl BitReader<PIN1_F> {
            pub fn is_input(&self) -> bool { self.bit() == false }
            pub fn is_output(&self) -> bool { self.bit() == true }
        }
        impl<'a> BitWriter<'a, Spec, PIN1_F> {
            pub fn input(self) -> &'a mut W<Spec> { self.bit(false) }
            pub fn output(self) -> &'a mut W<Spec> { self.bit(true) }
        }
        impl BitReader<PIN2_F> {
            pub fn is_input(&self) -> bool { self.bit() == false }
            pub fn is_output(&self) -> bool { self.bit() == true }
        }
        impl<'a> BitWriter<'a, Spec, PIN2_F> {
            pub fn input(self) -> &'a mut W<Spec> { self.bit(false) }
            pub fn output(self) -> &'a mut W<Spec> { self.bit(true) }
        }
        impl BitReader<PIN3_F> {
            pub fn is_input(&self) -> bool { self.bit() == false }
            pub fn is_output(&self) -> bool { self.bit() == true }
        }
        impl<'a> BitWriter<'a, Spec, PIN3_F> {
            pub fn input(self) -> &'a mut W<Spec> { self.bit(false) }
            pub fn output(self) -> &'a mut W<Spec> { self.bit(true) }
        }
        impl BitReader<PIN4_F> {
            pub fn is_input(&self) -> bool { self.bit() == false }
            pub fn is_output(&self) -> bool { self.bit() == true }
        }
        impl<'a> BitWriter<'a, Spec, PIN4_F> {
            pub fn input(self) -> &'a mut W<Spec> { self.bit(false) }
            pub fn output(self) -> &'a mut W<Spec> { self.bit(true) }
        }
        impl BitReader<PIN5_F> {
            pub fn is_input(&self) -> bool { self.bit() == false }
            pub fn is_output(&self) -> bool { self.bit() == true }
        }
        impl<'a> BitWriter<'a, Spec, PIN5_F> {
            pub fn input(self) -> &'a mut W<Spec> { self.bit(false) }
            pub fn output(self) -> &'a mut W<Spec> { self.bit(true) }
        }
        impl BitReader<PIN6_F> {
            pub fn is_input(&self) -> bool { self.bit() == false }
            pub fn is_output(&self) -> bool { self.bit() == true }
        }
        impl<'a> BitWriter<'a, Spec, PIN6_F> {
            pub fn input(self) -> &'a mut W<Spec> { self.bit(false) }
            pub fn output(self) -> &'a mut W<Spec> { self.bit(true) }
        }
        impl BitReader<PIN7_F> {
            pub fn is_input(&self) -> bool { self.bit() == false }
            pub fn is_output(&self) -> bool { self.bit() == true }
        }
        impl<'a> BitWriter<'a, Spec, PIN7_F> {
            pub fn input(self) -> &'a mut W<Spec> { self.bit(false) }
            pub fn output(self) -> &'a mut W<Spec> { self.bit(true) }
        }
    }
    pub mod out {
        use crate::generic::*;
        pub struct Spec;
        impl RegisterSpec for Spec { type Ux = u8; }
        impl Readable for Spec {}
        impl Writable for Spec { const ZERO_TO_MODIFY: u8 = 0x0; const ONE_TO_MODIFY: u8 = 0x0; }
        impl Resettable for Spec { const RESET_VALUE: u8 = 0x0; }
        pub struct PIN0_F;
        pub struct PIN1_F;
        pub struct PIN2_F;
        pub struct PIN3_F;
        pub struct PIN4_F;
        pub struct PIN5_F;
        pub struct PIN6_F;
        pub struct PIN7_F;
        impl R<Spec> {
            pub fn pin0(&self) -> BitReader<PIN0_F> { BitReader::new(((self.bits >> 0) & 0x1) != 0x0) }
            pub fn pin1(&self) -> BitReader<PIN1_F> { BitReader::new(((self.bits >> 1) & 0x1) != 0x0) }
            pub fn pin2(&self) -> BitReader<PIN2_F> { BitReader::new(((self.bits >> 2) & 0x1) != 0x0) }
            pub fn pin3(&self) -> BitReader<PIN3_F> { BitReader::new(((self.bits >> 3) & 0x1) != 0x0) }
            pub fn pin4(&self) -> BitReader<PIN4_F> { BitReader::new(((self.bits >> 4) & 0x1) != 0x0) }
            pub fn pin5(&self) -> BitReader<PIN5_F> { BitReader::new(((self.bits >> 5) & 0x1) != 0x0) }
            pub fn pin6(&self) -> BitReader<PIN6_F> { BitReader::new(((self.bits >> 6) & 0x1) != 0x0) }
            pub fn pin7(&self) -> BitReader<PIN7_F> { BitReader::new(((self.bits >> 7) & 0x1) != 0x0) }
        }
        impl W<Spec> {
            pub fn pin0(&mut self) -> BitWriter<'_, Spec, PIN0_F> { BitWriter::new(self, 0) }
            pub fn pin1(&mut self) -> BitWriter<'_, Spec, PIN1_F> { BitWriter::new(self, 1) }
            pub fn pin2(&mut self) -> BitWriter<'_, Spec, PIN2_F> { BitWriter::new(self, 2) }
            pub fn pin3(&mut self) -> BitWriter<'_, Spec, PIN3_F> { BitWriter::new(self, 3) }
            pub fn pin4(&mut self) -> BitWriter<'_, Spec, PIN4_F> { BitWriter::new(self, 4) }
            pub fn pin5(&mut self) -> BitWriter<'_, Spec, PIN5_F> { BitWriter::new(self, 5) }
            pub fn pin6(&mut self) -> BitWriter<'_, Spec, PIN6_F> { BitWriter::new(self, 6) }
            pub fn pin7(&mut self) -> BitWriter<'_, Spec, PIN7_F> { BitWriter::new(self, 7) }
        }
    }
    pub mod outtgl {
        use crate::generic::*;
        pub struct Spec;
        impl RegisterSpec for Spec { type Ux = u8; }
        impl Writable for Spec { const ZERO_TO_MODIFY: u8 = 0x0; const ONE_TO_MODIFY: u8 = 0xff; }
        impl Resettable for Spec { const RESET_VALUE: u8 = 0x0; }
        pub struct PIN0_F;
        pub struct PIN1_F;
        pub struct PIN2_F;
        pub struct PIN3_F;
        pub struct PIN4_F;
        pub struct PIN5_F;
        pub struct PIN6_F;
        pub struct PIN7_F;
        impl W<Spec> {
            pub fn pin0(&mut self) -> BitWriter1T<'_, Spec, PIN0_F> { BitWriter1T::new(self, 0) }
            pub fn pin1(&mut self) -> BitWriter1T<'_, Spec, PIN1_F> { BitWriter1T::new(self, 1) }
            pub fn pin2(&mut self) -> BitWriter1T<'_, Spec, PIN2_F> { BitWriter1T::new(self, 2) }
            pub fn pin3(&mut self) -> BitWriter1T<'_, Spec, PIN3_F> { BitWriter1T::new(self, 3) }
            pub fn pin4(&mut self) -> BitWriter1T<'_, Spec, PIN4_F> { BitWriter1T::new(self, 4) }
            pub fn pin5(&mut self) -> BitWriter1T<'_, Spec, PIN5_F> { BitWriter1T::new(self, 5) }
            pub fn pin6(&mut self) -> BitWriter1T<'_, Spec, PIN6_F> { BitWriter1T::new(self, 6) }
            pub fn pin7(&mut self) -> BitWriter1T<'_, Spec, PIN7_F> { BitWriter1T::new(self, 7) }
        }
    }
}

pub mod timer {
    use crate::generic::*;
    #[repr(C)]
    pub struct RegisterBlock {
        ctrl: Reg<ctrl::Spec>,
        _reserved0: [u8; 12],
        intflag: Reg<intflag::Spec>,
        _reserved1: [u8; 9],
        period: Reg<period::Spec>,
    }
    impl RegisterBlock {
        pub fn ctrl(&self) -> &Reg<ctrl::Spec> { &self.ctrl }
        pub fn intflag(&self) -> &Reg<intflag::Spec> { &self.intflag }
        pub fn period(&self) -> &Reg<period::Spec> { &self.period }
    }
    pub mod ctrl {
        use crate::generic::*;
        pub struct Spec;
        impl RegisterSpec for Spec { type Ux = u16; }
        impl Readable for Spec {}
        impl Writable for Spec { const ZERO_TO_MODIFY: u16 = 0x0; const ONE_TO_MODIFY: u16 = 0x0; }
        impl Resettable for Spec { const RESET_VALUE: u16 = 0x0; }
        pub struct ENABLE_F;
        pub struct PRESCALER_F;
        impl R<Spec> {
            pub fn enable(&self) -> BitReader<ENABLE_F> { BitReader::new(((self.bits >> 1) & 0x1) != 0x0) }
            pub fn prescaler(&self) -> FieldReader<PRESCALER_F, u8> { FieldReader::new(((self.bits >> 8) & 0x7) as u8) }
        }
        impl W<Spec> {
            pub fn enable(&mut self) -> BitWriter<'_, Spec, ENABLE_F> { BitWriter::new(self, 1) }
            pub fn prescaler(&mut self) -> FieldWriter<'_, Spec, PRESCALER_F, u8, 3> { FieldWriter::new(self, 8) }
        }
        impl FieldReader<PRESCALER_F, u8> {
            pub fn is_div1(&self) -> bool { self.bits() == 0x0 }
            pub fn is_div64(&self) -> bool { self.bits() == 0x5 }
            pub fn is_div1024(&self) -> bool { self.bits() == 0x7 }
        }
        impl<'a> FieldWriter<'a, Spec, PRESCALER_F, u8, 3> {
            pub fn div1(self) -> &'a mut W<Spec> { self.bits(0x0) }
            pub fn div64(self) -> &'a mut W<Spec> { self.bits(0x5) }
            pub fn div1024(self) -> &'a mut W<Spec> { self.bits(0x7) }
        }
    }
    pub mod intflag {
        use crate::generic::*;
        pub struct Spec;
        impl RegisterSpec for Spec { type Ux = u8; }
        impl Readable for Spec {}
        impl Writable for Spec { const ZERO_TO_MODIFY: u8 = 0x0; const ONE_TO_MODIFY: u8 = 0x3; }
        impl Resettable for Spec { const RESET_VALUE: u8 = 0x0; }
        pub struct OVF_F;
        pub struct ERR_F;
        impl R<Spec> {
            pub fn ovf(&self) -> BitReader<OVF_F> { BitReader::new(((self.bits >> 0) & 0x1) != 0x0) }
            pub fn err(&self) -> BitReader<ERR_F> { BitReader::new(((self.bits >> 1) & 0x1) != 0x0) }
        }
        impl W<Spec> {
            pub fn ovf(&mut self) -> BitWriter1C<'_, Spec, OVF_F> { BitWriter1C::new(self, 0) }
            pub fn err(&mut self) -> BitWriter1C<'_, Spec, ERR_F> { BitWriter1C::new(self, 1) }
        }
    }
    pub mod period {
        use crate::generic::*;
        pub struct Spec;
        impl RegisterSpec for Spec { type Ux = u32; }
        impl Readable for Spec {}
        impl Writable for Spec { const ZERO_TO_MODIFY: u32 = 0x0; const ONE_TO_MODIFY: u32 = 0x0; }
        impl Resettable for Spec { const RESET_VALUE: u32 = 0xffffffff; }
        impl R<Spec> {
        }
        impl W<Spec> {
        }
    }
}
