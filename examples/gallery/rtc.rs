use crate::generic::*;

pub struct Peripherals {
    pub RTC: Periph<rtc::RegisterBlock, 0x40002800>,
}

pub mod rtc {
    use crate::generic::*;
    #[repr(C)]
    pub struct RegisterBlock {
        tr: Reg<tr::Spec>,
        dr: Reg<dr::Spec>,
        _reserved0: [u8; 4],
        isr: Reg<isr::Spec>,
        _reserved1: [u8; 20],
        wpr: Reg<wpr::Spec>,
        _reserved2: [u8; 36],
        or: Reg<or::Spec>,
    }
    impl RegisterBlock {
        pub fn tr(&self) -> &Reg<tr::Spec> { &self.tr }
        pub fn dr(&self) -> &Reg<dr::Spec> { &self.dr }
        pub fn isr(&self) -> &Reg<isr::Spec> { &self.isr }
        pub fn wpr(&self) -> &Reg<wpr::Spec> { &self.wpr }
        pub fn or(&self) -> &Reg<or::Spec> { &self.or }
    }
    pub mod tr {
        use crate::generic::*;
        pub struct Spec;
        impl RegisterSpec for Spec { type Ux = u32; }
        impl Readable for Spec {}
        impl Writable for Spec { const ZERO_TO_MODIFY: u32 = 0x0; const ONE_TO_MODIFY: u32 = 0x0; }
        impl Resettable for Spec { const RESET_VALUE: u32 = 0x0; }
        pub struct SU_F;
        pub struct ST_F;
        pub struct MNU_F;
        pub struct MNT_F;
        pub struct HU_F;
        pub struct HT_F;
        pub struct PM_F;
        impl R<Spec> {
            pub fn su(&self) -> FieldReader<SU_F, u8> { FieldReader::new(((self.bits >> 0) & 0xf) as u8) }
            pub fn st(&self) -> FieldReader<ST_F, u8> { FieldReader::new(((self.bits >> 4) & 0x7) as u8) }
            pub fn mnu(&self) -> FieldReader<MNU_F, u8> { FieldReader::new(((self.bits >> 8) & 0xf) as u8) }
            pub fn mnt(&self) -> FieldReader<MNT_F, u8> { FieldReader::new(((self.bits >> 12) & 0x7) as u8) }
            pub fn hu(&self) -> FieldReader<HU_F, u8> { FieldReader::new(((self.bits >> 16) & 0xf) as u8) }
            pub fn ht(&self) -> FieldReader<HT_F, u8> { FieldReader::new(((self.bits >> 20) & 0x3) as u8) }
            pub fn pm(&self) -> BitReader<PM_F> { BitReader::new(((self.bits >> 22) & 0x1) != 0x0) }
        }
        impl W<Spec> {
            pub fn su(&mut self) -> FieldWriter<'_, Spec, SU_F, u8, 4> { FieldWriter::new(self, 0) }
            pub fn st(&mut self) -> FieldWriter<'_, Spec, ST_F, u8, 3> { FieldWriter::new(self, 4) }
            pub fn mnu(&mut self) -> FieldWriter<'_, Spec, MNU_F, u8, 4> { FieldWriter::new(self, 8) }
            pub fn mnt(&mut self) -> FieldWriter<'_, Spec, MNT_F, u8, 3> { FieldWriter::new(self, 12) }
            pub fn hu(&mut self) -> FieldWriter<'_, Spec, HU_F, u8, 4> { FieldWriter::new(self, 16) }
            pub fn ht(&mut self) -> FieldWriter<'_, Spec, HT_F, u8, 2> { FieldWriter::new(self, 20) }
            pub fn pm(&mut self) -> BitWriter<'_, Spec, PM_F> { BitWriter::new(self, 22) }
        }
        impl BitReader<PM_F> {
            pub fn is_am_or_24_hour(&self) -> bool { self.bit() == false }
            pub fn is_pm(&self) -> bool { self.bit() == true }
        }
        impl<'a> BitWriter<'a, Spec, PM_F> {
            pub fn am_or_24_hour(self) -> &'a mut W<Spec> { self.bit(false) }
            pub fn pm(self) -> &'a mut W<Spec> { self.bit(true) }
        }
    }
    pub mod dr {
        use crate::generic::*;
        pub struct Spec;
        impl RegisterSpec for Spec { type Ux = u32; }
        impl Readable for Spec {}
        impl Writable for Spec { const ZERO_TO_MODIFY: u32 = 0x0; const ONE_TO_MODIFY: u32 = 0x0; }
        impl Resettable for Spec { const RESET_VALUE: u32 = 0x2101; }
        pub struct DU_F;
        pub struct WDU_F;
        impl R<Spec> {
            pub fn du(&self) -> FieldReader<DU_F, u8> { FieldReader::new(((self.bits >> 0) & 0xf) as u8) }
            pub fn wdu(&self) -> FieldReader<WDU_F, u8> { FieldReader::new(((self.bits >> 13) & 0x7) as u8) }
        }
        impl W<Spec> {
            pub fn du(&mut self) -> FieldWriter<'_, Spec, DU_F, u8, 4> { FieldWriter::new(self, 0) }
            pub fn wdu(&mut self) -> FieldWriter<'_, Spec, WDU_F, u8, 3> { FieldWriter::new(self, 13) }
        }
    }
    pub mod isr {
        use crate::generic::*;
        pub struct Spec;
        impl RegisterSpec for Spec { type Ux = u32; }
        impl Readable for Spec {}
        impl Writable for Spec { const ZERO_TO_MODIFY: u32 = 0x900; const ONE_TO_MODIFY: u32 = 0x0; }
        impl Resettable for Spec { const RESET_VALUE: u32 = 0x7; }
        pub struct INITF_F;
        pub struct INIT_F;
        pub struct ALRAF_F;
        pub struct TSF_F;
        impl R<Spec> {
            pub fn initf(&self) -> BitReader<INITF_F> { BitReader::new(((self.bits >> 6) & 0x1) != 0x0) }
            pub fn init(&self) -> BitReader<INIT_F> { BitReader::new(((self.bits >> 7) & 0x1) != 0x0) }
            pub fn alraf(&self) -> BitReader<ALRAF_F> { BitReader::new(((self.bits >> 8) & 0x1) != 0x0) }
            pub fn tsf(&self) -> BitReader<TSF_F> { BitReader::new(((self.bits >> 11) & 0x1) != 0x0) }
        }
        impl W<Spec> {
            pub fn init(&mut self) -> BitWriter<'_, Spec, INIT_F> { BitWriter::new(self, 7) }
            pub fn alraf(&mut self) -> BitWriter0C<'_, Spec, ALRAF_F> { BitWriter0C::new(self, 8) }
            pub fn tsf(&mut self) -> BitWriter0C<'_, Spec, TSF_F> { BitWriter0C::new(self, 11) }
        }
    }
    pub mod wpr {
        use crate::generic::*;
        pub struct Spec;
        impl RegisterSpec for Spec { type Ux = u32; }
        impl Writable for Spec { const ZERO_TO_MODIFY: u32 = 0x0; const ONE_TO_MODIFY: u32 = 0x0; }
        impl Resettable for Spec { const RESET_VALUE: u32 = 0x0; }
        pub struct KEY_F;
        impl W<Spec> {
            pub fn key(&mut self) -> FieldWriter<'_, Spec, KEY_F, u8, 8> { FieldWriter::new(self, 0) }
        }
    }
    pub mod or {
        use crate::generic::*;
        pub struct Spec;
        impl RegisterSpec for Spec { type Ux = u32; }
        impl Readable for Spec {}
        impl Writable for Spec { const ZERO_TO_MODIFY: u32 = 0x0; const ONE_TO_MODIFY: u32 = 0x0; }
        impl Resettable for Spec { const RESET_VALUE: u32 = 0x0; }
        pub struct ALARM_TYPE_F;
        pub struct OUT_RMP_F;
        impl R<Spec> {
            pub fn out_rmp(&self) -> BitReader<OUT_RMP_F> { BitReader::new(((self.bits >> 1) & 0x1) != 0x0) }
        }
        impl W<Spec> {
            pub fn alarm_type(&mut self) -> BitWriter<'_, Spec, ALARM_TYPE_F> { BitWriter::new(self, 0) }
            pub fn out_rmp(&mut self) -> BitWriter<'_, Spec, OUT_RMP_F> { BitWriter::new(self, 1) }
        }
    }
}
