use crate::generic::*;

pub struct Peripherals {
    pub USB: Periph<usb::RegisterBlock, 0x40005c00>,
}

pub mod usb {
    use crate::generic::*;
    #[repr(C)]
    pub struct RegisterBlock {
        _reserved0: [u8; 64],
        cntr: Reg<cntr::Spec>,
        _reserved1: [u8; 2],
        istr: Reg<istr::Spec>,
    }
    impl RegisterBlock {
        pub fn epr(&self, n: usize) -> &Reg<epr::Spec> { at_index(self, 0x0, 4, 8, n) }
        pub fn epr_iso(&self, n: usize) -> &Reg<epr_iso::Spec> { at_index(self, 0x0, 4, 8, n) }
        pub fn cntr(&self) -> &Reg<cntr::Spec> { &self.cntr }
        pub fn istr(&self) -> &Reg<istr::Spec> { &self.istr }
    }
    pub mod epr {
        use crate::generic::*;
        pub struct Spec;
        impl RegisterSpec for Spec { type Ux = u16; }
        impl Readable for Spec {}
        impl Writable for Spec { const ZERO_TO_MODIFY: u16 = 0x8080; const ONE_TO_MODIFY: u16 = 0x7070; }
        impl Resettable for Spec { const RESET_VALUE: u16 = 0x0; }
        pub struct EA_F;
        pub struct STAT_TX_F;
        pub struct DTOG_TX_F;
        pub struct CTR_TX_F;
        pub struct EP_KIND_F;
        pub struct EP_TYPE_F;
        pub struct SETUP_F;
        pub struct STAT_RX_F;
        pub struct DTOG_RX_F;
        pub struct CTR_RX_F;
        impl R<Spec> {
            pub fn ea(&self) -> FieldReader<EA_F, u8> { FieldReader::new(((self.bits >> 0) & 0xf) as u8) }
            pub fn stat_tx(&self) -> FieldReader<STAT_TX_F, u8> { FieldReader::new(((self.bits >> 4) & 0x3) as u8) }
            pub fn dtog_tx(&self) -> BitReader<DTOG_TX_F> { BitReader::new(((self.bits >> 6) & 0x1) != 0x0) }
            pub fn ctr_tx(&self) -> BitReader<CTR_TX_F> { BitReader::new(((self.bits >> 7) & 0x1) != 0x0) }
            pub fn ep_kind(&self) -> BitReader<EP_KIND_F> { BitReader::new(((self.bits >> 8) & 0x1) != 0x0) }
            pub fn ep_type(&self) -> FieldReader<EP_TYPE_F, u8> { FieldReader::new(((self.bits >> 9) & 0x3) as u8) }
            pub fn setup(&self) -> BitReader<SETUP_F> { BitReader::new(((self.bits >> 11) & 0x1) != 0x0) }
            pub fn stat_rx(&self) -> FieldReader<STAT_RX_F, u8> { FieldReader::new(((self.bits >> 12) & 0x3) as u8) }
            pub fn dtog_rx(&self) -> BitReader<DTOG_RX_F> { BitReader::new(((self.bits >> 14) & 0x1) != 0x0) }
            pub fn ctr_rx(&self) -> BitReader<CTR_RX_F> { BitReader::new(((self.bits >> 15) & 0x1) != 0x0) }
        }
        impl W<Spec> {
            pub fn ea(&mut self) -> FieldWriter<'_, Spec, EA_F, u8, 4> { FieldWriter::new(self, 0) }
            pub fn stat_tx(&mut self) -> FieldWriter<'_, Spec, STAT_TX_F, u8, 2> { FieldWriter::new(self, 4) }
            pub fn dtog_tx(&mut self) -> BitWriter1T<'_, Spec, DTOG_TX_F> { BitWriter1T::new(self, 6) }
            pub fn ctr_tx(&mut self) -> BitWriter0C<'_, Spec, CTR_TX_F> { BitWriter0C::new(self, 7) }
            pub fn ep_kind(&mut self) -> BitWriter<'_, Spec, EP_KIND_F> { BitWriter::new(self, 8) }
            pub fn ep_type(&mut self) -> FieldWriter<'_, Spec, EP_TYPE_F, u8, 2> { FieldWriter::new(self, 9) }
            pub fn stat_rx(&mut self) -> FieldWriter<'_, Spec, STAT_RX_F, u8, 2> { FieldWriter::new(self, 12) }
            pub fn dtog_rx(&mut self) -> BitWriter1T<'_, Spec, DTOG_RX_F> { BitWriter1T::new(self, 14) }
            pub fn ctr_rx(&mut self) -> BitWriter0C<'_, Spec, CTR_RX_F> { BitWriter0C::new(self, 15) }
        }
        impl FieldReader<STAT_TX_F, u8> {
            pub fn is_disabled(&self) -> bool { self.bits() == 0x0 }
            pub fn is_stall(&self) -> bool { self.bits() == 0x1 }
            pub fn is_nak(&self) -> bool { self.bits() == 0x2 }
            pub fn is_valid(&self) -> bool { self.bits() == 0x3 }
        }
        impl<'a> FieldWriter<'a, Spec, STAT_TX_F, u8, 2> {
            pub fn disabled(self) -> &'a mut W<Spec> { self.bits(0x0) }
            pub fn stall(self) -> &'a mut W<Spec> { self.bits(0x1) }
            pub fn nak(self) -> &'a mut W<Spec> { self.bits(0x2) }
            pub fn valid(self) -> &'a mut W<Spec> { self.bits(0x3) }
        }
    }
    pub mod epr_iso {
        use crate::generic::*;
        pub struct Spec;
        impl RegisterSpec for Spec { type Ux = u16; }
        impl Readable for Spec {}
        impl Writable for Spec { const ZERO_TO_MODIFY: u16 = 0x80; const ONE_TO_MODIFY: u16 = 0x40; }
        impl Resettable for Spec { const RESET_VALUE: u16 = 0x0; }
        pub struct EA_F;
        pub struct SW_BUF_F;
        pub struct CTR_TX_F;
        impl R<Spec> {
            pub fn ea(&self) -> FieldReader<EA_F, u8> { FieldReader::new(((self.bits >> 0) & 0xf) as u8) }
            pub fn sw_buf(&self) -> BitReader<SW_BUF_F> { BitReader::new(((self.bits >> 6) & 0x1) != 0x0) }
            pub fn ctr_tx(&self) -> BitReader<CTR_TX_F> { BitReader::new(((self.bits >> 7) & 0x1) != 0x0) }
        }
        impl W<Spec> {
            pub fn ea(&mut self) -> FieldWriter<'_, Spec, EA_F, u8, 4> { FieldWriter::new(self, 0) }
            pub fn sw_buf(&mut self) -> BitWriter1T<'_, Spec, SW_BUF_F> { BitWriter1T::new(self, 6) }
            pub fn ctr_tx(&mut self) -> BitWriter0C<'_, Spec, CTR_TX_F> { BitWriter0C::new(self, 7) }
        }
    }
    pub mod cntr {
        use crate::generic::*;
        pub struct Spec;
        impl RegisterSpec for Spec { type Ux = u16; }
        impl Readable for Spec {}
        impl Writable for Spec { const ZERO_TO_MODIFY: u16 = 0x0; const ONE_TO_MODIFY: u16 = 0x0; }
        impl Resettable for Spec { const RESET_VALUE: u16 = 0x3; }
        pub struct FRES_F;
        pub struct PDWN_F;
        impl R<Spec> {
            pub fn fres(&self) -> BitReader<FRES_F> { BitReader::new(((self.bits >> 0) & 0x1) != 0x0) }
            pub fn pdwn(&self) -> BitReader<PDWN_F> { BitReader::new(((self.bits >> 1) & 0x1) != 0x0) }
        }
        impl W<Spec> {
            pub fn fres(&mut self) -> BitWriter<'_, Spec, FRES_F> { BitWriter::new(self, 0) }
            pub fn pdwn(&mut self) -> BitWriter<'_, Spec, PDWN_F> { BitWriter::new(self, 1) }
        }
    }
    pub mod istr {
        use crate::generic::*;
        pub struct Spec;
        impl RegisterSpec for Spec { type Ux = u16; }
        impl Readable for Spec {}
        impl Writable for Spec { const ZERO_TO_MODIFY: u16 = 0x400; const ONE_TO_MODIFY: u16 = 0x0; }
        impl Resettable for Spec { const RESET_VALUE: u16 = 0x0; }
        pub struct EP_ID_F;
        pub struct DIR_F;
        pub struct RESET_F;
        pub struct CTR_F;
        impl R<Spec> {
            pub fn ep_id(&self) -> FieldReader<EP_ID_F, u8> { FieldReader::new(((self.bits >> 0) & 0xf) as u8) }
            pub fn dir(&self) -> BitReader<DIR_F> { BitReader::new(((self.bits >> 4) & 0x1) != 0x0) }
            pub fn reset_(&self) -> BitReader<RESET_F> { BitReader::new(((self.bits >> 10) & 0x1) != 0x0) }
            pub fn ctr(&self) -> BitReader<CTR_F> { BitReader::new(((self.bits >> 15) & 0x1) != 0x0) }
        }
        impl W<Spec> {
            pub fn reset_(&mut self) -> BitWriter0C<'_, Spec, RESET_F> { BitWriter0C::new(self, 10) }
        }
    }
}
