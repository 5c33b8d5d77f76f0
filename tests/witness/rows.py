"""Rows by which this implementation of the rules is held against what is known of them: a description, for some a patch, a
script, and what it does on the memory bus. Prints the rows that come out otherwise, and ends with 1 where there are any."""

import sys

from agree import resolved
from crate_text import printed
from script import events

EXAMPLE = """\
use crate::generic::*;

pub struct Peripherals {
    pub T: Periph<t::RegisterBlock, 0x40000000>,
}

pub mod t {
    use crate::generic::*;
    #[repr(C)]
    pub struct RegisterBlock {
        sr: Reg<sr::Spec>,
    }
    impl RegisterBlock {
        pub fn sr(&self) -> &Reg<sr::Spec> { &self.sr }
    }
    pub mod sr {
        use crate::generic::*;
        pub struct Spec;
        impl RegisterSpec for Spec { type Ux = u32; }
        impl Readable for Spec {}
        impl Writable for Spec { const ZERO_TO_MODIFY: u32 = 0x0; const ONE_TO_MODIFY: u32 = 0x1; }
        impl Resettable for Spec { const RESET_VALUE: u32 = 0x3; }
        pub struct F0_F;
        pub struct F1_F;
        impl R<Spec> {
            pub fn f0(&self) -> BitReader<F0_F> { BitReader::new(((self.bits >> 0) & 0x1) != 0x0) }
            pub fn f1(&self) -> BitReader<F1_F> { BitReader::new(((self.bits >> 1) & 0x1) != 0x0) }
        }
        impl W<Spec> {
            pub fn f0(&mut self) -> BitWriter1C<'_, Spec, F0_F> { BitWriter1C::new(self, 0) }
            pub fn f1(&mut self) -> BitWriter<'_, Spec, F1_F> { BitWriter::new(self, 1) }
        }
    }
}
"""


def keys(**texts):
    return "".join(f"<{name}>{text}</{name}>" for name, text in texts.items())


def fld(name, offset, width, **more):
    return f"<field>{keys(name=name, bitOffset=offset, bitWidth=width, **more)}</field>"


def reg(name, offset, *fields, **more):
    return f"<register>{keys(name=name, addressOffset=offset, **more)}<fields>{''.join(fields)}</fields></register>"


def per(name, base, *registers, derived=None, **more):
    attribute = f' derivedFrom="{derived}"' if derived else ""
    inner = f"<registers>{''.join(registers)}</registers>" if registers else ""
    return f"<peripheral{attribute}>{keys(name=name, baseAddress=base, **more)}{inner}</peripheral>"


def dev(*peripherals):
    return f"<device>{keys(name='D')}<peripherals>{''.join(peripherals)}</peripherals></device>"


def t(*registers):
    return dev(per("T", 0x40000000, *registers))


STATUS = t(reg("SR", 0, fld("F0", 0, 1, modifiedWriteValues="oneToClear"), fld("F1", 1, 1), resetValue=3))
ROWS = [
    (STATUS, None, "T.sr().write(|w| w.f1().set_bit());", "write 0x40000000 32 0x00000002"),
    (STATUS, None, "T.sr().modify(|_, w| w.f0().clear_bit_by_one());",
     "read 0x40000000 32 0x00000003", "write 0x40000000 32 0x00000003"),
    (STATUS, None, "T.sr().modify(|_, w| w);", "read 0x40000000 32 0x00000003", "write 0x40000000 32 0x00000002"),
    (t(reg("SR", 0, fld("F4", 4, 1, modifiedWriteValues="zeroToClear"))), None,
     "T.sr().write(|w| w);\nT.sr().write_with_zero(|w| w);",
     "write 0x40000000 32 0x00000010", "write 0x40000000 32 0x00000000"),
    (t(reg("R", 0, fld("F0", 0, 1, modifiedWriteValues="oneToClear"), fld("G", 0, 1, modifiedWriteValues="zeroToClear"))), None,
     "T.r().write(|w| w);", "write 0x40000000 32 0x00000001"),
    (t(reg("L", 0, fld("V", 0, 64), size=64)), None, "T.l().write(|w| w.v().bits(0xffff_ffff_ffff_ffff));",
     "write 0x40000000 64 0xffffffffffffffff"),
    (t(reg("B", 0, size=8, resetValue="0x1a5", resetMask="0xffffffff")), None, "T.b().reset();", "write 0x40000000 8 0xa5"),
    (t(reg("CH[%s]", 0, dim=4, dimIncrement=16)), None, "let a = T.ch(3).read();", "read 0x40000030 32 0x00000000"),
    (t(reg("CH%s", 0, dim=3, dimIncrement=4, dimIndex="A-C")), None, "T.chc().reset();", "write 0x40000008 32 0x00000000"),
    (t(reg("R", 0, fld("LV[%s]", 0, 2, dim=4, dimIncrement=8))), None, "T.r().write(|w| w.lv(3).bits(2));",
     "write 0x40000000 32 0x02000000"),
    (t(reg("type", 0), reg("READ", 4)), None, "T.type_().reset();\nT.read_().reset();",
     "write 0x40000000 32 0x00000000", "write 0x40000004 32 0x00000000"),
    (dev(per("A", 0x40000000, reg("R", 0), resetValue=1), per("B", 0x40001000, derived="A", resetValue=2),
         per("C", 0x40002000, derived="B")), None, "A.r().reset();\nB.r().reset();\nC.r().reset();",
     "write 0x40000000 32 0x00000001", "write 0x40001000 32 0x00000002", "write 0x40002000 32 0x00000002"),
    (t(reg("A", 2)), "T:\n  _modify:\n    A:\n      size: 16\n", "T.a().reset();", "write 0x40000002 16 0x0000"),
    (dev(*(per(name, 0x40000000 + 0x1000 * k, reg("R", 0)) for k, name in enumerate(["TIM1", "TIM10", "TIM4", "USART10"]))),
     '_delete: TIM[1-3]*\n', "TIM4.r().reset();\nUSART10.r().reset();",
     "write 0x40002000 32 0x00000000", "write 0x40003000 32 0x00000000"),
    (t(reg("A", 0), reg("B", 4)), "T:\n  _modify:\n    A: {name: C}\n", "T.c().reset();", "write 0x40000000 32 0x00000000"),
]


def main():
    failed = 0
    for description, patch, statements, *lines in ROWS:
        files = {"svd": description} | ({"patch": patch} if patch else {})
        got, _ = events(resolved(files), statements, "memory")
        if got != lines:
            failed = 1
            print(f"{statements} gives {got}", file=sys.stderr)
    if printed(resolved({"svd": STATUS})) != EXAMPLE:
        failed = 1
        print("the text of the status register is another", file=sys.stderr)
    sys.exit(failed)


main()
