//! The driver.

use crate::device::Peripherals;

/// A lamp at pin 5 that changes each time the timer comes round.
pub struct Blinky {
    device: Peripherals,
}

impl Blinky {
    /// Makes pin 5 an output and starts the timer, which comes round every `period` ticks of 1024 clocks.
    pub fn start(device: Peripherals, period: u32) -> Self {
        device.PORT.dir().modify(|_, w| w.pin5().output());
        device.TIMER.period().write(|w| w.bits(period));
        let ctrl = device.TIMER.ctrl();
        ctrl.write(|w| w.prescaler().div1024().enable().set_bit());
        Blinky { device }
    }

    /// Changes the lamp where the timer has come round since the last call, and says whether it has.
    pub fn poll(&mut self) -> bool {
        let timer = &self.device.TIMER;
        if timer.intflag().read().ovf().bit_is_clear() {
            return false;
        }
        // The other flag stays: a zero does nothing to it.
        timer.intflag().write(|w| w.ovf().clear_bit_by_one());
        self.device.PORT.outtgl().write(|w| w.pin5().toggle_bit());
        true
    }
}

#[cfg(test)]
mod tests {
    extern crate std;

    use super::Blinky;
    use crate::generic::recording::{preset, start, take, Access, Bus};
    use crate::generic::steal;
    use std::string::{String, ToString};
    use std::vec::Vec;

    const DIR: u64 = 0x4100_4400;
    const INTFLAG: u64 = 0x4200_2c0e;

    /// The accesses since the last time, a line each.
    fn lines() -> Vec<String> {
        take().iter().map(Access::to_string).collect()
    }

    /// A blinky on a bus that keeps what is written, with pin 0 an output already.
    fn started() -> Blinky {
        start(Bus::Memory);
        preset(DIR, 8, 0x01);
        // SAFETY: on the recording bus there is no device, and each thread has a bus of its own.
        Blinky::start(unsafe { steal() }, 46_875)
    }

    #[test]
    fn starting_leaves_the_other_pins() {
        started();
        assert_eq!(
            lines(),
            [
                "read 0x41004400 8 0x01",
                "write 0x41004400 8 0x21",
                "write 0x42002c18 32 0x0000b71b",
                "write 0x42002c00 16 0x0702",
            ]
        );
    }

    #[test]
    fn nothing_changes_before_the_timer_comes_round() {
        let mut blinky = started();
        lines();
        assert!(!blinky.poll());
        assert_eq!(lines(), ["read 0x42002c0e 8 0x00"]);
    }

    #[test]
    fn the_lamp_changes_and_the_other_flag_stays() {
        let mut blinky = started();
        lines();
        preset(INTFLAG, 8, 0b11);
        assert!(blinky.poll());
        assert_eq!(
            lines(),
            [
                "read 0x42002c0e 8 0x03",
                "write 0x42002c0e 8 0x01",
                "write 0x4100441c 8 0x20",
            ]
        );
    }
}
