//! Tests of `generic.rs` beside those that scripts make: what panics, how registers lie, and the recording bus.
//!
//! `tests/rustc_agrees.sh` compiles and runs them.

mod generic;

#[allow(non_camel_case_types, non_snake_case, dead_code)]
#[rustfmt::skip]
#[path = "../examples/gallery/can.rs"]
mod can;
#[allow(non_camel_case_types, non_snake_case, dead_code)]
#[rustfmt::skip]
#[path = "../examples/gallery/gpio.rs"]
mod gpio;
#[allow(non_camel_case_types, non_snake_case, dead_code)]
#[rustfmt::skip]
#[path = "../examples/gallery/system_timer.rs"]
mod system_timer;

use generic::recording::{preset, start, take, Access, Bus};
use generic::{steal, Reg};
use std::panic::{catch_unwind, AssertUnwindSafe};

fn panics<T>(call: impl FnOnce() -> T) -> bool {
    catch_unwind(AssertUnwindSafe(call)).is_err()
}

fn lines() -> Vec<String> {
    take().iter().map(Access::to_string).collect()
}

#[test]
fn registers_are_aligned_to_their_width() {
    let extent = |size: usize, align: usize| (size, align);
    assert_eq!(extent_of::<can::can1::tx::dlc::Spec>(), extent(1, 1));
    assert_eq!(extent_of::<can::can1::bank::active::Spec>(), extent(2, 2));
    assert_eq!(extent_of::<can::can1::mcr::Spec>(), extent(4, 4));
    assert_eq!(
        extent_of::<system_timer::mtimer::mtime::Spec>(),
        extent(8, 8)
    );
}

fn extent_of<S: generic::RegisterSpec>() -> (usize, usize) {
    (size_of::<Reg<S>>(), align_of::<Reg<S>>())
}

#[test]
fn an_index_past_the_count_panics_before_any_access() {
    start(Bus::Zero);
    let can = unsafe { steal::<can::Peripherals>() }.CAN1;
    let port = unsafe { steal::<gpio::Peripherals>() }.GPIOA;
    assert!(panics(|| can.tx(3)));
    assert!(panics(|| can.bank(2)));
    assert!(panics(|| can.bank(1).filter(2)));
    assert!(panics(|| can.tx(2).data(8)));
    assert!(panics(|| can.tx(usize::MAX)));
    assert!(panics(|| port.afr(2)));
    assert!(panics(|| port.moder().write(|w| w.mode(16).output())));
    assert_eq!(lines(), [""; 0]);
    let modes = port.moder().read();
    assert!(panics(|| modes.mode(16)));
    assert!(modes.mode(15).is_input());
}

#[test]
fn a_call_before_the_start_panics() {
    let port = unsafe { steal::<gpio::Peripherals>() }.GPIOB;
    assert!(panics(|| port.odr().reset()));
}

#[test]
fn answers_are_cut_to_the_width_and_run_out() {
    start(Bus::Answers(vec![0x1_2345, u64::MAX]));
    let can = unsafe { steal::<can::Peripherals>() }.CAN1;
    assert_eq!(can.tx(0).dlc().read().bits(), 0x45);
    assert_eq!(can.tx(0).ir().read().stid().bits(), 0x7ff);
    assert_eq!(can.mcr().read().bits(), 0);
    can.mcr().reset();
    assert_eq!(can.mcr().read().bits(), 0);
}

#[test]
fn memory_holds_what_was_written_last() {
    start(Bus::Memory);
    let can = unsafe { steal::<can::Peripherals>() }.CAN1;
    preset(0x4000_6588, 32, 0x0403_0201);
    can.tx(0).data(1).write(|w| w.bits(0xff));
    assert_eq!(can.tx(0).datalr().read().bits(), 0x0403_ff01);
    assert_eq!(
        lines(),
        ["write 0x40006589 8 0xff", "read 0x40006588 32 0x0403ff01"]
    );
    assert_eq!(lines(), [""; 0]);
    can.tx(0).datalr().write_with_zero(|w| w);
    assert_eq!(can.tx(0).data(3).read().bits(), 0);
    assert_eq!(take().len(), 2);
    start(Bus::Memory);
    assert_eq!(can.tx(0).data(1).read().bits(), 0);
}

#[test]
fn each_thread_has_its_own_bus() {
    start(Bus::Zero);
    let ports = unsafe { steal::<gpio::Peripherals>() };
    ports.GPIOA.odr().reset();
    let other = std::thread::spawn(move || {
        start(Bus::Zero);
        ports.GPIOB.odr().reset();
        lines()
    });
    assert_eq!(other.join().unwrap(), ["write 0x48000414 32 0x00000000"]);
    assert_eq!(lines(), ["write 0x48000014 32 0x00000000"]);
}
