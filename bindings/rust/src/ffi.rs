//! The parts of `tilvenka_pmp.h` in use, by their names without prefix, which `checks/release` compares.

use crate::registers::Registers;
use core::mem::size_of;

pub const VERSION: u32 = 200;

pub const MAX_ENTRIES: usize = 64;
pub const PLACES: usize = 217;

pub const USER: u32 = 0;
pub const SUPERVISOR: u32 = 1;
pub const MACHINE: u32 = 3;

pub const FETCH: u32 = 0;
pub const LOAD: u32 = 1;
pub const STORE: u32 = 2;

pub const ODD_CONFIGURATION: u32 = 1;
pub const NO_REGISTER: u32 = 2;
pub const NO_HART: u32 = 3;
pub const CHANGED: u32 = 4;
pub const MOVED: u32 = 8;

pub const ABSENT: u32 = 256;
pub const BITS: u32 = 512;
pub const FROZEN: u32 = 1024;
pub const LOW_END: u32 = 2048;
pub const RESERVED: u32 = 4096;
pub const LOCKDOWN: u32 = 8192;
pub const STICKY: u32 = 16384;
pub const BYPASS: u32 = 32768;
pub const GRAIN: u32 = 65536;

pub const SPLIT: u32 = 256;
pub const NO_MATCH: u32 = 512;
pub const FAULT: u32 = 1024;
pub const NO_ACCESS: u32 = 1023;

pub const READ: u32 = 1;
pub const WRITE: u32 = 2;
pub const EXECUTE: u32 = 4;
pub const MIXED: u32 = 8;
pub const NO_RANGE: u32 = 16;

/// `TILVENKA_PMP_HART` and `TILVENKA_PMP_HART_RV32` for arguments in range: the number has the manual's G, for a grain
/// of 2^(G+2) bytes.
pub fn hart(is_rv32: bool, entries: u8, grain: u16, address_bits: u8, has_smepmp: bool) -> u64 {
    u64::from(entries)
        | u64::from(address_bits) << 8
        | u64::from(has_smepmp) << 16
        | u64::from(is_rv32) << 17
        | u64::from(grain.trailing_zeros() - 2) << 24
        | 1 << 32
}

#[repr(C)]
#[derive(Clone, Copy)]
pub struct Map {
    pub starts: [u64; PLACES],
    pub runs: u64,
    pub rows: [[u16; 16]; PLACES],
}

#[repr(C)]
#[derive(Clone, Copy)]
pub struct Unit {
    pub registers: Registers,
    pub map: Map,
}

const _: () =
    assert!(size_of::<Registers>() == 592 && size_of::<Unit>() == 592 + 8 * 217 + 8 + 32 * 217);

extern "C" {
    pub fn tilvenka_pmp_version() -> u32;
    pub fn tilvenka_pmp_unit_size() -> u64;
    pub fn tilvenka_pmp_reset(unit: *mut Unit, hart: u64) -> u32;
    pub fn tilvenka_pmp_write_moved(
        unit: *mut Unit,
        csr: u32,
        value: u64,
        first: *mut u64,
        last: *mut u64,
    ) -> u32;
    pub fn tilvenka_pmp_read(unit: *const Unit, csr: u32, value: *mut u64) -> u32;
    pub fn tilvenka_pmp_build(unit: *mut Unit);
    pub fn tilvenka_pmp_settle(unit: *mut Unit, questions: u64) -> bool;
    pub fn tilvenka_pmp_is_built(unit: *const Unit) -> bool;
    pub fn tilvenka_pmp_decide(
        unit: *const Unit,
        mode: u32,
        kind: u32,
        start: u64,
        length: u64,
    ) -> u32;
    pub fn tilvenka_pmp_decide_by_registers(
        unit: *const Unit,
        mode: u32,
        kind: u32,
        start: u64,
        length: u64,
    ) -> u32;
    pub fn tilvenka_pmp_rights(unit: *const Unit, mode: u32, start: u64, length: u64) -> u32;
    pub fn tilvenka_pmp_run(
        unit: *const Unit,
        mode: u32,
        address: u64,
        first: *mut u64,
        last: *mut u64,
    ) -> u32;
    pub fn tilvenka_pmp_save_to(unit: *const Unit, registers: *mut Registers);
    pub fn tilvenka_pmp_restore_from(unit: *mut Unit, registers: *const Registers) -> u32;
}
