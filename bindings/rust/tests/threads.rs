//! Threads that decide by a hart's unit while its firmware writes: each has the unit of one publication.

use std::sync::atomic::{AtomicBool, Ordering};
use std::sync::{Arc, RwLock};
use std::thread;
use tilvenka_pmp::{Access, Csr, Kind, Mode, Unit};

/// Two pages, each a domain: entries 0 and 1.
const SET_UP: [(Csr, u64); 3] = [
    (Csr::address(0), 0x200001ff),
    (Csr::address(1), 0x200005ff),
    (Csr::configuration(0), 0x1819),
];

/// Makes these writes in one step.
fn publish(shared: &RwLock<Arc<Unit>>, writes: &[(Csr, u64)]) {
    let mut unit = Unit::clone(&shared.read().unwrap());
    for &(csr, value) in writes {
        unit.write(csr, value).unwrap();
    }
    unit.build();
    *shared.write().unwrap() = Arc::new(unit);
}

fn may_load(unit: &Unit, start: u64) -> bool {
    let load = Access::new(Mode::User, Kind::Load, start, 8);
    unit.decide(&load).unwrap().is_allowed()
}

#[test]
fn readers_see_whole_publications() {
    let shared = RwLock::new(Arc::new(Unit::default()));
    let is_over = AtomicBool::new(false);
    publish(&shared, &SET_UP);
    thread::scope(|scope| {
        let readers = [(); 2].map(|()| {
            scope.spawn(|| {
                let mut questions = 0;
                while questions == 0 || !is_over.load(Ordering::Relaxed) {
                    let unit = Arc::clone(&shared.read().unwrap());
                    assert_ne!(may_load(&unit, 0x80000000), may_load(&unit, 0x80001000));
                    questions += 1;
                }
            })
        });
        for place in 0..500 {
            let next = if place % 2 == 0 { 0x1918 } else { 0x1819 };
            let switch = [0x1818, next].map(|it| (Csr::configuration(0), it));
            publish(&shared, &switch);
        }
        is_over.store(true, Ordering::Relaxed);
        for reader in readers {
            reader.join().unwrap();
        }
    });
}
