//! The rows of `rows.txt`, on each of their harts, before and after the map is built.

use std::error::Error;
use std::ops::RangeInclusive;
use tilvenka_pmp::{is_compatible, version, Access, Csr, Hart, Kind, Mode, NoAccess, NoHart};
use tilvenka_pmp::{NoRange, NoRegister, Reason, Reasons, Registers, Run, Size, Unit};

const ROWS: &str = include_str!(concat!(env!("CARGO_MANIFEST_DIR"), "/../rows.txt"));

fn number(text: &str) -> u64 {
    match text.strip_prefix("0x") {
        Some(digits) => u64::from_str_radix(digits, 16).unwrap(),
        None => text.parse().unwrap(),
    }
}

/// The register with this name or this number.
fn csr(name: &str) -> Result<Csr, NoRegister> {
    if name.starts_with("0x") {
        return Csr::try_from(number(name) as u32);
    }
    let csr: Csr = name.parse().unwrap();
    assert_eq!(
        (csr.to_string(), Csr::try_from(csr.number())),
        (name.to_string(), Ok(csr))
    );
    Ok(csr)
}

fn access(question: &str) -> Access {
    let words: Vec<&str> = question.split(' ').collect();
    let (mode, kind) = (words[0].parse().unwrap(), words[1].parse().unwrap());
    let access = Access::new(mode, kind, number(words[2]), number(words[3]));
    assert!(access
        .to_string()
        .starts_with(&format!("{} {} 0x", words[0], words[1])));
    access
}

fn check(unit: &Unit, question: &str) -> String {
    let access = access(question);
    let answer = unit.decide(&access);
    assert_eq!(answer, unit.decide_by_registers(&access));
    match answer {
        Err(NoAccess) => "no access".to_string(),
        Ok(answer) => answer.to_string(),
    }
}

fn absence(fault: NoRegister) -> String {
    match fault {
        NoRegister::OddConfiguration => "odd".to_string(),
        NoRegister::Unknown => "none".to_string(),
    }
}

fn read(unit: &Unit, question: &str) -> String {
    csr(question)
        .and_then(|csr| unit.read(csr))
        .map_or_else(absence, |value| format!("{value:#x}"))
}

/// Accesses to bytes that didn't move are decided as before. Both end bytes of each run stand for all.
fn stays_beside(moved: &Option<RangeInclusive<u64>>, before: &Unit, after: &Unit) {
    let runs = before.runs().chain(after.runs());
    let is_moved = |byte: &u64| moved.as_ref().map_or(false, |it| it.contains(byte));
    for byte in runs
        .flat_map(|it| [it.first, it.last])
        .filter(|it| !is_moved(it))
    {
        for mode in [Mode::User, Mode::Supervisor, Mode::Machine] {
            for kind in [Kind::Fetch, Kind::Load, Kind::Store] {
                let access = Access::new(mode, kind, byte, 1);
                assert_eq!(before.decide(&access), after.decide(&access), "{access:x?}");
            }
        }
    }
}

/// A write is changed if the registers changed, and stored if the register reads the value.
fn write(unit: &Unit, question: &str) -> String {
    let (name, value) = question.split_once(' ').unwrap();
    let (csr, value) = match csr(name) {
        Ok(csr) => (csr, number(value)),
        Err(fault) => return absence(fault),
    };
    let mut after = unit.clone();
    match after.write(csr, value) {
        Err(fault) => {
            assert_eq!((unit.read(csr), &after), (Err(fault), unit));
            absence(fault)
        }
        Ok(written) => {
            assert_eq!(written.is_changed, after != *unit);
            assert_eq!(written.is_stored(), after.read(csr) == Ok(value));
            assert_eq!(after.is_built(), unit.is_built() && !written.is_changed);
            stays_beside(&written.moved, unit, &after);
            let moved = written.moved.map_or(",".to_string(), |it| {
                format!("{:#x},{:#x}", it.start(), it.end())
            });
            let change = if written.is_changed {
                "changed"
            } else {
                "same"
            };
            format!("{change},{moved},{}", written.reasons)
        }
    }
}

fn settle(unit: &Unit, question: &str) -> String {
    let mut after = unit.clone();
    let is_built = after.settle(number(question));
    assert_eq!((is_built, &after), (after.is_built(), unit));
    (if is_built { "yes" } else { "no" }).to_string()
}

/// A refused call leaves the unit unchanged, and a done one leaves no map.
fn tell(unit: &Unit, after: &Unit, done: Result<(), NoHart>) -> String {
    match done {
        Ok(()) => {
            assert!(!after.is_built());
            "done".to_string()
        }
        Err(NoHart) => {
            assert_eq!((after, after.is_built()), (unit, unit.is_built()));
            "no hart".to_string()
        }
    }
}

fn reset(unit: &Unit, question: &str) -> String {
    let mut after = unit.clone();
    let done = hart(question).ok_or(NoHart).and_then(|hart| {
        after.reset(hart)?;
        assert_eq!(after, Unit::new(hart));
        Ok(())
    });
    tell(unit, &after, done)
}

fn restore(unit: &Unit, question: &str) -> String {
    let (mut after, mut saved) = (unit.clone(), unit.save());
    saved.entries = number(question);
    let done = after.restore(&saved);
    assert_eq!(Hart::try_from(saved.entries).map(|_| ()), done);
    assert_eq!(unit.clone().reset(saved.entries), done);
    tell(unit, &after, done)
}

/// Each run is that of its bytes, and the count of runs is right.
fn map(unit: &Unit) -> String {
    let (runs, count) = (unit.runs().collect::<Vec<_>>(), unit.runs().len());
    assert_eq!(runs.len(), count);
    for run in &runs {
        assert_eq!([run.first, run.last].map(|it| unit.run(it)), [Ok(*run); 2]);
    }
    let lines: Vec<String> = runs.iter().map(Run::to_string).collect();
    lines.join(" ")
}

fn run(unit: &Unit, question: &str) -> String {
    unit.run(number(question))
        .map_or_else(|NoRange| "no range".to_string(), |run| run.to_string())
}

fn answer(unit: &Unit, kind: &str, question: &str) -> String {
    match kind {
        "check" => check(unit, question),
        "read" => read(unit, question),
        "write" => write(unit, question),
        "map" => map(unit),
        "run" => run(unit, question),
        "settle" => settle(unit, question),
        "reset" => reset(unit, question),
        "restore" => restore(unit, question),
        other => panic!("{other}"),
    }
}

/// The hart ENTRIES/GRAIN/BITS/SMEPMP, or that of RV32 with /32 after it, if there is one.
fn hart(words: &str) -> Option<Hart> {
    let parts: Vec<&str> = words.split('/').collect();
    let [entries, grain, bits] = [0, 1, 2].map(|it| number(parts[it]) as u16);
    let made = match parts.get(4) {
        None => Hart::new,
        Some(&"32") => Hart::rv32,
        Some(other) => panic!("{other}"),
    };
    made(entries as u8, grain, bits as u8, parts[3] == "yes")
}

/// The harts that the first word of a row names.
fn harts(word: &str) -> Vec<Hart> {
    match word {
        "16" => vec![Size::Sixteen.into()],
        "64" => vec![Size::SixtyFour.into()],
        "both" => vec![Size::Sixteen.into(), Size::SixtyFour.into()],
        other => vec![hart(other).unwrap()],
    }
}

fn unit_after(hart: Hart, writes: &str) -> Unit {
    let mut unit = Unit::new(hart);
    for write in writes.split(';').map(str::trim).filter(|it| !it.is_empty()) {
        match write.split_once(' ') {
            None => unit.reset(hart).unwrap(),
            Some((name, value)) => drop(unit.write(csr(name).unwrap(), number(value)).unwrap()),
        }
    }
    unit
}

/// Asks before the map is built, with it, and from a snapshot.
fn try_row(hart: Hart, row: &str) {
    let parts: Vec<&str> = row.split('|').map(str::trim).collect();
    let kind = parts[0].split_once(' ').unwrap().1;
    let is_value = kind == "read" && parts[3].starts_with(|it: char| it.is_ascii_digit());
    let wanted = if is_value {
        format!("{:#x}", number(parts[3]))
    } else {
        parts[3].to_string()
    };
    let mut unit = unit_after(hart, parts[1]);
    assert_eq!(unit.hart(), hart);
    assert_eq!(answer(&unit, kind, parts[2]), wanted, "{row}");
    unit.build();
    assert!(unit.is_built());
    let built = if kind == "settle" { "yes" } else { &wanted };
    assert_eq!(answer(&unit, kind, parts[2]), built, "built: {row}");
    let mut copy = Unit::default();
    assert_eq!(copy.restore(&unit.save()), Ok(()));
    assert_eq!((&copy, copy.is_built()), (&unit, false));
    assert_eq!(answer(&copy, kind, parts[2]), wanted, "restored: {row}");
}

#[test]
fn rows_are_answered() {
    let mut count = 0;
    for row in ROWS
        .replace("\n    ", " ")
        .lines()
        .filter(|it| it.contains('|') && !it.starts_with('#'))
    {
        for hart in harts(row.split_once(' ').unwrap().0) {
            try_row(hart, row);
            count += 1;
        }
    }
    assert!(count > 330, "{count} rows");
}

#[test]
fn ranges_of_several_entries_are_mixed() {
    let unit = unit_after(Size::Sixteen.into(), "pmpaddr0 0x200001ff; pmpcfg0 0x19");
    assert_eq!(
        unit.rights(Mode::User, 0x80000000, 4096)
            .unwrap()
            .unwrap()
            .to_string(),
        "r--"
    );
    assert_eq!(unit.rights(Mode::User, 0x80000800, 4096), Ok(None));
    assert_eq!(unit.rights(Mode::User, 0, 0), Err(NoRange));
    assert_eq!(unit.rights(Mode::User, 1, 1 << 56), Err(NoRange));
}

#[test]
fn reasons_are_a_set() {
    let mut unit = unit_after(Size::Sixteen.into(), "mseccfg 3");
    let reasons = unit.write(Csr::MSECCFG, 8).unwrap().reasons;
    assert_eq!(
        reasons.iter().collect::<Vec<_>>(),
        [Reason::Bits, Reason::Sticky]
    );
    for reason in Reason::ALL {
        assert_eq!(
            reasons.contains(reason),
            reasons.iter().any(|it| it == reason)
        );
    }
    assert_eq!(format!("{reasons:?}"), "{Bits, Sticky}");
    assert!(!reasons.is_empty() && Reasons::default().is_empty());
}

#[test]
fn harts_are_equal_where_they_are_one() {
    let sixteen = Hart::from(Size::Sixteen);
    assert_eq!(Hart::new(16, 4, 56, true), Some(sixteen));
    assert_eq!(Hart::try_from(0x100013810), Ok(sixteen));
    assert_ne!(Hart::new(16, 8, 56, true), Some(sixteen));
    assert_ne!(Hart::new(16, 4, 56, false), Some(sixteen));
    let rv32 = Hart::rv32(16, 4, 34, true);
    assert_eq!(Hart::try_from(0x100032210).ok(), rv32);
    assert_ne!(Hart::new(16, 4, 34, true), rv32);
}

#[test]
fn harts_say_what_they_are() {
    let numbers = |it: Hart| (it.xlen(), it.entries(), it.grain(), it.address_bits());
    let small = Hart::rv32(0, 4096, 32, false).unwrap();
    assert_eq!(numbers(small), (32, 0, 4096, 32));
    assert_eq!(numbers(Size::SixtyFour.into()), (64, 64, 4, 56));
    assert_eq!(
        numbers(Hart::new(16, 8, 34, true).unwrap()),
        (64, 16, 8, 34)
    );
    assert!(Hart::default().has_smepmp() && !small.has_smepmp());
    assert_eq!(
        small.to_string(),
        "RV32 with 0 entries, grain 4096, 32 address bits and no Smepmp"
    );
    assert_eq!(
        format!("{:?}", Hart::default()),
        "Hart { xlen: 64, entries: 16, grain: 4, address_bits: 56, has_smepmp: true }"
    );
}

#[test]
fn registers_show_their_entries() {
    let mut saved = Unit::new(Hart::new(1, 4, 56, true).unwrap()).save();
    saved.addresses[0] = 0x200001ff;
    let text = format!("{saved:?}");
    assert!(
        text.starts_with("Registers { hart: Hart { xlen: 64, entries: 1, "),
        "{text}"
    );
    assert!(
        text.ends_with("mseccfg: 0, configurations: [0], addresses: [200001ff] }"),
        "{text}"
    );
    saved.entries = 8;
    assert!(format!("{saved:?}").starts_with("Registers { entries: 8, mseccfg: 0"));
    assert_eq!(Registers::default(), Unit::default().save());
}

#[test]
fn names_are_read_as_they_are_written() {
    for word in [
        "pmpaddr64",
        "pmpaddr01",
        "pmpaddr+1",
        "pmpaddr",
        "pmpcfg16",
        "satp",
        "MSECCFG",
        "",
    ] {
        assert!(word.parse::<Csr>().is_err(), "{word}");
    }
    assert!([0x39f, 0x3f0, 0x746, 0x748, 0x756, 0x758, u32::MAX]
        .into_iter()
        .all(|it| Csr::try_from(it) == Err(NoRegister::Unknown)));
    assert!("u".parse::<Mode>().is_err() && "Load".parse::<Kind>().is_err());
}

#[test]
#[should_panic(expected = "pmpaddr63")]
fn no_address_register_is_past_the_last() {
    let _ = Csr::address(64);
}

#[test]
#[should_panic(expected = "pmpcfg15")]
fn no_configuration_register_is_past_the_last() {
    let _ = Csr::configuration(16);
}

#[test]
fn the_library_is_of_this_version() {
    let (major, minor, patch) = version();
    assert!(is_compatible());
    assert_eq!(
        format!("{major}.{minor}.{patch}"),
        env!("CARGO_PKG_VERSION")
    );
}

#[test]
fn faults_say_what_is_wrong() {
    let faults: [Box<dyn Error>; 2] = [Box::new(NoHart), Box::new(NoRegister::Unknown)];
    assert_eq!(faults[0].to_string(), "the number is that of no hart");
    assert_eq!(
        faults[1].to_string(),
        "the hart has no PMP register of this number"
    );
}
