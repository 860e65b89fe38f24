//! The reader's comparisons, a quick part of each; and readers that are wrong, each of which they must find out.

use compare::reader::{Reader, Start, compare, razvolk, reference};
use compare::states::{self, ByValue};
use razvolk::bits::{Bits, Got};

#[test]
fn razvolk_reads_as_the_rust_does() {
    let seen = compare(razvolk, reference, 0x5eed, 1_000_000).unwrap_or_else(|difference| panic!("{difference}"));
    println!("{seen}");
    assert_eq!(seen.reads, 1_000_000);
    assert_eq!(seen.widths.iter().sum::<u64>(), seen.reads);
    assert!(seen.widths.iter().all(|&n| n > 10_000), "every width was read: {:?}", seen.widths);
    assert!(seen.resets > 10_000 && seen.wrapped > 1_000, "{seen}");
    assert!(seen.overrun > 100_000 && seen.reads - seen.overrun > 100_000, "{seen}");
    assert!(seen.missing > 100_000, "{seen}");
}

/// A reader of its own, right but for one fault.
struct Wrong<'a> {
    src: &'a [u8],
    fault: Fault,
    pos: u64,
    unread: u64,
    count: u32,
    overrun: bool,
    filler: u64,
}

#[derive(Clone, Copy, PartialEq)]
enum Fault {
    None,
    LeftoverBytes,
    FillerOfZeros,
    HighestByteFirst,
    EagerFetch,
    FetchForNothing,
    WideReads,
    StuckAtTheEnd,
    ForgottenOverrun,
    ForgottenCount,
    CountOfReads,
    CountAsAFlag,
    CountAtTheEndAlone,
    KeptBits,
}

impl Wrong<'_> {
    fn fetch(&mut self) {
        let rest = usize::try_from(self.pos).ok().and_then(|p| self.src.get(p..)).unwrap_or_default();
        let mut word = match self.fault {
            Fault::LeftoverBytes if !rest.is_empty() && rest.len() < 4 => [0xff; 4],
            Fault::FillerOfZeros => [0; 4],
            _ => [0xff; 4],
        };
        let whole = rest.len() >= 4;
        self.overrun |= !whole;
        self.filler = match self.fault {
            _ if whole => self.filler,
            Fault::CountAsAFlag => 1,
            // Where no byte of the word is left.
            Fault::CountAtTheEndAlone => self.filler + u64::from(rest.is_empty()),
            _ => self.filler + 1,
        };
        if whole || self.fault == Fault::LeftoverBytes {
            let n = rest.len().min(4);
            word[..n].copy_from_slice(&rest[..n]);
        }
        let value = match self.fault {
            Fault::HighestByteFirst => u32::from_be_bytes(word),
            _ => u32::from_le_bytes(word),
        };
        if whole || self.fault != Fault::StuckAtTheEnd {
            self.pos = self.pos.wrapping_add(4);
        }
        self.unread = self.unread << 32 | u64::from(value);
        self.count += 32;
    }
}

impl Reader for Wrong<'_> {
    fn get(&mut self, n: u32) -> u32 {
        let n = match self.fault {
            Fault::WideReads if n > 32 => 0,
            Fault::FetchForNothing if n == 0 && self.count == 0 => {
                self.fetch();
                0
            }
            _ => n.min(32),
        };
        if self.count < n || self.fault == Fault::EagerFetch && self.count == n {
            self.fetch();
        }
        if self.fault == Fault::CountOfReads && self.overrun && n > 0 {
            self.filler += 1;
        }
        self.count -= n;
        let value = self.unread >> self.count;
        self.unread &= (1 << self.count) - 1;
        value as u32
    }

    fn reset_at(&mut self, pos: u64) {
        self.pos = pos;
        self.overrun &= self.fault != Fault::ForgottenOverrun;
        if self.fault == Fault::ForgottenCount {
            self.filler = 0;
        }
        if self.fault != Fault::KeptBits {
            (self.unread, self.count) = (0, 0);
        }
    }

    fn pos(&self) -> u64 {
        self.pos
    }

    fn overrun(&self) -> bool {
        self.overrun
    }

    fn filler(&self) -> Option<u64> {
        Some(self.filler)
    }
}

macro_rules! start {
    ($fault:ident) => {
        (stringify!($fault), |src, pos| {
            Box::new(Wrong { src, fault: Fault::$fault, pos, unread: 0, count: 0, overrun: false, filler: 0 })
        })
    };
}

#[test]
fn a_reader_of_its_own_without_a_fault_is_alike() {
    let (_, start): (&str, Start) = start!(None);
    compare(start, reference, 7, 100_000).unwrap_or_else(|difference| panic!("{difference}"));
}

#[test]
fn a_wrong_reader_is_found_out() {
    let wrong: [(&str, Start); 13] = [
        start!(LeftoverBytes),
        start!(FillerOfZeros),
        start!(HighestByteFirst),
        start!(EagerFetch),
        start!(FetchForNothing),
        start!(WideReads),
        start!(StuckAtTheEnd),
        start!(ForgottenOverrun),
        start!(ForgottenCount),
        start!(CountOfReads),
        start!(CountAsAFlag),
        start!(CountAtTheEndAlone),
        start!(KeptBits),
    ];
    for (fault, start) in wrong {
        let found = compare(start, reference, 7, 100_000);
        assert!(found.is_err(), "{fault} was not found out");
    }
}

/// A fault of a read by value: what it makes of the state before and what was rightly read.
fn wrong_state(get: fn(&[u8], Bits, u32) -> Got) -> bool {
    states::compare(ByValue { get, ..states::RAZVOLK }, 7, 20_000).is_err()
}

/// As a right read has it, but for the count.
fn counted(src: &[u8], state: Bits, n: u32, count: fn(u64) -> u64) -> Got {
    let mut got = states::get(src, Bits { filler: 0, ..state }, n);
    got.bits.filler = if got.bits.filler == 1 { count(state.filler) } else { state.filler };
    got
}

#[test]
fn razvolk_reads_any_state_by_the_rules() {
    let seen = states::compare(states::RAZVOLK, 0x5eed, 400_000).unwrap_or_else(|difference| panic!("{difference}"));
    println!("{seen}");
    assert!(seen.overfull > 10_000 && seen.missing > 50_000 && seen.full > 20_000, "{seen}");
}

#[test]
fn a_wrong_read_of_a_state_is_found_out() {
    assert!(!wrong_state(|src, state, n| counted(src, state, n, |count| count.saturating_add(1))));
    assert!(wrong_state(|src, state, n| counted(src, state, n, |count| count.wrapping_add(1))), "the count wraps");
    assert!(wrong_state(|src, state, n| counted(src, state, n, |_| 1)), "a count that is a flag");
    assert!(wrong_state(|src, state, n| counted(src, state, n, |count| count)), "nothing is counted");
    assert!(wrong_state(|src, state, n| counted(src, state, n, |count| count.saturating_add(2))), "counted twice");
    let stopped = |src: &[u8], state, n| counted(src, state, n, |count| count.saturating_add(1).min(u64::MAX - 1));
    assert!(wrong_state(stopped), "the count stops one too soon");
    assert!(wrong_state(|src, state, n| states::get(src, Bits { count: state.count % 32, ..state }, n)), "overfull");
    let lost = ByValue { reset_at: |_, pos| Bits::new(pos), ..states::RAZVOLK };
    assert!(states::compare(lost, 7, 20_000).is_err(), "a move loses the count");
}
