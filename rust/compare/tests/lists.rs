//! The comparison of lists of calls, a quick part of it; and decoders through which an earlier frame shows, each of which it
//! must find out.

use compare::call::{Answer, Ask, Decoder, Entry, Lent, razvolk};
use compare::{bands, lists, v0, v2};
use std::cell::Cell;

/// Entries of decoders of their own.
fn own(fault: v0::model::Fault, fault_2: v2::model::Fault) -> Vec<Entry> {
    let v0 = [(Decoder::Direct, false), (Decoder::Direct, true), (Decoder::TwoPhase, false)];
    let mut entries: Vec<Entry> = v0.map(|(decoder, map)| v0::model::entry(fault, decoder, map)).into();
    entries.push(bands::model::entry(bands::model::Fault::None));
    entries.extend([false, true].map(|map| v2::model::entry(fault_2, map)));
    entries
}

#[test]
fn no_earlier_frame_reaches_a_sample_without_an_old_part() {
    let entries = razvolk();
    let seen = lists::compare(&entries, 0x5eed, 150).unwrap_or_else(|difference| panic!("{difference}"));
    println!("{seen}");
    assert!(seen.pairs == 150 && seen.origins > 10_000 && seen.mixed > 10, "{seen}");
    assert!(seen.before[0] > 100 && [3, 4, 11, 12].iter().all(|&number| seen.before[number] > 0), "{seen}");
}

#[test]
fn decoders_of_their_own_without_a_fault_hold() {
    let entries = own(v0::model::Fault::None, v2::model::Fault::None);
    lists::compare(&entries, 7, 30).unwrap_or_else(|difference| panic!("{difference}"));
}

#[test]
fn a_decoder_through_which_an_earlier_frame_shows_is_found_out() {
    use v0::model::Fault as V0;
    use v2::model::Fault as V2;
    let v0 = [V0::MapAllNew, V0::MapAllOld, V0::MapKeptFromEntry, V0::MapNotExchanged, V0::ClearsTheBuffer];
    let v2 = [V2::MapAllNew, V2::MapAllOld, V2::MapKeptFromEntry, V2::MapOfTheFirst, V2::MapAfterDoneOnly];
    for fault in v0 {
        assert!(lists::compare(&own(fault, V2::None), 7, 200).is_err(), "{fault:?} was not found out");
    }
    for fault in v2 {
        assert!(lists::compare(&own(V0::None, fault), 7, 200).is_err(), "{fault:?} was not found out");
    }
}

/// A decoder that changes what the right one does, by a number that is different at each call.
fn with_a_memory(change: fn(u64, &Ask, &mut Lent, &mut Answer)) -> Vec<Entry> {
    let right = v0::model::entry(v0::model::Fault::None, Decoder::Direct, true);
    let calls = Cell::new(0);
    let entry = Entry::new("with a memory", Decoder::Direct, true, move |ask, lent| {
        let mut answer = right.call(ask, lent);
        calls.set(calls.get() + 1);
        if answer.number == 0 && ask.n() > 0 {
            change(calls.get(), ask, lent, &mut answer);
        }
        answer
    });
    vec![entry]
}

#[test]
fn a_decoder_with_a_memory_is_found_out() {
    lists::compare(&with_a_memory(|_, _, _, _| {}), 7, 50).unwrap_or_else(|difference| panic!("{difference}"));
    let sample = with_a_memory(|calls, ask, lent, _| lent.samples[ask.n() - 1] = calls as u16);
    let mark = with_a_memory(|calls, _, lent, _| lent.map[0] = calls as u8);
    let answer = with_a_memory(|calls, _, _, answer| answer.number = 5 + calls as u32 % 3);
    for (what, entries) in [("a sample", sample), ("a mark", mark), ("an answer", answer)] {
        assert!(lists::compare(&entries, 7, 50).is_err(), "{what} that tells the call's number was not found out");
    }
}
