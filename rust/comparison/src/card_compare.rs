//! The card calls, each made by the proved library and by `independent`, and compared.

use ::independent::card::{self as independent, NewFile};
use galtuyeg::{card, raw};
use inputs::answers::{checked, no_entry, Answer, DONE};

use crate::lent;
use crate::round::Round;
use crate::tally::Call;

/// A buffer that is lent to one other side, `independent`: `fastest` has no card calls.
pub type Lent = lent::Lent<1>;

pub fn check(round: &mut Round, image: &mut Lent) {
    let proved = raw::card_check(image.proved.get());
    let other = independent::check(image.others[0].get()).raw();
    let mut case = round.compare(Call::CardCheck, String::new());
    case.answered(proved.code);
    case.same("check", proved, [other]);
    if case.wants_typed() {
        let typed = match card::check(image.proved.get()) {
            Ok(sound) => checked(DONE, sound.orphans.into()),
            Err(refusal) => checked(typed_verdict(refusal), 0),
        };
        case.typed(typed, proved);
    }
    case.buffer("card", image, false);
}

/// The entry found, if the card is sound and has one.
pub fn list(round: &mut Round, image: &mut Lent, from: u64) -> Option<u64> {
    let proved = raw::card_list(image.proved.get(), from);
    let other = independent::list(image.others[0].get(), from).raw();
    let mut case = round.compare(Call::CardList, format!("from {from}"));
    case.answered(proved.code);
    case.same("entry", proved, [other]);
    if case.wants_typed() {
        let typed = match card::list(image.proved.get(), from) {
            Ok(Some(entry)) => typed_entry(&entry),
            Ok(None) => no_entry(raw::CardVerdict { code: 31, ..DONE }),
            Err(refusal) => no_entry(typed_verdict(refusal)),
        };
        case.typed(typed, proved);
    }
    case.buffer("card", image, false);
    (proved.code == 0).then_some(proved.entry)
}

/// What a read of a file's block brings.
pub struct Read<'a> {
    pub name: &'a [u8],
    pub index: u64,
    pub block: &'a [u8],
}

pub fn read(round: &mut Round, image: &mut Lent, asked: &Read) {
    let mut name: Lent = round.lend(asked.name);
    let mut block: Lent = round.lend(asked.block);
    let proved =
        raw::card_read(image.proved.get(), name.proved.get(), asked.index, block.proved.get_mut());
    let other = independent::read(
        image.others[0].get(),
        name.others[0].get(),
        asked.index,
        block.others[0].get_mut(),
    );
    let (bytes, index, length) = (asked.name, asked.index, asked.block.len());
    let text = format!("name {bytes:02x?} index {index} block of {length}");
    let mut case = round.compare(Call::CardRead, text);
    case.answered(proved.code);
    case.same("verdict", proved, [other.raw()]);
    if case.wants_typed() {
        if let Some(typed) = typed_read(image.proved.get(), asked) {
            case.typed(typed, (proved, block.proved.get().to_vec()));
        }
    }
    case.buffer("card", image, false);
    case.buffer("name", &mut name, false);
    case.buffer("block", &mut block, proved.code == 0);
}

pub fn write(round: &mut Round, image: &mut Lent, asked: &NewFile) {
    let [mut name, mut time, mut data]: [Lent; 3] =
        [asked.name, asked.time, asked.data].map(|bytes| round.lend(bytes));
    let NewFile { flag, offset, .. } = *asked;
    let proved = raw::card_write(
        image.proved.get_mut(),
        name.proved.get(),
        flag,
        time.proved.get(),
        offset,
        data.proved.get(),
    );
    let other = independent::write(
        image.others[0].get_mut(),
        &NewFile {
            name: name.others[0].get(),
            time: time.others[0].get(),
            data: data.others[0].get(),
            ..*asked
        },
    );
    let (bytes, lengths) = (asked.name, (asked.time.len(), asked.data.len()));
    let text =
        format!("name {bytes:02x?} flag {flag} offset {offset} time and data of {lengths:?}");
    let mut case = round.compare(Call::CardWrite, text);
    case.answered_on(is_sound(image), proved.code);
    case.same("verdict", proved, [other.raw()]);
    if case.wants_typed() {
        if let Some((verdict, left)) = typed_write(image.before(), asked) {
            case.typed((verdict, left == image.proved.get()), (proved, true));
        }
    }
    case.buffer("card", image, proved.code == 0);
    case.buffer("name", &mut name, false);
    case.buffer("time", &mut time, false);
    case.buffer("data", &mut data, false);
}

pub fn delete(round: &mut Round, image: &mut Lent, asked: &[u8]) {
    let mut name: Lent = round.lend(asked);
    let proved = raw::card_delete(image.proved.get_mut(), name.proved.get());
    let other = independent::delete(image.others[0].get_mut(), name.others[0].get());
    let mut case = round.compare(Call::CardDelete, format!("name {asked:02x?}"));
    case.answered_on(is_sound(image), proved.code);
    case.same("verdict", proved, [other.raw()]);
    if case.wants_typed() {
        if let Some((verdict, left)) = typed_delete(image.before(), asked) {
            case.typed((verdict, left == image.proved.get()), (proved, true));
        }
    }
    case.buffer("card", image, proved.code == 0);
    case.buffer("name", &mut name, false);
}

/// Whether the card passed the check before the call.
fn is_sound(image: &Lent) -> bool {
    independent::check(image.before()).is_ok()
}

/// The typed read's verdict and what it leaves in the buffer, if its types can say what is asked.
fn typed_read(image: &[u8], asked: &Read) -> Option<(raw::CardVerdict, Vec<u8>)> {
    let name = asked.name.try_into().ok()?;
    let mut block = asked.block.try_into().ok()?;
    let answer = card::read(image, name, asked.index, &mut block);
    let verdict = answer.map_or_else(typed_verdict, |()| DONE);
    Some((verdict, block.to_vec()))
}

/// The typed write's verdict and the card it leaves, if its types can say what is asked.
fn typed_write(image: &[u8], asked: &NewFile) -> Option<(raw::CardVerdict, Vec<u8>)> {
    let NewFile { flag, offset, data, .. } = *asked;
    let name = asked.name.try_into().ok()?;
    let time = asked.time.try_into().ok()?;
    let mut left = image.to_vec();
    let answer = card::write(&mut left, &card::NewFile { name, flag, time, offset, data });
    Some((answer.map_or_else(typed_verdict, |()| DONE), left))
}

/// The typed delete's verdict and the card it leaves, if its types can say what is asked.
fn typed_delete(image: &[u8], asked: &[u8]) -> Option<(raw::CardVerdict, Vec<u8>)> {
    let name = asked.try_into().ok()?;
    let mut left = image.to_vec();
    let answer = card::delete(&mut left, name);
    Some((answer.map_or_else(typed_verdict, |()| DONE), left))
}

fn typed_verdict(refusal: card::Refusal) -> raw::CardVerdict {
    let (place_kind, place) = match refusal.place {
        card::Place::WholeCard => (0, 0),
        card::Place::Block(block) => (1, block.into()),
        card::Place::Entry(entry) => (2, entry.into()),
        unknown => panic!("the comparison does not know the place {unknown}"),
    };
    raw::CardVerdict { code: refusal.number().into(), place_kind, place }
}

fn typed_entry(entry: &card::Entry) -> raw::CardEntry {
    let kind = match entry.kind {
        card::Kind::Data => 0x33,
        card::Kind::Game => 0xcc,
    };
    let copy_protected = match entry.protection {
        card::CopyProtection::Copyable => 0,
        card::CopyProtection::Protected => 1,
    };
    raw::CardEntry {
        entry: entry.entry.into(),
        kind,
        flag: entry.flag.into(),
        copy_protected,
        first: entry.first.into(),
        size: entry.size.into(),
        offset: entry.offset.into(),
        name: entry.name,
        time: entry.time,
        ..no_entry(DONE)
    }
}
