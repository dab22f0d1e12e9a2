//! The slot calls, each made by the proved library and by `independent`, and compared.

use ::independent::slots as independent;
use galtuyeg::slots::{self, DataBlock, SlotHeader};
use galtuyeg::{flash, raw};
use inputs::answers::{no_slot, Answer, SlotAnswer};
use inputs::slots::{number, PARTITION};

use crate::lent;
use crate::round::Round;
use crate::tally::Call;

/// A buffer that is lent to one other side, `independent`: `fastest` has no slot calls.
pub type Lent = lent::Lent<1>;

/// The slot found, if there is one.
pub fn find(round: &mut Round, image: &mut Lent, partition: u8, asked: &[u8]) -> Option<u64> {
    let mut product: Lent = round.lend(asked);
    let proved = raw::slot_find(image.proved.get(), partition, product.proved.get());
    let other = independent::find(image.others[0].get(), partition, product.others[0].get());
    let text = format!("partition {partition} product {asked:02x?}");
    let mut case = round.compare(Call::SlotFind, text);
    case.answered(proved.code);
    case.same("slot", proved, [SlotAnswer(other).raw()]);
    if case.wants_typed() {
        if let Ok(product) = asked.try_into() {
            case.typed(typed_found(slots::find(image.proved.get(), partition, product)), proved);
        }
    }
    case.buffer("image", image, false);
    case.buffer("product", &mut product, false);
    (proved.code == 0).then_some(proved.slot)
}

/// The slot found, if there is one.
pub fn list(round: &mut Round, image: &mut Lent, partition: u8, from: u64) -> Option<u64> {
    let proved = raw::slot_list(image.proved.get(), partition, from);
    let other = independent::list(image.others[0].get(), partition, from);
    let mut case = round.compare(Call::SlotList, format!("partition {partition} from {from}"));
    case.answered(proved.code);
    case.same("slot", proved, [SlotAnswer(other).raw()]);
    if case.wants_typed() {
        case.typed(typed_found(slots::list(image.proved.get(), partition, from)), proved);
    }
    case.buffer("image", image, false);
    (proved.code == 0).then_some(proved.slot)
}

/// The slot claimed, if it was not refused.
pub fn claim(round: &mut Round, image: &mut Lent, partition: u8, asked: [&[u8]; 2]) -> Option<u64> {
    let [mut first, mut second]: [Lent; 2] = asked.map(|page| round.lend(page));
    let proved =
        raw::slot_claim(image.proved.get_mut(), partition, first.proved.get(), second.proved.get());
    let other = independent::claim(
        image.others[0].get_mut(),
        partition,
        first.others[0].get(),
        second.others[0].get(),
    );
    let text = format!("partition {partition} header {asked:02x?}");
    let mut case = round.compare(Call::SlotClaim, text);
    case.answered(proved.code);
    let writes = proved.code == 0 && image.proved.get() != image.before();
    if writes && block_is_there(image.before(), proved.slot, asked) {
        case.idle();
    }
    case.same("slot", proved, [SlotAnswer(other).raw()]);
    if case.wants_typed() {
        if let Some((slot, left)) = typed_claim(image.before(), partition, asked) {
            case.typed((slot, left == image.proved.get()), (proved, true));
        }
    }
    case.buffer("image", image, proved.code == 0);
    case.buffer("first", &mut first, false);
    case.buffer("second", &mut second, false);
    (proved.code == 0).then_some(proved.slot)
}

/// Whether one of the header's blocks is what the slot has in its place. (If both were, the slot would be valid.)
fn block_is_there(image: &[u8], slot: u64, asked: [&[u8]; 2]) -> bool {
    (0..).zip(asked).any(|(block, page)| header_block(image, slot, block).as_slice() == page)
}

/// The contents of a slot's header block 0 or 1, no bytes for nothing.
pub fn header_block(image: &[u8], slot: u64, block: u16) -> Vec<u8> {
    let mut page = vec![0; flash::PAGE_BYTES];
    let number = number(slot as u16, block);
    match ::independent::flash::read(image, PARTITION, number.into(), &mut page) {
        0 => page,
        _ => Vec::new(),
    }
}

/// The data block that a read or a save names.
#[derive(Clone, Copy)]
pub struct Data {
    pub partition: u8,
    pub slot: u64,
    pub block: u64,
}

impl Data {
    fn block(self) -> independent::DataBlock {
        independent::DataBlock { slot: self.slot, block: self.block }
    }

    fn text(self) -> String {
        let Data { partition, slot, block } = self;
        format!("partition {partition} slot {slot} block {block}")
    }

    /// What the typed calls take, if their types can say it.
    fn typed(self) -> Option<(u8, DataBlock)> {
        let block = match self.block {
            0 => DataBlock::First,
            1 => DataBlock::Second,
            _ => return None,
        };
        Some((self.slot.try_into().ok()?, block))
    }
}

/// What the proved library answered, and what it left in a page buffer that held `page`.
pub fn read(round: &mut Round, image: &mut Lent, asked: Data, page: &[u8]) -> (u32, Vec<u8>) {
    let mut page: Lent = round.lend(page);
    let Data { partition, slot, block } = asked;
    let proved = raw::slot_read(image.proved.get(), partition, slot, block, page.proved.get_mut());
    let other = independent::read(
        image.others[0].get(),
        partition,
        asked.block(),
        page.others[0].get_mut(),
    );
    let text = format!("{} page of {}", asked.text(), page.before().len());
    let mut case = round.compare(Call::SlotRead, text);
    case.answered(proved.into());
    case.same("number", proved, [other]);
    if page.before().len() == flash::PAGE_BYTES && case.wants_typed() {
        if let Some((slot, block)) = asked.typed() {
            let typed = match slots::read(image.proved.get(), partition, slot, block) {
                Ok(read) => (0, read.to_vec()),
                Err(refusal) => (refusal.number(), page.before().to_vec()),
            };
            case.typed(typed, (proved, page.proved.get().to_vec()));
        }
    }
    case.buffer("image", image, false);
    case.buffer("page", &mut page, proved == 0);
    (proved, page.before().to_vec())
}

pub fn save(round: &mut Round, image: &mut Lent, asked: Data, [expected, page]: [&[u8]; 2]) -> u32 {
    let Data { partition, slot, block } = asked;
    let [mut seen, mut new]: [Lent; 2] = [expected, page].map(|bytes| round.lend(bytes));
    let proved = raw::slot_save(
        image.proved.get_mut(),
        partition,
        slot,
        block,
        seen.proved.get(),
        new.proved.get(),
    );
    let other = independent::save(
        image.others[0].get_mut(),
        partition,
        asked.block(),
        seen.others[0].get(),
        new.others[0].get(),
    );
    let lengths = (expected.len(), page.len());
    let text = format!("{} expected and page of {lengths:?}", asked.text());
    let mut case = round.compare(Call::SlotSave, text);
    case.answered(proved.into());
    if proved == 0 && page == expected {
        case.idle();
    }
    case.same("number", proved, [other]);
    if case.wants_typed() {
        if let Some((number, left)) = typed_save(image.before(), asked, expected, page) {
            case.typed((number, left == image.proved.get()), (proved, true));
        }
    }
    case.buffer("image", image, proved == 0);
    case.buffer("expected", &mut seen, false);
    case.buffer("page", &mut new, false);
    proved
}

fn typed_found(answer: Result<Option<u8>, flash::Refusal>) -> raw::Slot {
    match answer {
        Ok(Some(slot)) => raw::Slot { code: 0, slot: slot.into() },
        Ok(None) => no_slot(7),
        Err(refusal) => no_slot(refusal.number()),
    }
}

/// The typed claim's answer and the image it leaves, if its types can say what is asked.
fn typed_claim(image: &[u8], partition: u8, asked: [&[u8]; 2]) -> Option<(raw::Slot, Vec<u8>)> {
    let [first, second] = asked;
    let header = SlotHeader { first: first.try_into().ok()?, second: second.try_into().ok()? };
    let mut left = image.to_vec();
    let claimed = match slots::claim(&mut left, partition, &header) {
        Ok(slot) => raw::Slot { code: 0, slot: slot.into() },
        Err(refusal) => no_slot(refusal.number()),
    };
    Some((claimed, left))
}

/// The typed save's number and the image it leaves, if its types can say what is asked.
fn typed_save(image: &[u8], asked: Data, expected: &[u8], page: &[u8]) -> Option<(u32, Vec<u8>)> {
    let (slot, block) = asked.typed()?;
    let page = page.try_into().ok()?;
    let expected = match expected {
        [] => None,
        seen => Some(seen.try_into().ok()?),
    };
    let mut left = image.to_vec();
    let answer = slots::save(&mut left, asked.partition, slot, block, expected, page);
    Some((answer.map_or_else(flash::Refusal::number, |()| 0), left))
}
