//! The flash calls, each made on all sides and compared.

use fastest::flash as fastest;
use galtuyeg::{flash, raw};
use independent::flash as independent;
use inputs::answers::{no_live, no_report, Answer};

use crate::lent::Lent;
use crate::round::Round;
use crate::tally::Call;

pub fn check(round: &mut Round, image: &mut Lent, partition: u8) -> u32 {
    let proved = raw::flash_check(image.proved.get(), partition);
    let others = [
        independent::check(image.others[0].get(), partition),
        fastest::check(image.others[1].get(), partition),
    ];
    let mut case = round.compare(Call::FlashCheck, format!("partition {partition}"));
    case.answered(proved.into());
    case.same("number", proved, others);
    if case.wants_typed() {
        let typed = flash::check(image.proved.get(), partition);
        case.typed(number_of(typed), proved);
    }
    case.buffer("image", image, false);
    proved
}

pub fn report(round: &mut Round, image: &mut Lent, partition: u8) {
    let proved = raw::flash_report(image.proved.get(), partition);
    let others = [
        independent::report(image.others[0].get(), partition).raw(),
        fastest::report(image.others[1].get(), partition).raw(),
    ];
    let mut case = round.compare(Call::FlashReport, format!("partition {partition}"));
    case.answered(proved.code);
    case.same("report", proved, others);
    if case.wants_typed() {
        let typed = match flash::report(image.proved.get(), partition) {
            Ok(report) => raw::Report {
                code: 0,
                version: report.version.into(),
                capacity: report.capacity.into(),
                used: report.used.into(),
                live: report.live.into(),
            },
            Err(refusal) => no_report(refusal.number()),
        };
        case.typed(typed, proved);
    }
    case.buffer("image", image, false);
}

pub fn next_live(round: &mut Round, image: &mut Lent, partition: u8, from: u64) -> Option<u64> {
    let proved = raw::flash_next_live(image.proved.get(), partition, from);
    let others = [
        independent::next_live(image.others[0].get(), partition, from).raw(),
        fastest::next_live(image.others[1].get(), partition, from).raw(),
    ];
    let asked = format!("partition {partition} from {from}");
    let mut case = round.compare(Call::FlashNextLive, asked);
    case.answered(proved.code);
    case.same("next live", proved, others);
    if case.wants_typed() {
        let typed = match flash::next_live(image.proved.get(), partition, from) {
            Ok(Some(number)) => raw::NextLive { code: 0, number },
            Ok(None) => no_live(7),
            Err(refusal) => no_live(refusal.number()),
        };
        case.typed(typed, proved);
    }
    case.buffer("image", image, false);
    (proved.code == 0).then_some(proved.number)
}

/// What the proved library answered, and what it left in a page buffer that held `page`.
pub fn read(
    round: &mut Round,
    image: &mut Lent,
    partition: u8,
    number: u64,
    page: &[u8],
) -> (u32, Vec<u8>) {
    let mut page: Lent = round.lend(page);
    let proved = raw::flash_read(image.proved.get(), partition, number, page.proved.get_mut());
    let others = [
        independent::read(image.others[0].get(), partition, number, page.others[0].get_mut()),
        fastest::read(image.others[1].get(), partition, number, page.others[1].get_mut()),
    ];
    let length = page.before().len();
    let asked = format!("partition {partition} number {number} page of {length}");
    let mut case = round.compare(Call::FlashRead, asked);
    case.answered(proved.into());
    case.same("number", proved, others);
    if length == flash::PAGE_BYTES && case.wants_typed() {
        let typed = match flash::read(image.proved.get(), partition, number) {
            Ok(read) => (0, read.to_vec()),
            Err(refusal) => (refusal.number(), page.before().to_vec()),
        };
        case.typed(typed, (proved, page.proved.get().to_vec()));
    }
    case.buffer("image", image, false);
    case.buffer("page", &mut page, proved == 0);
    (proved, page.before().to_vec())
}

/// What a save brings.
pub struct Save<'a> {
    pub partition: u8,
    pub number: u64,
    pub expected: &'a [u8],
    pub page: &'a [u8],
}

pub fn save(round: &mut Round, image: &mut Lent, asked: &Save) -> u32 {
    let Save { partition, number, .. } = *asked;
    let mut expected: Lent = round.lend(asked.expected);
    let mut page: Lent = round.lend(asked.page);
    let proved = raw::flash_save(
        image.proved.get_mut(),
        partition,
        number,
        expected.proved.get(),
        page.proved.get(),
    );
    let others = [
        independent::save(
            image.others[0].get_mut(),
            partition,
            number,
            expected.others[0].get(),
            page.others[0].get(),
        ),
        fastest::save(
            image.others[1].get_mut(),
            partition,
            number,
            expected.others[1].get(),
            page.others[1].get(),
        ),
    ];
    let lengths = (asked.expected.len(), asked.page.len());
    let text = format!("partition {partition} number {number} expected and page of {lengths:?}");
    let mut case = round.compare(Call::FlashSave, text);
    case.answered(proved.into());
    if proved == 0 && asked.page == asked.expected {
        case.idle();
    }
    case.same("number", proved, others);
    if case.wants_typed() {
        if let Some(typed) = typed_save(image.before(), asked) {
            case.typed(typed, (proved, image.proved.get().to_vec()));
        }
    }
    case.buffer("image", image, proved == 0);
    case.buffer("expected", &mut expected, false);
    case.buffer("page", &mut page, false);
    proved
}

pub fn erase(round: &mut Round, image: &mut Lent, partition: u8) -> u32 {
    let proved = raw::flash_erase(image.proved.get_mut(), partition);
    let others = [
        independent::erase(image.others[0].get_mut(), partition),
        fastest::erase(image.others[1].get_mut(), partition),
    ];
    let mut case = round.compare(Call::FlashErase, format!("partition {partition}"));
    case.answered(proved.into());
    case.same("number", proved, others);
    if case.wants_typed() {
        let mut copy = image.before().to_vec();
        let typed = number_of(flash::erase(&mut copy, partition));
        case.typed((typed, copy), (proved, image.proved.get().to_vec()));
    }
    case.buffer("image", image, proved == 0);
    proved
}

/// The typed save's number and the image it leaves, if its types can say what is asked.
fn typed_save(image: &[u8], asked: &Save) -> Option<(u32, Vec<u8>)> {
    let page = asked.page.try_into().ok()?;
    let expected = match asked.expected {
        [] => None,
        seen => Some(seen.try_into().ok()?),
    };
    let mut copy = image.to_vec();
    let answer = flash::save(&mut copy, asked.partition, asked.number, expected, page);
    Some((number_of(answer), copy))
}

fn number_of(answer: Result<(), flash::Refusal>) -> u32 {
    answer.map_or_else(flash::Refusal::number, |()| 0)
}
