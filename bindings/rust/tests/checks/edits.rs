//! The bytes of edit lists, and numbers that a type does not hold.

use crate::plain;
use crate::site::*;
use crate::tally::*;
use dehlbazin::*;

fn hex(bytes: &[u8]) -> String {
    bytes.iter().map(|byte| format!("{byte:02X}")).collect()
}

/// The whole example of docs/SPEC.md, and one with every field that it leaves 0.
fn bytes() {
    same(hex(&EditList::new().bytes()), "01000100".to_string());
    let log = LogChange { message: Message(3), ..LogChange::default() };
    let edit = RefEdit::update_with(log, HEAD, ANY, object(7)).through_links();
    let example = "01001C01 0101000000 000000000000000000 010000000000000007 0000 0003";
    same(hex(&list(&[edit]).bytes()), example.replace(' ', ""));
    let log = LogChange { mode: RefLog::Only, force_create_reflog: true, message: Message(0xABCD) };
    let update = RefEdit::update_with(log, NameNumber(0x1234), PreviousValue::MustNotExist, link(NameNumber(0xFFFE)));
    let delete = RefEdit::delete(AISLE, PreviousValue::ExistingMustMatch(object(0x0102_0304_0506_0708)));
    let both = "01003702 0100010102 000000000000000000 02000000000000FFFE 1234 ABCD \
                0200000004 010102030405060708 000000000000000000 0001 0000";
    same(hex(&list(&[update, delete]).bytes()), both.replace(' ', ""));
    let delete = RefEdit::delete(AISLE, PreviousValue::MustExistAndMatch(link(HEAD)));
    same(hex(&list(&[delete]).bytes())[16..28].to_string(), "030200000000".to_string());
    same(list(&[RefEdit::delete(AISLE, PreviousValue::MustExist)]).bytes()[8], 1);
}

/// 32 edits are prepared; a 33rd is refused at once, and no more are asked for.
fn most() {
    let mut region = site(&[]);
    let mut store = done(Store::open(&mut region));
    let edits: Vec<_> =
        (0..33).map(|n| RefEdit::update(done(store.add_name(format!("refs/{n}"))), ANY, object(n + 1))).collect();
    let mut list = done(EditList::of(edits[..32].to_vec()));
    same((list.bytes().len(), EditList::MOST_BYTES), (868, 868));
    same(done(store.prepare(&list, MODE)).row_count(), 32);
    refused(list.push(edits[32]), Refusal::Malformed);
    same(list.edits(), &edits[..32]);
    refused(EditList::of(edits.clone()), Refusal::Malformed);
    let mut asked = 0;
    refused(EditList::of(std::iter::repeat_with(|| (asked += 1, edits[0]).1)), Refusal::Malformed);
    same(asked, 33);
}

/// Numbers that a type does not hold are refused as the plain call refuses them.
fn whole_numbers() {
    let mut region = marked();
    let mut record = [0; 128];
    for shift in [16, 17, 32, 48, 63] {
        for low in [0, 1, 65535] {
            let number = (1 << shift) + low;
            refused(NameNumber::new(number), Refusal::NotRegistered { number });
            same((plain::read_name(&region, number, &mut record), plain::place(&record, 0)), (3, number));
            refused(Message::new(number), Refusal::Malformed);
            refused(Committer::new(number), Refusal::Malformed);
            done(done(Store::open(&mut region)).prepare(&EditList::new(), MODE)).leave_prepared();
            same(plain::commit(&mut region, number, 0, &mut record), 2);
            same(done(Store::open(&mut region)).rollback(), Ok(0));
        }
    }
    refused(Committer::new(0), Refusal::Malformed);
    refused(ObjectNumber::new(0), Refusal::Malformed);
    for number in [0, 1, 255, 256, 65535] {
        same(done(NameNumber::new(number)).get(), number);
        same(done(Message::new(number)).get(), number);
        same(Committer::new(number).map_or(0, Committer::get), number);
    }
}

pub fn all() {
    bytes();
    most();
    whole_numbers();
}
