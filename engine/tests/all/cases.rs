//! The cases of docs/RULES.md, with its figures.

use crate::helpers::{Both, LAST};
use engine::HeadView;
use reference::batch::{Command, Reply};

fn store(index: u64, order: u8, word: u64) -> Command {
    Command::Store { index, order, word }
}

fn load(index: u64) -> Command {
    Command::Load { index }
}

fn find(first: u64, filter: u8, budget: u16) -> Command {
    Command::Find { first, last: LAST, filter, budget }
}

/// Both engines after these commands, each of which must be done.
fn after(nodes: usize, commands: &[Command]) -> Both {
    let mut both = Both::new(nodes);
    for command in commands {
        assert_eq!(both.reply(*command).answer, 0, "{command:?}");
    }
    both
}

fn case_2(nodes: usize) -> Both {
    after(nodes, &[store(0, 0, 3)])
}

fn case_3(nodes: usize) -> Both {
    after(nodes, &[store(0, 0, 3), store(64, 0, 5)])
}

/// Base, order, word, marks and count of a reply that was done.
fn gives(reply: Reply) -> (u64, u8, u64, u8, u16) {
    assert_eq!(reply.answer, 0);
    (reply.index, reply.order, reply.word, reply.marks, reply.count)
}

/// The slots of the head, and its mark words.
fn head_slots(both: &Both) -> ([u64; 64], [u64; 3]) {
    let (_, nodes) = both.tree();
    (nodes[0].slots, nodes[0].marks)
}

#[test]
fn cases_1_and_2_an_empty_tree_and_a_bare_head() {
    let mut both = Both::new(1);
    let reply = both.reply(load(0));
    assert_eq!((reply.answer, reply.count), (10, 0));
    let both = case_2(1);
    assert_eq!(both.tree(), (HeadView::Bare { word: 3, marks: 0 }, Vec::new()));
    assert_eq!(both.used(), 0);
}

#[test]
fn case_3_needs_3_nodes() {
    let mut two = case_2(2);
    assert_eq!(two.reply(store(64, 0, 5)).answer, 11);
    assert_eq!(two.tree(), (HeadView::Bare { word: 3, marks: 0 }, Vec::new()));
    assert_eq!(case_3(3).used(), 3);
}

#[test]
fn cases_4_to_6_what_stores_need() {
    let needs = |both: &dyn Fn(usize) -> Both, index, nodes: usize, needed: usize| {
        let mut short = both(nodes - 1);
        let before = short.tree();
        assert_eq!(short.reply(store(index, 0, 7)).answer, 11);
        assert_eq!(short.tree(), before);
        let mut enough = both(nodes);
        let used = enough.used();
        assert_eq!(gives(enough.reply(store(index, 0, 7))), (index, 0, 7, 0, 0));
        assert_eq!(enough.used() - used, needed);
    };
    needs(&case_3, 4096, 6, 3);
    needs(&case_3, 4095, 4, 1);
    needs(&Both::new, LAST, 11, 11);
    needs(&case_2, LAST, 21, 21);
}

#[test]
fn case_7_a_head_of_shift_6() {
    let mut both = after(1, &[store(0, 6, 7)]);
    assert_eq!((both.tree().0, both.used()), (HeadView::Node { shift: 6 }, 1));
    assert_eq!(gives(both.reply(load(63))), (0, 6, 7, 0, 1));
}

#[test]
fn cases_8_and_9_siblings() {
    let mut both = after(1, &[store(8, 3, 7)]);
    let (slots, _) = head_slots(&both);
    assert_eq!(slots[8], 7);
    assert!(slots[9..16].iter().all(|word| *word == 34));
    assert_eq!(gives(both.reply(store(10, 0, 9))), (8, 3, 9, 0, 0));
    assert_eq!(gives(both.reply(load(15))), (8, 3, 9, 0, 1));
    assert_eq!(gives(both.reply(Command::Erase { index: 11 })), (8, 3, 9, 0, 0));
    assert_eq!(both.tree(), (HeadView::Empty, Vec::new()));
    assert_eq!(both.used(), 0);
}

#[test]
fn case_8a_orders_of_refusal() {
    let mut both = Both::new(1);
    for (index, order, word, answer) in [(13, 64, 0, 5), (13, 3, 0, 14), (8, 3, 0, 6), (8, 3, 2, 6)]
    {
        assert_eq!(both.reply(store(index, order, word)).answer, answer);
        assert_eq!(both.tree().0, HeadView::Empty);
    }
}

#[test]
fn case_10_marks_are_handed_on() {
    let mark = |index, mark| Command::Mark { index, mark };
    let commands = [store(64, 0, 3), mark(64, 0), store(65, 0, 5), mark(65, 1)];
    let mut both = after(3, &commands);
    assert_eq!(both.used(), 2);
    assert_eq!(gives(both.reply(store(64, 6, 7))), (64, 6, 7, 3, 0));
    assert_eq!(both.used(), 1);
}

#[test]
fn cases_10a_and_10b_mark_2_is_not() {
    let mark = |index, mark| Command::Mark { index, mark };
    for (order, beside) in [(3, false), (3, true), (0, false), (0, true)] {
        let mut both = after(7, &[store(4096, 0, 3), mark(4096, 0), mark(4096, 2)]);
        if beside {
            both.reply(store(4160, 0, 5));
            both.reply(mark(4160, 2));
        }
        assert_eq!(gives(both.reply(store(4096, order, 3))), (4096, order, 3, 1, 0));
        let (_, nodes) = both.tree();
        // From the head down to 4096: slots 1, 0 and 0. 4160 is below slot 1 of the second.
        let marks = |node: usize, mark: usize| nodes[node].marks[mark];
        assert_eq!((marks(0, 0), marks(1, 0), marks(2, 0)), (2, 1, 1));
        let left = if beside { (2, 2, 0) } else { (0, 0, 0) };
        assert_eq!((marks(0, 2), marks(1, 2), marks(2, 2)), left);
    }
    let mut head = after(1, &[store(0, 0, 3), mark(0, 2), mark(0, 0), store(0, 0, 3)]);
    assert_eq!(gives(head.reply(load(0))), (0, 0, 3, 1, 0));
}

#[test]
fn cases_11_and_12_the_head_shrinks_and_the_widest_order() {
    let mut both = case_3(3);
    both.reply(Command::Erase { index: 64 });
    assert_eq!(both.tree(), (HeadView::Bare { word: 3, marks: 0 }, Vec::new()));
    let both = after(1, &[store(1 << 63, 63, 7)]);
    let (slots, _) = head_slots(&both);
    assert_eq!((both.tree().0, slots[8]), (HeadView::Node { shift: 60 }, 7));
    assert!(slots[9..16].iter().all(|word| *word == 34));
    assert_eq!(Both::new(1).reply(store(1 << 63, 64, 7)).answer, 5);
}

#[test]
fn case_13_finds_and_their_steps() {
    let mut both = case_3(3);
    assert_eq!(gives(both.reply(find(1, 3, 100))), (64, 0, 5, 0, 64));
    let paused = both.reply(find(1, 3, 63));
    assert_eq!((paused.answer, paused.index, paused.count), (13, 64, 63));
    both.reply(Command::Mark { index: 64, mark: 0 });
    assert_eq!(gives(both.reply(find(1, 0, 100))), (64, 0, 5, 1, 2));
}

#[test]
fn refusals_of_marks_and_finds() {
    let mut both = case_2(1);
    let mut answer = |command| both.reply(command).answer;
    assert_eq!(answer(Command::Mark { index: 5, mark: 3 }), 7);
    assert_eq!(answer(Command::Unmark { index: 5, mark: 2 }), 10);
    assert_eq!(answer(Command::Find { first: 2, last: 1, filter: 4, budget: 0 }), 7);
    assert_eq!(answer(Command::Find { first: 2, last: 1, filter: 3, budget: 0 }), 8);
    assert_eq!(answer(Command::Find { first: 2, last: 2, filter: 3, budget: 0 }), 9);
    assert_eq!(answer(Command::Find { first: 2, last: 2, filter: 3, budget: 1 }), 12);
}

#[test]
fn the_head_does_not_shrink_below_an_entry_of_order_6() {
    let mut both = after(3, &[store(0, 6, 7), store(64, 0, 5)]);
    both.reply(Command::Erase { index: 64 });
    assert_eq!((both.tree().0, both.used()), (HeadView::Node { shift: 6 }, 1));
}

#[test]
fn what_a_store_frees_is_not_free_for_it() {
    let mut both = after(1, &[store(1, 0, 3)]);
    assert_eq!(both.reply(store(0, 6, 7)).answer, 11);
    let mut both = after(2, &[store(1, 0, 3), Command::Mark { index: 1, mark: 1 }]);
    assert_eq!(gives(both.reply(store(0, 6, 7))), (0, 6, 7, 2, 0));
    assert_eq!(both.used(), 1);
}

#[test]
fn reservations() {
    let reserve = |index| Command::Reserve { index };
    let mut both = after(3, &[reserve(0)]);
    assert_eq!(both.tree().0, HeadView::Bare { word: 1030, marks: 0 });
    assert_eq!(both.reply(reserve(0)).answer, 15);
    assert_eq!(both.reply(load(0)).answer, 10);
    assert_eq!(both.reply(Command::Mark { index: 0, mark: 1 }).answer, 10);
    // Passed as an empty slot; then one step past the head.
    let ended = both.reply(find(0, 3, 9));
    assert_eq!((ended.answer, ended.count), (12, 2));
    assert_eq!(gives(both.reply(reserve(65))), (65, 0, 0, 0, 0));
    assert_eq!(both.reply(reserve(4096)).answer, 11);
    let absent = both.reply(load(65));
    assert_eq!((absent.answer, absent.count), (10, 2));
    assert_eq!(gives(both.reply(store(65, 0, 9))), (65, 0, 9, 0, 0));
    assert_eq!(both.reply(reserve(65)).answer, 15);
    assert_eq!(gives(both.reply(Command::Erase { index: 65 })), (65, 0, 9, 0, 0));
    assert_eq!(gives(both.reply(Command::Erase { index: 0 })), (0, 0, 0, 0, 0));
    assert_eq!(both.tree().0, HeadView::Empty);
}
