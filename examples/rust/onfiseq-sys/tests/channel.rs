//! What the channel answers, by the rules.

use onfiseq_sys::{Channel, Fault, Geometry, Item, Part};

const CHIP: Geometry = Geometry { page_bytes: 512, spare_bytes: 16, pages: 4, blocks: 8, luns: 1, plane_bits: 0, enhanced: 0, multi_plane: 0, cache: 0, optional: 0 };
const ERASE: [Item; 5] = [Item::command(0, 0x60), Item::address(0, 4), Item::address(0, 0), Item::address(0, 0), Item::command(0, 0xd0)];

fn channel() -> Channel {
    Channel::new(&CHIP, 1).expect("a channel")
}

fn is_busy(channel: &Channel) -> bool {
    channel.look(0, 0).expect("a LUN").busy
}

#[test]
fn an_erase_and_one_too_soon() {
    let mut channel = channel();
    assert_eq!(channel.push_all(&ERASE), Ok(()));
    assert!(is_busy(&channel));
    let refused = channel.push_all(&ERASE).expect_err("too soon");
    assert_eq!((refused.at, refused.fault), (0, Fault::LUN_BUSY));
    assert_eq!(channel.push(Item::ready(0, 0, false)), Ok(()));
    assert!(!is_busy(&channel));
}

#[test]
fn a_ready_from_the_status() {
    let mut channel = channel();
    assert_eq!(channel.push_all(&ERASE), Ok(()));
    for (item, busy) in [(Item::command(0, 0x70), true), (Item::output(0, 0x80), true), (Item::output(0, 0xe0), false)] {
        assert_eq!(channel.push_status(item), Ok(()));
        assert_eq!(is_busy(&channel), busy);
    }
}

#[test]
fn an_operation_comes_whole_or_not() {
    let mut channel = channel();
    let program = [Part::command(0x80), Part::addresses([0; 5]), Part::inputs(528), Part::command(0x10), Part::wait()];
    let too_long = [Part::command(0x80), Part::addresses([0; 5]), Part::inputs(529), Part::command(0x10)];
    assert_eq!(channel.ask_operation(0, &program), Ok(()));
    let refused = channel.operate(0, &too_long).expect_err("a byte too many");
    assert_eq!((refused.part, refused.cycle, refused.fault), (2, 528, Fault { letter: 'F', number: 14 }));
    assert_eq!(channel.operate(0, &program), Ok(()));
}

#[test]
fn ways_out() {
    let mut channel = channel();
    let opener = Item::command(0, 0x60);
    assert_eq!(channel.push(opener), Ok(()));
    assert_eq!(channel.ask(opener), Err(Fault { letter: 'F', number: 3 }));
    assert_eq!(channel.drop_sequence(0), Ok(()));
    let mut other = channel.clone();
    assert_eq!(channel.push_all(&ERASE), Ok(()));
    assert_eq!(channel.begin_target(0), Ok(()));
    assert!(!is_busy(&channel));
    assert_eq!(other.push_all(&ERASE), Ok(()));
    assert_eq!(other.begin_target(1), Err(Fault { letter: 'F', number: 1 }));
    assert_eq!(other.look(1, 0), None);
}

#[test]
fn what_is_no_channel() {
    assert_eq!(Channel::new(&CHIP, 5).err(), Some(Fault { letter: 'T', number: 0 }));
    assert_eq!(Channel::of_page(&[0; 256], 1).err().map(|fault| fault.letter), Some('P'));
}

#[test]
fn faults_in_words() {
    assert_eq!(Fault::LUN_BUSY.to_string(), "the LUN is busy (F9)");
    assert_eq!(format!("{:?}", Fault { letter: 'I', number: 0 }), "I");
}
