// The plain implementation by itself: document 01's listing and cases, both kinds in one group, board swaps, the ticket desk, what to fetch,
// and all histories of small rosters.
mod boards;
mod cases;
mod desk;
mod fetches;
mod histories;
mod records;

use crate::plain::program;
use crate::plain::recovery::Recovery;

pub fn run() {
    for (name, test) in [
        ("the listing", listing as fn() -> u64),
        ("streams", streams),
        ("P1 to P12 and others", cases::table),
        ("both kinds in one group", cases::both_kinds),
        ("buffers and places", cases::borders),
        ("all answers in one list", cases::listed),
        ("faults of a record", records::faults),
        ("lists of serials", records::lists),
        ("writing and reading", records::round_trips),
        ("second serials given", boards::given),
        ("second serials found", boards::found),
        ("records read with second serials", boards::read),
        ("records offered with second serials", boards::offered),
        ("either serial, one meaning", boards::meaning),
        ("faults of a record for the ticket desk", desk::faults),
        ("second serials for the ticket desk", desk::second_serials),
        ("what the ticket desk may not see", desk::hidden),
        ("what to fetch", fetches::table),
        ("all histories, up to 3 members", histories::enumeration),
        ("days", histories::days),
    ] {
        println!("{name}: {} checks", test());
    }
    println!("selftest: ok");
}

// A recovery of so many members, with serials from 101 on.
fn open(n: u32) -> Recovery {
    Recovery::open(&(101..101 + n).collect::<Vec<_>>()).expect("a roster")
}

// The bytes of a text in hexadecimal.
fn hex(text: &str) -> Vec<u8> {
    let digits: Vec<char> = text.chars().filter(|c| !c.is_whitespace()).collect();
    digits.chunks(2).map(|pair| u8::from_str_radix(&pair.iter().collect::<String>(), 16).unwrap()).collect()
}

fn output_of(input: &[u8]) -> String {
    let mut output = Vec::new();
    program::run(input, &mut output).unwrap();
    String::from_utf8(output).unwrap()
}

const FIRST: &str = "02 00000065 04 00000065 00000066 00000067 00000068 00";
const SECOND: &str = "02 00000068 04 00000065 00000066 00000067 00000068 02 00000066 00000067";

fn listing() -> u64 {
    let wanted = "record 1 taken\nrecord 2 taken\n101 open\n102 not\n103 not\n104 last\nwhole open\n";
    assert_eq!(output_of(&[hex(FIRST), hex(SECOND)].concat()), wanted);
    1
}

fn streams() -> u64 {
    let (first, second) = (hex(FIRST), hex(SECOND));
    let lone = |serial: u8, mourned: &[u8]| {
        let head = [1, 0, 0, 0, serial, 2, 0, 0, 0, 7, 0, 0, 0, 8, mourned.len() as u8];
        [head.to_vec(), mourned.iter().flat_map(|&x| [0, 0, 0, x]).collect()].concat()
    };
    let itself = lone(7, &[7]);
    for (input, wanted) in [
        (vec![], "no records\n"),
        (vec![7], "record 1 refused 2\nno records\n"),
        (lone(9, &[]), "record 1 refused 6\nno records\n"),
        (first[..22].to_vec(), "record 1 refused 1\nno records\n"),
        (itself.clone(), "record 1 refused 11\n7 open\n8 open\nwhole open\n"),
        (
            [itself, lone(7, &[]), lone(7, &[]), lone(7, &[8])].concat(),
            "record 1 refused 11\nrecord 2 taken\nrecord 3 repeated\nrecord 4 refused 10\n7 open\n8 last\nwhole open\n",
        ),
        (
            [first.clone(), lone(7, &[]), vec![3]].concat(),
            "record 1 taken\nrecord 2 refused 9\nrecord 3 refused 2\n101 open\n102 open\n103 open\n104 open\nwhole open\n",
        ),
        (
            [first.clone(), vec![2], second].concat(),
            "record 1 taken\nrecord 2 refused 1\n101 open\n102 open\n103 open\n104 open\nwhole open\n",
        ),
    ] {
        assert_eq!(output_of(&input), wanted, "{input:?}");
    }
    // longer than any window, and a record across each border
    let output = output_of(&first.repeat(10_000));
    assert_eq!(output.lines().filter(|line| line.ends_with("repeated")).count(), 9_999);
    9
}
