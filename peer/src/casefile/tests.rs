//! Files of cases run whole: the examples of document 01, the feed, each complaint, and the limits.

use super::run;

fn told(input: &str) -> String {
    String::from_utf8(run(input.as_bytes())).expect("what is printed is text")
}

/// Runs the lines together; each has the line that it must print.
fn each(cases: &[(&str, &str)]) {
    let input: Vec<&str> = cases.iter().map(|case| case.0).collect();
    let printed = told(&input.join("\n"));
    let printed: Vec<&str> = printed.lines().collect();
    for (case, printed) in cases.iter().zip(&printed) {
        assert_eq!(*printed, case.1, "{}", case.0);
    }
    assert_eq!(printed.len(), cases.len());
}

const ACCEPTED: &str = "accepted type 6000 version 1 flags 0 number 1 time 0";

#[test]
fn examples_a_to_g_are_judged_as_told() {
    each(&[
        (
            "read a: 0417700100000000000000010000000000 00000000",
            &format!("read a: {ACCEPTED} unaddressed body 17 0 [] integrity none"),
        ),
        ("read b: 0417700100000000000000010000000000 000000", "read b: refused 1 20"),
        ("read c: 0317700100000000000000010000000000 00000000", "read c: refused 2 0"),
        ("read d: 0417700100000000000000010000000005 00000000", "read d: refused 4 16"),
        ("read e: 0417700100000000000000010000000000 00000000 00", "read e: refused 5 5"),
        ("read f: 0417700100000000000000010000000000 00000001", "read f: refused 7 17"),
        (
            "read g: 0417700100000001000000010000000000 55 00000000",
            &format!("read g: {ACCEPTED} unaddressed body 17 1 [55] integrity none"),
        ),
    ]);
}

#[test]
fn examples_h_to_j_are_judged_as_told() {
    let head = "04177001000000000000000100000000";
    let accepted = format!("{ACCEPTED} ttl 120 qos 0 source");
    let (s, d) = ("53".repeat(63), "44".repeat(63));
    each(&[
        (
            &format!("read h: {head} 06 0078 0000 0000 00*4"),
            &format!("read h: {accepted} 21 0 [] destination 22 0 [] body 23 0 [] integrity none"),
        ),
        (&format!("read i: {head} 07 0078 0000 414100 00*4"), "read i: refused 6 21"),
        (
            &format!("read i, source: {head} 07 0078 0000 'A' 0000 00*4"),
            &format!("read i, source: {accepted} 21 1 [41] destination 23 0 [] body 24 0 [] integrity none"),
        ),
        (
            &format!("read i, destination: {head} 07 0078 0000 00 'A' 00 00*4"),
            &format!("read i, destination: {accepted} 21 0 [] destination 22 1 [41] body 24 0 [] integrity none"),
        ),
        (
            &format!("read j: {head} 84 0078 0000 53*63 00 44*63 00 00*4"),
            &format!("read j: {accepted} 21 63 [{s}] destination 85 63 [{d}] body 149 0 [] integrity none"),
        ),
        (&format!("read j, V 133: {head} 85 0078 0000 53*64 00 44*63 00 00*4"), "read j, V 133: refused 4 16"),
        (&format!("read j, 64: {head} 84 0078 0000 53*64 00 44*62 00 00*4"), "read j, 64: refused 6 21"),
    ]);
}

#[test]
fn examples_k_to_o_are_answered_as_told() {
    each(&[
        ("sequence k: from 4294967295 to 0", "sequence k: next"),
        ("sequence l: from 0 to 2147483648", "sequence l: behind 2147483648"),
        ("qos m: split 8", "qos m: 0 0 0 1 0"),
        ("sum n: '123456789'", "sum n: 9 cbf43926"),
        ("file record 041770010000000000000001 00*9", "file: 512 bytes"),
        ("file record 041770010000000000000001 00*9", "file: 1024 bytes"),
        ("file change 513 14", "file: 1024 bytes"),
        ("list o: ", "list o: records 2; 0 6000 1 21; 1 refused 23 0 0"),
    ]);
}

#[test]
fn other_envelope_commands_answer_as_told() {
    // The sum is zlib's.
    let wrote = "04177001090000020000000200000003080004000561006200beefd7c2a66f";
    let fields = "type 6000 version 1 flags 9 number 2 time 3 ttl 4 qos 5 source 'a' destination 'b' body beef";
    each(&[
        ("sum nothing:", "sum nothing: 0 00000000"),
        (&format!("write it: {fields} integrity 0 room 33"), &format!("write it: wrote 31 [{wrote} ee*2]")),
        (&format!("write short: {fields} integrity 0 room 30"), "write short: refused 15 [ee*30]"),
        (&format!("write none: {fields} integrity 0 room 0"), "write none: refused 15 []"),
        (&format!("write stray: {fields} integrity 7 room 1"), "write stray: refused 14 [ee*1]"),
        (&format!("rewrite it: room 32 of {wrote}"), &format!("rewrite it: wrote 31 [{wrote} ee*1]")),
        (&format!("rewrite short: room 3 of {wrote}"), "rewrite short: refused 15 [ee*3]"),
        (&format!("rewrite cut: room 3 of {}", &wrote[..60]), "rewrite cut: unread 5 5 [ee*3]"),
        (
            &format!("read application: {}", wrote.replacen("0109", "0117", 1)),
            "read application: accepted type 6000 version 1 flags 23 number 2 time 3 ttl 4 qos 5 \
             source 21 1 [61] destination 23 1 [62] body 25 2 [beef] integrity application d7c2a66f",
        ),
        (
            &format!("read crc: {wrote}"),
            "read crc: accepted type 6000 version 1 flags 9 number 2 time 3 ttl 4 qos 5 \
             source 21 1 [61] destination 23 1 [62] body 25 2 [beef] integrity crc d7c2a66f",
        ),
        ("qos j: join 7 15 7 7 7", "qos j: 65535"),
        ("qos j: join 7 16 7 7 7", "qos j: refused 41"),
        ("sequence r: from 7 to 7", "sequence r: repeat"),
        ("sequence a: from 7 to 9", "sequence a: ahead 2"),
        ("sequence b: from 7 to 6", "sequence b: behind 1"),
    ]);
}

#[test]
fn lateness_is_told_from_the_entry() {
    let largest = u64::MAX;
    each(&[
        ("late a: ttl 5 entry 5 clock 11", "late a: late"),
        ("late b: ttl 5 entry 5 clock 10", "late b: in time"),
        ("late at the entry: ttl 5 entry 5 clock 5", "late at the entry: in time"),
        ("late before it: ttl 5 entry 5 clock 0", "late before it: in time"),
        ("late zeros in front: ttl 0005 entry 005 clock 0011", "late zeros in front: late"),
        ("late 32 bits: ttl 1 entry 4294967295 clock 4294967296", "late 32 bits: in time"),
        (&format!("late by a second: ttl 1 entry {} clock {largest}", largest - 2), "late by a second: late"),
        (&format!("late just not: ttl 1 entry {} clock {largest}", largest - 1), "late just not: in time"),
        (&format!("late the largest: ttl 65535 entry {largest} clock {largest}"), "late the largest: in time"),
        (&format!("late clock 1: ttl 1 entry {largest} clock 1"), "late clock 1: in time"),
        ("late TTL 0: ttl 0 entry 5 clock 5", "late TTL 0: no clock"),
        (&format!("late TTL 0, long after: ttl 0 entry 5 clock {largest}"), "late TTL 0, long after: no clock"),
        (&format!("late none: unaddressed entry {largest} clock 0"), "late none: no clock"),
        (&format!("late none, long after: unaddressed entry 0 clock {largest}"), "late none, long after: no clock"),
    ]);
}

#[test]
fn late_lines_that_are_not_understood_are_told() {
    let over = "a number from 0 to 18446744073709551615 expected";
    each(&[
        ("late", "line 1, column 5: a name and a colon expected"),
        // The form that counted from the message's own time.
        ("late l: flags 1 time 2 ttl 3 clock 4", "line 2, column 9: the word ttl expected"),
        ("late l: entry 1 ttl 3 clock 4", "line 3, column 9: the word ttl expected"),
        ("late l: ttl 65536 entry 1 clock 2", "line 4, column 13: a number from 0 to 65535 expected"),
        ("late l: ttl entry 1 clock 2", "line 5, column 13: a number from 0 to 65535 expected"),
        ("late l: unaddressed ttl 3 entry 1 clock 2", "line 6, column 21: the word entry expected"),
        ("late l: unaddressed clock 2", "line 7, column 21: the word entry expected"),
        ("late l: ttl 3 time 1 clock 2", "line 8, column 15: the word entry expected"),
        ("late l: ttl 3", "line 9, column 14: the word entry expected"),
        ("late l: ttl 3 entry 18446744073709551616 clock 2", &format!("line 10, column 21: {over}")),
        ("late l: ttl 3 entry clock 2", &format!("line 11, column 21: {over}")),
        ("late l: ttl 3 entry 1 2", "line 12, column 23: the word clock expected"),
        ("late l: ttl 3 entry 1 ", "line 13, column 23: the word clock expected"),
        ("late l: ttl 3 entry 1 clock 18446744073709551616", &format!("line 14, column 29: {over}")),
        ("late l: ttl 3 entry 1 clock -1", &format!("line 15, column 29: {over}")),
        ("late l: ttl 3 entry 1 clock 2 3", "line 16, column 31: the end of the line expected"),
    ]);
}

#[test]
fn each_rule_is_told_with_its_verdict() {
    let kept = "1 kept 2 kept 3 kept 4 kept 5 kept";
    let rest = "2 not judged 3 not judged 4 not judged 5 not judged 6 not judged 7 not judged";
    each(&[
        (&format!("judge M: {M}"), &format!("judge M: {kept} 6 not judged 7 kept none broken")),
        ("judge nothing:", &format!("judge nothing: 1 broken at 0 {rest} lowest 1 0")),
        (
            "judge six kept: 041770010000000000000001 00*4 06 00*6 00000000",
            &format!("judge six kept: {kept} 6 kept 7 kept none broken"),
        ),
        (
            "judge V 5: 041770010000000000000001 00*4 05 00*4",
            "judge V 5: 1 kept 2 kept 3 kept 4 broken at 16 5 broken at 5 6 not judged 7 not judged lowest 4 16",
        ),
        (
            "judge most of them: 031770012000000000000001 00*4 07 00*4 414100 00000001 00",
            "judge most of them: 1 kept 2 broken at 0 3 broken at 4 4 kept 5 broken at 5 6 broken at 21 7 broken at 24 lowest 2 0",
        ),
        ("judge 7: 041770010000000000000001 00*8 01", &format!("judge 7: {kept} 6 not judged 7 broken at 17 lowest 7 17")),
        ("judge", "line 7, column 6: a name and a colon expected"),
        ("judge b: 00 0", "line 8, column 13: bytes expected"),
        ("judge b: 00*300001", "line 9, column 10: at most 300000 bytes expected"),
    ]);
}

const M: &str = "041770010000000000000001 00*9";

#[test]
fn golden_commands_answer_as_told() {
    each(&[
        ("check empty:", "check empty: records 0"),
        ("find empty: type 6000 number 1", "find empty: refused 27 0 0 opened 0"),
        ("walk empty:", "walk empty: end"),
        ("list empty:", "list empty: records 0"),
        (&format!("file record {M}"), "file: 512 bytes"),
        ("check one:", "check one: records 1"),
        (&format!("file record {M} 00"), "file: 1024 bytes"),
        (&format!("file record {M}"), "file: 1536 bytes"),
        ("check bad:", "check bad: record 1 refused 25 5 5"),
        ("find first: type 6000 number 1", "find first: record 0 opened 1"),
        ("find none: type 6000 number 2", "find none: refused 25 5 5 opened 2"),
        ("step at one: at 1", "step at one: refused 25 5 5 next 2"),
        ("step at two: at 2", "step at two: message 1026 21 next 3"),
        ("step past: at 18446744073709551615", "step past: end next 18446744073709551615"),
        ("walk it:", "walk it: message 2 21, refused 25 5 5, message 1026 21, end"),
        ("entry 2: at 2", "entry 2: 6000 1 21"),
        ("entry 3: at 3", "entry 3: refused 22 0 0"),
        ("list it:", "list it: records 3; 0 6000 1 21; 1 refused 25 5 5; 2 6000 1 21"),
        ("file bytes 00", "file: 1537 bytes"),
        ("check odd:", "check odd: record 0 refused 21 0 0"),
        ("find odd: type 6000 number 1", "find odd: refused 21 0 0 opened 0"),
        ("step odd: at 7", "step odd: refused 21 0 0 next 7"),
        ("walk odd:", "walk odd: refused 21 0 0"),
        ("list odd:", "list odd: refused 21 0 0"),
        ("flips odd: record 0", "flips odd: no message"),
    ]);
}

#[test]
fn a_name_that_comes_twice_is_told_by_check_alone() {
    each(&[
        (&format!("file record {M}"), "file: 512 bytes"),
        ("file record 0417700100000001 00000001 00*5 55 00*4", "file: 1024 bytes"),
        ("check it:", "check it: record 1 refused 26 0 0"),
        ("find it: type 6000 number 1", "find it: record 0 opened 1"),
        ("step it: at 1", "step it: message 514 22 next 2"),
        ("walk it:", "walk it: message 2 21, message 514 22, end"),
        ("entry it: at 1", "entry it: 6000 1 22"),
        ("list it:", "list it: records 2; 0 6000 1 21; 1 6000 1 22"),
        (&format!("compare it: record 1 list 9*4 with {M}"), "compare it: different 3 list 7 17 21 9"),
        ("file change 525 02", "file: 1024 bytes"),
        ("check two names:", "check two names: records 2"),
    ]);
}

#[test]
fn a_retired_record_is_told_by_each_line() {
    let other = "0417700100000001 00000001 00*5 55 00*4";
    each(&[
        ("retired none:", "retired none: retired 0"),
        (&format!("file record {M}"), "file: 512 bytes"),
        (&format!("file record {other}"), "file: 1024 bytes"),
        ("check two live:", "check two live: record 1 refused 26 0 0"),
        ("retired of two live:", "retired of two live: retired 0"),
        ("file change 0 80", "file: 1024 bytes"),
        ("check it:", "check it: records 2"),
        ("retired it:", "retired it: retired 1"),
        ("find it: type 6000 number 1", "find it: record 1 opened 2"),
        ("step it: at 0", "step it: message 2 21 retired next 1"),
        ("step the live one: at 1", "step the live one: message 514 22 next 2"),
        ("walk it:", "walk it: message 2 21 retired, message 514 22, end"),
        ("entry it: at 0", "entry it: 6000 1 21 retired"),
        ("list it:", "list it: records 2; 0 6000 1 21 retired; 1 6000 1 22"),
        (&format!("compare it: record 0 list 9 with {M}"), "compare it: refused 38 0 0 list 9"),
        ("compare 38 before 31: record 0 list 9 with", "compare 38 before 31: refused 38 0 0 list 9"),
        ("flips it: record 0", "flips it: flipped 166 refused 75"),
        ("file change 512 80", "file: 1024 bytes"),
        ("find no live one: type 6000 number 1", "find no live one: refused 27 0 0 opened 2"),
        ("walk both:", "walk both: message 2 21 retired, message 514 22 retired, end"),
        ("retired both:", "retired both: retired 2"),
        ("file change 513 14", "file: 1024 bytes"),
        ("list a bad one:", "list a bad one: records 2; 0 6000 1 21 retired; 1 refused 23 0 0"),
        ("retired a bad one:", "retired a bad one: retired 1"),
        ("file zeros 1", "file: 1025 bytes"),
        ("retired odd:", "retired odd: refused 21 0 0"),
    ]);
}

#[test]
fn a_record_is_retired_in_a_buffer() {
    let copied = format!("8015041770010000000000000001{}0015041770010000000000000001 00*498", "00".repeat(498));
    let far = u64::MAX;
    each(&[
        ("retire nothing: record 0 room 0", "retire nothing: refused 22 0 0 []"),
        (&format!("file record {M}"), "file: 512 bytes"),
        ("retire it: record 0 room 512", "retire it: done [8015041770010000000000000001 00*498]"),
        ("retire short: record 0 room 511", "retire short: refused 37 0 0 [ee*511]"),
        ("retire long: record 0 room 513", "retire long: refused 37 0 0 [ee*513]"),
        ("retire none: record 0 room 0", "retire none: refused 37 0 0 []"),
        ("retire no record: record 1 room 512", "retire no record: refused 22 0 0 [ee*512]"),
        (&format!("retire far: record {far} room 3"), "retire far: refused 22 0 0 [ee*3]"),
        ("retired it:", "retired it: retired 0"),
        (&format!("file record {M}"), "file: 1024 bytes"),
        ("retire first: record 0 room 1024", &format!("retire first: done [{copied}]")),
        ("file change 512 80", "file: 1024 bytes"),
        ("retire twice: record 1 room 1024", "retire twice: refused 36 0 0 [ee*1024]"),
        ("retire 36 before 37: record 1 room 7", "retire 36 before 37: refused 36 0 0 [ee*7]"),
        ("file change 534 01", "file: 1024 bytes"),
        ("retire bad: record 1 room 1024", "retire bad: refused 25 7 17 [ee*1024]"),
        ("file zeros 1", "file: 1025 bytes"),
        ("retire odd: record 9 room 1", "retire odd: refused 21 0 0 [ee*1]"),
    ]);
}

#[test]
fn retire_lines_that_are_not_understood_are_told() {
    let over = "a number from 0 to 18446744073709551615 expected";
    each(&[
        ("retire", "line 1, column 7: a name and a colon expected"),
        ("retire r:", "line 2, column 10: the word record expected"),
        ("retire r: at 0 room 512", "line 3, column 11: the word record expected"),
        ("retire r: record room 512", &format!("line 4, column 18: {over}")),
        ("retire r: record 18446744073709551616 room 1", &format!("line 5, column 18: {over}")),
        ("retire r: record 0", "line 6, column 19: the word room expected"),
        ("retire r: record 0 of 512", "line 7, column 20: the word room expected"),
        ("retire r: record 0 room 1025", "line 8, column 25: a number from 0 to 1024 expected"),
        ("retire r: record 0 room", "line 9, column 24: a number from 0 to 1024 expected"),
        ("retire r: record 0 room 512 of 00", "line 10, column 29: the end of the line expected"),
        ("retired", "line 11, column 8: a name and a colon expected"),
        ("retired r: 0", "line 12, column 12: the end of the line expected"),
        ("retires r:", "line 13, column 1: a command expected"),
        ("Retired r:", "line 14, column 1: a command expected"),
    ]);
}

#[test]
fn comparisons_and_new_records_answer_as_told() {
    let radio = "0417700100000001 00000001 00*5 55 00*4";
    let stored = "0015041770010000000000000001 00*498";
    each(&[
        (&format!("file record {M}"), "file: 512 bytes"),
        (&format!("compare same: record 0 list 9 9 with {M}"), "compare same: same list 9 9"),
        (&format!("compare none: record 0 list with {M}"), "compare none: same list"),
        (&format!("compare long: record 0 list 9*4 with {radio}"), "compare long: different 3 list 7 17 21 9"),
        (&format!("compare short: record 0 list 9*2 with {radio}"), "compare short: different 3 list 7 17"),
        (&format!("compare none there: record 1 list 9 with {radio}"), "compare none there: refused 22 0 0 list 9"),
        ("compare unread: record 0 list 9 with 00*21", "compare unread: refused 31 2 0 list 9"),
        (&format!("make it: room 512 of {M}"), &format!("make it: made [{stored}]")),
        (&format!("make short: room 511 of {M}"), "make short: refused 35 0 0 [ee*511]"),
        ("make none: room 512 of", "make none: refused 34 1 0 [ee*512]"),
        ("make long: room 0 of 00*511", "make long: refused 33 0 0 []"),
    ]);
}

/// M, number 2 and number 4: one name is put behind and before the others, and one is retired.
#[test]
fn halve_and_order_answer_as_told() {
    let numbered = |number: u8| format!("file record 0417700100000000000000{number:02x} 00*9");
    each(&[
        ("halve empty: type 6000 number 1", "halve empty: refused 27 0 0 opened 0"),
        ("order empty:", "order empty: ascending"),
        (&numbered(1), "file: 512 bytes"),
        ("order one:", "order one: ascending"),
        ("halve one: type 6000 number 1", "halve one: record 0 opened 1"),
        (&numbered(2), "file: 1024 bytes"),
        (&numbered(4), "file: 1536 bytes"),
        ("order it:", "order it: ascending"),
        ("halve first: type 6000 number 1", "halve first: record 0 opened 2"),
        ("halve middle: type 6000 number 2", "halve middle: record 1 opened 1"),
        ("halve last: type 6000 number 4", "halve last: record 2 opened 2"),
        ("halve between: type 6000 number 3", "halve between: refused 27 0 0 opened 2"),
        ("halve above: type 65535 number 4294967295", "halve above: refused 27 0 0 opened 2"),
        ("file change 512 80", "file: 1536 bytes"),
        ("halve retired: type 6000 number 2", "halve retired: refused 27 0 0 opened 1"),
        ("find retired: type 6000 number 2", "find retired: refused 27 0 0 opened 3"),
        ("order retired:", "order retired: ascending"),
        ("file change 525 01", "file: 1536 bytes"),
        ("order two alike:", "order two alike: breaks at 1"),
        ("file change 525 05", "file: 1536 bytes"),
        ("order the last too early:", "order the last too early: breaks at 2"),
        ("halve not opened: type 6000 number 4", "halve not opened: refused 27 0 0 opened 2"),
        ("find not opened: type 6000 number 4", "find not opened: record 2 opened 3"),
        ("file change 534 01", "file: 1536 bytes"),
        ("halve bad: type 6000 number 1", "halve bad: refused 25 7 17 opened 1"),
        ("order bad:", "order bad: record 1 refused 25 7 17"),
        ("file zeros 1", "file: 1537 bytes"),
        ("halve odd: type 6000 number 1", "halve odd: refused 21 0 0 opened 0"),
        ("order odd:", "order odd: record 0 refused 21 0 0"),
    ]);
}

#[test]
fn halve_and_order_lines_that_are_not_understood_are_told() {
    each(&[
        ("halve", "line 1, column 6: a name and a colon expected"),
        ("halve h:", "line 2, column 9: the word type expected"),
        ("halve h: number 1 type 1", "line 3, column 10: the word type expected"),
        ("halve h: type 65536 number 1", "line 4, column 15: a number from 0 to 65535 expected"),
        ("halve h: type 1", "line 5, column 16: the word number expected"),
        ("halve h: type 1 number 4294967296", "line 6, column 24: a number from 0 to 4294967295 expected"),
        ("halve h: type 1 number 1 1", "line 7, column 26: the end of the line expected"),
        ("order", "line 8, column 6: a name and a colon expected"),
        ("order o: 0", "line 9, column 10: the end of the line expected"),
        ("halves h: type 1 number 1", "line 10, column 1: a command expected"),
        ("Order o:", "line 11, column 1: a command expected"),
    ]);
}

/// M with a field of 1: 7, at the first byte of the field. A message of 20 bytes: 1, and how many there are.
const SPOILED: &str = "041770010000000000000001 00*8 01";
const CUT: &str = "041770010000000000000001 00*8";

#[test]
fn whoever_passes_a_refusal_of_reading_on_tells_its_place() {
    let stored = format!("kept [{}01 00*489]", "041770010000000000000001".to_string() + &"00".repeat(8));
    each(&[
        (&format!("read it: {SPOILED}"), "read it: refused 7 17"),
        (&format!("rewrite it: room 3 of {SPOILED}"), "rewrite it: unread 7 17 [ee*3]"),
        (&format!("rewrite cut: room 0 of {CUT}"), "rewrite cut: unread 1 20 []"),
        (&format!("make it: room 2 of {SPOILED}"), "make it: refused 34 7 17 [ee*2]"),
        (&format!("unwrap it: 0202 00000007 0102 00000015 {SPOILED} 03"), "unwrap it: refused 67 7 17"),
        (&format!("unwrap cut: 0202 00000007 0102 00000014 {CUT} 03"), "unwrap cut: refused 67 1 20"),
        (&format!("wrap it: commid 7 room 1 of {SPOILED}"), "wrap it: refused 67 7 17 [ee*1]"),
        (&format!("file record {M}"), "file: 512 bytes"),
        (&format!("compare it: record 0 list 9 with {SPOILED}"), "compare it: refused 31 7 17 list 9"),
        (&format!("file record {SPOILED}"), "file: 1024 bytes"),
        ("check it:", "check it: record 1 refused 25 7 17"),
        ("find it: type 6000 number 2", "find it: refused 25 7 17 opened 2"),
        ("step it: at 1", "step it: refused 25 7 17 next 2"),
        ("walk it:", "walk it: message 2 21, refused 25 7 17, end"),
        ("compare record: record 1 list with 04", "compare record: refused 25 7 17 list"),
        ("entry it: at 1", "entry it: refused 25 7 17"),
        ("list it:", "list it: records 2; 0 6000 1 21; 1 refused 25 7 17"),
        (&format!("piece it: {SPOILED} 04"), &format!("piece it: used 21 refused 7 17 count 21 refused 7 17 {stored}")),
        ("piece again: 04", &format!("piece again: used 0 refused 7 17 count 21 refused 7 17 {stored}")),
        ("end it:", &format!("end it: refused 7 17 count 21 refused 7 17 {stored}")),
        ("stream it: cut 0 of 04", &format!("stream it: used 0 count 21 refused 7 17 {stored}")),
    ]);
}

#[test]
fn frame_commands_answer_as_told() {
    let frame = "02 02 00000007 01 02 00000015 041770010000000000000001 00*9 03";
    let wrote = "0202000000070102000000150417700100000000000000010000000000000000";
    each(&[
        (
            &format!("unwrap M: {frame}"),
            &format!("unwrap M: data commid 7 size 21 {ACCEPTED} unaddressed body 17 0 [] integrity none"),
        ),
        ("unwrap it: 0202ffffffff0202 00000004 00000007 03", "unwrap it: acknowledgment commid 4294967295 of 7"),
        ("unwrap nothing:", "unwrap nothing: refused 61 0 0"),
        ("unwrap 66: 0202 00000009 0202 00000004 00000007 02", "unwrap 66: refused 66 0 0"),
        ("unwrap no body: 0202 00000007 0102 00000000 03", "unwrap no body: refused 67 1 0"),
        (&format!("wrap M: commid 7 room 36 of {M}"), &format!("wrap M: wrote 34 [{wrote}0003 ee*2]")),
        (&format!("wrap M, just: commid 7 room 34 of {M}"), &format!("wrap M, just: wrote 34 [{wrote}00 03*1]")),
        (&format!("wrap short: commid 7 room 33 of {M}"), "wrap short: refused 68 0 0 [ee*33]"),
        ("wrap 67 before 68: commid 7 room 0 of 05 00*20", "wrap 67 before 68: refused 67 2 0 []"),
        ("wrap nothing: commid 0 room 3 of", "wrap nothing: refused 67 1 0 [ee*3]"),
        (
            "acknowledge it: commid 4294967295 of 16909060 room 18",
            "acknowledge it: wrote 17 [0202ffffffff0202000000040102030403 ee*1]",
        ),
        ("acknowledge short: commid 0 of 0 room 16", "acknowledge short: refused 68 0 0 [ee*16]"),
        ("first nothing:", "first nothing: 0 of 0"),
        (&format!("first of two: {frame} {frame}"), "first of two: 34 of 68"),
        ("first cut: 0202 00000007 0102 00000015 04", "first cut: 13 of 13"),
        ("first 12: 00*12", "first 12: 12 of 12"),
        ("first 14: 00*14", "first 14: 13 of 14"),
    ]);
}

#[test]
fn frame_lines_that_are_not_understood_are_told() {
    let over = "a number from 0 to 4294967295 expected";
    each(&[
        ("unwrap", "line 1, column 7: a name and a colon expected"),
        ("unwrap u: 02 2", "line 2, column 14: bytes expected"),
        ("unwrap u: 00*300001", "line 3, column 11: at most 300000 bytes expected"),
        ("wrap w: room 3 of 00", "line 4, column 9: the word commid expected"),
        ("wrap w: commid 4294967296 room 3 of 00", &format!("line 5, column 16: {over}")),
        ("wrap w: commid 1 of 00", "line 6, column 18: the word room expected"),
        ("wrap w: commid 1 room 1025 of 00", "line 7, column 23: a number from 0 to 1024 expected"),
        ("wrap w: commid 1 room 3 00", "line 8, column 25: the word of expected"),
        ("acknowledge a: of 1 commid 1 room 17", "line 9, column 16: the word commid expected"),
        ("acknowledge a: commid 1 of room 17", &format!("line 10, column 28: {over}")),
        ("acknowledge a: commid 1 room 17 of 1", "line 11, column 25: the word of expected"),
        ("acknowledge a: commid 1 of 1", "line 12, column 29: the word room expected"),
        ("acknowledge a: commid 1 of 1 room 17 of", "line 13, column 38: the end of the line expected"),
        ("first f: x", "line 14, column 10: bytes expected"),
        ("First f: 00", "line 15, column 1: a command expected"),
    ]);
}

const NEW: &str = "count 0 inside kept [00*510]";
/// M among the bytes kept: behind its message number it is zeros, as a new feed is.
const M_KEPT: &str = "kept [041770010000000000000001 00*498]";

#[test]
fn a_feed_goes_from_line_to_line() {
    let found = format!("message 21 {ACCEPTED} unaddressed body 17 0 [] integrity none");
    each(&[
        ("end of nothing:", &format!("end of nothing: nothing {NEW}")),
        ("piece of nothing:", &format!("piece of nothing: used 0 nothing {NEW}")),
        (
            "piece to 16: 041770010000000000000001 00*4",
            &format!("piece to 16: used 16 nothing count 16 inside {M_KEPT}"),
        ),
        ("piece to 17: 00", &format!("piece to 17: used 1 nothing count 17 inside {M_KEPT}")),
        ("piece to the end: 00*4 0403", &format!("piece to the end: used 4 {found} count 21 whole {M_KEPT}")),
        ("piece of nothing:", &format!("piece of nothing: used 0 nothing count 21 whole {M_KEPT}")),
        ("end between:", &format!("end between: nothing count 21 whole {M_KEPT}")),
        ("piece begun: 04", &format!("piece begun: used 1 nothing count 1 inside {M_KEPT}")),
        ("end inside:", &format!("end inside: refused 52 0 count 1 refused 52 0 {M_KEPT}")),
        ("end again:", &format!("end again: refused 52 0 count 1 refused 52 0 {M_KEPT}")),
        ("piece refused: 04", &format!("piece refused: used 0 refused 52 0 count 1 refused 52 0 {M_KEPT}")),
        ("stream refused: cut 0 of 04", &format!("stream refused: used 0 count 1 refused 52 0 {M_KEPT}")),
        ("restart it:", &format!("restart it: {NEW}")),
        (&format!("piece both: {M} {M}"), &format!("piece both: used 21 {found} count 21 whole {M_KEPT}")),
    ]);
}

#[test]
fn a_stream_tells_each_message_and_stops_at_a_refusal() {
    let two = format!("{M} 041771010000000000000002 00*9");
    let told = "message 21 6000 1, message 21 6001 2, used 42 count 21 whole kept [041771010000000000000002 00*498]";
    let first = "message 21 6000 1, used";
    for cut in ["0", "1", "7", "21", "00042", "18446744073709551615"] {
        each(&[(&format!("stream s: cut {cut} of {two}"), &format!("stream s: {told}"))]);
    }
    each(&[
        ("stream of nothing: cut 3 of", &format!("stream of nothing: used 0 {NEW}")),
        (&format!("stream to 22: cut 8 of {M} 04"), &format!("stream to 22: {first} 22 count 1 inside {M_KEPT}")),
        ("stream on: cut 8 of 1770", &format!("stream on: used 2 count 3 inside {M_KEPT}")),
        ("restart r:", &format!("restart r: {NEW}")),
        (
            &format!("stream bad: cut 5 of {M} 03 00*15 ff 00*4 {M}"),
            &format!("stream bad: {first} 38 count 17 refused 2 0 kept [03{}ff 00*493]", "00".repeat(15)),
        ),
        ("restart r:", &format!("restart r: {NEW}")),
        (
            "stream 7: cut 0 of 041770010000000000000001 00*5 00000001 04",
            "stream 7: used 21 count 21 refused 7 17 kept [041770010000000000000001000000000000000001 00*489]",
        ),
    ]);
}

#[test]
fn feed_lines_that_are_not_understood_change_nothing() {
    each(&[
        ("piece begun: 04", "piece begun: used 1 nothing count 1 inside kept [04 00*509]"),
        ("restart", "line 2, column 8: a name and a colon expected"),
        ("restart r: 00", "line 3, column 12: the end of the line expected"),
        ("end e:  now", "line 4, column 9: the end of the line expected"),
        ("piece p: 17 7", "line 5, column 13: bytes expected"),
        ("piece p: 00*300001", "line 6, column 10: at most 300000 bytes expected"),
        ("stream s: 00", "line 7, column 11: the word cut expected"),
        ("stream s: cut of 00", "line 8, column 15: a number from 0 to 18446744073709551615 expected"),
        ("stream s: cut 1 00", "line 9, column 17: the word of expected"),
        ("stream s: cut 1", "line 10, column 16: the word of expected"),
        ("stream s: cut 1 of 00 of", "line 11, column 23: bytes expected"),
        ("stream s: cut 1 of 00*300000 17", "line 12, column 30: at most 300000 bytes expected"),
        ("Piece p: 17", "line 13, column 1: a command expected"),
        ("end e:", "end e: refused 52 0 count 1 refused 52 0 kept [04 00*509]"),
    ]);
}

/// The places of a sender: these, and zeros behind them.
fn places(waiting: &[u32]) -> String {
    let held = waiting.iter().copied().chain(std::iter::repeat(0)).take(16);
    held.fold("places".to_string(), |told, commid| format!("{told} {commid}"))
}

#[test]
fn a_sender_goes_from_line_to_line() {
    let empty = format!("resends 0 flight none waiting 0 {}", places(&[]));
    let waiting = |flight: &str, waiting: &[u32]| {
        format!("resends 1 flight {flight} waiting {} {}", waiting.len(), places(waiting))
    };
    each(&[
        ("ack nothing: commid 0", &format!("ack nothing: refused 72 {empty}")),
        ("start 11: resends 11", &format!("start 11: refused 73 {empty}")),
        ("start far: resends 18446744073709551615", &format!("start far: refused 73 {empty}")),
        ("start 1: resends 01", &format!("start 1: started {}", waiting("none", &[]))),
        ("submit 5: commid 5", &format!("submit 5: sent {}", waiting("5 left 1", &[]))),
        ("submit 0: commid 0", &format!("submit 0: waits {}", waiting("5 left 1", &[0]))),
        ("submit 7: commid 7", &format!("submit 7: waits {}", waiting("5 left 1", &[0, 7]))),
        ("submit 0 again: commid 0", &format!("submit 0 again: refused 71 {}", waiting("5 left 1", &[0, 7]))),
        ("nak 5: commid 5", &format!("nak 5: again {}", waiting("5 left 0", &[0, 7]))),
        ("timeout 7: commid 7", &format!("timeout 7: refused 72 {}", waiting("5 left 0", &[0, 7]))),
        ("timeout 5: commid 5", &format!("timeout 5: failed next 0 {}", waiting("0 left 1", &[7]))),
        ("ack 0: commid 0", &format!("ack 0: settled next 7 {}", waiting("7 left 1", &[]))),
        ("timeout 7: commid 7", &format!("timeout 7: again {}", waiting("7 left 0", &[]))),
        ("nak 7: commid 7", &format!("nak 7: failed {}", waiting("none", &[]))),
        ("submit 7: commid 4294967295", &format!("submit 7: sent {}", waiting("4294967295 left 1", &[]))),
        ("ack it: commid 4294967295", &format!("ack it: settled {}", waiting("none", &[]))),
    ]);
}

#[test]
fn a_start_leaves_the_places_of_a_sender() {
    let state = |answer: &str, flight: &str, count: usize, held: &[u32]| {
        format!("{answer} resends 0 flight {flight} waiting {count} {}", places(held))
    };
    each(&[
        ("submit s: commid 1", &format!("submit s: {}", state("sent", "1 left 0", 0, &[]))),
        ("submit s: commid 2", &format!("submit s: {}", state("waits", "1 left 0", 1, &[2]))),
        ("submit s: commid 3", &format!("submit s: {}", state("waits", "1 left 0", 2, &[2, 3]))),
        ("start s: resends 300", &format!("start s: {}", state("refused 73", "1 left 0", 2, &[2, 3]))),
        ("start s: resends 0", &format!("start s: {}", state("started", "none", 0, &[2, 3]))),
        ("nak s: commid 1", &format!("nak s: {}", state("refused 72", "none", 0, &[2, 3]))),
        ("submit s: commid 2", &format!("submit s: {}", state("sent", "2 left 0", 0, &[]))),
    ]);
}

#[test]
fn sender_lines_that_are_not_understood_change_nothing() {
    let (over, largest) =
        ("a number from 0 to 4294967295 expected", "a number from 0 to 18446744073709551615 expected");
    each(&[
        ("start", "line 1, column 6: a name and a colon expected"),
        ("start s:", "line 2, column 9: the word resends expected"),
        ("start s: 3", "line 3, column 10: the word resends expected"),
        ("start s: resends", &format!("line 4, column 17: {largest}")),
        ("start s: resends 18446744073709551616", &format!("line 5, column 18: {largest}")),
        ("start s: resends 3 3", "line 6, column 20: the end of the line expected"),
        ("submit s: 7", "line 7, column 11: the word commid expected"),
        ("submit s: commid 4294967296", &format!("line 8, column 18: {over}")),
        ("submit s: commid 7 8", "line 9, column 20: the end of the line expected"),
        ("ack a: commid", &format!("line 10, column 14: {over}")),
        ("nak n: COMMID 7", "line 11, column 8: the word commid expected"),
        ("timeout t: commid -1", &format!("line 12, column 19: {over}")),
        ("timeout t: commid 7 of 8", "line 13, column 21: the end of the line expected"),
        ("time-out t: commid 7", "line 14, column 1: a command expected"),
        ("Ack a: commid 7", "line 15, column 1: a command expected"),
        ("nak n: commid 7", &format!("nak n: refused 72 resends 0 flight none waiting 0 {}", places(&[]))),
    ]);
}

#[test]
fn each_complaint_has_its_line_and_column() {
    let write = "write w: type 1 version 2 flags 0 number 3 time 4 unaddressed source destination body";
    each(&[
        ("reed a: 00", "line 1, column 1: a command expected"),
        ("  Read a: 00", "line 2, column 3: a command expected"),
        ("read: 00", "line 3, column 1: a command expected"),
        ("read 00", "line 4, column 5: a name and a colon expected"),
        (" read   : 00", "line 5, column 6: a name and a colon expected"),
        ("check", "line 6, column 6: a name and a colon expected"),
        ("check c:  x", "line 7, column 11: the end of the line expected"),
        ("read a: 00 0g 00", "line 8, column 12: bytes expected"),
        ("rewrite a: room 1025 of", "line 9, column 17: a number from 0 to 1024 expected"),
        ("rewrite a: room 1 ", "line 10, column 19: the word of expected"),
        ("qos q: halve 3", "line 11, column 8: the word split expected"),
        ("qos q: join 1 2 3 256 0", "line 12, column 19: a number from 0 to 255 expected"),
        ("qos q: join 1 2 3 4  ", "line 13, column 22: a number from 0 to 255 expected"),
        ("late l: addressed entry 2", "line 14, column 9: the word ttl expected"),
        ("late l: ttl 3 qos 4 entry 5", "line 15, column 15: the word entry expected"),
        ("file append 00", "line 16, column 6: the word new expected"),
        ("file", "line 17, column 5: the word new expected"),
        (&format!("{write} 00 room 1"), "line 18, column 90: bytes expected"),
        (&format!("{write} 00"), "line 19, column 89: the word integrity expected"),
        (&format!("{write} integrity 4294967296"), "line 20, column 97: a number from 0 to 4294967295 expected"),
        ("step s: at 18446744073709551616", "line 21, column 12: a number from 0 to 18446744073709551615 expected"),
        ("step s: at -1", "line 22, column 12: a number from 0 to 18446744073709551615 expected"),
        ("find f: number 1", "line 23, column 9: the word type expected"),
        ("edits e: record 0 0", "line 24, column 19: the end of the line expected"),
    ]);
}

#[test]
fn names_are_told_again_and_comments_are_not() {
    each(&[
        ("  sum  a  b: :", "line 1, column 14: bytes expected"),
        ("sum \u{e9}, it's 1:", "sum \u{e9}, it's 1: 0 00000000"),
    ]);
    let printed = told("# a: b\n\n   \n  # c\nwalk :x:\n\twalk x:\nwalk x:\n");
    let complaints = "line 5, column 5: a name and a colon expected\nline 6, column 1: a command expected\n";
    assert_eq!(printed, format!("{complaints}walk x: end\n"));
    assert_eq!(told("  sum  a  b :00"), "sum  a  b : 1 d202ef8d\n");
    assert_eq!(told(""), "");
    assert_eq!(told("\n#"), "");
}

#[test]
fn a_line_has_at_most_4096_characters() {
    let padded = |line: &str, length: usize| format!("{line}{}", " ".repeat(length - line.len()));
    assert_eq!(told(&padded("walk a:", 4096)), "walk a: end\n");
    assert_eq!(told(&padded("walk a:\nwalk b:", 8 + 4096)), "walk a: end\nwalk b: end\n");
    assert_eq!(told(&padded("walk a:", 4097)), "line 1: longer than 4096 characters\n");
    assert_eq!(told(&padded("\n#", 1 + 4097)), "line 2: longer than 4096 characters\n");
    assert_eq!(told(&padded("#", 4096)), "");
    assert_eq!(told(&" ".repeat(4097)), "line 1: longer than 4096 characters\n");
    let early = padded("check a: x", 4097) + "\nwalk b:";
    assert_eq!(told(&early), "line 1: longer than 4096 characters\nwalk b: end\n");
    assert_eq!(told(&padded("qos q: split", 4096)), "line 1, column 4097: a number from 0 to 65535 expected\n");
}

#[test]
fn bytes_lists_and_the_file_have_their_limits() {
    let write = |source, destination, body| {
        let ends = format!("unaddressed source {source} destination {destination}");
        format!("write w: type 1 version 2 flags 0 number 3 time 4 {ends} body {body} integrity 0 room 0")
    };
    each(&[
        ("sum most: 00*300000", "sum most: 300000 f6b2e2fb"),
        ("sum more: 00*299999 01 02", "line 2, column 24: at most 300000 bytes expected"),
        ("read more: 00*300001", "line 3, column 12: at most 300000 bytes expected"),
        (&write("41*600", "41*600", "41*600"), "write w: refused 12 []"),
        (&write("41*601", "", ""), "line 5, column 70: at most 600 bytes expected"),
        (&write("", "41*601", ""), "line 6, column 83: at most 600 bytes expected"),
        (&write("", "", "41*601"), "line 7, column 89: at most 600 bytes expected"),
        ("compare c: record 0 list 1 2*600 with", "line 8, column 28: at most 600 numbers expected"),
        ("compare c: record 0 list 1 4294967296 with", "line 9, column 28: a number from 0 to 4294967295 expected"),
        ("file zeros 66048", "file: 66048 bytes"),
        ("file zeros 513", "line 11, column 12: a number from 0 to 512 expected"),
        ("file record 00*511", "line 12, column 13: at most 510 bytes expected"),
        ("file record 00*510", "file: 66560 bytes"),
        ("file bytes 00", "line 14, column 12: at most 0 bytes expected"),
        ("file record", "line 15: no room for a record in the file"),
        ("file record x", "line 16, column 13: bytes expected"),
        ("file change 66561", "line 17, column 13: a number from 0 to 66560 expected"),
        ("file change 66559 00 00", "line 18, column 22: at most 1 bytes expected"),
        ("check too long:", "check too long: record 0 refused 21 0 0"),
        ("file new", "file: 0 bytes"),
    ]);
}

#[test]
fn a_full_list_is_told_whole() {
    let printed = told(&format!("file record {M}\ncompare c: record 0 list 4*600 with {M}\n"));
    assert_eq!(printed, format!("file: 512 bytes\ncompare c: same list{}\n", " 4".repeat(600)));
}

#[test]
fn of_an_input_too_long_the_first_lines_are_run() {
    let cut = "the input is longer than 262144 bytes, and nothing is run from here on\n";
    // 64 lines of 4096 bytes with their line feeds are 256 KiB.
    let line = format!("#{}\n", " ".repeat(4094));
    let whole = format!("walk a:{}\n", " ".repeat(4088)) + &line.repeat(63);
    assert_eq!(whole.len(), 262_144);
    assert_eq!(told(&whole), "walk a: end\n");
    assert_eq!(told(&(whole.clone() + "\n")), format!("walk a: end\nline 65: {cut}"));
    assert_eq!(told(&(whole.clone() + "walk b:")), format!("walk a: end\nline 65: {cut}"));
    // The last line feed is the byte behind the limit, or the line has none.
    let late = whole[..262_143].to_string() + " \nwalk b:\n";
    assert_eq!(told(&late), format!("walk a: end\nline 64: {cut}"));
    let last = line.repeat(63) + &format!("walk z:{}", " ".repeat(4089));
    assert_eq!((last.len(), told(&last)), (262_144, "walk z: end\n".to_string()));
    // A line that is cut is not told to be long too.
    assert_eq!(told(&"x".repeat(262_145)), format!("line 1: {cut}"));
    assert_eq!(told(&"x".repeat(262_144)), "line 1: longer than 4096 characters\n");
}
