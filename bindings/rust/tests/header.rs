//! The words have the values that `include/panel.h` gives them.
use panel::words;

const HEADER: &str = include_str!("../../../include/panel.h");

/// What the header says of a name; a name that it does not have is a fault of the test.
fn in_header(name: &str) -> usize {
    let start = format!("PANEL_{name} = ");
    let line = HEADER.lines().find_map(|line| line.trim().strip_prefix(&start)).expect(name);
    line.split(|c: char| !c.is_ascii_digit()).next().and_then(|digits| digits.parse().ok()).expect(name)
}

macro_rules! as_in_header {
    ($prefix:literal, $from:path, $($name:ident)+) => {{
        use $from as from;
        $(assert_eq!(from::$name as usize, in_header(concat!($prefix, stringify!($name))), stringify!($name));)+
    }};
}

#[test]
fn words_are_the_headers() {
    as_in_header!("", words::kind, CONST PROGRAM DC VAR NOR MUX AND XOR NOT LUT BUS FDRE FDSE FDPE FDCE ARG CYCLE);
    as_in_header!("BYTE_", words::byte, LOW HIGH UNDRIVEN);
    as_in_header!("", panel::words, NODE_WORDS MOST_NODES MOST_POOL VARIABLES MOST_INPUTS);
    as_in_header!("", panel::words, WORK_PER_NODE WORK_PER_POOL PAIR_WORDS);
}
