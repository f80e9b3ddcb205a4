//! Description S, and what the builder makes of order, names and places.

use builder::{Builder, Constructor, Field, Operand};
use reference::{check, decode, decode_text, Description};

fn description_s() -> Builder {
    let mut s = Builder::new();
    s.field("register", Field::little(1).bits(0, 3));
    s.field("byte", Field::little(1).bits(0, 7).signed_hex());
    s.constructor("displacement", Constructor::new("{byte}").bytes("........"));
    s.constructor(
        "instruction",
        Constructor::new("inc r{register}").bytes("0001 rrrr"),
    );
    s.constructor(
        "instruction",
        Constructor::new("add r{register}, {displacement}")
            .bytes("0010 rrrr")
            .operand(Operand::new("register"))
            .operand(Operand::new("displacement").offset(1)),
    );
    s.constructor("instruction", Constructor::new("halt").bytes("0001 1111"));
    s
}

#[test]
fn the_bytes_of_s() {
    let s = generate::bytes(&generate::example::description_s());
    assert_eq!(s.len(), 216);
    assert_eq!(description_s().build("instruction"), Ok(s));
}

fn built(builder: &Builder, root: &str) -> Description {
    check(&builder.build(root).unwrap()).unwrap()
}

fn text(d: &Description, context: u32, code: &[u8]) -> String {
    String::from_utf8(decode_text(d, context, 0, code).unwrap()).unwrap()
}

#[test]
fn tables_are_numbered_from_the_inside() {
    let mut set = Builder::new();
    let shows = |text| Constructor::new(text).bytes("........");
    set.constructor("outer", shows("outer {middle} {inner}"));
    set.constructor("unused", shows("unused {inner}"));
    set.constructor("middle", shows("middle {inner}"));
    set.constructor("inner", shows("inner"));
    let d = built(&set, "outer");
    let tables: Vec<u8> = d.constructors.iter().map(|c| c.table).collect();
    assert_eq!(tables, [0, 1, 2, 3]);
    assert_eq!(text(&d, 0, &[0]), "outer middle inner inner");
}

#[test]
fn a_token_in_both_orders() {
    let mut set = Builder::new();
    set.field("little", Field::little(2).bits(4, 11).hex());
    set.field("big", Field::big(2).bits(4, 11).hex());
    let shows = "{little} {big}";
    set.constructor(
        "root",
        Constructor::new(shows).little("0001 kkkk kkkk 0010"),
    );
    set.constructor("root", Constructor::new(shows).bytes("0011 kkkk kkkk 0100"));
    let d = built(&set, "root");
    assert_eq!(d.constructors[0].pattern.byte_mask, 0xf00f);
    assert_eq!(d.constructors[0].pattern.byte_value, 0x1002);
    assert_eq!(d.constructors[1].pattern.byte_mask, 0x0ff0);
    assert_eq!(d.constructors[1].pattern.byte_value, 0x0430);
    assert_eq!(text(&d, 0, &[0xa2, 0x1b]), "0xba 0x21");
    assert_eq!(text(&d, 0, &[0x3b, 0xa4]), "0x43 0xba");
}

#[test]
fn masks_and_context() {
    let mut set = Builder::new();
    set.field("mode", Field::context().bits(30, 31));
    set.field("whole", Field::context().hex());
    set.constructor(
        "root",
        Constructor::new("{mode} {whole}")
            .masked(1, 0xf0, 0x50)
            .masked(1, 0x01, 0x01)
            .context(0x8000_0000, 0x8000_0000)
            .context(1, 0)
            .minimum(3),
    );
    let d = built(&set, "root");
    let pattern = d.constructors[0].pattern;
    assert_eq!((pattern.byte_mask, pattern.byte_value), (0xf100, 0x5100));
    assert_eq!(pattern.context_mask, 0x8000_0001);
    assert_eq!(pattern.context_value, 0x8000_0000);
    assert_eq!(d.constructors[0].minimum_length, 3);
    assert_eq!(text(&d, 0xc000_0000, &[0, 0x51, 0]), "3 0xc0000000");
}

#[test]
fn a_minimum_without_bits() {
    let mut set = Builder::new();
    set.constructor("root", Constructor::new("any").bytes("........ ........"));
    set.constructor("other", Constructor::new(""));
    let d = built(&set, "root");
    assert_eq!(d.constructors[0].minimum_length, 0);
    assert_eq!(d.constructors[1].minimum_length, 2);
    assert_eq!(d.constructors[1].pattern.byte_mask, 0);
}

#[test]
fn operands_after_others_and_unseen() {
    let mut set = Builder::new();
    set.field("byte", Field::little(1));
    set.field("word", Field::big(2).hex());
    set.constructor(
        "address",
        Constructor::new("{byte}").bytes("0.......").minimum(2),
    );
    set.constructor("address", Constructor::new("{byte}").bytes("1......."));
    set.constructor(
        "root",
        Constructor::new("{last}, {address}")
            .bytes("01000000")
            .operand(Operand::new("byte").named("unseen").offset(1))
            .operand(Operand::new("address").offset(1))
            .operand(
                Operand::new("word")
                    .named("last")
                    .after("address")
                    .offset(1),
            ),
    );
    let d = built(&set, "root");
    let code = [0x40, 0x05, 0x06, 0x07, 0x12, 0x34];
    assert_eq!(text(&d, 0, &code), "0x1234, 5");
    let rows = decode(&d, 0, 0, &code).unwrap();
    let starts: Vec<i64> = rows.iter().map(|row| row[2]).collect();
    assert_eq!(starts, [0, 1, 1, 1, 4]);
    assert_eq!(text(&d, 0, &[0x40, 0x85, 0x06, 0x12, 0x34]), "0x1234, 133");
}

#[test]
fn names_are_shared_and_may_be_holes() {
    let mut set = Builder::new();
    let registers: Vec<String> = (0..16).map(|r| format!("r{r}")).collect();
    set.field("upper", Field::little(1).bits(0, 2).names(&registers[8..]));
    set.field("all", Field::little(1).bits(0, 3).names(&registers));
    set.field("again", Field::little(1).bits(4, 7).names(&registers));
    set.field(
        "condition",
        Field::little(1)
            .bits(6, 7)
            .names_or_holes([Some("eq"), Some("ne"), None, Some("r1")]),
    );
    set.constructor(
        "root",
        Constructor::new("{upper} {all} {condition}").bytes("........"),
    );
    let d = built(&set, "root");
    assert_eq!(d.names.len(), 8 + 16 + 4);
    assert_eq!(d.fields[1].first_name, d.fields[2].first_name);
    assert_eq!(text(&d, 0, &[0x4a]), "r10 r10 ne");
    assert_eq!(text(&d, 0, &[0xc1]), "r9 r1 r1");
    let hole = reference::Refusal::Hole { place: 0 };
    assert_eq!(decode(&d, 0, 0, &[0x80]), Err(hole));
}

#[test]
fn braces() {
    let mut set = Builder::new();
    set.field("n", Field::little(1));
    set.constructor("root", Constructor::new("{{{n}}} }}{{").bytes("........"));
    assert_eq!(text(&built(&set, "root"), 0, &[7]), "{7} }{");
}
