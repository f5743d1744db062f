//! JSON values as RFC 8259 has them, and written tokens.

use rattle_std::alloc::Global;
use rattle_std::json::{Error, Scratch, Value, Writer};
use rattle_std::vec::Vec as KitVec;

/// Writes the value of the text, in a form that distinguishes all values, or its error.
fn read(text: &[u8]) -> String {
    let mut scratch = Scratch::new(Global);
    match Value::from_slice(Global, text, &mut scratch) {
        Ok(value) => shown(&value),
        Err(error) => format!("{error:?}"),
    }
}

fn shown(value: &Value<'_>) -> String {
    match value {
        Value::Null => "null".to_owned(),
        Value::Bool(truth) => truth.to_string(),
        Value::Number(text) => format!("#{text}"),
        Value::String(text) => format!("{text:?}"),
        Value::Array(items) => {
            format!("[{}]", items.iter().map(shown).collect::<Vec<_>>().join(","))
        }
        Value::Object(members) => {
            let member =
                |member: &(&str, Value<'_>)| format!("{:?}:{}", member.0, shown(&member.1));
            format!("{{{}}}", members.iter().map(member).collect::<Vec<_>>().join(","))
        }
    }
}

fn is_refused(text: impl AsRef<[u8]>) -> bool {
    read(text.as_ref()) == "Invalid"
}

#[test]
fn accepted_values() {
    for (text, value) in [
        ("null", "null"),
        ("true", "true"),
        (" \t\r\nfalse \t\r\n", "false"),
        ("0", "#0"),
        ("-0", "#-0"),
        ("-0.0", "#-0.0"),
        ("10", "#10"),
        ("0.5", "#0.5"),
        ("0e1", "#0e1"),
        ("-12.034E+05", "#-12.034E+05"),
        ("1e-9", "#1e-9"),
        ("123456789012345678901234567890", "#123456789012345678901234567890"),
        ("1e999999999", "#1e999999999"),
        (r#""""#, r#""""#),
        (r#""a b""#, r#""a b""#),
        ("\"\u{7f}é€\u{1f600}\u{2028}\"", "\"\\u{7f}é€😀\\u{2028}\""),
        (r#""\"\\\/\b\f\n\r\t""#, r#""\"\\/\u{8}\u{c}\n\r\t""#),
        (r#""\u0000\u001f\u0041\u00E9\u20ac""#, r#""\0\u{1f}Aé€""#),
        (r#""\ud83d\ude00\uD83D\uDE00""#, r#""😀😀""#),
        (r#""\ud800\udc00\udbff\udfff""#, "\"\u{10000}\\u{10ffff}\""),
        ("[]", "[]"),
        (" [ ] ", "[]"),
        ("[1,[2,[3]],{}]", "[#1,[#2,[#3]],{}]"),
        ("[ 1 , 2 ]", "[#1,#2]"),
        ("{}", "{}"),
        ("{ }", "{}"),
        (r#" { "a" : 1 , "b" : [ null ] } "#, r#"{"a":#1,"b":[null]}"#),
        (r#"{"":{"":""}}"#, r#"{"":{"":""}}"#),
        // Members that come twice are kept, and escapes are names too.
        (r#"{"a":1,"b":2,"\u0061":3}"#, r#"{"a":#1,"b":#2,"a":#3}"#),
    ] {
        assert_eq!(read(text.as_bytes()), value, "{text}");
    }
}

#[test]
fn refused_texts() {
    for text in [
        "",
        " ",
        "nul",
        "nulll",
        "True",
        "null null",
        "1 2",
        "tru",
        "truee",
        ",",
        ":",
        "]",
        "}",
        "a",
        "'a'",
        "NaN",
        "Infinity",
        "-Infinity",
        "undefined",
        // numbers
        "+1",
        "-",
        "--1",
        "01",
        "-01",
        "00",
        "1.",
        ".5",
        "-.5",
        "1.e1",
        "1e",
        "1e+",
        "1E-",
        "0x10",
        "1_000",
        "1,000",
        "1.5.2",
        "1e5e5",
        "٣",
        "1\u{660}",
        // arrays and objects
        "[",
        "[1",
        "[1,",
        "[1,]",
        "[,1]",
        "[1 2]",
        "[1,,2]",
        "[]]",
        "[1}",
        "{",
        "{\"a\"",
        "{\"a\":",
        "{\"a\":1",
        "{\"a\":1,",
        "{\"a\":1,}",
        "{,}",
        "{a:1}",
        "{1:1}",
        "{\"a\" 1}",
        "{\"a\"::1}",
        "{\"a\":1 \"b\":2}",
        "{\"a\":1]",
        "{null:1}",
        "[1]x",
        "{}{}",
        "[\"a\":1]",
        // strings
        "\"",
        "\"a",
        "\"\\\"",
        "\"\\",
        "\"\\x\"",
        "\"\\'\"",
        "\"\\0\"",
        "\"\\u\"",
        "\"\\u12\"",
        "\"\\u123\"",
        "\"\\u12g4\"",
        "\"\\U0041\"",
        "\"\\u+041\"",
        "\"\\ud800\"",
        "\"\\ud800a\"",
        "\"\\ud800\\n\"",
        "\"\\ud800\\u0041\"",
        "\"\\ud800\\ud800\"",
        "\"\\udc00\"",
        "\"\\udfff\\ud800\"",
        "\"\n\"",
        "\"\t\"",
        "\"a\0b\"",
        "\"\x1f\"",
        "\"\\n\n\"",
        "\"\\\n\"",
        "\"a\"b\"",
        "\"a\" \"b\"",
        // what isn't a blank of JSON, and comments
        "\u{a0}1",
        "\u{feff}1",
        "\x0b1",
        "\x0c1",
        "1//",
        "/**/1",
        "#1",
    ] {
        assert!(is_refused(text), "{text:?} is {}", read(text.as_bytes()));
    }
    for character in 0..32_u8 {
        assert!(is_refused([b'"', character, b'"']), "{character}");
        assert!(is_refused([b'"', b'\\', b'n', character, b'"']), "{character}");
    }
}

#[test]
fn bytes_that_are_no_text_are_refused() {
    for text in [
        &b"\"\xff\""[..],
        b"\"\xc0\x80\"",
        b"\"\xed\xa0\x80\"",
        b"\"\xf4\x90\x80\x80\"",
        b"\"\xe2\x82\"",
        b"\x80",
        b"1\xff",
        b"\"\\\xe9\"",
    ] {
        assert!(is_refused(text), "{text:?}");
    }
}

/// Each text cut anywhere is refused, or is a number that is cut after a digit.
#[test]
fn cut_texts_are_refused() {
    let text = r#"{"a\n":[1,-2.5e+3,"\ud83d\ude00",true,null,{"b":{}}],"c":"\\"}"#;
    assert!(!is_refused(text));
    for length in 0..text.len() {
        assert!(is_refused(&text[..length]), "{}", &text[..length]);
    }
}

#[test]
fn depth_of_128_is_accepted_and_129_refused() {
    let arrays = |depth: usize| "[".repeat(depth) + &"]".repeat(depth);
    let objects = |depth: usize| "{\"a\":".repeat(depth) + "1" + &"}".repeat(depth);
    let mixed = |depth: usize| {
        "[{\"a\":".repeat(depth / 2)
            + &"[".repeat(depth % 2)
            + "1"
            + &"]".repeat(depth % 2)
            + &"}]".repeat(depth / 2)
    };
    for nested in [&arrays as &dyn Fn(usize) -> String, &objects, &mixed] {
        assert!(!is_refused(nested(1)));
        assert!(!is_refused(nested(127)));
        assert!(!is_refused(nested(128)));
        assert!(is_refused(nested(129)));
        assert!(is_refused(nested(100_000)));
    }
    assert!(!is_refused(format!("[{}]", vec![arrays(127); 50].join(","))));
}

fn number_of(text: &str) -> Option<i64> {
    Value::from_slice(Global, text.as_bytes(), &mut Scratch::new(Global))
        .expect("it is a number")
        .as_i64()
}

#[test]
fn numbers_that_fit() {
    for (text, number) in [
        ("0", Some(0)),
        ("-0", Some(0)),
        ("7", Some(7)),
        ("-1", Some(-1)),
        ("9223372036854775807", Some(i64::MAX)),
        ("9223372036854775808", None),
        ("-9223372036854775808", Some(i64::MIN)),
        ("-9223372036854775809", None),
        ("18446744073709551615", None),
        ("99999999999999999999999999999999999999999", None),
        ("1.0", None),
        ("1e0", None),
        ("1E2", None),
        ("-0.0", None),
        ("0e0", None),
        ("\"1\"", None),
        ("null", None),
        ("[1]", None),
        ("true", None),
    ] {
        assert_eq!(number_of(text), number, "{text}");
    }
}

#[test]
fn values_as_their_kinds() {
    let mut scratch = Scratch::new(Global);
    let text = br#"{"a":1,"b":true,"c":"x\ty","d":null,"a":2,"e":false}"#;
    let value = Value::from_slice(Global, text, &mut scratch).unwrap();
    assert_eq!(value.get("a").and_then(Value::as_i64), Some(2));
    assert_eq!(value.get("b").and_then(Value::as_bool), Some(true));
    assert_eq!(value.get("e").and_then(Value::as_bool), Some(false));
    assert_eq!(value.get("c").and_then(Value::as_str), Some("x\ty"));
    assert_eq!(value.get("a").and_then(Value::as_number), Some("2"));
    assert!(value.get("z").is_none() && value.get("a").unwrap().get("a").is_none());
    let none = value.get("d").unwrap();
    assert!(
        none.as_bool().is_none()
            && none.as_str().is_none()
            && none.as_number().is_none()
            && none.as_i64().is_none()
    );
    assert!(value.as_str().is_none() && value.as_bool().is_none());
}

/// The scratch of one text serves the next, longer or shorter, also after one that is refused.
#[test]
fn scratch_serves_text_after_text() {
    let mut scratch = Scratch::new(Global);
    for round in 0..100 {
        let string = "\\u00e9".repeat(round % 17) + &"\\n\\\\".repeat(round % 5) + "plain";
        let text = format!("[\"{string}\",\"a\",\"{string}\"]");
        let expected = "é".repeat(round % 17) + &"\n\\".repeat(round % 5) + "plain";
        let value = Value::from_slice(Global, text.as_bytes(), &mut scratch).unwrap();
        let Value::Array(items) = &value else {
            panic!("it is an array");
        };
        assert_eq!(
            items.iter().map(Value::as_str).collect::<Vec<_>>(),
            [Some(expected.as_str()), Some("a"), Some(expected.as_str())]
        );
        assert_eq!(
            Value::from_slice(Global, b"[\"\\n\",\"\\q\"]", &mut scratch).err(),
            Some(Error::Invalid)
        );
    }
}

#[test]
fn written_tokens() {
    let mut writer = Writer::new(KitVec::new(Global));
    writer.begin_object().unwrap();
    writer.key("a").unwrap();
    writer.begin_array().unwrap();
    writer.i64(i64::MIN).unwrap();
    writer.u64(u64::MAX).unwrap();
    writer.begin_array().unwrap();
    writer.end_array().unwrap();
    writer.begin_object().unwrap();
    writer.end_object().unwrap();
    writer.boolean(true).unwrap();
    writer.end_array().unwrap();
    writer.key("b\"").unwrap();
    writer.boolean(false).unwrap();
    writer.key("").unwrap();
    writer.string("").unwrap();
    writer.end_object().unwrap();
    let expected =
        r#"{"a":[-9223372036854775808,18446744073709551615,[],{},true],"b\"":false,"":""}"#;
    assert_eq!(str_of(&writer.into_inner()), expected);
}

fn str_of(bytes: &[u8]) -> &str {
    std::str::from_utf8(bytes).expect("it is text")
}

fn written(text: &str) -> String {
    let mut writer = Writer::new(KitVec::new(Global));
    writer.string(text).unwrap();
    str_of(&writer.into_inner()).to_owned()
}

#[test]
fn written_escapes() {
    assert_eq!(written("\"\\/\u{8}\u{c}\n\r\t"), r#""\"\\/\b\f\n\r\t""#);
    assert_eq!(
        written("\0\u{1}\u{b}\u{e}\u{1f}\u{7f}"),
        "\"\\u0000\\u0001\\u000b\\u000e\\u001f\u{7f}\""
    );
    assert_eq!(written("é€\u{1f600}"), "\"é€\u{1f600}\"");
}

/// Each character, and each pair of some of them, is read as it was written.
#[test]
fn written_strings_are_read_back() {
    let mut scratch = Scratch::new(Global);
    let mut reads_back = |text: &str| {
        let written = written(text);
        let value = Value::from_slice(Global, written.as_bytes(), &mut scratch).unwrap();
        assert_eq!(value.as_str(), Some(text));
    };
    (0..=0x10_ffff)
        .filter_map(char::from_u32)
        .for_each(|character| reads_back(character.encode_utf8(&mut [0; 4])));
    let some = || ["\\", "\"", "u", "n", "\n", "\0", "0", "d83d", "é", "\u{1f600}"];
    for one in some() {
        some().into_iter().for_each(|other| reads_back(&[one, other, one].concat()));
    }
}

/// Each code unit by its escape: a character, half of a pair, or refused.
#[test]
fn escapes_of_each_code_unit() {
    for unit in 0..=0xffff_u32 {
        let found = read(format!("\"\\u{unit:04x}\"").as_bytes());
        let expected = char::from_u32(unit)
            .map_or("Invalid".to_owned(), |character| format!("{:?}", character.to_string()));
        assert_eq!(found, expected, "{unit:04x}");
    }
}
