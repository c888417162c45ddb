//! The rule of text: what is taken, and what is an error that names line and token.

use super::running::*;

fn text(text: impl AsRef<[u8]>) -> Ended {
    let folder = Folder::new();
    cutlist(&[&folder.file("plan.hex", text)])
}

/// The text is an error that names the file, this line and this token.
fn faulty(bytes: impl AsRef<[u8]>, line: u64, token: &str) {
    let place = format!("plan.hex: line {line}: '{token}' is not bytes");
    text(bytes).failed(2, &[&place]);
}

#[test]
fn digits_that_stand_alone_are_no_bytes() {
    faulty("50 4 53 0 3 45", 1, "4");
    faulty("50 04\n53 00 3 45\n", 2, "3");
}

#[test]
fn an_odd_last_digit_is_no_byte() {
    faulty("50 02 53 00 01 E", 1, "E");
    faulty("50 02 53 00 01 4", 1, "4");
    faulty("5002530001 453", 1, "453");
}

#[test]
fn digits_do_not_join_across_spaces_lines_or_comments() {
    faulty("5 0 0 2 5 3 0 0 0 1 4 5", 1, "5");
    faulty("50 02 53 00 01 4\n5", 1, "4");
    faulty("50 02 53 00 01\n4 # five\n5", 2, "4");
    faulty("500 253 000 145", 1, "500");
}

#[test]
fn a_byte_order_mark_is_an_error() {
    faulty("\u{feff}50 02 53 00 01 45", 1, "\\xef\\xbb\\xbf50");
    faulty("\u{feff}# a plan\n50 02 53 00 01 45", 1, "\\xef\\xbb\\xbf");
    let wide: Vec<u8> = "50 02".encode_utf16().flat_map(u16::to_le_bytes).collect();
    faulty(wide, 1, "5\\x000\\x00");
}

#[test]
fn a_prefix_a_letter_or_a_nul_is_an_error() {
    faulty("0x50 0x02 0x53 0x00 0x01 0x45", 1, "0x50");
    faulty("50 02 53 00 01 45\n\nend\n", 3, "end");
    faulty("50 02 53 00 01 45 \0", 1, "\\x00");
    faulty("50,02,53,00,01,45", 1, "50,02,53,00,01,45");
    faulty("\\x50\\x02", 1, "\\\\x50\\\\x02");
}

#[test]
fn a_plan_in_raw_bytes_is_no_text() {
    text(BRIDGE).failed(2, &["plan.hex: line 1: "]);
}

#[test]
fn tokens_hold_any_number_of_whole_bytes() {
    text("50 02 53 00 01 45").listed("cuts 1\n- | 0\n");
    text("500253000145").listed("cuts 1\n- | 0\n");
    text("5002 530001\r\n\t45\r\n").listed("cuts 1\n- | 0\n");
    text("50 02 53 00 01 43 3F 00 01 45").listed("cuts 1\n63 | 0\n");
    text("50 02 53 00 01 43 3f 00 01 45").listed("cuts 1\n63 | 0\n");
}

#[test]
fn comments_are_passed_over() {
    text("# 50 03\n50#two\n02 53 00 01#\n45 # 45 # \u{e9}").listed("cuts 1\n- | 0\n");
}

#[test]
fn text_without_a_byte_is_the_empty_plan() {
    for empty in ["", "\n", "# nothing", " \t\r\n# 50\n"] {
        text(empty).refused(1, "the plan stops early");
    }
}

#[test]
fn long_text_is_taken_whole() {
    let comments = "# a line that says nothing of the hall at all\n".repeat(25_000);
    assert!(comments.len() > 1_000_000);
    text(comments.clone() + &hexadecimal(BRIDGE)).listed(BRIDGE_LIST);
    text(hexadecimal(BRIDGE) + &comments).listed(BRIDGE_LIST);
    text(format!(
        "#{}\n{}",
        "x".repeat(1_000_000),
        hexadecimal(BRIDGE)
    ))
    .listed(BRIDGE_LIST);

    let late = comments.clone() + &hexadecimal(BRIDGE) + &comments + "4";
    faulty(late, 50_001, "4");
}

#[test]
fn long_text_of_bytes_is_a_plan_that_goes_on_after_its_end() {
    let bytes = hexadecimal(BRIDGE) + &"45 ".repeat(1_000_000);
    text(&bytes).refused(3, "a byte after 45");
    text(bytes.replace(' ', "")).refused(3, "a byte after 45");
    faulty(bytes + "\n45 4", 2, "4");
}
