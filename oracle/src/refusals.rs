//! The sentences of the refusals, as the library's header has them.

const HEADER: &str = include_str!("../../include/xm23.h");

/// The sentence of a refusal, as `xm23_refusal_text` has it.
pub fn sentence(number: u8) -> &'static str {
    let number = format!(" {number}");
    let constant = HEADER.lines().filter_map(|line| line.strip_prefix("#define XM23_REFUSED_"));
    let name = constant.filter_map(|rest| rest.strip_suffix(&number)).next().unwrap_or_default();
    let case = format!("    case XM23_REFUSED_{name}: return \"");
    let text = HEADER.lines().find_map(|line| line.strip_prefix(&case)?.strip_suffix("\";"));
    text.unwrap_or("no refusal has this number")
}
