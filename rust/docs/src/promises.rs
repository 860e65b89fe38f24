//! The promises: README's list, and the record of theorems that holds one field for each of its lines.

/// The lines of the list below a heading, each by the number and the words in bold that it starts with:
/// `- **P1 No earlier frame.** ..` is `p1_no_earlier_frame`. A line without such words is told as it is.
pub fn told(markdown: &str, heading: &str) -> Vec<String> {
    let section =
        markdown.lines().skip_while(|line| *line != heading).skip(1).take_while(|line| !line.starts_with('#'));
    section.filter_map(|line| line.strip_prefix("- ")).map(name).collect()
}

/// The words in bold at a text's start, as a field is named.
fn name(text: &str) -> String {
    let bold = text.strip_prefix("**").and_then(|rest| rest.split_once(".**"));
    bold.map_or(text.into(), |(words, _)| words.to_lowercase().replace(' ', "_"))
}

/// The promises that a document cites: P3 is 3.
pub fn cited(markdown: &str) -> Vec<usize> {
    let words = markdown.split(|c: char| !c.is_alphanumeric());
    words.filter_map(|word| word.strip_prefix('P')?.parse().ok()).collect()
}

/// The fields of a record of a proof file, in their order.
pub fn fields(antt: &str, record: &str) -> Vec<String> {
    let head = format!("pub record {record} ");
    let body = antt.lines().skip_while(|line| !line.starts_with(&head)).skip(1);
    let body = body.take_while(|line| line.starts_with("  "));
    body.filter_map(|line| Some(line.strip_prefix("  pub ")?.split_once(" : ")?.0.to_string())).collect()
}

#[cfg(test)]
mod tests {
    use super::*;

    #[test]
    fn a_line_is_told_by_its_number_and_bold_words() {
        let page = "# A\n- **P1 Not here.** x\n## B\n\n- **P1 No earlier frame.** x **y.**\n- plain\n\nText. More.\n- **P3 V0 into V2.** z\n# C\n- **P4 Over.**\n";
        assert_eq!(told(page, "## B"), ["p1_no_earlier_frame", "plain", "p3_v0_into_v2"]);
        assert!(told(page, "## D").is_empty());
    }

    #[test]
    fn what_a_document_cites_is_found() {
        assert_eq!(cited("P3, (P12) and P1 to P4; PGM, `P`, XP5, Ph1 and P5x are none"), [3, 12, 1, 4]);
    }

    #[test]
    fn the_fields_of_one_record_are_found() {
        let file = "pub record Many (M : Type 1) : Type 2 where\n  pub a : X\n\npub record One (M : Type 1) : Type 2 where\n  -- b : c\n  pub b_c : Y : Z\n      → more\n  pub d : W\n\nb : Q\n";
        assert_eq!(fields(file, "One"), ["b_c", "d"]);
        assert_eq!(fields(file, "Many"), ["a"]);
        assert!(fields(file, "None").is_empty());
    }
}
