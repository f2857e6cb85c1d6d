//! Hand counts: a file with a count to a line.

/// A count made by hand.
pub struct HandLine {
    /// Of the line in the file, from 1.
    pub number: usize,
    /// None where the column is left out.
    pub file: Option<String>,
    pub dimension: String,
    pub leaf: String,
    pub count: u64,
}

/// Reads hand counts. With one file on the command line the column for it may be left out.
pub fn read(bytes: &[u8], one_file: bool) -> Result<Vec<HandLine>, String> {
    let bytes = bytes.strip_prefix("\u{feff}".as_bytes()).unwrap_or(bytes);
    let text = std::str::from_utf8(bytes).map_err(|_| "the hand counts are not UTF-8")?;
    let lines = text.lines().enumerate().map(|(i, line)| (i + 1, line.trim_end()));
    let counted = lines.filter(|(_, line)| !line.trim().is_empty() && !line.starts_with('#'));
    let read = |(number, line)| hand_line(number, line, one_file);
    let lines = counted.map(read).collect::<Result<Vec<_>, _>>()?;
    if lines.is_empty() {
        return Err("there are no hand counts".into());
    }
    Ok(lines)
}

fn hand_line(number: usize, line: &str, one_file: bool) -> Result<HandLine, String> {
    let columns: Vec<&str> = line.split('\t').map(str::trim).collect();
    let (file, dimension, leaf, count) = match columns[..] {
        [file, dimension, leaf, count] => (Some(file), dimension, leaf, count),
        [dimension, leaf, count] if one_file => (None, dimension, leaf, count),
        _ => {
            let expected = if one_file { "4 or 3" } else { "4" };
            let found = columns.len();
            return Err(format!(
                "line {number}: expected {expected} columns separated by tabs, found {found}"
            ));
        }
    };
    let count = count
        .parse()
        .map_err(|_| format!("line {number}: the count {count:?} is no whole number"))?;
    let (file, dimension, leaf) = (file.map(str::to_string), dimension.into(), leaf.into());
    Ok(HandLine { number, file, dimension, leaf, count })
}

#[cfg(test)]
mod tests {
    use super::*;

    #[test]
    fn lines() {
        let text = "\u{feff}# counts\r\n\r\nm.bin\tSpine\tT1 > left\t12\r\n \nSpine\tT2\t 3 \n";
        let lines = read(text.as_bytes(), true).ok().unwrap();
        assert_eq!(lines.iter().map(|line| line.number).collect::<Vec<_>>(), [3, 5]);
        assert_eq!((lines[0].file.as_deref(), lines[0].count), (Some("m.bin"), 12));
        assert_eq!((&lines[1].file, &lines[1].leaf[..], lines[1].count), (&None, "T2", 3));
    }

    #[test]
    fn wrong_lines() {
        let error = |text: &str, one_file| read(text.as_bytes(), one_file).err();
        let columns = "line 1: expected 4 columns separated by tabs, found 3";
        assert_eq!(error("d\tl\t3", false).as_deref(), Some(columns));
        assert_eq!(error("d\tl\t3", true), None);
        for text in ["d\tl\t-1", "d\tl\t1.5", "d\tl\tx", "d l 3", "", "# none\n"] {
            assert!(error(text, true).is_some(), "{text}");
        }
    }
}
