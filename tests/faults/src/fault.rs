//! The table of faults: `faults.txt`.

/// A fault to plant into one file of the second checker.
#[derive(Clone, Debug, Default)]
pub struct Fault {
    pub file: String,
    pub what: String,
    edits: Vec<Edit>,
}

/// A text that goes and the text that comes in its place.
#[derive(Clone, Debug, Default)]
struct Edit {
    old: Vec<String>,
    new: Vec<String>,
}

/// Reads the table: blocks between empty lines, the first of them a heading.
pub fn read(table: &str) -> Result<Vec<Fault>, String> {
    table.split("\n\n").skip(1).map(read_fault).collect()
}

/// Reads a block: `FILE: WHAT`, then lines that begin with - or +.
fn read_fault(block: &str) -> Result<Fault, String> {
    let (head, body) = block.split_once('\n').unwrap_or((block, ""));
    let (file, what) = (head.split_once(": ")).ok_or(format!("{head}: no file is named"))?;
    let mut edits: Vec<Edit> = Vec::new();
    for line in body.lines() {
        let (sign, text) = line.split_at_checked(2).unwrap_or((line, ""));
        match (sign, edits.last_mut()) {
            ("- ", Some(edit)) if edit.new.is_empty() => edit.old.push(text.into()),
            ("- ", _) => edits.push(Edit {
                old: vec![text.into()],
                new: Vec::new(),
            }),
            ("+ " | "+", Some(edit)) => edit.new.push(text.into()),
            _ => return Err(format!("{head}: {line}")),
        }
    }
    Ok(Fault {
        file: file.into(),
        what: what.into(),
        edits,
    })
}

impl Fault {
    /// The file's source with the fault in it.
    pub fn plant(&self, source: &str) -> Result<String, String> {
        let mut planted = source.to_string();
        for Edit { old, new } in &self.edits {
            let (old, new) = (old.join("\n"), new.join("\n"));
            if planted.matches(&old).count() != 1 {
                return Err(format!("in {} this doesn't stand once: {old}", self.file));
            }
            planted = planted.replace(&old, &new);
        }
        if planted == source {
            return Err("no change".into());
        }
        Ok(planted)
    }
}

#[cfg(test)]
mod tests {
    use super::read;

    const TABLE: &str =
        "What a table is.\n\na.rs: one\n- x\n+ y\n\nb.rs: two\n- p\n-  q\n+ r\n- s\n+\n";

    #[test]
    fn a_table_is_read_and_planted() {
        let faults = read(TABLE).unwrap();
        assert_eq!(faults.len(), 2);
        assert_eq!((&faults[1].file[..], &faults[1].what[..]), ("b.rs", "two"));
        assert_eq!(faults[0].plant("axb").unwrap(), "ayb");
        assert_eq!(faults[1].plant("p\n q\nas").unwrap(), "r\na");
    }

    #[test]
    fn a_text_that_does_not_stand_once_is_an_error() {
        let faults = read(TABLE).unwrap();
        assert!(faults[0].plant("ab").is_err());
        assert!(faults[0].plant("xx").is_err());
        assert!(read("Heading.\n\na.rs: one\nx\n").is_err());
        assert!(read("Heading.\n\none\n- x\n+ y\n").is_err());
        assert!(read("Heading.\n\na.rs: one\n- x\n+ x\n").unwrap()[0]
            .plant("x")
            .is_err());
    }
}
