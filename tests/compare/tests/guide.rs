//! `docs/GUIDE.md` quotes the examples as they are, and what it says of mended
//! texts holds. `docs/TEXT-FORM.md` has its numbers, limits and corners right.

mod common;

use std::fs;
use std::os::unix::fs::symlink;
use std::path::{Path, PathBuf};
use std::process::{Command, Output};

use common::{folder, printed, script};
use compare::examples::{read_examples, read_job_examples};
use compare::{second_answer, shown};
use second::generate::model::{used_numbers, RULES};

fn root() -> PathBuf {
    Path::new(env!("CARGO_MANIFEST_DIR")).join("../..")
}

/// The example's text and its expected answer, the lines with a comma between.
/// A base has the answer that it gets alone.
fn example(name: &str) -> (String, String) {
    let path = root().join("examples").join(name);
    let read = |ending: &str| fs::read_to_string(path.with_extension(ending)).unwrap();
    let text = read("flogic");
    let answer = match name.ends_with("/base") {
        true => second_answer(text.as_bytes()),
        false => read("answer").into_bytes(),
    };
    (text, shown(&answer))
}

/// An answer as the guide writes it, without the marks around each line.
fn quoted(answer: &str) -> String {
    assert!(answer.starts_with('`') && answer.ends_with('`'), "{answer}");
    answer[1..answer.len() - 1].replace("`, `", ", ")
}

/// What stands between two marks, and the rest.
fn between<'a>(text: &'a str, start: &str, end: &str) -> Option<(&'a str, &'a str)> {
    let (_, text) = text.split_once(start)?;
    text.split_once(end)
}

#[test]
fn texts_are_quoted_as_they_are() {
    let guide = fs::read_to_string(root().join("docs/GUIDE.md")).unwrap();
    let mut rest = guide.as_str();
    let mut texts = 0;
    while let Some((name, after)) = between(rest, "`examples/", ".flogic`:\n\n```text\n") {
        let (text, after) = after.split_once("```").unwrap();
        let (answer, after) = between(after, "Answer: ", "\n").unwrap();
        // The name begins after the last mark before the block.
        let name = name.rsplit("`examples/").next().unwrap();
        assert_eq!((text.into(), quoted(answer)), example(name), "{name}");
        texts += 1;
        rest = after;
    }
    // C1, the inputs that are used, the rules, those for provers, the refusals
    // but the first, the paper's molecules and its proof, the survey. res, fac,
    // inh, inp, 2, 5 and 8 have two, par and 10 three, 9 four. A base and two
    // jobs.
    assert_eq!(texts, 1 + 1 + (14 + 6) + 3 + (10 + 8) + 7 + 4 + 3);
}

#[test]
fn what_is_said_of_other_jobs_holds() {
    let guide = fs::read_to_string(root().join("docs/GUIDE.md")).unwrap();
    let guide = guide.replace('\n', " ");
    for (name, start) in [
        ("jobs/marks/refused-step", "in its fifth line, and gets `"),
        ("jobs/marks/refused-sym", "refused-sym.flogic`, gets `"),
        ("jobs/marks-wrong/lost", "and `lost` gets `"),
        ("jobs/c13-empty/c01", "an empty base gets `"),
    ] {
        let (answer, _) = between(&guide, start, "`").unwrap();
        assert_eq!(answer, example(name).1, "{name}");
    }
    let (base, _) = example("jobs/marks/base");
    let (lines, _) = between(&guide, "The base has ", " lines and").unwrap();
    assert_eq!(lines, base.lines().count().to_string());
}

#[test]
fn mended_texts_get_the_answer_that_is_named() {
    let guide = fs::read_to_string(root().join("docs/GUIDE.md")).unwrap();
    let mut mended = 0;
    let mut name = "";
    for paragraph in guide.split("\n\n") {
        if let Some((found, _)) = between(paragraph, "`examples/", ".flogic`:") {
            name = found;
        }
        let Some(mend) = paragraph.strip_prefix("To mend it, ") else {
            continue;
        };
        let (changes, answer) = mend.split_once(": the answer is ").unwrap();
        let (text, _) = example(name);
        let mut lines: Vec<&str> = text.lines().collect();
        for change in changes.split(" and ") {
            let (number, line) = between(change, "line ", " as `").unwrap();
            let number: usize = number.parse().unwrap();
            lines[number - 1] = line.strip_suffix('`').unwrap();
        }
        let text = lines.join("\n") + "\n";
        let answer = quoted(answer.strip_suffix('.').unwrap());
        assert_eq!(shown(&second_answer(text.as_bytes())), answer, "{name}");
        mended += 1;
    }
    assert_eq!(mended, 17);
}

/// The guide's commands that begin so, up to an end, run in a folder.
fn run(folder: &Path, start: &str, end: &str) -> Output {
    let guide = fs::read_to_string(root().join("docs/GUIDE.md")).unwrap();
    let (commands, _) = between(&guide, &format!("\n{start}"), end).unwrap();
    let mut shell = Command::new("sh");
    let shell = shell.arg("-c").arg([start, commands].concat());
    shell.current_dir(folder).output().unwrap()
}

#[test]
fn the_loop_over_files_names_those_without_an_accepted_answer() {
    let folder = folder("loop");
    fs::create_dir_all(folder.join("crates/fcheck/out")).unwrap();
    fs::rename(
        script(&folder, "SECOND"),
        folder.join("crates/fcheck/out/fcheck"),
    )
    .unwrap();
    for name in ["c01", "c02", "c04"] {
        let file = folder.join(name).with_extension("flogic");
        fs::write(file, example(name).0).unwrap();
    }
    // One that can't be read, and one that isn't there.
    fs::create_dir(folder.join("c05.flogic")).unwrap();
    symlink("nowhere", folder.join("c06.flogic")).unwrap();
    let output = printed(&run(&folder, "for text in", "```"));
    let expected = "c01.flogic: refuted 5 4 rests 0 1 2\nc02.flogic: refused 10 8\n\
                    c04.flogic: open 0\nc05.flogic: no answer\nc06.flogic: no answer\n";
    assert_eq!(output, expected);
    let named = |name: &str| fs::read_to_string(folder.join(name)).unwrap();
    assert_eq!(named("refused.txt"), "c02.flogic\n");
    assert_eq!(named("unread.txt"), "c05.flogic\nc06.flogic\n");
}

#[test]
fn files_from_windows_are_mended_as_the_guide_says() {
    let folder = folder("windows");
    symlink(root().join("examples"), folder.join("examples")).unwrap();
    for (name, command) in [
        ("refused-02-return", "tr -d "),
        ("refused-02-mark", "tail -c "),
    ] {
        assert!(run(&folder, command, "\n").status.success(), "{command}");
        let mended = fs::read_to_string(folder.join("mended.flogic")).unwrap();
        let (text, answer) = example(name);
        assert_eq!(mended, example("c01").0, "{command}");
        assert_ne!(mended, text);
        assert_eq!(answer, "refused 2 1");
    }
}

#[test]
fn occurrences_of_a_method_atom_are_numbered_as_the_guide_says() {
    let guide = fs::read_to_string(root().join("docs/GUIDE.md")).unwrap();
    let (table, _) = between(
        &guide,
        "| K | occurrence | where |\n|---|---|---|\n",
        "\n\n",
    )
    .unwrap();
    let (text, _) = example("rule-par-method");
    let (start, _) = text.split_once("(in (or (+ (eq").unwrap();
    // A claim that is no clause of par's passes the checks before 11.
    let answer = |k: usize, term: &str| {
        let list = if term == "(v 0)" {
            "(let (v 0))"
        } else {
            "(let)"
        };
        let equation = format!("(in (or (+ (eq {term} (f 5)))))");
        let step = format!("(by par 0 0 1 0 {k} (let (v 0)) {list} (or))");
        shown(&second_answer(
            format!("{start}{equation}\n{step}\n").as_bytes(),
        ))
    };
    for (k, row) in table.lines().enumerate() {
        let cells: Vec<&str> = row.split('|').map(str::trim).collect();
        assert_eq!(cells[1], k.to_string());
        assert_eq!(
            answer(k, cells[2].trim_matches('`')),
            "refused 11 9",
            "{row}"
        );
    }
    let rows = table.lines().count();
    assert!(guide.contains(&format!("There is no occurrence {rows},")));
    assert_eq!(answer(rows, "(f 0)"), "refused 9 9");
}

#[test]
fn the_version_is_that_of_the_last_change() {
    let changes = fs::read_to_string(root().join("docs/CHANGES.md")).unwrap();
    let headings = changes.lines().filter_map(|line| line.strip_prefix("## "));
    let (number, _) = headings.last().unwrap().split_once('.').unwrap();
    let source = fs::read_to_string(root().join("crates/console/src/lib.rt")).unwrap();
    assert!(source.contains(&format!("b\" 0.{number}\\n\"")), "{number}");
}

#[test]
fn the_list_of_examples_has_each_with_its_answer() {
    let list = fs::read_to_string(root().join("examples/README.md")).unwrap();
    let mut names = Vec::new();
    for row in list.lines().filter(|row| row.starts_with("| `")) {
        let cells: Vec<&str> = row.split('|').map(str::trim).collect();
        let name = cells[1].trim_matches('`');
        assert_eq!(cells[2], example(name).1, "{name}");
        names.push(name.to_string());
    }
    names.sort();
    let examples = read_examples(&root().join("examples")).unwrap();
    let mut found: Vec<String> = examples.into_iter().map(|example| example.name).collect();
    let jobs = read_job_examples(&root().join("examples/jobs")).unwrap();
    found.extend(jobs.into_iter().map(|job| format!("jobs/{}", job.name)));
    found.sort();
    assert_eq!(names, found);
}

/// The cells of the rows of a table of `docs/TEXT-FORM.md` whose first cell is
/// this.
fn row(first: &str) -> Vec<String> {
    let page = fs::read_to_string(root().join("docs/TEXT-FORM.md")).unwrap();
    let start = format!("| {first} |");
    let rows: Vec<&str> = page.lines().filter(|row| row.starts_with(&start)).collect();
    assert_eq!(rows.len(), 1, "{first}");
    let cells = rows[0].trim_matches('|').split('|');
    cells.map(|cell| cell.trim().to_string()).collect()
}

#[test]
fn statements_are_numbered_one_by_one() {
    let page = fs::read_to_string(root().join("docs/TEXT-FORM.md")).unwrap();
    let mut last = ('G', 0);
    for line in page.lines() {
        let marked = line.strip_prefix("- **").or(line.strip_prefix("| **"));
        let Some((mark, _)) = marked.and_then(|rest| rest.split_once("**")) else {
            continue;
        };
        let (letter, number) = (mark.chars().next().unwrap(), mark[1..].parse().unwrap());
        let next = match last {
            // The checks 1 to 11 are V11 to V21.
            ('V', 4) => ('V', 11),
            // The rules mer and pro stand in the table with the others.
            ('R', 19) => ('R', 25),
            ('R', 26) => ('R', 20),
            (before, count) if before == letter => (letter, count + 1),
            _ => (letter, 1),
        };
        assert_eq!((letter, number), next);
        last = (letter, number);
    }
    assert_eq!(last, ('C', 13));
}

#[test]
fn the_tables_of_the_text_form_are_the_second_checkers() {
    for rule in RULES {
        let used = used_numbers(rule).map(|used| if used { "yes" } else { "" });
        assert_eq!(row(rule)[1..], used, "{rule}");
    }
    for (what, most) in [
        ("bytes of a text", second::MAX_BYTES),
        ("lines of a text", second::MAX_LINES),
        ("symbols", second::MAX_SYMBOLS),
        ("K of a sym line", second::MAX_ARITY.into()),
        ("arguments of a method", second::MAX_ARGUMENTS.into()),
        ("parts of a molecule", second::MAX_PARTS),
        ("literals of a clause", second::MAX_LITERALS),
        ("a variable's number", second::MAX_VARIABLE.into()),
        ("terms of a LET", second::MAX_LIST_TERMS),
    ] {
        assert_eq!(row(what)[1].replace(',', ""), most.to_string(), "{what}");
    }
}

#[test]
fn the_corners_of_the_text_form_have_the_examples_answers() {
    for corner in 1..=10 {
        let answer = &row(&format!("**C{corner}**"))[2];
        assert_eq!(*answer, example(&format!("c{corner:02}")).1, "C{corner}");
    }
}

#[test]
fn the_corner_of_a_base_and_a_job_has_the_examples_answers() {
    let page = fs::read_to_string(root().join("docs/TEXT-FORM.md")).unwrap();
    let corner = page.replace("\n  ", " ");
    let corner = corner.lines().find(|line| line.starts_with("- **C13**"));
    let corner = corner.unwrap();
    let (whole, _) = example("c01");
    let jobs = read_job_examples(&root().join("examples/jobs")).unwrap();
    for job in jobs.iter().filter(|job| job.name.starts_with("c13-")) {
        let (base, both) = (&job.base, [&job.base[..], &job.job].concat());
        let answer = shown(&job.expected);
        match (base.is_empty(), base.ends_with(b"\n")) {
            (true, _) => assert!(corner.contains(&format!("an empty base gives {answer}"))),
            (_, false) => assert!(corner.contains(&format!("line end gives {answer}"))),
            _ => assert_eq!(
                (both, answer),
                (whole.clone().into_bytes(), example("c01").1)
            ),
        }
    }
}
