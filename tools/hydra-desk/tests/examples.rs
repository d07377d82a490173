//! The examples of docs/desk-tool.md are what the tool prints.

mod common;

/// The indented blocks of a page that begin with a command: the command, and what stands under it.
fn examples(page: &str) -> Vec<(String, String)> {
    let mut examples: Vec<(String, String)> = Vec::new();
    let mut inside = false;
    for line in page.lines() {
        match line.strip_prefix("    ") {
            Some(text) if text.starts_with("$ hydra-desk ") => {
                examples.push((text["$ hydra-desk ".len()..].to_string(), String::new()));
                inside = true;
            }
            Some(text) if inside => add(&mut examples, text),
            None if inside && line.is_empty() => add(&mut examples, ""),
            _ => inside = false,
        }
    }
    for (_, output) in &mut examples {
        let end = output.trim_end().len();
        output.truncate(end);
    }
    examples
}

fn add(examples: &mut [(String, String)], line: &str) {
    if let Some((_, output)) = examples.last_mut() {
        output.push_str(line);
        output.push('\n');
    }
}

#[test]
fn of_the_page() {
    let page =
        std::fs::read_to_string(common::root().join("docs/desk-tool.md")).expect("it is there");
    let examples = examples(&page);
    for (command, expected) in &examples {
        let words: Vec<&str> = command.split(' ').collect();
        let ran = common::tool(&words, b"");
        let printed = [ran.out, ran.err].concat();
        assert_eq!(printed.trim_end(), expected, "hydra-desk {command}");
    }
    for command in [
        "check", "show", "why", "picture", "reduce", "windows", "accounts",
    ] {
        assert!(
            examples.iter().any(|(words, _)| words.starts_with(command)),
            "{command}"
        );
    }
    let windows =
        std::fs::read_to_string(common::root().join("tools/hydra-desk/examples/tomorrow.windows"));
    for line in windows.expect("it is there").lines() {
        assert!(page.contains(&format!("    {line}\n")), "{line}");
    }
}

/// What README begins with can be typed as it stands there.
#[test]
fn of_the_readme() {
    let page = std::fs::read_to_string(common::root().join("README.md")).expect("it is there");
    let target = common::scratch("readme.html", b"");
    let lines = page.lines().take_while(|line| !line.starts_with('!'));
    let commands: Vec<&str> = lines
        .filter_map(|line| line.strip_prefix("    hydra-desk "))
        .collect();
    assert!(commands.len() > 2);
    for command in commands {
        let (words, _) = command.split_once('#').unwrap_or((command, ""));
        let words = words.replace("crash.html", &target);
        let words: Vec<&str> = words.split_whitespace().collect();
        let ran = common::tool(&words, b"");
        assert_eq!((ran.err.as_str(), ran.status < 2), ("", true), "{command}");
    }
}
