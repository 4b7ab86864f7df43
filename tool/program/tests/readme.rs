//! What README shows of `./dta`: run as it stands there, through the script, which builds the program.

use std::path::Path;
use std::process::Command;

/// The commands of README that begin with `./dta`, each with the lines that it shows after it.
fn shown(readme: &str) -> Vec<(String, String)> {
    let mut commands: Vec<(String, String)> = Vec::new();
    let mut inside = false;
    for line in readme.lines() {
        let Some(line) = line.strip_prefix("    ") else {
            inside = false;
            continue;
        };
        match line.strip_prefix("$ ") {
            Some(command) => {
                inside = command.starts_with("./dta ");
                if inside {
                    commands.push((command.to_string(), String::new()));
                }
            }
            None if inside => {
                let written = &mut commands.last_mut().unwrap().1;
                written.push_str(line);
                written.push('\n');
            }
            None => {}
        }
    }
    commands
}

#[test]
fn readme_shows_what_is_written() {
    let folder = Path::new(env!("CARGO_MANIFEST_DIR")).join("../..");
    let readme = std::fs::read_to_string(folder.join("README.md")).unwrap();
    let commands = shown(&readme);
    assert!(commands.len() >= 3, "{} commands", commands.len());
    for (command, due) in commands {
        let output = Command::new("sh")
            .args(["-c", &command])
            .current_dir(&folder)
            .output()
            .unwrap();
        let told = String::from_utf8_lossy(&output.stderr);
        assert_eq!(
            String::from_utf8_lossy(&output.stdout),
            due,
            "{command}: {told}"
        );
    }
}

/// From another folder, by another name.
#[test]
fn the_script_is_found_from_elsewhere() {
    let folder = std::env::temp_dir().join(format!("dta-script-{}", std::process::id()));
    std::fs::create_dir_all(&folder).unwrap();
    let script = Path::new(env!("CARGO_MANIFEST_DIR"))
        .join("../../dta")
        .canonicalize()
        .unwrap();
    std::os::unix::fs::symlink(script, folder.join("meter")).unwrap();
    std::fs::write(folder.join("one byte.dta"), [114]).unwrap();
    let output = Command::new(folder.join("meter"))
        .args(["check", "one byte.dta"])
        .current_dir(&folder)
        .output()
        .unwrap();
    assert_eq!(String::from_utf8_lossy(&output.stdout), "refused 3\n");
    assert_eq!(output.status.code(), Some(1));
    std::fs::remove_dir_all(&folder).unwrap();
}
