use crate::harness::{Client, Folder};
use std::fs;
use std::os::unix::fs::symlink;

fn answers(client: &mut Client) {
    client.ask(&[1, 3, 0, 0, 0, 1], &[1, 3, 2, 0, 3]);
}

/// The signal of a line that hangs up. Where it is ignored, as under nohup, a server goes on, and another signal ends it.
fn hang_up() -> &'static str {
    let status = fs::read_to_string("/proc/self/status").unwrap();
    let ignored = status.lines().find_map(|line| line.strip_prefix("SigIgn:")).unwrap();
    match u64::from_str_radix(ignored.trim(), 16).unwrap() & 1 {
        0 => "HUP",
        _ => "TERM",
    }
}

#[test]
fn a_link_names_the_line_and_goes_with_it() {
    let folder = Folder::new();
    let server = folder.serve("--link line");
    assert_eq!(fs::read_link(folder.path("line")).unwrap(), server.path);
    let client = Client::open(&folder.path("line"));
    client.0.try_lock().unwrap(); // as some clients do
    answers(&mut Client::open(&folder.path("line")));
    assert_eq!(server.stop(hang_up()), (0, String::new()));
    assert_eq!(folder.names(), ["sonde.volume", "sonde.volume.lock"]);
}

#[test]
fn a_link_that_was_left_is_made_anew() {
    let folder = Folder::new();
    symlink("/dev/./pts/999999", folder.path("line")).unwrap();
    let server = folder.serve("--link line");
    assert_eq!(fs::read_link(folder.path("line")).unwrap(), server.path);
    drop(server); // killed
    assert!(folder.path("line").is_symlink());
    let server = folder.serve("--link line");
    assert_eq!(fs::read_link(folder.path("line")).unwrap(), server.path);
}

#[test]
fn what_is_there_already_stays() {
    let folder = Folder::new();
    let server = folder.serve("--link line");
    folder.write("file", "mine");
    symlink("file", folder.path("other")).unwrap();
    symlink(&server.path, folder.path("another's")).unwrap();
    for (name, why) in [
        ("another's", "File exists"),
        ("line", "another server has it"),
        ("./line", "another server has it"),
        ("file", "File exists"),
        ("other", "File exists"),
    ] {
        let (status, said) = folder.refused(&format!("--link {name} --volume second"));
        assert_eq!(status, 1, "{name}");
        assert!(said.starts_with(&format!("serve: the link {name} can't be made: {why}")), "{said}");
    }
    assert_eq!(
        folder.names(),
        ["another's", "file", "line", "other", "sonde.volume", "sonde.volume.lock"]
    );
    assert_eq!(folder.read("file"), b"mine");
    answers(&mut Client::open(&folder.path("line")));
    assert_eq!(server.stop("TERM").0, 0);
}
