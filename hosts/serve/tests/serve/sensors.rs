use crate::harness::{Client, Folder};

fn reads_float(client: &mut Client, register: u16, value: f32) {
    let [high, low] = register.to_be_bytes();
    let [a, b, c, d] = value.to_be_bytes();
    client.ask(&[1, 3, high, low, 0, 2], &[1, 3, 4, a, b, c, d]);
}

/// Sensor 2's value and quality.
fn oxygen(client: &mut Client, value: f32, quality: u8) {
    reads_float(client, 230, value);
    client.ask(&[1, 3, 0, 234, 0, 1], &[1, 3, 2, 0, quality]);
}

#[test]
fn values_by_default_and_from_the_command_line() {
    let folder = Folder::new();
    let server = folder.serve("--raw 1=1413,25.5 --raw 4=absent");
    let mut client = server.client();
    reads_float(&mut client, 130, 25.5); // temperature, the second raw value
    reads_float(&mut client, 138, 1413.0); // conductivity, 0 + (1 × raw)
    oxygen(&mut client, 8.0, 0);
    reads_float(&mut client, 330, 14.7); // pressure, raw - 0
    reads_float(&mut client, 430, 0.0); // chlorophyll, not present: the sentinel
    client.ask(&[1, 3, 1, 178, 0, 1], &[1, 3, 2, 0, 7]); // and its quality, register 434
}

#[test]
fn a_file_of_values_may_change() {
    let folder = Folder::new();
    folder.write("raws", "2 = 7.5\n");
    let server = folder.serve("--raws raws --raw 2=9");
    let mut client = server.client();
    oxygen(&mut client, 7.5, 0);
    folder.write("raws", "2 = 6.5\n"); // as long as before
    oxygen(&mut client, 6.5, 0);
    folder.write("raws", "# cleaned\n2 = absent\n");
    oxygen(&mut client, 0.0, 7);
    folder.write("raws", "2 = 5\n1 = inf\n");
    oxygen(&mut client, 0.0, 7);
    std::fs::remove_file(folder.path("raws")).unwrap();
    oxygen(&mut client, 0.0, 7);
    folder.write("raws", "2 = 5\n");
    oxygen(&mut client, 5.0, 0);
    let (status, said) = server.stop("TERM");
    let lines: Vec<&str> = said.lines().collect();
    assert_eq!(
        lines[0],
        "serve: raws: line 2: 1 = inf: the value is no finite number; the last values stay"
    );
    assert!(
        lines[1].starts_with("serve: raws: ") && lines[1].ends_with("; the last values stay"),
        "{said}"
    );
    assert_eq!((lines.len(), status), (2, 0));
}

#[test]
fn a_bad_file_of_values_is_told_at_the_start() {
    let folder = Folder::new();
    let (status, said) = folder.refused("--raws raws");
    assert_eq!(status, 1);
    assert!(said.starts_with("serve: raws: "), "{said}");
    folder.write("raws", "3 = 14.7\n2 = NaN\n");
    let said = folder.refused("--raws raws");
    assert_eq!(
        said,
        (1, "serve: raws: line 2: 2 = NaN: the value is no finite number\n".to_string())
    );
    assert_eq!(folder.names(), ["raws"]);
}
