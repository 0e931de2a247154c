//! The sample meshes are what their page says of them.

use reference::inspect;

#[test]
fn every_sample_has_the_lines_of_the_page() {
    let folder = concat!(env!("CARGO_MANIFEST_DIR"), "/../../meshes");
    let page = std::fs::read_to_string(format!("{folder}/README.md")).unwrap();
    let mut rows = 0;
    // a row is | mesh | what it is | `line`, `line` |
    for row in page.lines().filter(|line| line.ends_with("` |")) {
        let cells: Vec<&str> = row.split('|').map(str::trim).collect();
        let (name, said) = (cells[1], cells[3]);
        let bytes = std::fs::read(format!("{folder}/{name}.dms")).unwrap();
        let printed = inspect(&bytes);
        let printed: Vec<String> = printed.lines().map(|line| format!("`{line}`")).collect();
        assert_eq!(printed.join(", "), said, "{name}");
        rows += 1;
    }
    let files = std::fs::read_dir(folder).unwrap();
    let meshes = files.filter(|file| file.as_ref().unwrap().path().extension().map_or(false, |e| e == "dms")).count();
    assert_eq!(rows, meshes, "meshes that the page leaves out");
}
