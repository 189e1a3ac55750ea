//! README's Rust is what the first page of the documentation runs.

fn page(name: &str) -> String {
    std::fs::read_to_string(format!("{}/{name}", env!("CARGO_MANIFEST_DIR"))).unwrap()
}

#[test]
fn heart() {
    let readme = page("../README.md");
    let (_, rest) = readme.split_once("\nThe heart of it:\n\n").expect("README has the heart of it");
    let heart: String = rest.lines().map_while(|line| line.strip_prefix("    ")).map(|line| format!("//! {line}\n")).collect();
    assert!(heart.lines().count() > 5);
    assert!(page("src/lib.rs").contains(&heart), "src/lib.rs has not\n{heart}");
}
