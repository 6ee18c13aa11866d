// The sheets under examples/ are those of their texts, the claims and up-times told there are so, and the old text is tidied as told.
use rascrunel::{text, Checker, Sheet};
use std::fs;
use std::path::PathBuf;

fn example(name: &str) -> PathBuf {
    PathBuf::from(env!("CARGO_MANIFEST_DIR")).join("../../examples").join(name)
}

#[test]
fn sheets_of_their_texts() {
    for name in ["trim", "guard", "shift"] {
        let text = fs::read_to_string(example(&format!("{name}.txt"))).unwrap();
        let bytes = fs::read(example(&format!("{name}.sgl"))).unwrap();
        assert_eq!(text::read(&text).unwrap().bytes(), bytes, "{name}");
    }
}

#[test]
fn tidied_text() {
    let [old, tidied] = ["old.txt", "old-tidied.txt"].map(|name| fs::read_to_string(example(name)).unwrap());
    assert_eq!(text::tidy(&old).unwrap(), tidied);
    assert!(text::read(&old).is_err() && text::read(&tidied).is_ok());
}

// Each line of a file: a sheet, two words, and what is told of them.
fn told(file: &str, of: impl Fn(&Sheet, &str, &str) -> String) {
    let text = fs::read_to_string(example(file)).unwrap();
    let mut told = 0;
    for line in text.lines().filter(|l| !l.starts_with('#') && !l.is_empty()) {
        let parts: Vec<&str> = line.splitn(4, ' ').collect();
        let sheet = Sheet::new(&fs::read(example(parts[0])).unwrap()).unwrap();
        assert_eq!(of(&sheet, parts[1], parts[2]), parts[3], "{line}");
        told += 1;
    }
    assert!(told >= 5);
}

#[test]
fn claims() {
    told("claims.txt", |sheet, f, g| Checker::new().claim(sheet, f, g).unwrap().to_string());
}

#[test]
fn uptimes() {
    told("uptimes.txt", |sheet, name, h| sheet.uptime(name, h.parse().unwrap()).unwrap().to_string().replace('\n', ","));
}
