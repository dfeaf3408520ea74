//! What the build says of the archive and of the target.

#[allow(dead_code)]
#[path = "../build.rs"]
mod build;

use std::path::Path;

#[test]
fn the_archive_is_for_linux_on_x86_64() {
    assert_eq!(build::unfit("x86_64", "linux"), None);
    for (arch, os) in [
        ("aarch64", "linux"),
        ("x86_64", "windows"),
        ("x86", "linux"),
    ] {
        let why = build::unfit(arch, os).unwrap();
        assert!(why.contains(&format!("this build is for {os} on {arch}")));
        assert!(why.contains("--target x86_64-unknown-linux-gnu"));
    }
}

#[test]
fn the_archive_is_looked_for_from_this_package() {
    let made = Path::new("../target/staticlib/libreefnettle.a");
    assert_eq!(build::archive(None), made);
    let named = Path::new("/usr/lib/libreefnettle.a");
    assert_eq!(build::archive(Some("/usr/lib".into())), named);
}
