//! The modes of the files that are written.

use std::fs::{self, metadata};
use std::os::unix::fs::{chown, MetadataExt};

use crate::program::Folder;
use crate::{IV, KEY};

const RUN: &str = "umask 027; $B seal-run --key $K --iv $I --first 0 --last text";

#[test]
fn a_replaced_file_keeps_its_mode() {
    let folder = Folder::new("kept");
    folder.write("text", b"a list");
    for mode in [0o600, 0o640, 0o400, 0o644, 0o666, 0o755] {
        for name in ["run", "rec"] {
            folder.write(name, b"yesterday");
            folder.set_mode(name, mode);
        }
        folder.shell(&format!("{RUN} -o run --record rec")).exits(0);
        assert_eq!((folder.mode("run"), folder.mode("rec")), (mode, mode), "{mode:o}");
        assert_eq!(folder.read("rec").map(|record| record.len()), Some(24));
        // For the next mode, which root alone could set otherwise.
        folder.set_mode("run", 0o600);
        folder.set_mode("rec", 0o600);
    }
}

#[test]
fn a_new_file_follows_the_umask_and_a_new_record_is_for_its_owner() {
    let folder = Folder::new("new");
    folder.write("text", b"a list");
    folder.shell(&format!("{RUN} -o run --record rec")).exits(0);
    assert_eq!((folder.mode("run"), folder.mode("rec")), (0o640, 0o600));
    folder.shell("umask 002; $B check-run --key $K --iv $I --first 0 run --record again").exits(0);
    folder.shell("umask 002; $B join @again --record joined").exits(0);
    folder.shell("umask 002; $B close --key $K --iv $I @rec -o tag").exits(0);
    folder.shell("umask 002; $B seal --key $K --iv $I text -o sealed").exits(0);
    folder.shell("umask 077; $B open --key $K sealed -o opened").exits(0);
    let modes = ["again", "joined", "tag", "sealed", "opened"].map(|name| folder.mode(name));
    assert_eq!(modes, [0o600, 0o600, 0o664, 0o664, 0o600]);
}

/// Root can give files to others, and so see what becomes of them.
#[test]
fn a_replaced_file_keeps_its_owner_or_is_for_the_new_one_alone() {
    let folder = Folder::new("owned");
    folder.write("text", b"a list");
    folder.write("old", b"yesterday");
    let place = folder.path().join("old");
    if chown(&place, Some(4321), Some(1234)).is_err() {
        eprintln!("left out: only root gives files away");
        return;
    }
    folder.set_mode("old", 0o640);
    let seal = ["seal", "--key", KEY, "--iv", IV, "text", "-o", "old"];
    folder.run(&seal).exits(0);
    let owner = || metadata(&place).map(|found| (found.uid(), found.gid())).expect("the answer");
    assert_eq!((owner(), folder.mode("old")), ((4321, 1234), 0o640));
    // Another user cannot keep the group, and his own must not get what the old one had.
    folder.set_mode(".", 0o777);
    for (before, after) in [(0o640, 0o600), (0o604, 0o600), (0o644, 0o644), (0o4755, 0o755)] {
        fs::write(&place, b"yesterday").and_then(|()| chown(&place, Some(4321), Some(1234))).expect("an earlier file");
        folder.set_mode("old", before);
        let Some(run) = folder.run_unprivileged(&seal) else { return };
        run.exits(0);
        assert_eq!(folder.mode("old"), after, "{before:o}");
        assert_ne!(owner(), (4321, 1234));
    }
}
