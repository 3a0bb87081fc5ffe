//! Standard streams, terminals and devices.

use crate::program::Folder;

fn filled(name: &str) -> Folder {
    let folder = Folder::new(name);
    folder.write("list", b"parcel 1 -> cage 2\n");
    folder.write("noise", &[0, 27, 91, 50, 74, 200]);
    for (from, to) in [("list", "sealed"), ("noise", "sealed-noise")] {
        folder.shell(&format!("$B seal --key $K --iv $I {from} -o {to}")).exits(0);
    }
    folder
}

#[test]
fn devices_are_written() {
    let folder = filled("devices");
    let sealed = folder.read("sealed").expect("a sealed list");
    folder.shell("$B seal --key $K --iv $I list -o /dev/null").exits(0).prints(b"");
    for name in ["/dev/stdout", "/dev/fd/1", "/proc/self/fd/1"] {
        folder.shell(&format!("$B seal --key $K --iv $I list -o {name}")).exits(0).prints(&sealed);
        folder.shell(&format!("$B seal --key $K --iv $I list -o {name} > file; cat file")).exits(0).prints(&sealed);
    }
    folder.shell("mkfifo fifo; cat fifo & $B seal --key $K --iv $I list -o fifo; wait").exits(0).prints(&sealed);
    folder.shell("$B open --key 00 sealed -o fifo; test -p fifo").exits(0);
}

#[test]
fn a_broken_pipe_is_quiet() {
    let folder = filled("pipe");
    folder.write("long", &[b'x'; 63_000]);
    for line in ["$B seal --key $K --iv $I long", "$B --help", "$B demo", "$B jump --mask $I --distance 1"] {
        // The reader has gone before the program writes.
        let told = folder.shell(&format!("exec 3> >(exec true); sleep 0.2; {line} >&3")).exits(74);
        assert_eq!(told.stderr, "", "{line}");
    }
}

#[test]
fn a_closed_standard_output_loses_no_answer() {
    let folder = filled("closed-output");
    for line in
        ["seal --key $K --iv $I list", "open --key $K sealed", "jump --mask $I --distance 1", "man", "open --key $K sealed -o -"]
    {
        folder.shell(&format!("$B {line} >&-")).exits(74).tells("standard output");
        folder.shell(&format!("$B {line} >/dev/null")).exits(0);
    }
    folder.shell("$B seal --key $K --iv $I list --output new >&-").exits(0);
    folder.shell("$B check --key $K sealed >&-").exits(0);
    folder.shell("$B seal --key $K --iv $I -o new <&-").exits(74).tells("standard input");
    folder.shell("$B seal --key $K --iv $I -o new </dev/null").exits(0);
}

#[test]
fn a_stream_of_the_wrong_direction_loses_no_answer() {
    let folder = filled("direction");
    folder.shell("$B seal --key $K --iv $I list 1< /dev/null").exits(74).tells("standard output");
    folder.shell("$B seal --key $K --iv $I -o new 0> empty").exits(74).tells("standard input");
    folder.shell("$B seal-run --key $K --iv $I --first 0 --last list -o new 2< /dev/null").exits(74);
    assert!(folder.read("new").is_none());
}

#[test]
fn two_answers_do_not_share_a_stream() {
    let folder = filled("shared");
    let run = "$B seal-run --key $K --iv $I --first 0 --last list";
    folder.shell(&format!("{run} --record -")).exits(64).prints(b"");
    let record = folder.shell(&format!("{run} --record - -o run")).exits(0).stdout;
    assert_eq!(folder.shell(&format!("{run} -o run 2>&1")).exits(0).stdout, record);
}

#[test]
fn a_terminal_gets_no_binary() {
    let folder = filled("terminal");
    let run = "seal-run --key $K --iv $I --first 0 --last list --record rec";
    let lines = ["seal --key $K --iv $I list", run, "open --key $K sealed-noise"];
    for line in lines {
        let Some(run) = folder.on_a_terminal(&format!("$B {line} 2>messages")) else { return };
        run.exits(64).prints(b"");
        let messages = String::from_utf8(folder.read("messages").expect("messages")).expect("text");
        assert!(messages.contains("terminal") && messages.contains("-o -"), "{messages}");
        assert!(folder.read("rec").is_none());
    }
    for line in lines {
        folder.on_a_terminal(&format!("$B {line} -o - 2>messages")).expect("a terminal").exits(0);
    }
    let text = folder.on_a_terminal("$B open --key $K sealed 2>messages").expect("a terminal").exits(0);
    assert!(text.text().contains("parcel 1 -> cage 2"));
}
