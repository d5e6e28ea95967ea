//! `./bustardcase` of the repository's root: as it stands there, and in a checkout of few files, with programs
//! that stand for rt and cargo, so that nothing has to be proved.

use crate::folder::{Folder, Ran, run};
use crate::payloads::SMALLEST;
use std::collections::BTreeMap;
use std::fs::{self, File};
use std::os::unix::fs::{MetadataExt, PermissionsExt, symlink};
use std::os::unix::process::ExitStatusExt;
use std::path::{Path, PathBuf};
use std::process::{Child, Command, ExitStatus, Stdio};
use std::thread::sleep;
use std::time::{Duration, Instant, SystemTime};

fn root() -> PathBuf {
    let root = Path::new(env!("CARGO_MANIFEST_DIR")).join("../..");
    fs::canonicalize(root).expect("the repository's root")
}

fn script() -> PathBuf {
    root().join("bustardcase")
}

fn run_in(folder: &Folder, script: &Path, words: &[&str]) -> Ran {
    let mut command = Command::new(script);
    command.args(words).current_dir(&folder.0);
    run(command, b"")
}

#[test]
fn from_another_folder_and_through_links() {
    let folder = Folder::new("script");
    folder.put("in", SMALLEST);
    let shown = folder.run(&["show", "in"]).text(0);
    // The first run may have to build.
    let first = run_in(&folder, &script(), &["show", "in"]);
    assert_eq!(first.status, 0, "{}", first.err);
    assert_eq!(first.out, shown.as_bytes());
    assert!(["", "bustardcase: building the tool ...\n"].contains(&first.err.as_str()));
    assert_eq!(run_in(&folder, &script(), &["show", "in"]).text(0), shown);

    fs::create_dir(folder.0.join("far")).expect("a folder");
    symlink(script(), folder.0.join("far/link")).expect("a link");
    symlink("far/link", folder.0.join("tool")).expect("a link to a link");
    let link = folder.0.join("tool");
    assert_eq!(run_in(&folder, &link, &["show", "in"]).text(0), shown);
    assert_eq!(
        run_in(&folder, Path::new("./tool"), &["show", "in"]).text(0),
        shown
    );

    let refused = run_in(&folder, &link, &["show", "missing"]);
    let line = "bustardcase: missing: no such file or folder\n";
    assert_eq!((refused.status, refused.err.as_str()), (2, line));
}

/// A checkout of few files. `fake` is where the programs that stand for rt and cargo look and write.
struct Checkout {
    folder: Folder,
    root: PathBuf,
    bin: PathBuf,
    fake: PathBuf,
}

/// All that the script may call, beside rt, cargo, rustc, cc and cp.
const PROGRAMS: [&str; 20] = [
    "awk", "cat", "chmod", "dd", "dirname", "env", "find", "flock", "head", "mkdir", "mkfifo",
    "mv", "readlink", "rm", "sed", "setsid", "sh", "sleep", "touch", "uname",
];

const FIRST_RUN: &str = "\
bustardcase: proving the library; from nothing it takes some minutes ...
bustardcase: 1 of 6 proved: octets
bustardcase: 2 of 6 proved: boxes
bustardcase: 3 of 6 proved: exports
bustardcase: 4 of 6 proved: exports_c
bustardcase: 5 of 6 proved: exports_outline
bustardcase: 6 of 6 proved: exports_find
bustardcase: making libexports.a ...
bustardcase: making libexports_outline.a ...
bustardcase: making libexports_find.a ...
bustardcase: building the tool ...
";

const ALL_STEPS: &str = "\
rt lib in exports_c
rt lib in exports_outline
rt lib in exports_find
cargo build
";

/// A step that goes on until it is ended, or told to go on, and has a process of its own as rt has.
const LINGER: &str = "\
echo left >\"$TMPDIR/left\"
(n=0; while [ ! -e \"$FAKE/go-on\" ] && [ $n -lt 600 ]; do sleep 0.05; n=$((n + 1)); done) &
echo $! >\"$FAKE/pid\"
mv \"$FAKE/pid\" \"$FAKE/reached\"
wait
";

const WAITING: &str = "bustardcase: another ./bustardcase is building here; waiting for it ...\n";

/// The script, running; what it says goes to a file.
struct Started {
    child: Child,
    said: PathBuf,
}

impl Started {
    fn said(&self) -> String {
        fs::read_to_string(&self.said).expect("what it says")
    }

    fn waits(&self) {
        wait_for("it waits for another", || self.said().contains(WAITING));
    }

    /// Its status, and what it says.
    fn ends(mut self) -> (ExitStatus, String) {
        let status = self.child.wait().expect("it ends");
        (status, self.said())
    }
}

impl Checkout {
    fn new(name: &str) -> Self {
        let folder = Folder::new(&format!("script-{name}"));
        let path = fs::canonicalize(&folder.0).expect("the test's folder");
        // A name with all that a shell may take for something else.
        let root = path.join("it's a * \"check\" $out; of=it");
        let checkout = Checkout {
            root,
            bin: path.join("bin"),
            fake: path.join("fake"),
            folder,
        };
        checkout.fill();
        checkout
    }

    fn fill(&self) {
        let text = "# A comment.\noctets:\nboxes: octets # A comment.\nexports: octets boxes io\n\
                    vectors: exports\nexports_c staticlib: boxes exports\n\
                    exports_outline staticlib: exports octets\n\
                    exports_find staticlib: exports octets\n";
        self.put("crates.txt", text);
        for name in [
            "octets",
            "boxes",
            "exports",
            "exports_c",
            "exports_outline",
            "exports_find",
        ] {
            self.put(&format!("crates/{name}/src/lib.rt"), "");
        }
        self.put("crates/octets/must-fail/one.edit", "");
        let manifest = fs::read_to_string(root().join("host/Cargo.toml")).expect("Cargo.toml");
        self.put("host/Cargo.toml", &manifest);
        for name in [
            "Cargo.lock",
            "bustardcase/build.rs",
            "cli/Cargo.toml",
            "cli/src/main.rs",
        ] {
            self.put(&format!("host/{name}"), "");
        }
        fs::copy(script(), self.script()).expect("the script");
        fs::create_dir(&self.bin).expect("a folder for programs");
        fs::create_dir(&self.fake).expect("a folder for notes");
        for name in PROGRAMS {
            let program = found(name).unwrap_or_else(|| panic!("{name} is not installed"));
            symlink(program, self.bin.join(name)).expect("a link to a program");
        }
        self.program("rt", include_str!("script/rt"));
        self.program("cargo", include_str!("script/cargo"));
        self.program("rustc", include_str!("script/cargo"));
        self.program("cc", "#!/bin/sh\n");
        self.program("cp", include_str!("script/cp"));
    }

    fn script(&self) -> PathBuf {
        self.root.join("bustardcase")
    }

    fn put(&self, name: &str, text: &str) {
        let path = self.root.join(name);
        fs::create_dir_all(path.parent().expect("a folder")).expect("a folder of the checkout");
        fs::write(path, text).expect("a file of the checkout");
    }

    /// A program, in place of the one that there is.
    fn program(&self, name: &str, text: &str) {
        let path = self.bin.join(name);
        let _ = fs::remove_file(&path);
        fs::write(&path, text).expect("a program");
        fs::set_permissions(path, fs::Permissions::from_mode(0o755)).expect("a mode");
    }

    fn without(&self, program: &str) {
        fs::remove_file(self.bin.join(program)).expect("a program");
    }

    /// What the program that stands for rt or cargo does at a step.
    fn at(&self, step: &str, text: &str) {
        fs::write(self.fake.join(step), text).expect("a step");
    }

    fn no_more_at(&self, step: &str) {
        fs::remove_file(self.fake.join(step)).expect("a step");
    }

    fn command(&self) -> Command {
        self.prepared(Command::new(self.script()))
    }

    fn prepared(&self, mut command: Command) -> Command {
        command.env("PATH", &self.bin).env("FAKE", &self.fake);
        command.env("TMPDIR", &self.fake);
        command.current_dir(&self.folder.0);
        command
    }

    fn run(&self, words: &[&str]) -> Ran {
        let mut command = self.command();
        command.args(words);
        run(command, b"input\n")
    }

    /// The tool is there, and ran.
    fn assert_runs(&self, said: &str) {
        let ran = self.run(&["show", "a  b"]);
        assert_eq!(ran.err, said);
        let out = "the tool: show a  b\ninput\n";
        assert_eq!((ran.status, ran.out.as_slice()), (0, out.as_bytes()));
    }

    /// Nothing is built; one line says why.
    fn assert_fails_with(&self, line: &str) {
        let ran = self.run(&["show"]);
        assert_eq!(ran.err, format!("bustardcase: {line}\n"));
        assert_eq!((ran.status, ran.out.as_slice()), (2, &b""[..]));
        assert_eq!(self.notes(), "");
    }

    /// How rt and cargo were called since this was last asked.
    fn notes(&self) -> String {
        let path = self.fake.join("notes");
        let notes = fs::read_to_string(&path).unwrap_or_default();
        let _ = fs::remove_file(path);
        notes
    }

    fn library(&self, name: &str) -> PathBuf {
        self.root.join(format!("target/staticlib/lib{name}.a"))
    }

    fn start(&self, name: &str) -> Started {
        let said = self.fake.join(name);
        let file = File::create(&said).expect("a file for what it says");
        // The tests may run where signals are ignored, as in the background of a shell, and no shell can
        // take that back.
        let mut command = self.prepared(Command::new("env"));
        command.args(["--default-signal=HUP,INT,QUIT,TERM", "sh"]);
        command.arg(self.script());
        command.stdin(Stdio::null()).stdout(Stdio::null());
        let child = command.stderr(file).spawn().expect("it starts");
        Started { child, said }
    }

    /// Waits until the step with `LINGER` is reached; its own process.
    fn reached(&self) -> u32 {
        let path = self.fake.join("reached");
        wait_for("the step is reached", || path.exists());
        let pid = fs::read_to_string(&path).expect("a process");
        fs::remove_file(path).expect("it is removed");
        pid.trim().parse().expect("a number")
    }

    fn go_on(&self) {
        fs::write(self.fake.join("go-on"), "").expect("a file");
    }

    /// Nothing of an unfinished build is there.
    fn assert_nothing_is_left(&self) {
        let target = self.root.join("target");
        for path in files(&target).keys() {
            let name = path.strip_prefix(&target).expect("a file of target/");
            let text = name.to_string_lossy();
            let known = text.starts_with("staticlib/lib") || text.starts_with("host/release");
            assert!(known, "{text} is left");
        }
        assert!(!target.join("building").exists());
    }

    /// Nothing but what was built, and the mark of a build that went well.
    fn assert_nothing_is_left_but_the_mark(&self) {
        let mark = self.root.join("target/host/bustardcase.built");
        fs::remove_file(&mark).expect("the mark");
        self.assert_nothing_is_left();
        fs::write(mark, "").expect("the mark");
    }

    /// The script, run by somebody who may write nothing here; none where the tests cannot be that user.
    fn command_of_a_stranger(&self) -> Option<Command> {
        if fs::metadata("/proc/self").expect("/proc").uid() != 0 {
            return Some(self.command());
        }
        let setpriv = found("setpriv")?;
        let as_nobody = |program: &Path| {
            let mut command = self.prepared(Command::new(&setpriv));
            command.args(["--reuid=65534", "--regid=65534", "--clear-groups"]);
            command.arg(program);
            command
        };
        let reaches = as_nobody(Path::new("cat")).arg(self.script()).output();
        let reaches = reaches.is_ok_and(|output| output.status.success());
        reaches.then(|| as_nobody(&self.script()))
    }

    fn set_writable(&self, writable: bool) {
        let mode = if writable { "u+w" } else { "a-w" };
        let mut command = Command::new("chmod");
        let status = command.args(["-R", mode]).arg(&self.root).status();
        assert!(status.expect("chmod").success());
    }
}

/// Where a program is.
fn found(program: &str) -> Option<PathBuf> {
    let path = std::env::var_os("PATH")?;
    let mut all = std::env::split_paths(&path).map(|folder| folder.join(program));
    all.find(|path| path.is_file())
}

/// All files below a folder, with their times.
fn files(folder: &Path) -> BTreeMap<PathBuf, SystemTime> {
    let mut files = BTreeMap::new();
    let mut folders = vec![folder.to_path_buf()];
    while let Some(folder) = folders.pop() {
        for entry in fs::read_dir(folder).expect("a folder") {
            let path = entry.expect("an entry").path();
            let data = fs::symlink_metadata(&path).expect("an entry");
            if data.is_dir() {
                folders.push(path);
            } else {
                files.insert(path, data.modified().expect("a time"));
            }
        }
    }
    files
}

fn wait_for(what: &str, is_so: impl Fn() -> bool) {
    let began = Instant::now();
    while !is_so() {
        assert!(began.elapsed() < Duration::from_secs(20), "{what}");
        sleep(Duration::from_millis(20));
    }
}

fn send(signal: &str, process: u32) {
    let words = format!("kill -s {signal} {process}");
    let status = Command::new("sh").args(["-c", &words]).status();
    assert!(status.expect("a shell").success());
}

/// Whether a process is gone, or is dead and only not yet taken notice of.
fn is_gone(process: u32) -> bool {
    let stat = fs::read_to_string(format!("/proc/{process}/stat")).unwrap_or_default();
    let state = stat.rsplit(") ").next().unwrap_or_default();
    state.is_empty() || state.starts_with('Z')
}

fn touch(path: &Path, time: SystemTime) {
    let file = File::options().append(true).open(path).expect("a file");
    file.set_modified(time).expect("a time");
}

#[test]
fn the_first_run_counts_crates_and_the_next_says_nothing() {
    let checkout = Checkout::new("first");
    checkout.assert_runs(FIRST_RUN);
    assert_eq!(checkout.notes(), ALL_STEPS);
    checkout.assert_nothing_is_left_but_the_mark();
    checkout.assert_runs("");
    assert_eq!(checkout.notes(), "");
}

#[test]
fn what_was_proved_before_counts_with_what_is_made_from_it() {
    // What rt says of exports_c and what that is made from, and all that is counted.
    let cases = [
        (
            "prove exports; prove exports_c",
            "3 exports, 4 exports_c, 5 exports_outline, 6 exports_find",
        ),
        (
            "prove boxes; prove boxes; prove exports",
            "2 boxes, 3 exports, 4 exports_outline, 5 exports_find",
        ),
        (
            "prove exports_c",
            "4 exports_c, 5 exports_outline, 6 exports_find",
        ),
        (
            "prove elsewhere; prove boxes",
            "2 boxes, 4 exports_outline, 5 exports_find",
        ),
        (
            "echo logic=proved; prove octets; echo logic=proved",
            "1 octets, 4 exports_outline, 5 exports_find",
        ),
        (
            "echo rt: chose --jobs 2 for exports",
            "4 exports_outline, 5 exports_find",
        ),
    ];
    for (i, (said, counted)) in cases.into_iter().enumerate() {
        let checkout = Checkout::new(&format!("counted-{i}"));
        let made = "echo whole >out/libexports_c.a; exit";
        checkout.at("at-check", &format!("{said}\n{made}\n"));
        let mut lines: Vec<&str> = FIRST_RUN.split_inclusive('\n').collect();
        let counted = counted.split(", ").map(|line| {
            let (count, name) = line.split_once(' ').expect("a count");
            format!("bustardcase: {count} of 6 proved: {name}\n")
        });
        let counted: String = counted.collect();
        lines.splice(1..7, [counted.as_str()]);
        checkout.assert_runs(&lines.concat());
    }
}

#[test]
fn the_status_is_the_tools_own() {
    let checkout = Checkout::new("status");
    checkout.assert_runs(FIRST_RUN);
    for status in [1, 2, 7, 101] {
        let mut command = checkout.command();
        command.env("TOOL_ENDS_WITH", status.to_string());
        assert_eq!(run(command, b"").status, status);
    }
}

#[test]
fn what_is_out_of_date_is_made_again() {
    let checkout = Checkout::new("stale");
    checkout.assert_runs(FIRST_RUN);
    checkout.notes();
    let later = || SystemTime::now() + Duration::from_millis(5);
    let tool_alone = "bustardcase: building the tool ...\n";

    touch(&checkout.root.join("host/cli/src/main.rs"), later());
    checkout.assert_runs(tool_alone);
    assert_eq!(checkout.notes(), "cargo build\n");

    touch(&checkout.root.join("crates/boxes/src/lib.rt"), later());
    checkout.assert_runs(FIRST_RUN);
    assert_eq!(checkout.notes(), ALL_STEPS);

    // No part of the library.
    touch(
        &checkout.root.join("crates/octets/must-fail/one.edit"),
        later(),
    );
    checkout.assert_runs("");

    fs::remove_file(checkout.library("exports_outline")).expect("a library");
    checkout.assert_runs("");
    touch(&checkout.root.join("crates.txt"), later());
    checkout.assert_runs(FIRST_RUN);
    checkout.notes();

    fs::remove_file(checkout.root.join("target/host/release/bustardcase")).expect("the tool");
    checkout.without("rt");
    checkout.assert_runs(tool_alone);
    assert_eq!(checkout.notes(), "cargo build\n");
}

#[test]
fn sources_of_a_time_to_come_are_built_once() {
    let checkout = Checkout::new("future");
    let year = Duration::from_secs(365 * 24 * 3600);
    for (name, years) in [
        ("crates/boxes/src/lib.rt", 2),
        ("crates.txt", 1),
        ("host/Cargo.lock", 3),
    ] {
        touch(&checkout.root.join(name), SystemTime::now() + year * years);
    }
    checkout.assert_runs(FIRST_RUN);
    checkout.assert_runs("");
}

#[test]
fn a_source_changed_while_it_is_proved_counts_as_changed() {
    let checkout = Checkout::new("meanwhile");
    checkout.at(
        "at-between",
        "sleep 0.05; touch ../octets/src/lib.rt; sleep 0.05\n",
    );
    checkout.assert_runs(FIRST_RUN);
    checkout.no_more_at("at-between");
    checkout.notes();
    checkout.assert_runs(FIRST_RUN);
    assert_eq!(checkout.notes(), ALL_STEPS);
    checkout.assert_runs("");
}

#[test]
fn without_a_program_that_is_needed() {
    let needed = fs::read_to_string(root().join("host/Cargo.toml")).expect("Cargo.toml");
    let (_, needed) = needed.split_once("rust-version = \"").expect("a version");
    let (needed, _) = needed.split_once('"').expect("its end");
    let rust = format!("Rust {needed} or newer is needed to build the tool");
    let cases = [
        (
            "rt",
            "the library has to be proved, by the Rattle toolchain",
        ),
        ("cargo", rust.as_str()),
        ("rustc", rust.as_str()),
        ("cc", "Rust links with it"),
        ("flock", "it belongs to util-linux"),
        ("setsid", "it belongs to util-linux"),
    ];
    for (program, why) in cases {
        let checkout = Checkout::new(&format!("without-{program}"));
        checkout.without(program);
        checkout.assert_fails_with(&format!("{program} is not found in PATH: {why}"));
        assert!(!checkout.root.join("target").exists());
    }
    let checkout = Checkout::new("old");
    for (program, version) in [
        ("cargo", "cargo 1.84.1 (66221abde 2024-11-19)"),
        ("rustc", "rustc 1.9.0 (e4e8b6668 2016-05-18)"),
        ("cargo", "cargo 0.99.0"),
        ("rustc", "something else"),
    ] {
        checkout.at(
            &format!("{program}-version"),
            &format!("echo '{version}'\n"),
        );
        checkout.assert_fails_with(&format!(
            "{rust}, and '{program} --version' says '{version}'"
        ));
        checkout.no_more_at(&format!("{program}-version"));
    }
    checkout.at(
        "cargo-version",
        "echo 'error: no toolchain is set' >&2; exit 1\n",
    );
    checkout.assert_fails_with("'cargo --version' fails: error: no toolchain is set");
    for version in [&format!("{needed}.0"), "1.100.0-nightly (x)", "2.0.0"] {
        checkout.at(
            "cargo-version",
            &format!("echo 'info: first' >&2; echo 'cargo {version}'\n"),
        );
        checkout.at("at-check", "exit 1\n");
        assert!(checkout.run(&[]).err.contains("proving the library"));
    }
}

#[test]
fn on_another_machine() {
    let checkout = Checkout::new("machine");
    checkout.program("uname", "#!/bin/sh\necho Linux aarch64\n");
    let line = "the library is made for x86-64 Linux, and this machine is Linux aarch64";
    checkout.assert_fails_with(line);
}

#[test]
fn copied_out_of_the_checkout() {
    let checkout = Checkout::new("copied");
    fs::remove_file(checkout.root.join("crates.txt")).expect("crates.txt");
    let root = checkout.root.display();
    checkout.assert_fails_with(&format!(
        "this script belongs at the top of the repository, and {root} has no crates.txt"
    ));
}

#[test]
fn what_rt_and_cargo_say_is_printed_where_they_fail() {
    let not_made = "libexports.a is not made ('rt lib' in crates/exports_c ended with status";
    let no_outline = "libexports_outline.a is not made ('rt lib' in crates/exports_outline";
    let cases = [
        ("at-between", 1, format!("{not_made} 1)")),
        ("at-check", 2, format!("{not_made} 2)")),
        ("at-between", 3, format!("{not_made} 3)")),
        ("at-lib-exports_c", 1, format!("{not_made} 1)")),
        (
            "at-lib-exports_outline",
            3,
            format!("{no_outline} ended with status 3)"),
        ),
        (
            "at-cp-exports",
            1,
            "libexports.a is not made ('cp' ended with status 1)".into(),
        ),
        (
            "at-cargo",
            101,
            "the tool is not built ('cargo build' ended with status 101)".into(),
        ),
    ];
    for (i, (step, status, line)) in cases.into_iter().enumerate() {
        let checkout = Checkout::new(&format!("fails-{i}"));
        checkout.at(
            step,
            &format!("echo 'this is why'; printf 'and this' >&2; exit {status}\n"),
        );
        let ran = checkout.run(&["show"]);
        assert_eq!((ran.status, ran.out.as_slice()), (2, &b""[..]));
        let end = format!("this is why\nand this\nbustardcase: {line}\n");
        assert!(ran.err.ends_with(&end), "{}", ran.err);
        checkout.assert_nothing_is_left();
        checkout.no_more_at(step);
        let again = checkout.run(&["show"]);
        assert_eq!(again.status, 0, "{}", again.err);
        assert_eq!(
            fs::read(checkout.library("exports")).expect("bytes"),
            b"whole\n"
        );
        assert_eq!(
            fs::read(checkout.library("exports_outline")).expect("bytes"),
            b"whole\n"
        );
        assert_eq!(
            fs::read(checkout.library("exports_find")).expect("bytes"),
            b"whole\n"
        );
    }
}

#[test]
fn where_nothing_can_be_written() {
    let checkout = Checkout::new("target-is-a-file");
    checkout.put("target", "");
    let ran = checkout.run(&["show"]);
    let begin = format!(
        "bustardcase: the tool has to be built, and {} cannot be made: ",
        checkout.root.join("target").display()
    );
    assert!(
        ran.err.starts_with(&begin) && ran.err.lines().count() == 1,
        "{}",
        ran.err
    );
    assert_eq!((ran.status, ran.out.as_slice()), (2, &b""[..]));
}

#[test]
fn in_a_checkout_of_somebody_else() {
    let checkout = Checkout::new("somebody");
    let Some(command) = checkout.command_of_a_stranger() else {
        eprintln!(
            "passed over: nobody cannot reach {}",
            checkout.root.display()
        );
        return;
    };
    checkout.set_writable(false);
    let ran = run(command, b"");
    let target = checkout.root.join("target");
    let line = format!(
        "bustardcase: the tool has to be built, and {} cannot be made: Permission denied\n",
        target.display()
    );
    assert_eq!((ran.status, ran.err), (2, line));
    checkout.set_writable(true);

    // Once it is built, it runs, and writes nothing.
    checkout.assert_runs(FIRST_RUN);
    checkout.set_writable(false);
    let before = files(&checkout.root);
    let ran = run(checkout.command_of_a_stranger().expect("as before"), b"");
    assert_eq!((ran.status, ran.err.as_str()), (0, ""));
    assert_eq!(ran.out, b"the tool: \n");
    assert_eq!(files(&checkout.root), before);

    // Built by another, and out of date.
    checkout.set_writable(true);
    touch(&checkout.root.join("crates.txt"), SystemTime::now());
    checkout.set_writable(false);
    let ran = run(checkout.command_of_a_stranger().expect("as before"), b"");
    let line = format!(
        "bustardcase: the tool has to be built, and {} cannot be written\n",
        target.display()
    );
    assert_eq!((ran.status, ran.err), (2, line));
    checkout.set_writable(true);
}

#[test]
fn variables_of_the_environment_do_not_count() {
    let checkout = Checkout::new("environment");
    let mut command = checkout.command();
    for name in [
        "CARGO_BUILD_TARGET",
        "CARGO_TARGET_DIR",
        "CARGO_BUILD_TARGET_DIR",
        "CARGO_BUILD_RUSTC",
        "CARGO_BUILD_RUSTC_WRAPPER",
        "CARGO_BUILD_RUSTFLAGS",
        "CARGO_ENCODED_RUSTFLAGS",
        "CARGO_TARGET_X86_64_UNKNOWN_LINUX_GNU_LINKER",
        "CARGO_PROFILE_RELEASE_PANIC",
        "CARGO_HOME",
        "RUSTC",
        "RUSTC_WRAPPER",
        "RUSTC_WORKSPACE_WRAPPER",
        "RUSTFLAGS",
        "RT_ALLOW_C",
        "RT_BACKEND",
        "RT_SECONDS",
        "CDPATH",
    ] {
        command.env(name, "elsewhere\nCARGO_X=y");
    }
    command.env("CARGO_BUILD_JOBS", "1");
    checkout.at(
        "at-check",
        "echo \"${RT_ALLOW_C-none} ${RT_BACKEND-none} ${RT_SECONDS-none}\" >\"$FAKE/rt\"\n",
    );
    let ran = run(command, b"");
    assert_eq!((ran.status, ran.err.as_str()), (0, FIRST_RUN));
    let home = checkout.root.join("target/cargo");
    let environment = fs::read_to_string(checkout.fake.join("environment")).expect("notes");
    let mut lines: Vec<&str> = environment.lines().collect();
    lines.retain(|line| !line.starts_with("RUST_") && !line.starts_with("RUSTUP_"));
    lines.sort();
    let home = format!("CARGO_HOME={}", home.display());
    assert_eq!(lines, ["CARGO_BUILD_JOBS=1", &home, "PWD=/"]);
    let of_rt = fs::read_to_string(checkout.fake.join("rt")).expect("notes");
    assert_eq!(of_rt, "none none none\n");

    touch(&checkout.root.join("crates.txt"), SystemTime::now());
    let mut command = checkout.command();
    command.env("CARGO_BUILD_JOBS", "many");
    assert_eq!(run(command, b"").status, 0);
    let environment = fs::read_to_string(checkout.fake.join("environment")).expect("notes");
    assert!(!environment.contains("JOBS"));
}

#[test]
fn from_anywhere_and_by_any_name() {
    let checkout = Checkout::new("anywhere");
    checkout.assert_runs(FIRST_RUN);
    let name = checkout.root.file_name().expect("a name");
    let decoy = checkout.folder.0.join("decoy").join(name);
    fs::create_dir_all(decoy).expect("a folder of the same name");
    let relative = Path::new(name).join("bustardcase");
    symlink(&relative, checkout.folder.0.join("-link")).expect("a link");
    let shell = |words: &str| {
        let mut command = checkout.prepared(Command::new("sh"));
        command.args(["-c", words, "sh"]).arg(&relative);
        command.arg(checkout.script()).env("CDPATH", "decoy:.");
        run(command, b"")
    };
    for words in [
        "\"$1\" show",
        "sh \"$1\" show",
        "CDPATH= cd \"${1%/*}\" && sh bustardcase show",
        "CDPATH= cd \"${1%/*}\" && PATH=.:$PATH && bustardcase show",
        "./-link show",
        "PATH=.:$PATH; -link show",
    ] {
        assert_eq!(shell(words).text(0), "the tool: show\n", "{words}");
    }
    let gone = shell("mkdir gone && CDPATH= cd gone && rm -r ../gone && \"$2\" show");
    assert_eq!((gone.status, gone.out), (0, b"the tool: show\n".to_vec()));
}

#[test]
fn an_interrupt_ends_everything_and_leaves_nothing() {
    let cases = [
        ("at-check", "TERM", 143),
        ("at-between", "INT", 130),
        ("at-lib-exports_c", "HUP", 129),
        ("at-lib-exports_outline", "INT", 130),
        ("at-cp-exports_outline", "HUP", 129),
        ("at-cargo", "TERM", 143),
        ("at-check", "QUIT", 131),
    ];
    for (i, (step, signal, status)) in cases.into_iter().enumerate() {
        let checkout = Checkout::new(&format!("interrupt-{i}"));
        checkout.at(step, LINGER);
        let started = checkout.start("first");
        let process = checkout.reached();
        assert!(!is_gone(process));
        send(signal, started.child.id());
        let (ended, said) = started.ends();
        assert_eq!(ended.code(), Some(status), "{step}");
        let line = "bustardcase: interrupted; what is proved stays proved\n";
        assert!(said.ends_with(line), "{said}");
        assert!(is_gone(process), "{step}: rt or cargo goes on");
        assert!(!checkout.fake.join("left").exists());
        checkout.assert_nothing_is_left();
        checkout.no_more_at(step);
        assert_eq!(checkout.run(&[]).status, 0);
        for name in ["exports", "exports_outline", "exports_find"] {
            assert_eq!(fs::read(checkout.library(name)).expect("bytes"), b"whole\n");
        }
    }
}

#[test]
fn a_tool_that_is_half_built_is_not_used() {
    let checkout = Checkout::new("half");
    checkout.assert_runs(FIRST_RUN);
    fs::remove_file(checkout.root.join("target/host/release/bustardcase")).expect("the tool");
    checkout.at("at-cargo", LINGER);
    let started = checkout.start("first");
    checkout.reached();
    send("TERM", started.child.id());
    assert_eq!(started.ends().0.code(), Some(143));
    checkout.no_more_at("at-cargo");
    checkout.assert_runs("bustardcase: building the tool ...\n");
}

#[test]
fn one_that_was_killed_leaves_nothing_that_is_used() {
    let checkout = Checkout::new("killed");
    checkout.at("at-cp-exports_find", &format!("{LINGER}exit 1\n"));
    let mut first = checkout.start("first");
    let process = checkout.reached();
    first.child.kill().expect("it is killed");
    assert_eq!(first.ends().0.signal(), Some(9));
    // cp still runs, and has the lock.
    assert!(!is_gone(process));
    let second = checkout.start("second");
    second.waits();
    assert_eq!(
        checkout.notes(),
        "rt lib in exports_c\nrt lib in exports_outline\nrt lib in exports_find\n"
    );
    checkout.no_more_at("at-cp-exports_find");
    checkout.go_on();
    let (ended, said) = second.ends();
    assert_eq!(
        (ended.code(), said),
        (Some(0), format!("{WAITING}{FIRST_RUN}"))
    );
    assert_eq!(
        fs::read(checkout.library("exports")).expect("bytes"),
        b"whole\n"
    );
    checkout.assert_nothing_is_left_but_the_mark();
}

#[test]
fn two_at_once_build_once() {
    let checkout = Checkout::new("two");
    checkout.at("at-between", LINGER);
    let first = checkout.start("first");
    checkout.reached();
    let second = checkout.start("second");
    // One that is interrupted while it waits takes nothing from the first.
    let third = checkout.start("third");
    second.waits();
    third.waits();
    send("TERM", third.child.id());
    assert_eq!(third.ends().0.code(), Some(143));
    assert!(checkout.root.join("target/building").exists());
    checkout.go_on();
    let (ended, said) = first.ends();
    assert_eq!((ended.code(), said.as_str()), (Some(0), FIRST_RUN));
    let (ended, said) = second.ends();
    assert_eq!((ended.code(), said.as_str()), (Some(0), WAITING));
    assert_eq!(checkout.notes(), ALL_STEPS);
}

#[test]
fn it_goes_on_where_nobody_reads_what_it_says() {
    let checkout = Checkout::new("unread");
    let mut command = checkout.prepared(Command::new("sh"));
    let words = "{ \"$1\" show 2>&1 >/dev/null; echo $? >status; } | head -n 1";
    command.args(["-c", words, "sh"]).arg(checkout.script());
    let first = FIRST_RUN.lines().next().expect("a line");
    checkout.at("at-check", "sleep 0.2\n");
    assert_eq!(run(command, b"").text(0), format!("{first}\n"));
    assert_eq!(checkout.folder.get("status"), b"0\n");
    assert_eq!(checkout.notes(), ALL_STEPS);
}
