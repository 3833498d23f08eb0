//! The script `finder`, which builds what is missing: a copy of it in a folder of its own, with tools that only act as if.

use crate::process::{Folder, Ran};
use std::fs;
use std::process::Command;

/// `bin` has the tools that build, of which `rt` reads its standard input, and `basic` those that every machine has. The program shows where it is run, and its arguments.
const SETUP: &str = r#"
mkdir -p bin basic logs other crates/finder crates/patterns host/build host/src/program
cp "$0/finder" "$0/crates.txt" .
cp -r "$0/host/src/program/help" "$0/host/src/program/help.txt" host/src/program
cp "$0/host/Cargo.toml" host
touch host/build.rs host/Cargo.lock
for tool in bash cat chmod dirname find grep mkdir mktemp readlink rm sed tail touch; do ln -s "$(command -v "$tool")" basic; done
tool() { { echo '#!/usr/bin/env bash'; cat; } > "bin/$1"; chmod +x "bin/$1"; }
tool cc < /dev/null
tool rt << 'END'
make() { mkdir -p "${1%/*}"; echo > "$1"; }
library() {
    while IFS=: read -r crate _; do
        crate=${crate% staticlib}
        echo "library $crate: modules loaded=1 checked=0"
        echo "crate $crate: modules loaded=1 checked=0"
        echo "logic=proved functions=2" >&2
        [[ $crate != finder ]] || break
    done < ../../crates.txt
    make out/libfinder.a
}
case "$* in ${PWD##*/}" in
    "version in "*) echo "a kit" ;;
    "lib --cpu x86-64 in finder") cat; library ;;
    "run in patterns") cat; make out/patterns ;;
    *) exit 1 ;;
esac
END
tool cargo << 'END'
[[ $* == "build --release --offline --quiet --manifest-path "*" --bin finder" ]] || exit 1
cd "$(dirname "$6")" && mkdir -p target/release
printf '#!/usr/bin/env bash\nprintf "<%%s>" "${PWD##*/}" "$@"\n' > target/release/finder
chmod +x target/release/finder
END
"#;

const PROVING: &str = "finder: proving the library, which takes some minutes the first time";
const LINKING: [&str; 2] = ["finder: linking the program", "finder: built"];
const PROVING_PATTERNS: [&str; 2] = ["finder: proving the program patterns", "finder: built"];
const CLOSED: &str = "finder: standard output is closed\n";

fn copy() -> Folder {
    let folder = Folder::new();
    folder.change(SETUP);
    folder
}

/// Runs a line of bash in the folder with its tools alone, as if two minutes and five seconds had gone.
fn run(folder: &Folder, line: &str) -> Ran {
    let path = ["bin", "basic"].map(|name| folder.path(name).display().to_string());
    let mut bash = Command::new("bash");
    bash.args(["-c", line]).current_dir(folder.path(""));
    bash.env("PATH", path.join(":")).env("SECONDS", "125");
    bash.env("TMPDIR", folder.path("logs"));
    let ran = Ran::of(bash.output().expect("bash is there"));
    let mut logs = fs::read_dir(folder.path("logs")).expect("it is there");
    assert!(logs.next().is_none(), "a log is left");
    ran
}

/// Its messages without the times that they end with.
fn untimed(ran: &Ran) -> Vec<&str> {
    let untimed = |line| match str::split_once(line, " (2:") {
        Some((said, time)) if time.len() == 3 && time >= "05)" => said,
        _ => line,
    };
    ran.err.lines().map(untimed).collect()
}

/// Each crate that is proved, its number, of how many, and the time; nothing when all is built; and what is older than its sources is built again.
#[test]
fn says_how_far_it_is() {
    let folder = copy();
    let crates = fs::read_to_string(folder.path("crates.txt")).expect("it is there");
    let (before, _) = crates.split_once("\nfinder staticlib:").expect("it is one of them");
    let names = before.lines().filter_map(|line| line.split(':').next());
    let names: Vec<&str> = names.chain(["finder"]).collect();
    let mut expected = PROVING.to_string();
    for (name, number) in names.iter().zip(1..) {
        expected += &format!("\nfinder: {number} of {} proved: {name}", names.len());
    }
    expected += &format!("\n{}", LINKING.join("\n"));
    assert_eq!(untimed(&run(&folder, "./finder list")).join("\n"), expected);
    let again = "cd other; ../finder list 'a  b' ''";
    assert_eq!(run(&folder, again).text(), "<other><list><a  b><>");
    folder.change("touch -d '1 hour' host/src/new");
    assert_eq!(untimed(&run(&folder, "./finder list")), LINKING);
    folder.change("touch -d '1 hour ago' host/src/new; touch -d '1 hour' crates/finder/new");
    assert_eq!(untimed(&run(&folder, "./finder list"))[0], PROVING);
}

/// The program `patterns` is made for its subcommand alone, by `rt` alone, where it is missing or older than its sources; what is on standard
/// input is left.
#[test]
fn proves_patterns_when_asked_for() {
    const ASK: &str = "cd other; { ../finder patterns 2; cat; } <<< left";
    let folder = copy();
    run(&folder, "./finder list");
    assert!(!folder.path("crates/patterns/out").exists());
    folder.change("mv bin/cargo bin/cc other");
    let ask = |said: &[&str]| {
        let ran = run(&folder, ASK);
        assert_eq!(untimed(&ran), said);
        assert_eq!(
            (ran.status, &*ran.out),
            (0, &b"<other><patterns><2>left\n"[..])
        );
    };
    ask(&PROVING_PATTERNS);
    ask(&[]);
    folder.change("rm crates/patterns/out/patterns");
    ask(&PROVING_PATTERNS);
    folder.change("touch -d '1 hour ago' crates/patterns/out/patterns");
    ask(&PROVING_PATTERNS);
    ask(&[]);
    folder.change("mv other/* bin; rm -r crates/*/out");
    let ran = run(&folder, ASK);
    let said = untimed(&ran);
    let end = [LINKING[0], PROVING_PATTERNS[0], PROVING_PATTERNS[1]];
    assert!(said[0] == PROVING && said.ends_with(&end), "{}", ran.err);
}

/// No tool is there, so nothing can be built.
#[test]
fn answers_before_it_builds() {
    let folder = copy();
    folder.change("rm bin/*");
    let pages = ["help", "help/list", "help/patterns"];
    let pages = pages.map(|name| folder.path(&format!("host/src/program/{name}.txt")));
    let [overview, list, patterns] =
        pages.map(|page| fs::read_to_string(page).expect("it is there"));
    for (line, page) in [
        ("./finder help", &overview),
        ("./finder -h", &overview),
        ("./finder help --help", &overview),
        ("./finder help list", &list),
        ("./finder list a --help", &list),
        ("./finder help patterns", &patterns),
        ("./finder patterns 7 --help", &patterns),
    ] {
        assert_eq!(run(&folder, line).text(), *page);
    }
    run(&folder, "./finder").fails(2, &overview);
    for (line, shown) in [
        ("./finder help lst", "lst"),
        ("./finder finder", "finder"),
        ("./finder ./list", "./list"),
        ("./finder $'a\nb'", "a?b"),
    ] {
        let message = format!(
            "finder: there is no subcommand `{shown}`; `finder help` names those there are\n"
        );
        run(&folder, line).fails(2, &message);
    }
    run(&folder, "./finder help list run").fails(2, "finder: help takes one subcommand\n");
    run(&folder, "./finder list >&-").fails(1, CLOSED);
}

#[test]
fn says_its_version_before_it_builds() {
    let folder = copy();
    let version = concat!(
        "finder ",
        env!("CARGO_PKG_VERSION"),
        " (Rennaglyph)\nkit: a kit\n"
    );
    for option in ["--version", "-V"] {
        assert_eq!(run(&folder, &format!("./finder {option}")).text(), version);
    }
    run(&folder, "./finder --version list").fails(2, "finder: --version stands alone\n");
}

#[test]
fn names_a_tool_that_is_missing() {
    let folder = copy();
    for tool in ["cargo", "cc", "rt"] {
        folder.change(&format!("mv bin/{tool} other"));
        let message = format!("finder: {tool} is not on the PATH; README.md says what is needed\n");
        run(&folder, "./finder list -- --help").fails(1, &message);
        folder.change(&format!("mv other/{tool} bin"));
    }
}

/// The end of what a tool has said, and what could not be done.
#[test]
fn shows_why_a_tool_fails() {
    for (first, tool, before, failed) in [
        (
            "true",
            "rt",
            PROVING,
            "finder: the library could not be built",
        ),
        (
            "true",
            "cargo",
            LINKING[0],
            "finder: the program could not be linked",
        ),
        (
            "./finder list",
            "rt",
            PROVING_PATTERNS[0],
            "finder: the program patterns could not be built",
        ),
    ] {
        let folder = copy();
        run(&folder, first);
        let says = "for line in {1..30}; do echo $line >&2; done; exit 5";
        let lines = format!("'#!/usr/bin/env bash' '{says}'");
        folder.change(&format!("printf '%s\\n' {lines} > bin/{tool}"));
        let ran = run(&folder, "./finder patterns");
        let log: Vec<String> = (11..=30).map(|number| number.to_string()).collect();
        let end = format!("{before}\n{}\n{failed}", log.join("\n"));
        assert!(untimed(&ran).join("\n").ends_with(&end), "{}", ran.err);
        assert_eq!((ran.status, &*ran.out), (1, &b""[..]));
    }
}

#[test]
fn called_through_links() {
    let folder = copy();
    folder.change("ln -s ../finder other/link; ln -s other/link link");
    let ran = run(&folder, "cd other; PATH=$PATH:.; link run");
    assert_eq!((ran.status, &*ran.out), (0, &b"<other><run>"[..]));
    assert!(run(&folder, "./link list").text().ends_with("><list>"));
    run(&folder, "./link list >&-").fails(1, CLOSED);
}
