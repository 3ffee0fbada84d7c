"""The package for Rust, used as its users use it; checks/packages/languages.py runs this.

The declarations of the layers have to be those of calendar_layers.h, each used by the crate and with a test of its name. The package is
made with the C files inside, packed, and unpacked again. A project outside, which names it by its path, runs its tests over the proved
libraries, and once over the C files. Where Debian's crates lie, those of its features are run too, its module `chrono` is compared with
chrono on generated values, and chrono's doc examples are run on it (checks/packages/chrono_docs.py). The examples of the crate are run. A build with
few features has to give no warning, and one with no library has to say what to do. Each of the wrong lines planted in the wrapper has to fail
its tests.
"""
import glob
import os
import re
import shutil
import subprocess
import tarfile

from checks import TOP
from checks.packages import cells, chrono_docs, layers_c
from checks.shared.results import compare_bytes, read, run, serves, write
from checks.shared.wrong_lines import planted, tried
from debian import PYTHON, REGISTRY, cargo_environment
from packages import CALENDAR, LAYERS, rust

FOLDER = f"{TOP}/languages/rust"

# The crates of the features, as the project of the tests lists them.
FEATURES = {
    "serde": '{ version = "1" }',
    "chrono": '{ version = "0.4.23", default-features = false, features = ["std"] }',
    "time": '{ version = "0.3", default-features = false }',
}
# The tests of the package alone, and those of its features.
TESTS, FEATURE_TESTS = ("calls", "layers", "values", "chrono_names"), ("features", "beside_chrono")
# The structs of the headers by their names in Rust, and what of the layers the crate does not use, as it is built with them.
STRUCTS = {
    "calendar_date_time": "Moment", "calendar_fault": "Fault", "calendar_schedule": "Sets", "calendar_fraction": "Quotient",
    "calendar_offsets": "Offsets", "calendar_zoned": "Zoned",
}
NOT_USED = ("calendar_layers_version",)
COUNTS = (r"test result: .*? (\d+) passed", r"test result: .*? (\d+) failed")
# The tests of the project and those inside the package.
TESTING = ["cargo", "test", "--offline", "--tests", "-p", "user", "-p", "proved-calendar"]

PROJECT = """\
[package]
name = "user"
version = "0.0.0"
edition = "2021"

[profile.dev]
debug = false

[dependencies]
proved-calendar = {{ path = "{package}", features = [{features}] }}
{others}"""


def as_declared(kind):
    """A type of the header in the words of Rust: the structs have names of their own there."""
    for name, ours in STRUCTS.items():
        kind = kind.replace(name, ours)
    return kind


def compare_layers(results):
    """The declarations of the layers, how they are used, and their tests."""
    declared = {}
    for name, listed, result in re.findall(r"fn (\w+)\(([^)]*)\)(?: -> (\w+))?;", read(f"{FOLDER}/src/layer_calls.rs")):
        kinds = [it.split(":")[1].strip() for it in listed.split(",") if it.strip()]
        kinds = [re.sub(r"^&(mut )?", lambda it: f"*{it[1] or 'const '}", it) for it in kinds]
        declared[name] = result or "void", kinds
    header = layers_c.functions_of_header(re.sub(r"/\*.*?\*/", "", read(layers_c.HEADER), flags=re.S))
    wanted = {name: (as_declared(result), [as_declared(it) for it in kinds]) for name, (result, kinds) in header.items() if name not in NOT_USED}
    layers_c.compare(results, "functions of Rust", wanted, declared)
    sources = "\n".join(read(it) for it in glob.glob(f"{FOLDER}/src/*.rs"))
    for name in wanted:
        short = name.removeprefix("calendar_")
        results.count(re.search(rf"(?<!fn ){name}\(", sources), f"the Rust crate does not call {name}")
        results.count(f"#[test]\nfn {short}()" in read(f"{FOLDER}/tests/layers.rs"), f"tests/layers.rs has no test {short}")


def put_libraries(room, library, layers):
    """Puts both libraries into a folder, by the names that they have in packages; the folder."""
    os.makedirs(f"{room}/built")
    for path, name in ((library, CALENDAR), (layers, LAYERS)):
        shutil.copy(path, f"{room}/built/lib{name}.a")
    return f"{room}/built"


def unpacked(results, room, built):
    """The package, made, packed and unpacked again. Made twice, it has the same bytes."""
    packed, again = (rust.make(TOP, built, f"{room}/{it}")[1] for it in ("dist", "dist_again"))
    compare_bytes(results, [packed], [again])
    with tarfile.open(packed) as it:
        it.extractall(f"{room}/unpacked")
    return glob.glob(f"{room}/unpacked/*")[0]


def make_project(project, package, tests, features=()):
    """A project that uses the package, with std if it has tests, and has its tests; the project."""
    named = ", ".join(f'"{it}"' for it in (*features, *(["std"] if tests else [])))
    others = "".join(f"{it} = {FEATURES[it]}\n" for it in features if it in FEATURES)
    write(f"{project}/Cargo.toml", PROJECT.format(package=package, features=named, others=others))
    write(f"{project}/src/lib.rs", "")
    for it in tests:
        os.makedirs(f"{project}/tests", exist_ok=True)
        shutil.copy(f"{FOLDER}/tests/{it}.rs", f"{project}/tests/{it}.rs")
    return project


def test_examples(results, room, package):
    """The example of each item, over the package as it was just built."""
    built = f"{room}/target/debug/deps"
    library = max(glob.glob(f"{built}/libproved_calendar-*.rlib"), key=os.path.getmtime)
    words = ["rustdoc", "--test", "--edition", "2021", "--crate-name", "proved_calendar", f"{package}/src/lib.rs"]
    words += [it for name in ("alloc", "std") for it in ("--cfg", f'feature="{name}"')]
    words += ["-L", f"dependency={built}", "--extern", f"proved_calendar={library}"]
    run(results, "the examples in Rust", words, COUNTS, cwd=package)


def test_peers(results, room, package):
    """The layers beside croniter, dateutil and numpy, on 20,000 drawn cases each."""
    answers = f"{room}/answers.txt"
    with open(answers, "w", encoding="utf-8") as it:
        ran = subprocess.run([PYTHON, "-m", "checks.packages.peer_answers"], stdout=it, stderr=subprocess.PIPE, text=True)
    if ran.returncode:
        print(f"not run: Rust's layers beside other programs: {ran.stderr.strip()[-200:] or 'there is no croniter, dateutil or numpy'}")
        return
    project = make_project(f"{room}/peers", package, ("peers",))
    words = ["cargo", "test", "--offline", "--quiet", "--test", "peers"]
    run(results, "Rust's layers beside other programs", words, COUNTS, cwd=project, env={**cargo_environment(room, f"{room}/built"), "PEER_ANSWERS": answers})


def test_bare(results, room, package):
    """The package builds without a warning of its own: with no feature, so without std, with lists and texts, and with std."""
    for features in ((), ("alloc",), ("std",)):
        project = make_project(f"{room}/bare", package, [], features)
        ran = subprocess.run(["cargo", "check", "--offline"], cwd=project, env=cargo_environment(room, f"{room}/built"), capture_output=True, text=True)
        results.count(ran.returncode == 0 and "warning: " not in ran.stderr, f"a build with the features {features} says:\n{ran.stderr[-2000:]}")


def test_cells(results, room, package):
    """The example of each layer."""
    project = make_project(f"{room}/cells", package, ("cells",))
    os.rename(f"{project}/tests/cells.rs", f"{project}/src/main.rs")
    cells.run(results, "Rust", ["cargo", "run", "--offline", "--quiet"], cwd=project, env=cargo_environment(room, f"{room}/built"))


def test_missing(results, room, package):
    """A build with neither the C files nor a library says what to run, and so does one whose folder has no library."""
    os.rename(f"{package}/amalgamation", f"{package}/away")
    try:
        project = make_project(f"{room}/missing", package, [])
        for env, told in ((cargo_environment(room), "`tools/dist amalgamation` makes them"), (cargo_environment(room, room), "There is no libcalendar.a")):
            ran = subprocess.run(["cargo", "check", "--offline"], cwd=project, env=env, capture_output=True, text=True)
            results.count(ran.returncode != 0 and told in ran.stderr, f"a build with no library says:\n{ran.stderr[-2000:]}")
    finally:
        os.rename(f"{package}/away", f"{package}/amalgamation")


def test_c_files(results, room, package):
    """The tests over the C files, as a machine without the kit builds them."""
    project = make_project(f"{room}/of_c", package, TESTS)
    run(results, "cargo test over the C files", TESTING, COUNTS, cwd=project, env=cargo_environment(f"{room}/of_c"))


# So many seconds may the tests take with a wrong line. Some make a search go on and on.
LONGEST = "240"


def try_wrong_line(room, built, edit):
    """Whether a wrong line in the wrapper is found by the tests, and what they print."""
    package = f"{room}/package"
    rust.make_package(TOP, planted("rust", f"{room}/planted", edit), package)
    words = ["timeout", LONGEST, *TESTING, "--quiet", "--no-fail-fast"]
    project = make_project(f"{room}/project", package, TESTS)
    ran = subprocess.run(words, cwd=project, env=cargo_environment(room, built), stdout=subprocess.PIPE, stderr=subprocess.STDOUT, text=True)
    # (timeout ends with the status 124)
    return "test result: FAILED" in ran.stdout or ran.returncode == 124, ran.stdout[-1500:]


def try_wrong_lines(results, room, built):
    """Each wrong line in the wrapper fails its tests, which are built, or keeps them from ending."""
    found = 0
    for number, (edit, (is_found, said)) in enumerate(tried("rust", room, lambda place, it: try_wrong_line(place, built, it)), 1):
        results.count(is_found, f"wrong line {number} of languages/rust is not found: {edit}\n{said}")
        found += is_found
    print(f"wrong lines in Rust: {found} found", flush=True)
    results.count(found >= 10, "languages/rust has fewer than ten wrong lines that its tests find")


def missing_tool():
    """What is missing to build the package, or None."""
    least = re.search(r'^rust-version = "(.*)"$', read(f"{FOLDER}/Cargo.toml"), re.M)[1]
    if not shutil.which("cargo") or not serves("rustc", least):
        return f"no cargo with rustc {least} or later"
    return None if glob.glob(f"{REGISTRY}/cc-[0-9]*") else f"no {REGISTRY}/cc"


def test(results, room, library, layers):
    """All of it."""
    compare_layers(results)
    if missing_tool():
        print(f"not run: the tests in Rust, since there is {missing_tool()}")
        return
    room = f"{room}/rust"
    os.makedirs(room)
    built = put_libraries(room, library, layers)
    package = unpacked(results, room, built)
    if not glob.glob(f"{REGISTRY}/cc-[0-9]*"):
        print(f"not run: the tests in Rust, since there is no {REGISTRY}/cc")
        return
    missing = [it for it in FEATURES if not glob.glob(f"{REGISTRY}/{it}-[0-9]*")]
    if missing:
        print(f"not run: the features of the Rust crate, since there is no {REGISTRY}/{missing[0]}")
    tests, features = (TESTS, ()) if missing else (TESTS + FEATURE_TESTS, FEATURES)
    project = make_project(f"{room}/project", package, tests, features)
    run(results, "cargo test", TESTING, COUNTS, cwd=project, env=cargo_environment(room, built))
    test_examples(results, room, package)
    chrono_docs.test(results, room, package, cargo_environment(room, built))
    test_peers(results, room, package)
    test_bare(results, room, package)
    test_cells(results, room, package)
    test_missing(results, room, package)
    test_c_files(results, room, package)
    try_wrong_lines(results, room, built)
