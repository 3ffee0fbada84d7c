"""The package for Python as its users install it: the wheel into fresh environments with no network, its tests and the example
there, the same wheel under other versions of Python and beside numpy, pandas and Dask, CPython's own tests of datetime over it, the
package of sources built, its types by mypy, and wrong lines planted in its C and its Python."""
import glob
import os
import re
import shutil
import subprocess
import sys

import packages
from checks import TOP
from checks.packages import cells
from checks.shared.results import LANGUAGES, compare_bytes, read, run, succeeds
from checks.shared.wrong_lines import planted, tried
from packages import python

PACKAGE = f"{LANGUAGES}/python"
TESTS = f"{PACKAGE}/tests"
COUNTS = (r"\.\.\. ok()$", r"\.\.\. (?:FAIL|ERROR)()$")
# Debian's Python, which may have numpy and pandas, and the tests that need no other package.
DEBIAN = "/usr/bin/python3"
ALONE = ("test_calls.py", "test_habits.py", "test_like_datetime.py", "test_layers.py", "test_zoned.py", "test_calendars.py")
# The test that finds wrong lines soonest, by what stands in the path of a file.
NEAREST = {"pattern": "test_layers.py", "schedule": "test_layers.py", "business": "test_layers.py", "rule": "test_layers.py", "zone": "test_zoned.py", "calendars": "test_calendars.py"}
# The tests and the pages that need other packages, which Debian's Python may have, and those packages.
BESIDE = {"test_columns.py": ("numpy",), "test_pandas.py": ("numpy", "pandas"), "test_dask.py": ("numpy", "pandas", "dask.dataframe")}
PAGES = {"columns.md": ("numpy",), "pandas.md": ("numpy", "pandas"), "dask.md": ("numpy", "pandas", "dask.dataframe")}
# The tests of each file that needs other packages.
TESTS_OF = {"columns.c": "test_columns.py", "_arrays.py": "test_columns.py", "columns.py": "test_columns.py", "pandas.py": "test_pandas.py",
            "dask.py": "test_dask.py"}
# The versions from 3.10 on, which one wheel serves.
VERSIONS = [f"python3.{it}" for it in range(10, 16)]
WARNINGS = ["-std=c99", "-O1", "-fPIC", "-Wall", "-Wextra", "-Wpedantic", "-Werror"]
QUIET = dict(os.environ, PYTHONDONTWRITEBYTECODE="1", PIP_DISABLE_PIP_VERSION_CHECK="1", PIP_NO_INDEX="1")


def install(results, room, name, program, wheel, *options):
    """A fresh environment of a Python with the wheel; its program, or None."""
    folder = f"{room}/{name}"
    if succeeds(results, [program, "-m", "venv", *options, folder], env=QUIET) is None:
        return None
    if succeeds(results, [f"{folder}/bin/pip", "install", "--quiet", wheel], env=QUIET) is None:
        return None
    return f"{folder}/bin/python"


def test_examples(results, room, program, with_numpy, page="README.md"):
    """The examples of a page, of which those with numpy stand behind the others."""
    blocks = re.findall(r"^```python\n(.*?)^```$", read(f"{PACKAGE}/{page}"), re.M | re.S)
    text = "\n".join(it for it in blocks if with_numpy or "numpy" not in it)
    with open(f"{room}/example.txt", "w", encoding="utf-8") as it:
        it.write(text)
    counts = (r"^(\d+) passed and", r"(\d+) failed\.")
    run(results, f"the examples of {page}", [program, "-m", "doctest", "-v", f"{room}/example.txt"], counts, env=QUIET)


def test_cells(results, room, program, leave_out=()):
    """The example of each layer, but for some layers, which stand last."""
    text = read(cells.FILES["Python"][0])
    for layer in leave_out:
        text = text.partition(f"# == {layer}\n")[0]
    with open(f"{room}/cells.py", "w", encoding="utf-8") as it:
        it.write(text)
    cells.run(results, "Python", [program, f"{room}/cells.py"], leave_out, env=QUIET)


def test_installed(results, room, program):
    """The tests that need no other package, and the examples of README that need none."""
    for name in (*ALONE, "test_days.py"):
        run(results, name, [program, f"{TESTS}/{name}", "-v"], COUNTS, env=QUIET)
    test_examples(results, room, program, False)
    test_cells(results, room, program, ("columns",))


def test_versions(results, room, wheel):
    """The calls under each other version of Python that is found; those that are not found are told."""
    own = f"python{sys.version_info.major}.{sys.version_info.minor}"
    for name in VERSIONS:
        asked = [name, "-c", "import venv, ensurepip"]
        is_there = shutil.which(name) and subprocess.run(asked, capture_output=True).returncode == 0
        if name != own and not is_there:
            print(f"not run: test_calls.py by {name}, since there is no {name} with venv")
        elif name != own:
            program = install(results, room, name, name, wheel)
            if program:
                run(results, f"test_calls.py by {name}", [program, f"{TESTS}/test_calls.py", "-v"], COUNTS, env=QUIET)


def debian_has(*modules):
    """Whether Debian's Python has modules."""
    asked = [DEBIAN, "-c", f"import {', '.join(('sys', *modules))}"]
    return os.path.exists(DEBIAN) and subprocess.run(asked, capture_output=True).returncode == 0


def test_beside_others(results, room, wheel):
    """Columns, the accessors and the habits beside numpy, pandas and Dask, which Debian's Python may have and a fresh environment has not."""
    if not debian_has("ensurepip", "numpy", "pandas"):
        print("not run: the tests in Python beside numpy and pandas, and its example of columns, since Debian's Python has not these packages")
        return
    program = install(results, room, "with_numpy", DEBIAN, wheel, "--system-site-packages")
    for name in (*BESIDE, *ALONE[1:]) if program else ():
        if debian_has(*BESIDE.get(name, ())):
            run(results, f"{name} beside numpy and pandas", [program, f"{TESTS}/{name}", "-v"], COUNTS, env=QUIET)
        else:
            print(f"not run: {name}, since Debian's Python has not {' and '.join(BESIDE[name])}")
    for page, modules in PAGES.items() if program else ():
        if debian_has(*modules):
            test_examples(results, room, program, True, page)
        else:
            print(f"not run: the examples of {page}, since Debian's Python has not {' and '.join(modules)}")
    if program:
        test_examples(results, room, program, True)
        test_stubs(results, room, program)
    if program and debian_has(*BESIDE["test_dask.py"]):
        test_cells(results, room, program)
    elif program:
        print("not run: Python's example of columns, since Debian's Python has not Dask")
    if program and debian_has("croniter", "dateutil"):
        test_peers(results, program)


def test_peers(results, program):
    """Schedules, open days and rules beside croniter, numpy and dateutil."""
    counts = (r"^all: (\d+) passed", r"^all: .* (\d+) failed")
    run(results, "schedules, open days and rules in Python", [program, "-m", "checks.packages.python_layers"], counts, env=QUIET)


def test_stubs(results, room, program):
    """The stubs of the extension tell what is there, with the signatures that are there; the other modules are their own."""
    stubtest = shutil.which("stubtest")
    if not stubtest:
        print("not run: the stubs of the Python package beside the package, since there is no stubtest")
        return
    asked = "import os, proved_calendar; print(os.path.dirname(proved_calendar.__file__))"
    installed = subprocess.run([program, "-c", asked], check=True, capture_output=True, text=True).stdout.strip()
    shutil.copytree(installed, f"{room}/stubs/proved_calendar")
    path = f"{room}/stubs"
    succeeds(results, [DEBIAN, stubtest, "proved_calendar._calendar"], env=dict(QUIET, PYTHONPATH=path, MYPYPATH=path), cwd=path)


def test_by_datetime(results, room, wheel):
    """CPython 3.11's own tests of datetime."""
    if not debian_has("ensurepip", "test.datetimetester") or "3.11" not in subprocess.run([DEBIAN, "--version"], capture_output=True, text=True).stdout:
        print("not run: CPython 3.11's tests of datetime, since there is no libpython3.11-testsuite")
        return
    program = install(results, room, "with_tests", DEBIAN, wheel)
    if program:
        counts = (r"^(\d+) passed,", r", (\d+) failed$")
        run(results, "CPython's tests of datetime", [program, "-m", "checks.packages.datetimetester"], counts, env=QUIET)


def test_columns_called(results):
    """Each function for columns is called, but for those that change a column in place."""
    text = "".join(read(f"{PACKAGE}/proved_calendar/{it}") for it in ("columns.py", "_arrays.py"))
    headers = "".join(read(f"{LANGUAGES}/c/{it}.h") for it in ("calendar", "calendar_layers"))
    for name in re.findall(r"^\w+ calendar_column_(\w+)\(", headers, re.M):
        if not name.endswith("in_place"):
            # (a call by a calendar of known years has the name of that without, and this ending)
            said = name.removesuffix("_within") if 'f"{name}_within"' in text else name
            results.count(re.search(rf"\"{said}\"|calendar_column_{said}\b", text), f"columns.py calls no calendar_column_{name}")


def test_sources(results, room, sources):
    """The package of sources becomes a wheel again."""
    words = [python.python(), "-m", "pip", "wheel", "--quiet", "--no-deps", "--no-build-isolation", "--wheel-dir", room, sources]
    succeeds(results, words, env=QUIET)
    results.count(glob.glob(f"{room}/proved_calendar-*-cp310-abi3-*.whl"), "the package of sources makes no wheel")


def test_types(results, program):
    """The stubs are whole, and serve a program."""
    mypy = shutil.which("mypy")
    if not mypy:
        print("not run: the types of the Python package, since there is no mypy")
        return
    for path in (f"{PACKAGE}/proved_calendar", f"{TESTS}/typed.py"):
        words = [mypy, "--strict", "--cache-dir", os.devnull, "--python-executable", program, path]
        succeeds(results, words, env=QUIET)


def headers():
    """The folder of Python's headers for C."""
    asked = "import sysconfig; print(sysconfig.get_paths()['include'])"
    return subprocess.run([python.python(), "-c", asked], check=True, capture_output=True, text=True).stdout.strip()


def compile_c(folder, names, flags):
    """Compiles files of the extension there, beside them; what the compiler says, if it fails."""
    for name in names:
        words = ["cc", *flags, "-c", f"{folder}/src/{name}", "-o", f"{folder}/src/{name}.o"]
        ran = subprocess.run(words, stdout=subprocess.PIPE, stderr=subprocess.STDOUT, text=True)
        if ran.returncode:
            return ran.stdout
    return ""


def fails(folder, objects, libraries, tests):
    """Whether one of some tests fails, or does not end, over an extension that is linked of these objects."""
    module = f"{folder}/proved_calendar/_calendar.abi3.so"
    subprocess.run(["cc", "-shared", *objects, *libraries, "-o", module], check=True)
    env = dict(QUIET, PYTHONPATH=folder, SKIP_MEMORY="1")
    try:
        for name in tests:
            program = DEBIAN if name in BESIDE else python.python()
            if subprocess.run([program, f"{TESTS}/{name}"], env=env, capture_output=True, timeout=120).returncode:
                return True
    except subprocess.TimeoutExpired:
        return True
    return False


def tests_of(path):
    """The tests one of which a wrong line in a file has to fail, the nearest first: what needs other packages has its own."""
    name = TESTS_OF.get(os.path.basename(path))
    if not name:
        nearest = [test for word, test in NEAREST.items() if word in path]
        return (*nearest, *(it for it in ALONE if it not in nearest))
    return (name,) if debian_has(*BESIDE[name]) else ()


def test_wrong_lines(results, room, libraries):
    """Each wrong line in the C and the Python of the package fails its tests, and none of them fails without."""
    flags = [*WARNINGS, f"-I{LANGUAGES}/c", f"-I{headers()}"]
    right = f"{room}/right"
    shutil.copytree(PACKAGE, right)
    names = sorted(os.path.basename(it) for it in glob.glob(f"{right}/src/*.c"))
    said = compile_c(right, names, flags)
    results.count(not said, f"the extension in C: {said}")
    right_objects = [f"{right}/src/{it}.o" for it in names]
    every = (*ALONE, *dict.fromkeys(it for path in TESTS_OF for it in tests_of(path)))
    results.count(not said and not fails(right, right_objects, libraries, every), "a test fails over right lines")

    def attempt(place, edit):
        """Whether a wrong line is found, and what the compiler says; None if it cannot be tried."""
        tests, changed = tests_of(edit[0]), os.path.basename(edit[0])
        if not tests:
            return None
        folder = planted("python", f"{place}/planted", edit)
        compiled = names if changed.endswith(".h") else [changed] if changed.endswith(".c") else []
        said = compile_c(folder, compiled, flags)
        objects = [f"{folder if it in compiled else right}/src/{it}.o" for it in names]
        return not said and fails(folder, objects, libraries, tests), said

    for edit, found in tried("python", room, attempt):
        if found is None:
            print(f"not run: the wrong line {edit[2]!r} in {edit[0]}, since Debian's Python has not what its tests need")
            continue
        results.count(found[0], f"no test in Python fails with {edit[2]!r} in {edit[0]} {found[1]}")


def test(results, room, library, layers):
    """Makes the packages, installs the wheel and runs the tests there."""
    room, built = f"{room}/python", f"{room}/python/built"
    os.makedirs(built)
    packages.build(library, built)
    packages.build(layers, built, packages.LAYERS)
    try:
        sources, wheel = sorted(python.make(TOP, built, f"{room}/dist"))
    except packages.Missing as it:
        print(f"not run: the tests in Python, since there is {it}")
        return
    compare_bytes(results, [sources, wheel], sorted(python.make(TOP, built, f"{room}/dist_again")))
    program = install(results, room, "environment", sys.executable, wheel)
    if program:
        test_installed(results, room, program)
        test_types(results, program)
    test_columns_called(results)
    test_versions(results, room, wheel)
    test_beside_others(results, room, wheel)
    test_by_datetime(results, room, wheel)
    test_sources(results, f"{room}/again", sources)
    test_wrong_lines(results, room, [layers, library])
