"""Which hosts the package for JavaScript runs on: its README beside its modules, its page and its message; checks/packages/javascript.py runs this."""
import json
import re
import shutil
import subprocess
import tempfile

from checks.shared.results import LANGUAGES, read

FOLDER = f"{LANGUAGES}/javascript"
BROWSERS = ("Chromium", "Firefox", "Safari")


def least_node():
    """The first version of node that the package takes."""
    return json.loads(read(f"{FOLDER}/package.json"))["engines"]["node"].removeprefix(">=")


def section():
    """What README says of hosts."""
    return re.search(r"^## Hosts$(.*?)^## ", read(f"{FOLDER}/README.md"), re.M | re.S)[1]


def rows():
    """The hosts, with the versions from which on they have what the package needs, and what the page needs."""
    return {host: (package, page) for host, package, page in re.findall(r"^\| (\w+) \| ([\d.]+) \| ([\d.]*) ?\|$", section(), re.M)}


def features():
    """The features of WebAssembly that README names, by Binaryen's names."""
    return re.findall(r"`([a-z-]+)`", re.search(r"The modules need (.*?)\.\s", section(), re.S)[1])


def validates(module, names):
    """Whether a module is one of WebAssembly 1.0 with some features."""
    with tempfile.NamedTemporaryFile(suffix=".wasm") as it, tempfile.NamedTemporaryFile(suffix=".wasm") as plain:
        it.write(module)
        it.flush()
        # (the module lists what it may have, which is more than it has)
        subprocess.run(["wasm-opt", "--strip-target-features", it.name, "-o", plain.name], capture_output=True, check=True)
        words = ["wasm-opt", "--mvp-features", *(f"--enable-{name}" for name in names), plain.name, "-o", "/dev/null"]
        return subprocess.run(words, capture_output=True).returncode == 0


def compare_features(results, bytes_of_modules):
    """The modules have the features that README names, and no other."""
    if not shutil.which("wasm-opt"):
        print("not run: the features of the modules, since there is no wasm-opt")
        return
    named = features()
    for source, module in bytes_of_modules.items():
        results.count(validates(module, named), f"{source} needs more of WebAssembly than README names: {named}")
    for name in named:
        others = [it for it in named if it != name]
        is_needed = not all(validates(it, others) for it in bytes_of_modules.values())
        results.count(is_needed, f"README names the feature {name}, and no module needs it")


def compare(results, bytes_of_modules):
    """All of it."""
    hosts = rows()
    results.equal(sorted(hosts), sorted((*BROWSERS, "node")), "the hosts of README")
    footer = re.search(r"<footer>(.*?)</footer>", read(f"{FOLDER}/page/index.html"), re.S)[1]
    told = dict(re.findall(r"(Chromium|Firefox|Safari)\s[a-z\s]*([\d.]*\d)", footer))
    results.equal(told, {it: hosts.get(it, ("", ""))[1] for it in BROWSERS}, "the hosts of the page")
    message = re.search(r'const hosts = "(.*)";', read(f"{FOLDER}/src/instantiate.js"))[1]
    results.equal(dict(re.findall(r"(\w+) ([\d.]+)", message)), {it: package for it, (package, _) in hosts.items()}, "the hosts of the message")
    compare_features(results, bytes_of_modules)
