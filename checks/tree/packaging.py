#!/usr/bin/env python3
"""Whether ./install puts a whole l4d and l4sh below a folder, and which kits ./build, ./test and ./try take.

checks/tree/packaging.py        both programs have to be built

Exit 0 where each file is there with its mode, completions and help have the same words, the pages can be shown, the program runs from where it was
installed, a tree whose programs are not built is refused, Debian packages come out with the same bytes twice, and a kit of another logic is told while one
with another letter is not.
"""
import os, re, shutil, stat, subprocess, sys, tempfile

sys.path.insert(1, f"{sys.path[0]}/../lib")

from kit import ROOT, proved_with

# What is installed, with its mode, beside the clients.
FILES = {
    "bin/l4d": 0o755, "bin/l4sh": 0o755, "bin/l4x": 0o755, "lib/hashkarst/blocked": 0o755, "lib/hashkarst/installed": 0o644,
    "lib/hashkarst/l4d": 0o755, "lib/hashkarst/l4sh": 0o755, "lib/hashkarst/l4x": 0o755,
    "share/man/man1/l4d.1": 0o644, "share/man/man1/l4sh.1": 0o644, "share/man/man1/l4x.1": 0o644, "share/man/man7/hashkarst.7": 0o644,
    "share/bash-completion/completions/l4d": 0o644, "share/bash-completion/completions/l4sh": 0o644,
    "share/zsh/site-functions/_l4d": 0o644, "share/zsh/site-functions/_l4sh": 0o644,
    "lib/systemd/system/l4d.service": 0o644, "lib/systemd/system/l4d-names.service": 0o644,
    "share/doc/hashkarst/examples/adder.service": 0o644, "lib/tmpfiles.d/l4d.conf": 0o644, "lib/sysusers.d/l4d.conf": 0o644,
}
# What they are made of: where it is as committed they have the commit, whatever else stands in the tree.
SOURCES = ["CHANGELOG.md", "README.md", "build", "clients", "crates", "crates.txt", "docs", "install", "packaging"]
LIBRARY = ["lib/libl4ipc.a", "lib/libl4ipc.so", "lib/libl4ipc.so.1", "lib/libl4ipc.so.1.0.0", "lib/pkgconfig/l4ipc.pc"]
PREFIX, PYTHON = "/usr/local/hashkarst", "lib/python3/packages"
# What packaging/deb asks for before all else.
DEB_TOOLS = ("dpkg-deb", "cc", "strip", "objdump")
# A unit is exposed so far at most, as systemd-analyze counts: 0 is safe, 10 is not.
EXPOSED = 2.5
# Three lines that connect as a thread, in C and in Python: each of another number, by how many words there are.
C_PROGRAM = """#include <l4.h>
#include <stdio.h>
int main(int count, char **words) { return count > 1 && l4_connect(words[1], 1, count) == 0 ? puts("connected") < 0 : 1; }
"""
PYTHON_PROGRAM = """import sys
from l4ipc import Thread
with Thread(sys.argv[1], len(sys.argv)) as thread: print("connected")
"""


def run(*words, **more):
    return subprocess.run(words, capture_output=True, text=True, timeout=240, stdin=subprocess.DEVNULL, **more)


def helps(program):
    """All words that begin with -- of the help of a program and its subcommands, and the names of these."""
    told = run(program, "--help")
    text = told.stdout + told.stderr
    words = set(re.findall(r"^ +(?:-\w, +)?(--[\w-]+)", text, re.M))
    under = text.partition("\nCommands:\n")[2].partition("\n\n")[0]
    names = [name for name in re.findall(r"^  ([a-z]\w*) ", under, re.M) if name != "help"]
    for name in names:
        below = run(program, name, "--help")
        words |= set(re.findall(r"^ +(?:-\w, +)?(--[\w-]+)", below.stdout + below.stderr, re.M))
    return words | set(names)


def commit():
    """The commit of this tree, where its sources are as committed; else None."""
    if not shutil.which("git"):
        return None
    head, status = run("git", "-C", ROOT, "rev-parse", "HEAD"), run("git", "status", "--porcelain", "--", *SOURCES, cwd=ROOT)
    return head.stdout if head.returncode == status.returncode == 0 and not status.stdout else None


# A kit that says its version and can do nothing else.
NO_KIT = """#!/usr/bin/env python3
import sys
if sys.argv[1:] != ["version"]:
    sys.exit("refused\\n" * 20_000)
print("{}")
"""


def kits():
    """./build, ./test and ./try say in their first line where the kit has another logic, and nothing of a kit with another letter alone. All end that say
    much, and ./try tells it. A tree that cannot be written is told in a line."""
    made_with, facts = ["build", "test", "try", "crates.txt", "checks/lib/kit.py", "crates/l4sh_options/src/version.rt"], 0
    for kit, is_other in ((f"any-kit logic {proved_with()}", False), ("any-kit logic 0123456789abcdef", True)):
        with tempfile.TemporaryDirectory() as place:
            for name in made_with:
                os.makedirs(os.path.dirname(f"{place}/{name}"), exist_ok=True)
                shutil.copy(f"{ROOT}/{name}", f"{place}/{name}")
            os.mkdir(f"{place}/crates/ipc_server")
            with open(f"{place}/rt", "w") as file:
                file.write(NO_KIT.format(kit))
            os.chmod(f"{place}/rt", 0o755)
            for words in (["build"], ["test", "gate"], ["try", "l4d", "--help"]):
                told = run(f"{place}/{words[0]}", *words[1:], env={**os.environ, "PATH": f"{place}:{os.environ['PATH']}"})
                first = told.stderr.partition("\n")[0]
                assert told.returncode == 1 and (f"this kit is `{kit}`" in first) == is_other == ("proved with logic" in told.stderr), (words, kit, told)
                assert words[0] != "try" or told.stderr.count("refused\n") == 20_000, told.stderr[-400:]
                facts += 1
            shutil.rmtree(f"{place}/out")
            open(f"{place}/out", "w").close()
            told = run(f"{place}/try", "l4d", "--help")
            assert told.returncode == 1 and f"try: {place}/out" in told.stderr and "Traceback" not in told.stderr, told.stderr[-400:]
            facts += 1
    with open(f"{ROOT}/README.md", encoding="utf-8") as page:
        text = " ".join(page.read().split())
    for words in (f"the logic `{proved_with()}`", "the command `rt` on the PATH", "`rt version` prints", "`rt doc` prints", "knows no address of it", "`packaging/deb FOLDER`"):
        assert words in text, f"README does not say of the kit: {words}"
        facts += 1
    assert not re.search(r"kit-\d+[a-z]", text), "README names a kit by its letter"
    return facts + 1


def clients():
    """The files of the clients, by what the tree has of them."""
    headers = [os.path.relpath(f"{at}/{name}", f"{ROOT}/clients/c") for at, _, names in os.walk(f"{ROOT}/clients/c/include") for name in names]
    package = [f"{PYTHON}/l4ipc/{name}" for name in os.listdir(f"{ROOT}/clients/python/src/l4ipc") if name.endswith(".py") or name == "py.typed"]
    about = [f"{PYTHON}/l4ipc-1.0.dist-info/{name}" for name in ("METADATA", "RECORD", "WHEEL")]
    c = headers + LIBRARY if shutil.which("cc") else []
    return {name: 0o644 for name in c + package + about}


def installed(place, *words):
    return run(f"{ROOT}/install", *words, env={**os.environ, "DESTDIR": place, "PREFIX": PREFIX, "PYTHONDIR": PYTHON})


def found_in(below):
    return {os.path.relpath(os.path.join(at, name), below) for at, _, names in os.walk(below) for name in names}


def completions(below):
    """Each completion has the words that the help has, and shells read it."""
    facts = 0
    for name in ("l4d", "l4sh"):
        words = helps(f"{below}/lib/hashkarst/{name}")
        for shell in (f"share/bash-completion/completions/{name}", f"share/zsh/site-functions/_{name}"):
            with open(f"{below}/{shell}") as file:
                text = file.read()
            completed = set(re.findall(r"--[a-z][\w-]*", text)) | {word for word in words if not word.startswith("-") and word in text}
            assert completed == words, (shell, completed ^ words)
            facts += len(words)
        script = f"{below}/share/bash-completion/completions/{name}"
        if shutil.which("bash"):
            assert run("bash", "-n", script).returncode == 0
            offered = run("bash", "-c", f'. {script}; COMP_WORDS=({name} he); COMP_CWORD=1; _{name}; echo "${{COMPREPLY[@]}}"').stdout.split()
            assert offered == ["help"], (name, offered)
        assert "'help:" in text or "(help)" in text, f"zsh is not offered {name} help"
        facts += 2
        if shutil.which("zsh"):
            assert run("zsh", "-n", f"{below}/share/zsh/site-functions/_{name}").returncode == 0
    return facts


def pages(below):
    """Each page begins as one of its kind does, says all that the help says, has no file of the sources and no piece of a link, and can be shown."""
    facts, heads = 0, {}
    for name, number in (("l4d", 1), ("l4sh", 1), ("l4x", 1), ("hashkarst", 7)):
        path = f"{below}/share/man/man{number}/{name}.{number}"
        with open(path) as file:
            text = file.read().replace("\\-", "-")
        heads[name] = re.findall(r"^\.SH (.*)$", text, re.M)
        of_sources = re.search(r".*(?:(?:crates|checks|bench|proofs|protocol|specs)/|\w\.md\b|<!--|#[a-z-]+\)).*", text)
        assert not of_sources, (name, of_sources[0])
        if number == 1:
            assert heads[name][:3] == ["NAME", "SYNOPSIS", "DESCRIPTION"] and {"EXIT STATUS", "FILES", "SEE ALSO"} <= set(heads[name]), heads[name]
        if name in ("l4d", "l4sh"):
            missing = {word for word in helps(f"{below}/lib/hashkarst/{name}") - {"--help"} if word not in text}
            assert not missing and "EXAMPLES" in heads[name], (name, missing)
        if name == "l4x":
            unsaid = [line for line in run(f"{below}/lib/hashkarst/l4x", "--help").stdout.splitlines() if line.strip() not in text]
            assert not unsaid, (name, unsaid)
        if shutil.which("man") and shutil.which("groff"):
            shown = run("man", "-l", "--warnings", path, env={**os.environ, "MANPAGER": "cat", "MANWIDTH": "80"})
            assert shown.returncode == 0 and shown.stderr == "" and len(shown.stdout) > 3000, (name, shown.stderr[:300])
        facts += 1
    return facts


def units(place, below):
    """Each unit names what is installed, is hardened, and systemd takes it; the one of l4d is active once it listens."""
    facts = 0
    for name in ("lib/systemd/system/l4d.service", "lib/systemd/system/l4d-names.service", "share/doc/hashkarst/examples/adder.service"):
        with open(f"{below}/{name}") as file:
            unit = file.read()
        assert "@" not in unit.replace("@system-service", "").replace("@privileged @resources", ""), unit
        is_ours = name.startswith("lib")
        program = re.search(r"^ExecStart=(\S+)", unit, re.M)[1]
        assert not is_ours or program.startswith(f"{PREFIX}/bin/") and os.access(place + program, os.X_OK), program
        assert is_ours == ("NoNewPrivileges=yes" in unit) and ("Type=notify" in unit) == name.endswith("/l4d.service"), unit
        assert name.endswith("/l4d.service") or re.search(r"^Requires=l4d.service\nPartOf=l4d.service\nAfter=l4d.service$", unit, re.M), unit
        # a unit that is to be started again is not given up after a few starts
        assert ("Restart=" in unit) == bool(re.search(r"^StartLimitIntervalSec=0$", unit, re.M)), unit
        facts += 4
        # (it makes a folder in /run/systemd, which in a container may not be there)
        if is_ours and shutil.which("systemd-analyze") and (os.path.isdir("/run/systemd") or os.getuid() == 0):
            told = run("systemd-analyze", "security", "--offline=true", f"{below}/{name}").stdout
            level = re.search(r"exposure level for \S+: ([\d.]+)", told)
            assert level and float(level[1]) <= EXPOSED, told[-300:]
            facts += 1
    return facts


def programs(place, below):
    """What is installed runs from where it is, and programs of three lines are compiled and run against it."""
    made_of = commit()
    version = run(f"{below}/bin/l4d", "--version").stdout
    assert (f"commit {made_of}" in version) if made_of else "commit" not in version, version
    with open(f"{ROOT}/CHANGELOG.md") as file:
        newest = re.search(r"^## (\S+)", file.read(), re.M)[1]
    assert version.startswith(f"l4d {newest} ("), (version, newest)
    told = run(f"{below}/bin/l4d", "--dir", place, "--spaces", "1", "--connections", "2", "--probe")
    assert told.returncode == 0 and told.stdout == "listening 1\nprobe 0x7\nclosed\n", told
    made = []
    if shutil.which("cc"):
        with open(f"{place}/three.c", "w") as file:
            file.write(C_PROGRAM)
        flags = f"-I{below}/include -L{below}/lib -ll4ipc".split()
        if shutil.which("pkg-config"):
            told = run("pkg-config", "--cflags", "--libs", "l4ipc", env={**os.environ, "PKG_CONFIG_PATH": f"{below}/lib/pkgconfig", "PKG_CONFIG_SYSROOT_DIR": place})
            assert told.stdout.split() == flags, told
        subprocess.run(["cc", f"{place}/three.c", *flags, "-o", f"{place}/shared"], check=True)
        subprocess.run(["cc", f"{place}/three.c", flags[0], f"{below}/lib/libl4ipc.a", "-pthread", "-o", f"{place}/static"], check=True)
        made += [[f"{place}/shared"], [f"{place}/static"]]
    with open(f"{place}/three.py", "w") as file:
        file.write(PYTHON_PROGRAM)
    made.append([sys.executable, "-B", f"{place}/three.py"])
    server = subprocess.Popen([f"{below}/bin/l4d", "--dir", place, "--spaces", "1"], stdin=subprocess.DEVNULL, stdout=subprocess.PIPE, text=True)
    try:
        assert server.stdout.readline() == "listening 1\n"
        for at, words in enumerate(made):
            told = run(*words, place, *["more"] * at, env={**os.environ, "LD_LIBRARY_PATH": f"{below}/lib", "PYTHONPATH": f"{below}/{PYTHON}"})
            assert (told.returncode, told.stdout) == (0, "connected\n"), (words, told)
        server.terminate()
        assert (server.wait(10), server.stdout.read()) == (0, "closed\n")
    finally:
        server.kill()
        server.communicate()
    return 2 + len(made)


def refusals(place):
    """A tree whose programs are not built, a prefix that is none, and words that are none are refused."""
    with tempfile.TemporaryDirectory() as bare:
        os.makedirs(f"{bare}/crates")
        open(f"{bare}/crates.txt", "w").close()
        os.makedirs(f"{bare}/packaging")
        for name in ("install", "packaging/is_current"):
            shutil.copy(f"{ROOT}/{name}", f"{bare}/{name}")
        refused = run(f"{bare}/install", env={**os.environ, "DESTDIR": f"{bare}/to"})
        assert refused.returncode == 1 and "is not proved" in refused.stderr and not os.path.exists(f"{bare}/to"), refused
        for name in ("l4d", "packaging/start"):
            shutil.copy(f"{ROOT}/{name}", f"{bare}/{name}")
        refused = run(f"{bare}/l4d", "--help")
        assert refused.returncode == 1 and "./build" in refused.stderr and "./try l4d" in refused.stderr, refused
        for name in ("packaging/deb", "CHANGELOG.md"):
            shutil.copy(f"{ROOT}/{name}", f"{bare}/{name}")
        for told, more in (("is not proved", {"SOURCE_DATE_EPOCH": "0"}), ("SOURCE_DATE_EPOCH", {})):
            others = {name: value for name, value in os.environ.items() if name != "SOURCE_DATE_EPOCH"}
            refused = run(f"{bare}/packaging/deb", f"{bare}/to", env={**others, **more})
            lacking = next((f"deb: {it} is missing\n" for it in DEB_TOOLS if not shutil.which(it)), told)
            assert refused.returncode == 1 and lacking in refused.stderr and "Traceback" not in refused.stderr, refused
            assert not os.path.exists(f"{bare}/to"), "a refused tree leaves a folder"
        helped = run(f"{bare}/packaging/deb", "--help")
        assert helped.returncode == 0 and "makes Debian packages" in helped.stdout, helped
    for name, value in (("PREFIX", "usr"), ("PREFIX", ""), ("LIBDIR", "/elsewhere/lib"), ("LIBDIR", "../lib"), ("PYTHONDIR", f"{PREFIX}x/python")):
        refused = run(f"{ROOT}/install", env={**os.environ, "DESTDIR": place, "PREFIX": PREFIX, "PYTHONDIR": PYTHON, name: value})
        assert refused.returncode == 2 and name in refused.stderr, refused
    assert not os.path.exists(f"{place}/elsewhere"), "a refused folder is made"
    made = run(f"{ROOT}/install", env={**os.environ, "DESTDIR": f"{place}/more", "PREFIX": f"{PREFIX}/", "LIBDIR": f"{PREFIX}/lib64", "PYTHONDIR": f"{PREFIX}/{PYTHON}"})
    more = found_in(f"{place}/more{PREFIX}")
    assert made.returncode == 0 and f"{PYTHON}/l4ipc/__init__.py" in more and (not shutil.which("cc") or "lib64/libl4ipc.so" in more), (made, more)
    refused = installed(place, "--remove")
    assert refused.returncode == 2 and "usage" in refused.stderr, refused
    return 11


def debs(place):
    """packaging/deb makes the same bytes twice; each file is in one package, lintian has nothing to say, and what is unpacked runs."""
    lacking = [it for it in DEB_TOOLS if not shutil.which(it)]
    if lacking:
        print(f"packaging: Debian packages are left out, since {', '.join(lacking)} is not there")
        return 0
    made, has_commit = [], shutil.which("git") and run("git", "-C", ROOT, "rev-parse", "HEAD").returncode == 0
    time = {} if has_commit else {"SOURCE_DATE_EPOCH": "1000000000"}
    # the first ones stand in the tree while the second ones are made, as who follows README has them
    with tempfile.TemporaryDirectory(prefix="packages-", dir=ROOT) as packages:
        for turn in (packages, f"{place}/second"):
            told = run(f"{ROOT}/packaging/deb", turn, env={**os.environ, **time})
            assert told.returncode == 0, told
            made.append({name: open(f"{turn}/{name}", "rb").read() for name in os.listdir(turn)})
    assert made[0] == made[1] and len(made[0]) == 4, [sorted(it) for it in made]
    there = []
    for name in made[0]:
        assert run("dpkg-deb", "-x", f"{place}/second/{name}", f"{place}/unpacked").returncode == 0
        there += [line.split()[5] for line in run("dpkg-deb", "-c", f"{place}/second/{name}").stdout.splitlines() if not line.startswith("d")]
    wanted = {re.sub(r"^share/man/.*", r"\g<0>.gz", name) for name in FILES if name != "lib/hashkarst/installed"}
    assert len(there) == len(set(there)) and not {f"./usr/{name}" for name in wanted} - set(there), {f"./usr/{name}" for name in wanted} - set(there)
    told = run(f"{place}/unpacked/usr/bin/l4d", "--dir", place, "--spaces", "1", "--connections", "2", "--probe")
    assert told.returncode == 0 and told.stdout == "listening 1\nprobe 0x7\nclosed\n", told
    if shutil.which("lintian"):
        told = run("lintian", "--fail-on", "error,warning", *[f"{place}/second/{name}" for name in made[0]])
        assert told.returncode == 0, told.stdout
    return 4


def uninstalled(place, below):
    """What an earlier install left is removed by the next one, and --uninstall leaves nothing and removes nothing else."""
    with open(f"{below}/lib/hashkarst/installed", "a") as file:
        file.write("share/man/man1/older.1\n")
    for name in ("share/man/man1/older.1", "share/man/man1/other.1"):
        open(f"{below}/{name}", "w").close()
    assert installed(place).returncode == 0
    assert not os.path.exists(f"{below}/share/man/man1/older.1")
    assert installed(place, "--uninstall").returncode == 0
    assert found_in(below) == {"share/man/man1/other.1"} and not os.path.exists(f"{below}/lib/hashkarst"), found_in(below)
    refused = installed(place, "--uninstall")
    assert refused.returncode == 1 and "nothing is installed" in refused.stderr, refused
    return 4


def main():
    facts = kits()
    with tempfile.TemporaryDirectory() as place:
        made = installed(place)
        assert made.returncode == 0, made
        below = place + PREFIX
        files = {**FILES, **clients(), **({"lib/hashkarst/commit": 0o644} if commit() else {})}
        assert found_in(below) == set(files), found_in(below) ^ set(files)
        with open(f"{below}/lib/hashkarst/installed") as file:
            assert set(file.read().split()) == set(files)
        for name, mode in files.items():
            assert stat.S_IMODE(os.stat(f"{below}/{name}").st_mode) == mode, name
        facts += len(files) + completions(below) + pages(below) + units(place, below) + programs(place, below) + refusals(place) + debs(place) + uninstalled(place, below)
    print(f"packaging: {len(files)} files, {facts} facts")


if __name__ == "__main__":
    sys.exit(main())
