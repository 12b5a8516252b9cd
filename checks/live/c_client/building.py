"""The C client built: its library, its tests, its examples, and the headers beside the lists of PROFILE."""

import os
import re
import shutil
import subprocess

from c_client.saying import SECONDS, Server
from kit import ROOT
from page_text import blocks_of, text_of

CLIENT = os.path.join(ROOT, "clients", "c")
INCLUDE = os.path.join(CLIENT, "include")
STRICT = ["-std=c11", "-pthread", "-Wall", "-Wextra", "-Werror", "-I", INCLUDE]
# not that of null pointers, which is wrong of thread-local variables where ld puts a lea in the place of gcc's add; a null pointer ends the program
SANITIZED = ["-g", "-O1", "-fsanitize=address,undefined", "-fno-sanitize=null", "-fno-sanitize-recover=all"]
EXAMPLES = ["pingpong", "pager", "copy", "gateway", "cancel", "driver"]

# as many bytes as the library reads first
INPUT = 8192


def code_of(kind, number):
    """The ErrorCode of a refusal or fault: e is 0."""
    return (ord(kind) << 8 | number) << 4


def sources():
    folder = os.path.join(CLIENT, "src")
    return sorted(os.path.join(folder, name) for name in os.listdir(folder) if name.endswith(".c"))


def cc(*words):
    subprocess.run(["cc", *words], check=True)


def links_sanitized(room):
    """Whether the sanitizers' libraries are there, which a C compiler may come without."""
    source = os.path.join(room, "empty.c")
    with open(source, "w") as file:
        file.write("int main(void) { return 0; }\n")
    return not subprocess.run(["cc", *SANITIZED, source, "-o", os.path.join(room, "empty")], stderr=subprocess.DEVNULL).returncode


def build(room):
    """The tests under sanitizers, where cc has those; the examples both so and exactly as README says. The programs by name."""
    if not links_sanitized(room):
        print("the sanitizers: left out, since cc links no program with them", flush=True)
        SANITIZED[2:] = []
    programs, objects, jobs = {}, [], []
    for source in sources():
        objects.append(os.path.join(room, os.path.basename(source)[:-2] + ".o"))
        jobs.append(subprocess.Popen(["cc", *STRICT, *SANITIZED, "-c", source, "-o", objects[-1]]))
    assert all(job.wait() == 0 for job in jobs)
    jobs = []
    for folder, names in (("tests", ["words", "play", "say", "threads", "unix"]), ("examples", EXAMPLES)):
        for name in names:
            programs[name] = os.path.join(room, name)
            source = os.path.join(CLIENT, folder, name + ".c")
            jobs.append(subprocess.Popen(["cc", *STRICT, *SANITIZED, source, *objects, "-o", programs[name]]))
    for name in EXAMPLES:
        source = os.path.join(CLIENT, "examples", name + ".c")
        command = ["cc", "-std=c11", "-pthread", "-I", INCLUDE, source, *sources(), "-o", os.path.join(room, "plain_" + name)]
        jobs.append(subprocess.Popen(command))
    for name, source in (("long_life", "tests/long_life.c"), ("plain_unix", "tests/unix.c"), ("roundtrip", "bench/roundtrip.c")):
        programs[name] = os.path.join(room, name)
        jobs.append(subprocess.Popen(["cc", *STRICT, "-O2", os.path.join(CLIENT, source), *sources(), "-o", programs[name]]))
    assert all(job.wait() == 0 for job in jobs)
    return programs


# What TUTORIAL's loop stands in: a server that adds 1.
AROUND_LOOP = """#include <l4.h>
#include <stdlib.h>
static void serve(L4_MsgTag_t tag)
{
	L4_Word_t word = 0;

	if (L4_UntypedWords(tag) == 1)
		L4_StoreMR(1, &word);
	L4_Set_MsgTag((L4_MsgTag_t) { 1 });
	L4_LoadMR(1, word + 1);
}
int main(int argc, char **argv)
{
	L4_ThreadId_t client;
	L4_MsgTag_t tag;

	if (argc != 2 || l4_connect(argv[1], 1, 40) < 0)
		return 2;
%s
	return 1;
}
"""


# What README's loop for an l4d that is started again stands in: a server that prints the string that it gets.
AROUND_AGAIN = """#include <l4.h>
#include <stdio.h>
static char string[8];
static L4_Bool_t answer(L4_ThreadId_t from, L4_MsgTag_t tag, void *unused)
{
	(void) from, (void) unused;
	printf("%%u %%.3s\\n", (unsigned) L4_TypedWords(tag), string);
	fflush(stdout);
	L4_Set_MsgTag(L4_Niltag);
	return true;
}
int main(int argc, char **argv)
{
	const char *dir = argv[argc - 1];
	L4_MsgBuffer_t buffers;

	L4_MsgBufferClear(&buffers);
	L4_MsgBufferAppendSimpleRcvString(&buffers, L4_StringItem(sizeof string, string));
%s
	return 1;
}
"""


def build_pages(room):
    """Client, server and loop of README, and the server of TUTORIAL, as they stand there."""
    client, server = blocks_of("clients/c/README.md", "c")[:2]
    texts = {"client": client, "readme": server, "tutorial": AROUND_LOOP % next(it for it in blocks_of("docs/TUTORIAL.md", "c") if "L4_ReplyWait" in it),
             "again": AROUND_AGAIN % next(it for it in blocks_of("clients/c/README.md", "c") if it.startswith("L4_AcceptStrings"))}
    for name, text in texts.items():
        source = os.path.join(room, f"page_{name}.c")
        with open(source, "w") as file:
            file.write(text)
        cc(*STRICT, *SANITIZED, source, *sources(), "-o", os.path.join(room, f"page_{name}"))
    return {f"page_{name}": os.path.join(room, f"page_{name}") for name in texts}


def names_of(items):
    """The names that lead the items of a list; what is said of them stands behind a colon."""
    return [name for item in re.findall(r"^- (.*(?:\n  .*)*)", items, re.M) for name in re.findall(r"`([lL]4_\w+)`", item.partition(": ")[0])]


def check_headers(room):
    """Each header stands alone, README's program compiles, and of each name PROFILE says whether it is declared."""
    source = os.path.join(room, "header.c")
    headers = ["l4.h"] + ["l4/" + name for name in sorted(os.listdir(os.path.join(INCLUDE, "l4")))]
    for header in headers:
        with open(source, "w") as file:
            file.write(f"#include <{header}>\n#include <{header}>\nextern int nothing;\n")
        cc(*STRICT, "-pedantic", "-fsyntax-only", source)
    with open(source, "w") as file:
        file.write(blocks_of("clients/c/README.md", "c")[0])
    cc(*STRICT, "-fsyntax-only", source)
    text = text_of("docs/PROFILE.md")
    there, absent = (names_of(text.split(f"### Names that are {where}\n")[1].split("\n#")[0]) for where in ("there", "not there"))
    assert len(there) > 100 and len(absent) > 30
    declared = set(re.findall(r"\b[Ll]4_\w+", "".join(open(os.path.join(INCLUDE, header)).read() for header in headers)))
    with open(source, "w") as file:
        file.write("#include <l4.h>\n")
        file.writelines(f"_Static_assert(sizeof({name}) > 0, \"\");\n" for name in there if name.endswith("_t"))
        file.write("void use(void);\nvoid use(void)\n{\n")
        file.writelines(f"\t(void) {name};\n" for name in there if not name.endswith("_t"))
        file.write("}\n")
    cc(*STRICT, "-fsyntax-only", source)
    for name in absent:
        with open(source, "w") as file:
            use = f"_Static_assert(sizeof({name}) > 0, \"\");" if name.endswith("_t") else f"void use(void); void use(void) {{ (void) {name}; }}"
            file.write(f"#include <l4.h>\n{use}\n")
        got = subprocess.run(["cc", *STRICT, "-fsyntax-only", source], stderr=subprocess.DEVNULL)
        assert got.returncode != 0, f"{name} is there"
    unlisted = {name for name in declared if not name.startswith("L4_H")} - set(there) - {"l4_h", "L4_NAME_BYTES", "L4_FUNCTION_FAILED"}
    # guards, what the headers themselves are made of, and the values of l4_told_t, which are those of protocol/
    unlisted = {name for name in unlisted if not name.endswith(("_H", "_")) and not name.startswith("l4_told_")}
    assert not unlisted, f"PROFILE does not name {sorted(unlisted)}"
    return len(there) + len(absent)


def check_languages(room):
    """Library and headers in C99, C11 and C17, the headers in C++11 and C++17, without a warning, by the compilers that are here; the C++
    program links and runs. How many were tried."""
    strict = ["-pthread", "-Wall", "-Wextra", "-Wpedantic", "-Wconversion", "-Wshadow", "-Werror", "-I", INCLUDE]
    ported = os.path.join(room, "ported.c")
    with open(ported, "w") as file:
        file.writelines(f"#include <l4/{name}.h>\n" for name in ("types", "kip", "thread", "schedule", "space", "ipc", "misc", "message"))
        file.write("int main(void)\n{\n\treturn (int) L4_nilthread.raw;\n}\n")
    count = 0
    for compiler, standards in (("cc", ("c99", "c11", "c17")), ("clang", ("c99", "c11", "c17")), ("c++", ("c++11", "c++17")), ("clang++", ("c++11", "c++17"))):
        if not shutil.which(compiler):
            continue
        for standard in standards:
            program = os.path.join(room, "language")
            if standard.startswith("c++"):
                subprocess.run([compiler, f"-std={standard}", *strict, os.path.join(CLIENT, "tests", "plus.cpp"), *objects, "-o", program], check=True)
                subprocess.run([program], check=True, timeout=SECONDS)
            else:
                objects = [os.path.join(room, f"{standard}_{os.path.basename(source)}.o") for source in sources()]
                for source, made in zip(sources(), objects):
                    subprocess.run([compiler, f"-std={standard}", "-O2", *strict, "-c", source, "-o", made], check=True)
                subprocess.run([compiler, f"-std={standard}", *strict, ported, *objects, "-o", program], check=True)
            count += 1
    return count


def functions_of_headers():
    """The functions that the headers declare and do not define."""
    headers = [os.path.join(INCLUDE, "l4", name) for name in os.listdir(os.path.join(INCLUDE, "l4"))]
    text = re.sub(r"/\*.*?\*/", "", "".join(open(header).read() for header in headers), flags=re.S)
    return set(re.findall(r"^[\w *]+?\b([Ll]4_\w+)\([^;{]*\);$", re.sub(r"^(static|typedef) .*$", "", text, flags=re.M), re.M))


def check_library(programs, l4d, room):
    """clients/c/build makes the same bytes twice, exports what the headers declare, and a program is compiled and linked as l4ipc.pc says, with
    either library, and runs. With no PREFIX l4ipc.pc names the folder in which it stands."""
    folders = [os.path.join(room, name) for name in ("library", "library again")]
    for folder in folders:
        subprocess.run([os.path.join(CLIENT, "build"), folder], check=True)
    shared, static = "libl4ipc.so.1.0.0", "libl4ipc.a"
    for name in (shared, static, "pkgconfig/l4ipc.pc"):
        assert len({open(os.path.join(folder, "lib", name), "rb").read() for folder in folders}) == 1, f"{name} has other bytes"
    library = os.path.join(folders[0], "lib")
    assert os.readlink(os.path.join(library, "libl4ipc.so.1")) == shared and os.readlink(os.path.join(library, "libl4ipc.so")) == "libl4ipc.so.1"
    names = subprocess.run(["nm", "-D", "--defined-only", os.path.join(library, shared)], check=True, capture_output=True, text=True).stdout
    exported = {line.split()[2].split("@")[0] for line in names.splitlines() if line.split()[1] == "T"}
    assert exported == functions_of_headers(), exported ^ functions_of_headers()
    text = f"pcfiledir={library}/pkgconfig\n" + open(os.path.join(library, "pkgconfig", "l4ipc.pc")).read()
    for _ in range(3):
        text = re.sub(r"\$\{(\w+)\}", lambda name: re.search(rf"^{name[1]}=(.*)$", text, re.M)[1], text)
    words = lambda field: re.search(rf"^{field}: (.*)$", text, re.M)[1].split()
    source = os.path.join(room, "three_lines.c")
    with open(source, "w") as file:
        file.write("#include <l4.h>\n#include <stdio.h>\nint main(int argc, char **argv) { return argc == 2 && l4_connect(argv[1], 1, 2) == 0 && "
                   "L4_ErrorCode() == 0 && (L4_Send(L4_GlobalId(9, 1)), L4_ErrorCode()) == 0x4 ? puts(l4_error()) < 0 : 1; }\n")
    ways = {"shared": [*words("Libs"), f"-Wl,-rpath,{library}"], "static": [os.path.join(library, static), *words("Libs.private")]}
    for way, link in ways.items():
        cc("-std=c11", "-Wall", "-Wextra", "-Werror", *words("Cflags"), source, *link, "-o", os.path.join(room, way))
        with Server(l4d, room, trace=False) as server:
            said = subprocess.run([os.path.join(room, way), server.dir], check=True, capture_output=True, text=True, timeout=SECONDS).stdout
            assert "non-existing partner" in said, said
    check_unloaded(os.path.join(library, shared), l4d, room)
    return len(exported)


def check_unloaded(library, l4d, room):
    """A thread that loads the library, connects, unloads it and returns ends its L4 thread, and the program goes on."""
    source, program = os.path.join(room, "plug_in.c"), os.path.join(room, "plug_in")
    with open(source, "w") as file:
        file.write("#include <dlfcn.h>\n#include <pthread.h>\nstatic char **words;\n"
                   "static void *plug_in(void *nothing) { void *l4 = dlopen(words[1], RTLD_NOW); int (*join)(const char *, unsigned, unsigned);\n"
                   "*(void **) &join = dlsym(l4, \"l4_connect\"); nothing = join(words[2], 1, 2) == 0 ? words : nothing; dlclose(l4); return nothing; }\n"
                   "int main(int argc, char **argv) { pthread_t thread; void *joined = 0; words = argv;\n"
                   "return argc != 3 || pthread_create(&thread, 0, plug_in, 0) != 0 || pthread_join(thread, &joined) != 0 || joined == 0; }\n")
    cc("-std=c11", "-Wall", "-Wextra", "-Werror", "-pthread", source, "-ldl", "-o", program)
    with Server(l4d, room, trace=False) as server:
        subprocess.run([program, library, server.dir], check=True, timeout=SECONDS)
