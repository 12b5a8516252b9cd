"""The Python package: its own tests, its types, how it is installed, and its examples."""

import os
import shutil
import signal
import subprocess
import sys
import tempfile
import time

from kit import ROOT
from page_text import blocks_of
from protocol_tables import MAX_STRING_BYTES
from python_client.seeing import CLIENT, Message, Server, ThreadId, check, end, l4ipc, names, output, same, words


def own_tests():
    ran = subprocess.run([sys.executable, "-W", "error", "-m", "unittest", "discover", "-s", "tests", "-t", "."], cwd=CLIENT, capture_output=True,
                         text=True, env={**os.environ, "PYTHONPATH": "src", "PYTHONDONTWRITEBYTECODE": "1"})
    check("the client's own tests", ran.returncode == 0, ran.stderr[-3000:])
    print(f"own tests: {ran.stderr.strip().splitlines()[-3:]}", flush=True)


def types():
    """The package passes the type checker, where that is there."""
    if not shutil.which("mypy"):
        print("types: left out, since mypy is not there", flush=True)
        return
    with tempfile.TemporaryDirectory() as folder:
        ran = subprocess.run(["mypy", "--strict", "--cache-dir", folder, f"{CLIENT}/src/l4ipc"], capture_output=True, text=True)
    check("mypy --strict", ran.returncode == 0, ran.stdout[-2000:])


def installed():
    """The package as pip installs it, without a network."""
    if subprocess.run([sys.executable, "-m", "pip", "--version"], capture_output=True).returncode:
        print("install: left out, since pip is not there", flush=True)
        return
    folder = tempfile.mkdtemp(prefix="clients-python-pip-")
    try:
        ran = subprocess.run([sys.executable, "-m", "pip", "install", "--quiet", "--no-index", "--disable-pip-version-check", "--target", folder, CLIENT],
                             capture_output=True, text=True)
        check("pip install", ran.returncode == 0, ran.stderr[-2000:])
        ran = subprocess.run([sys.executable, "-c", "import l4ipc; print(l4ipc.__file__)"], capture_output=True, text=True, cwd=folder,
                             env={**os.environ, "PYTHONPATH": folder})
        check("the installed package", ran.stdout.startswith(folder), ran.stdout + ran.stderr)
        check("it is marked as typed", os.path.exists(f"{folder}/l4ipc/py.typed"))
    finally:
        shutil.rmtree(folder)


# The examples.


def name_server(server, l4x, version):
    process = server.start([l4x, server.folder, "names"])
    thread = server.thread(249)
    found = None
    for _ in range(200):
        found = names.live_thread(thread, 255)
        if found:
            break
        time.sleep(0.02)
    thread.close()
    same("the name server", str(found), f"255.{version}")
    return process


def examples(server):
    serving = [server.example(name, role) for name, role in (
        ("pingpong", "serve"), ("pager", "serve"), ("string_copy", "serve"), ("gateway", "serve"), ("cancel", "silent"))]
    text, status = output(server.example("pingpong", "ask", 300))
    check("ping-pong", status == 0 and text.startswith("300 calls of 10.1: ") and "microseconds each" in text, text)
    print(f"ping-pong: {text.strip()}", flush=True)
    text, status = output(server.example("pager", "fault", "0x1234", "0x5678", "0x1fff", "0x0"))
    same("pager", (status, text), (0, "0x1234 is in page 0x1000, frame 0\n0x5678 is in page 0x5000, frame 1\n0x1fff is in page 0x1000, frame 0\n"
                                      "0x0 is in page 0x0, frame 2\n"))
    for count in (0, 1, 65_536, MAX_STRING_BYTES):
        text, status = output(server.example("string_copy", "send", count))
        same(f"copy of {count}", (status, text), (0, f"{count} bytes came, the same\n"))
    text, status = output(server.example("gateway", "ask", 7))
    same("gateway", (status, text), (0, "asked 40.1, and 10.1 answered 7\n"))
    caller = server.example("cancel", "call")
    same("cancel", output(server.example("cancel", "cancel")), ("cancelled 51.1\n", 0))
    same("the one that was cancelled", output(caller), ("cancelled in the receive phase\n", 0))
    with server.thread(61) as thread:
        listed = [(name, str(id)) for name, id in names.Names(thread).list()]
        same("names of the examples", listed, [("copy", "30.1"), ("gateway", "40.1"), ("pager", "20.1"), ("pingpong", "10.1"), ("silent", "50.1")])
    for process in serving:
        check("a server goes on", process.poll() is None)
        end(process)


def first_program(l4d):
    """The two programs that the client's README begins with, as they stand there."""
    programs = blocks_of("clients/python/README.md", "python")[:2]
    check("they have at most 15 lines each", all(program.count("\n") <= 15 for program in programs), programs)
    server = Server(l4d, trace=False)
    # (a check that a shell runs in the background ignores SIGINT, and so would the program)
    heeds = "import signal; signal.signal(signal.SIGINT, signal.default_int_handler)\n"
    server.start([sys.executable, "-c", heeds + programs[0], server.folder])
    with l4ipc.Thread(server.folder, 3) as thread:
        while names.live_thread(thread, 1) is None:
            time.sleep(0.01)
    same("the first program", output(server.start([sys.executable, "-c", programs[1], server.folder])), ("42\n", 0))
    text = output(server.start([sys.executable, f"{ROOT}/examples/echo.py", server.folder, "ask", "42"]))
    same("examples/echo.py asks it, too", text, ("42\n", 0))
    server.started[0].send_signal(signal.SIGINT)
    same("Ctrl-C ends the server", output(server.started[0]), ("", 0))
    with server.next_thread(1) as thread:
        same("the next version", str(thread.id), "1.2")
    server.stop()
    server = Server(l4d, trace=False)
    server.start([sys.executable, f"{ROOT}/examples/echo.py", server.folder, "serve"])
    with l4ipc.Thread(server.folder, 3) as thread:
        while names.live_thread(thread, 1) is None:
            time.sleep(0.01)
        same("examples/echo.py", thread.call(ThreadId.of(1, 1), Message(0, [41, words.WORD_LIMIT - 1])).words, (42, 0))
    server.stop()
