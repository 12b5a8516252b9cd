"""A block of a page as somebody pastes it into a shell, for the checks: each form answers what came on the screen."""

import os
import pty
import re
import select
import shutil
import signal
import subprocess
import time

SECONDS = 120
PROMPT = b"ready> "
# What a terminal puts around a paste for a shell that asks for it; the key behind it is Enter.
PASTE = b"\x1b[200~%s\x1b[201~\r"


def without_terminal(*words, **more):
    ran = subprocess.run(words, stdout=subprocess.PIPE, stderr=subprocess.STDOUT, text=True, errors="replace", start_new_session=True,
                         timeout=SECONDS, **more)
    return ran.stdout


def as_words(block, last, folder):
    return without_terminal("bash", "-m", "-c", block + last, cwd=folder, stdin=subprocess.DEVNULL)


def as_input(block, last, folder):
    return without_terminal("bash", "-s", cwd=folder, input=block + last)


def typed(block, last, folder):
    """As a terminal sends it that knows no pastes: keys, one behind the other."""
    return at_a_terminal(keys(block + last), folder)


def pasted(block, last, folder):
    return at_a_terminal(PASTE % keys(block) + keys(last), folder)


def typed_in_zsh(block, last, folder):
    """In a shell that takes `#` for a word where somebody types it, and runs what is in the background with less priority."""
    return at_a_terminal(keys(block + last), folder, "zsh", "-f", "-i")


def keys(text):
    return text.replace("\n", "\r").encode()


def at_a_terminal(data, folder, *shell):
    """A shell with a terminal of its own gets this at its first prompt, and has to end by itself."""
    process, screen = pty.fork()
    if not process:
        os.chdir(folder)
        shell = shell or ("bash", "--norc", "-i")
        os.execvpe(shell[0], shell, {**os.environ, "TERM": "xterm", "PS1": PROMPT.decode(), "HISTFILE": "", "INPUTRC": os.devnull})
    text, limit = b"", time.monotonic() + SECONDS
    try:
        while time.monotonic() < limit:
            readable, writable, _ = select.select([screen], [screen] if data and PROMPT in text else [], [], 1)
            if readable:
                text += os.read(screen, 65_536)
            if writable:
                data = data[os.write(screen, data[:256]):]
    except OSError:
        pass  # nobody has the terminal open any more
    os.close(screen)
    os.kill(process, signal.SIGKILL)
    os.waitpid(process, 0)
    return re.sub(r"\x1b\[[?\d;]*[A-Za-z]", "", text.decode(errors="replace")).replace("\r", "")


# Those whose shell is there.
FORMS = [*[as_words, as_input, typed, pasted] * bool(shutil.which("bash")), *[typed_in_zsh] * bool(shutil.which("zsh"))]
