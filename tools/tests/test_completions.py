"""Types into real shells, in tmux, and looks at what they complete.

usage: tools/tests/test_completions.py PROGRAM

Shells that aren't installed are named. The status is 77 if no shell is installed, or if tmux isn't. The expected words are
those of the program's help.
"""
import os
import shutil
import subprocess
import sys
import tempfile
import time

TOP = os.path.dirname(os.path.dirname(os.path.dirname(os.path.realpath(__file__))))
sys.dont_write_bytecode = True
sys.path.insert(0, f"{TOP}/tools")
import completions

CANT_RUN = 77
SECONDS = 90
# What is typed before the key Tab, and the line that is expected then.
TYPED = (
    ("hagzimot rel", "hagzimot relay"),
    ("hagzimot convert --o", "hagzimot convert --out"),
    ("hagzimot relay --floa", "hagzimot relay --floats-as-bits"),
    ("hagzimot relay --log refu", "hagzimot relay --log refused"),
    ("hagzimot convert --in pa", "hagzimot convert --in packed"),
    ("hagzimot relay --set a=1 --set b=2 --strict --sta", "hagzimot relay --set a=1 --set b=2 --strict --stats"),
    ("hagzimot show --schema shop_weighed.req", "hagzimot show --schema shop_weighed.request"),
    ("hagzimot show orders.b", "hagzimot show orders.bin"),
    ("hagzimot relay --schema shop.request --root Order orders.b", "hagzimot relay --schema shop.request --root Order orders.bin"),
)
BASHRC = "PS1='> '\nsource {folder}/hagzimot.bash\nbind 'set bell-style none'\n"
ZSHRC = "PS1='> '\nfpath=({folder} $fpath)\nautoload -Uz compinit\ncompinit -u -D\nunsetopt beep\n"
FISH = "function fish_prompt; echo '> '; end; function fish_greeting; end; source {folder}/hagzimot.fish"


def tmux(socket, *words):
    run = subprocess.run(["tmux", "-f", "/dev/null", "-S", socket, *words], capture_output=True, text=True, check=False)
    return run.stdout


def start(shell, folder, room):
    """The command that starts a shell with the completions, and nothing of the user's own."""
    if shell == "bash":
        with open(f"{room}/bashrc", "w", encoding="utf-8") as file:
            file.write(BASHRC.format(folder=folder))
        return f"bash --noprofile --rcfile {room}/bashrc -i"
    if shell == "zsh":
        with open(f"{room}/.zshrc", "w", encoding="utf-8") as file:
            file.write(ZSHRC.format(folder=folder))
        return f"env ZDOTDIR={room} zsh -i"
    return f"fish --no-config --init-command \"{FISH.format(folder=folder)}\""


def waits(socket, wanted):
    """Waits for a line of the screen; returns None if it comes within the limit, otherwise the screen."""
    end = time.monotonic() + SECONDS
    shown = ""
    while time.monotonic() < end:
        shown = tmux(socket, "capture-pane", "-p", "-t", "t")
        lines = [it.rstrip() for it in shown.splitlines() if it.strip()]
        if any(wanted(it) for it in lines):
            return None
        time.sleep(0.1)
    return shown.strip()


def clear(socket):
    """Deletes the line that was typed, and waits until there is only the prompt.

    The keys are read in order. Control-C would be a signal, which may come after the next line's first letters.
    """
    tmux(socket, "send-keys", "-t", "t", "C-u")
    tmux(socket, "send-keys", "-t", "t", "C-l")
    end = time.monotonic() + SECONDS
    while time.monotonic() < end:
        shown = tmux(socket, "capture-pane", "-p", "-t", "t")
        if [it.strip() for it in shown.splitlines() if it.strip()] == [">"]:
            return
        time.sleep(0.1)


def faults_of(shell, folder, bin_folder):
    """The lines that a shell doesn't complete."""
    with tempfile.TemporaryDirectory() as room:
        socket, data = f"{room}/tmux", f"{TOP}/crates/hagzimot/data"
        path = f"{bin_folder}:{os.environ['PATH']}"
        command = f"env HOME={room} PATH={path} TERM=screen {start(shell, folder, room)}"
        tmux(socket, "new-session", "-d", "-s", "t", "-x", "150", "-y", "40", "-c", data, command)
        try:
            if waits(socket, lambda it: it.startswith(">")) is not None:
                yield f"{shell} doesn't start"
                return
            for typed, wanted in TYPED:
                tmux(socket, "send-keys", "-t", "t", "-l", typed)
                waits(socket, lambda it, typed=typed: it.startswith(f"> {typed}"))
                tmux(socket, "send-keys", "-t", "t", "Tab")
                shown = waits(socket, lambda it, wanted=wanted: it == f"> {wanted}" or it.startswith(f"> {wanted} ") or it == f"> {wanted}=")
                if shown is not None:
                    yield f"{shell}: '{typed}' doesn't become '{wanted}':\n{shown}"
                clear(socket)
        finally:
            tmux(socket, "kill-session", "-t", "t")


def main(program):
    shells = [it for it in ("bash", "zsh", "fish") if shutil.which(it)]
    lacking = [it for it in ("bash", "zsh", "fish") if it not in shells]
    if not shutil.which("tmux") or not shells:
        print("tmux isn't installed" if shells else "no shell is installed")
        return CANT_RUN
    with tempfile.TemporaryDirectory() as room:
        completions.write(program, f"{room}/completions")
        os.makedirs(f"{room}/bin")
        os.symlink(os.path.abspath(program), f"{room}/bin/hagzimot")
        faults = [fault for it in shells for fault in faults_of(it, f"{room}/completions", f"{room}/bin")]
    print("\n".join(faults), end="\n" if faults else "")
    without = f"; not installed: {', '.join(lacking)}" if lacking else ""
    print(f"completions: {len(TYPED)} lines in each of {', '.join(shells)}, {len(faults)} wrong{without}")
    return 1 if faults else 0


if __name__ == "__main__":
    sys.exit(main(sys.argv[1]) if len(sys.argv) == 2 else __doc__)
