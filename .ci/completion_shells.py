"""What bash, zsh and fish complete, asked of the shells themselves over installed completions.

bash and zsh run in a pseudo-terminal, as for a user. One key inserts all completions into the line,
and another one writes the line to a pipe. fish prints its completions if asked.
"""

from __future__ import annotations

import fcntl
import os
import pty
import select
import signal
import struct
import subprocess
import termios
import time
from pathlib import Path

SECONDS = 60.0  # for an answer, on a busy machine
TAB, LIST, INSERT_ALL, RECORD = "\t", "\x04", "\x1bq", "\x18r"

BASH = r"""
PS1=
unset HISTFILE
. /usr/share/bash-completion/bash_completion
record() { printf '%s\n' "$READLINE_LINE" > "$ANSWERS"; READLINE_LINE=; READLINE_POINT=0; }
bind '"\eq": insert-completions'
bind -x '"\C-xr": record'
echo ready > "$ANSWERS"
"""
ZSH = r"""
PS1=
unset HISTFILE zle_bracketed_paste
fpath=("${XDG_DATA_DIRS%%:*}/zsh/site-functions" $fpath)
autoload -Uz compinit && compinit -D -u
zstyle ':completion:every:*' completer _all_matches _complete
zstyle ':completion:every:*' insert yes
zle -C every complete-word _generic
bindkey '\eq' every
integer records
record() {
    print -r -- "$BUFFER" > "$ANSWERS"
    BUFFER=
    print -n "<record $((++records))>" > /dev/tty
}
zle -N record
bindkey '^Xr' record
print ready > "$ANSWERS"
"""
FISH = "while read --line line; complete --do-complete $line; echo; end"


def environment(share: Path, home: Path, answers: str = "") -> dict[str, str]:
    """The environment of a shell that finds completions in this folder first."""
    shares = f"{share}:{os.environ.get('XDG_DATA_DIRS', '/usr/local/share:/usr/share')}"
    own = {"XDG_DATA_DIRS": shares, "HOME": str(home), "ANSWERS": answers}
    # fish completes only commands that it finds.
    own["PATH"] = f"{share.parent / 'bin'}:{os.environ['PATH']}"
    return {**os.environ, **own, "TERM": "xterm", "LC_ALL": "C.UTF-8"}


class Terminal:
    """An interactive shell in the folder `files` of a room."""

    def __init__(self, words: list[str], script: str, share: Path, room: Path) -> None:
        path, start = room / f"answers-{words[0]}", room / f"start-{words[0]}"
        os.mkfifo(path)
        # Open for writing too, so that it has no end between two answers.
        self.answers = os.open(path, os.O_RDWR)
        start.write_text(script)
        self.shown, self.records = b"", 0
        self.child, self.terminal = pty.fork()
        if self.child == 0:
            os.chdir(room / "files")
            os.execvpe(words[0], words, environment(share, room, str(path)))
        # So wide that no description is cut.
        fcntl.ioctl(self.terminal, termios.TIOCSWINSZ, struct.pack("HHHH", 200, 400, 0, 0))
        self.type(f". '{start}'\n")

    def read(self, end: float) -> bytes:
        """Reads what the terminal shows, and what the pipe has. Returns the latter."""
        both = [self.terminal, self.answers]
        ready = select.select(both, [], [], max(0.0, end - time.monotonic()))[0]
        if not ready:
            raise TimeoutError(f"the shell doesn't answer after {self.shown[-2000:]!r}")
        if self.terminal in ready:
            self.shown += os.read(self.terminal, 65536)
        return os.read(self.answers, 65536) if self.answers in ready else b""

    def type(self, text: str) -> str:
        """Types a text, and returns the next line of the pipe."""
        os.write(self.terminal, text.encode())
        self.records += text.count(RECORD)
        answer, end = b"", time.monotonic() + SECONDS
        while not answer.endswith(b"\n"):
            answer += self.read(end)
        return answer.decode().rstrip("\n")

    def show(self) -> None:
        """Reads what zsh has shown up to the last record, which may come after its answer."""
        end = time.monotonic() + SECONDS
        while f"<record {self.records}>".encode() not in self.shown:
            self.read(end)

    def after_tab(self, line: str) -> str:
        """Returns what the line is after the key Tab."""
        return self.type(line + TAB + RECORD)

    def listed(self, line: str) -> str:
        """Returns what zsh shows when completions of the line are listed."""
        self.show()
        self.shown = b""
        self.type(line + LIST + RECORD)
        self.show()
        return self.shown.decode()

    def completions(self, line: str) -> set[str]:
        """Returns all completions of the last word of a line."""
        found = self.type(line + INSERT_ALL + RECORD)
        last = line.rfind(" ") + 1
        return set() if found == line else {value_of(word) for word in found[last:].split()}

    def end(self) -> None:
        os.kill(self.child, signal.SIGKILL)
        os.waitpid(self.child, 0)
        os.close(self.terminal)
        os.close(self.answers)


def value_of(word: str) -> str:
    """The value in `--option=value`; the option in `--option=`."""
    option, equals, value = word.partition("=")
    return value if equals and value else option


def bash(share: Path, room: Path) -> Terminal:
    return Terminal(["bash", "--norc", "--noprofile", "-i"], BASH, share, room)


def zsh(share: Path, room: Path) -> Terminal:
    return Terminal(["zsh", "-f", "-i"], ZSH, share, room)


def fish(share: Path, room: Path, lines: list[str]) -> list[dict[str, str]]:
    """Returns the completions of each line, with their descriptions."""
    ran = subprocess.run(
        ["fish", "--command", FISH],
        cwd=room / "files",
        env=environment(share, room),
        input="".join(line + "\n" for line in lines),
        check=True,
        stdout=subprocess.PIPE,
        text=True,
        timeout=5 * SECONDS,
    )
    found: list[dict[str, str]] = [{}]
    for line in ran.stdout.splitlines():
        word, _, text = line.partition("\t")
        if word:
            found[-1][value_of(word)] = text
        else:
            found.append({})
    return found[:-1]
