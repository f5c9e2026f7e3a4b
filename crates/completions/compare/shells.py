"""Shells that report what they offer at a cursor: bash and zsh on a pseudo terminal, fish by `complete -C`."""
import os
import pathlib
import pty
import select
import subprocess
import time

# Each word that a shell reports ends with this byte.
END = b"\0"

BASH = r"""
PS1= PROMPT_COMMAND=
bind 'set bell-style none'; bind 'set completion-query-items 0'; bind 'set page-completions off'; bind 'set enable-bracketed-paste off'
source "$SCRIPT"
for it in $(compgen -A function _clidoc_); do
    case $it in *__reply)
        eval "whole_$(declare -f "$it")"
        eval "$it() { offered=(\"\${found[@]}\"); whole_$it; }" ;;
    esac
done
tell() { printf '%s\0' "$READLINE_LINE" "${offered[@]}" >"$TOLD.new"; mv "$TOLD.new" "$TOLD"; offered=(); READLINE_LINE=; READLINE_POINT=0; }
bind -x '"\C-xq":tell'
cd "$ROOM"; : >"$TOLD"
"""

ZSH = r"""
PS1= ; unsetopt beep promptsp promptcr zle_bracketed_paste 2>/dev/null; LISTMAX=100000; zle_bracketed_paste=()
autoload -Uz compinit; compinit -u -D
source "$SCRIPT"
typeset -ga offered
compadd() {
    if [[ -n ${(M)@[1,(i)(-|--)]:#-*[OAD]} ]]; then builtin compadd "$@"; return; fi
    local -a hits; local it end= front=; local -i i is_quoted=0
    for ((i = 1; i <= $#; i++)); do
        case $argv[i] in (--|-) break ;; (-S) end=$argv[i+1]; i+=1 ;; (-*Q*) is_quoted=1 ;; (-p) front=$argv[i+1]; i+=1 ;; esac
    done
    builtin compadd -O hits "$@"
    for it in "${hits[@]}"; do if ((is_quoted)); then it=${(Q)it}; fi; offered+=("${(Q)IPREFIX}${(Q)front}$it${end%% }"); done
    builtin compadd "$@"
}
tell() { printf '%s\0' "$BUFFER" "${(@)offered}" >"$TOLD.new"; mv "$TOLD.new" "$TOLD"; offered=(); BUFFER=; zle -I; }
zle -N tell; bindkey '^Xq' tell; bindkey '^I' complete-word
cd "$ROOM"; : >"$TOLD"
"""


class Terminal:
    """An interactive shell on a pseudo terminal."""

    def __init__(self, shell, script, room, told, home):
        self.told = pathlib.Path(told)
        self.told.unlink(missing_ok=True)
        environment = {
            **{key: os.environ[key] for key in ("PATH", "LANG", "LC_ALL") if key in os.environ},
            "SCRIPT": str(script), "ROOM": str(room), "TOLD": str(told), "HOME": str(home), "HOSTFILE": f"{home}/hosts", "TERM": "dumb", "LC_ALL": "C.UTF-8",
        }
        words = {"bash": ["bash", "--norc", "--noprofile", "-i"], "zsh": ["zsh", "-f", "-i"]}[shell]
        self.process, self.terminal = pty.fork()
        if not self.process:
            os.execvpe(words[0], words, environment)
        begun = pathlib.Path(f"{told}.{shell}")
        begun.write_text({"bash": BASH, "zsh": ZSH}[shell])
        self.send(f" source {begun}\n".encode())
        self.wait()

    def send(self, keys):
        os.write(self.terminal, keys)

    def wait(self):
        """What the shell reports, when it does."""
        end = time.monotonic() + 20
        shown = b""
        while not self.told.exists():
            if time.monotonic() > end:
                raise TimeoutError(f"the shell told nothing; it showed {shown[-2000:]!r}")
            if select.select([self.terminal], [], [], 0.02)[0]:
                shown += os.read(self.terminal, 65536)
        said = self.told.read_bytes()
        self.told.unlink()
        return [word.decode() for word in said.split(END)[:-1]]

    def offers(self, typed):
        """The line after a tab, and the words that are offered for the one at the cursor."""
        self.send(typed.encode() + b"\t\x18q")
        line, *words = self.wait()
        return line, set(words)

    def close(self):
        os.close(self.terminal)
        os.kill(self.process, 9)
        os.waitpid(self.process, 0)


class Fish:
    """A fish that is asked."""

    def __init__(self, script, room, home):
        self.room, self.home, self.script = room, home, script

    def offers(self, typed):
        words = ["fish", "--no-config", "-c", "source $argv[1]; complete -C $argv[2]", str(self.script), typed]
        run = subprocess.run(words, cwd=self.room, env={**os.environ, "HOME": str(self.home), "LC_ALL": "C.UTF-8"}, capture_output=True, check=True)
        return None, {line.split("\t")[0] for line in run.stdout.decode().splitlines()}

    def close(self):
        pass


def started(shell, script, room, told, home):
    return Fish(script, room, home) if shell == "fish" else Terminal(shell, script, room, told, home)
