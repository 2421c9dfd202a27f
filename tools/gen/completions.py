#!/usr/bin/env python3
"""Makes what shells complete of the words after `firnuubal`, docs/completions, from the texts of `--help`.

    python3 tools/gen/completions.py [--check]

The commands and their options are those of the pages that tools/gen/man.py makes. There is a file for bash, one for fish
and one for zsh. With --check nothing is written. Then bash, and zsh where it is there, are asked what they complete by
their files, and the status is 1 where that is something else than it should be, or where a file differs from what would
be made.
"""

import pathlib
import re
import shutil
import subprocess
import sys
import tempfile

import man

FILES = pathlib.Path(__file__).resolve().parents[2] / "docs/completions"
HEAD = "# What a shell completes after firnuubal. Made by tools/gen/completions.py.\n"

# The words after an option, by the word that its help has for it: those of these words that its help names, or any text
# if there are none. FILE is a file.
WORDS = {"FORMAT": ["lines", "json", "sarif"], "NAME": ["jinja", "mustache", "erb"]}
WORDS.update(dict.fromkeys(("LABEL", "URL", "ELEMENT", "ELEMENT.ATTRIBUTE", "ELEMENT.ATTRIBUTE=VALUE"), []))

# Words that were typed, the last not to its end, and what bash and zsh complete.
CASES = [
    (["li"], ["links"]),
    (["--"], ["--help", "--version"]),
    (["text", "--e"], ["--encoding", "--entities"]),
    (["clean", "--p"], ["--policy", "--print-policy", "--progress"]),
    (["tokens", "--p"], ["--progress"]),
    (["tokens", "--po"], []),
    (["links", "--format", ""], ["lines", "json"]),
    (["links", "page", "--format", "j"], ["json"]),
    (["tokens", "--format", "s"], []),
    (["check", "--format", ""], ["lines", "json", "sarif"]),
    (["check", "--format", "s"], ["sarif"]),
    (["check", "--template", ""], ["jinja", "mustache", "erb"]),
    (["links", "--base", "h"], []),
    (["rewrite", "--set", "--d"], []),
    (["rewrite", "--set", "a.rel=x", "--d"], ["--drop"]),
    (["links", "--", "--f"], []),
    (["links", "--policy", "--f"], ["--fatal", "--format"]),
]

BASH = """\
_firnuubal() {{
    local word=${{COMP_WORDS[COMP_CWORD]}} words= at
    COMPREPLY=()
    for ((at = 1; at < COMP_CWORD; at++)); do
        [[ ${{COMP_WORDS[at]}} == -- ]] && return
    done
    case ${{COMP_WORDS[1]}}:${{COMP_WORDS[COMP_CWORD - 1]}} in
{after}
    *)
        ((COMP_CWORD == 1)) && words="{first}"
        [[ $word == -* ]] && case ${{COMP_WORDS[1]}} in
{options}
        esac
        ;;
    esac
    COMPREPLY=($(compgen -W "$words" -- "$word"))
}}
complete -o default -F _firnuubal firnuubal
"""


def options_of(text):
    """The options of a text: the name of each, the word for its argument, if there is one, what it is, and the words
    that may stand after it: None where that is a file."""
    for option, lines in man.parts(text)[2]:
        name, _, word = option.rpartition(", ")[2].partition(" ")
        said = " ".join(lines).partition("Example:")[0]
        known = [one for one in WORDS[word] if re.search(rf"\b{one}\b", said)] if word in WORDS else None
        yield name, word, re.split(r"[.:;](?:\s|$)", said.strip())[0], known


def names_of(text):
    """The names of these options, joined by spaces."""
    return " ".join(name for name, *_ in options_of(text))


ZSH = """\
#compdef firnuubal
{head}
_firnuubal() {{
    local -a words_of
    if ((CURRENT == 2)); then
        words_of=(
{first}
        )
        [[ $words[CURRENT] == -* ]] && words_of=(
{asking}
        )
        _describe word words_of
        return
    fi
    shift words
    ((CURRENT--))
    case $words[1] in
{options}
    esac
}}
if [[ $funcstack[1] == _firnuubal ]]; then
    _firnuubal "$@"
else
    compdef _firnuubal firnuubal
fi
"""


def commands():
    """The name of each command, what it prints, and the text of its help."""
    texts = man.texts()
    return [(name, what, texts[name]) for name, what in man.COMMAND.findall(texts["help"])]


def bash():
    """The function that bash calls."""
    after, options = [], []
    for command, _, text in commands():
        options.append(f'        {command}) words="{names_of(text)}" ;;')
        for name, word, _, known in options_of(text):
            if word:
                after.append(f'    {command}:{name}) words="{" ".join(known or [])}" ;;')
    first = " ".join([*(command for command, _, _ in commands()), names_of(man.texts()["help"])])
    return HEAD + BASH.format(after="\n".join(after), options="\n".join(options), first=first)


def fish():
    """The lines that fish reads."""
    lines = []
    for command, what, _ in commands():
        lines.append(f"complete -c firnuubal -f -n __fish_use_subcommand -a {command} -d {quoted(what)}")
    for name, _, what, _ in options_of(man.texts()["help"]):
        lines.append(f"complete -c firnuubal -f -n __fish_use_subcommand -l {name[2:]} -d {quoted(what)}")
    for command, _, text in commands():
        for name, word, what, known in options_of(text):
            after = " -r -F" if known is None else f" -x -a {quoted(' '.join(known))}"
            where = quoted(f"__fish_seen_subcommand_from {command}")
            lines.append(f"complete -c firnuubal -n {where} -l {name[2:]}{after if word else ''} -d {quoted(what)}")
    return HEAD + "\n".join(lines) + "\n"


def zsh():
    """The function that zsh calls."""
    first = [zsh_quoted(f"{command}:{what}") for command, what, _ in commands()]
    asking = [zsh_quoted(f"{name}:{what}") for name, _, what, _ in options_of(man.texts()["help"])]
    options = []
    for command, _, text in commands():
        options += [f"    {command})", "        _arguments -S \\"]
        for name, word, what, known in options_of(text):
            after = f":{word}:{zsh_words(known)}" if word else ""
            options.append("            " + zsh_quoted(f"{name}[{what}]{after}") + " \\")
        options += ["            '*:FILE:_files'", "        ;;"]
    rows = ["\n".join(" " * 12 + word for word in words) for words in (first, asking)]
    return ZSH.format(head=HEAD.rstrip("\n"), first=rows[0], asking=rows[1], options="\n".join(options))


def zsh_words(known):
    """The argument of an option, as zsh says it: one of these words, any text if there are none, or a file."""
    return "_files" if known is None else f"({' '.join(known)})" if known else " "


def zsh_quoted(text):
    """A text within single quotes, as zsh reads it."""
    return "'" + text.replace("'", "'\\''") + "'"


def quoted(text):
    """A text within single quotes, as fish reads it."""
    return "'" + text.replace("\\", "\\\\").replace("'", "\\'") + "'"


def completed(words):
    """What bash completes of words by its file."""
    script = 'source "$1"; shift; COMP_WORDS=(firnuubal "$@"); COMP_CWORD=$#; _firnuubal; printf "%s\\n" "${COMPREPLY[@]}"'
    given = ["bash", "-c", script, "bash", FILES / "firnuubal.bash", *words]
    return subprocess.run(given, capture_output=True, text=True, check=True).stdout.split()


# The input of zsh, which has a terminal of its own: to print each word that it would add, and to end then.
ZSH_ASKED = """\
zmodload zsh/zpty
zpty asked zsh -f -i
zpty -w asked "source $1"
zpty -r asked line '*READY*'
zpty -w -n asked "firnuubal ${(j: :)@[2,-1]}"$'\\t'
zpty -r asked line $'*\\x02*'
print -r -- "$line"
"""
ZSH_TOLD = """\
PROMPT=
fpath=({folder} $fpath)
autoload -Uz compinit
compinit -u -D
zstyle ':completion:*' insert-tab false
bindkey '^I' complete-word
compadd() {{
    [[ ${{@[1,(i)(-|--)]}} == *-(O|A|D)* ]] && {{ builtin compadd "$@"; return; }}
    local -a found
    builtin compadd -A found "$@"
    local word
    for word in $found; do print -r -- $'\\x01'$word; done
    builtin compadd "$@"
}}
ended() {{ print -r -- $'\\x02'; exit }}
comppostfuncs=(ended)
print READY
"""


def zsh_completed(words):
    """What zsh completes of words by its file."""
    with tempfile.TemporaryDirectory() as folder:
        told = pathlib.Path(folder) / "told"
        told.write_text(ZSH_TOLD.format(folder=FILES), encoding="utf-8")
        empty = pathlib.Path(folder) / "empty"
        empty.mkdir()
        given = ["zsh", "-f", "-c", ZSH_ASKED, "zsh", told, *words]
        answer = subprocess.run(given, capture_output=True, text=True, check=True, timeout=60, cwd=empty).stdout
    return list(dict.fromkeys(re.findall(r"\x01(\S+)", answer)))


def main():
    check = sys.argv[1:] == ["--check"]
    wrong = 0
    FILES.mkdir(exist_ok=True)
    files = {"firnuubal.bash": bash(), "firnuubal.fish": fish(), "_firnuubal": zsh()}
    for name, text in files.items():
        path = FILES / name
        if not check:
            path.write_text(text, encoding="utf-8")
        elif not path.is_file() or path.read_text(encoding="utf-8") != text:
            wrong += 1
            print(f"tools/gen/completions.py: docs/completions/{name} is not what the help says; run python3 tools/gen/completions.py")
    shells = {"bash": completed, **({"zsh": zsh_completed} if shutil.which("zsh") else {})}
    for shell, completes in shells.items():
        for words, wanted in CASES:
            found = completes(words)
            if sorted(found) != sorted(wanted):
                wrong += 1
                print(f"tools/gen/completions.py: of {words} {shell} completes {found}, and not {wanted}")
    print(f"tools/gen/completions.py: {len(files)} files, {len(CASES)} cases by {' and '.join(shells)}, {wrong} otherwise")
    return min(wrong, 1)


if __name__ == "__main__":
    sys.exit(main())
