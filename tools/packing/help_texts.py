"""Man pages, and completions for bash and zsh, from the help texts of `nicbench`, its commands, and `tools/races`."""

import re
import subprocess
import time

# The finder of races, as the Debian package names it
RACES = "nicbench-races"
# How the help of the finder names the place of the program, and how its page does
PLACE = ".build/nicbench of this repository", "nicbench of this release"
HEADING = re.compile(r"^(Commands|Arguments|Options):$")
# Words of the table of commands that have no help text of their own
NO_TEXT = ("help",)


class Help:
    """A help text: of the program, of one of its commands, or of the finder of races."""

    def __init__(self, name, text):
        self.name, self.text = name, text
        lines = text.strip().splitlines()
        self.summary = lines[0].rstrip(".")
        self.usage = next(line.split(":", 1)[1].strip() for line in lines if line.lower().startswith("usage:"))
        self.rest = lines[next(at for at, line in enumerate(lines) if line.lower().startswith("usage:")) + 1:]
        self.commands = dict(re.findall(r"^  (\w+) {2,}(.*)$", self.table("Commands"), re.M))
        self.options = self.options_of(self.table("Options") or text)

    def table(self, heading):
        """The indented lines after a heading; an empty text if there is no such heading."""
        found = re.search(rf"^{heading}:\n((?: .*\n)+)", self.text, re.M)
        return found[1] if found else ""

    @staticmethod
    def options_of(table):
        """Returns the options by their names without dashes: for each the name of its value, or an empty text, and what
        it does.
        """
        found = {}
        for line in table.splitlines():
            left, _, does = line.strip().partition("  ")
            if left.startswith("-") and line.startswith(" "):
                names = re.findall(r"--([\w-]+)(?:[ =]<?([^\s,>]+)>?)?", left)
                found.update({name: (value, does.strip()) for name, value in names})
                last = [name for name, _ in names]
            elif found and line.startswith("   ") and last:
                found.update({name: (found[name][0], f"{found[name][1]} {line.strip()}") for name in last})
            elif line.strip():
                last = []
        return found


def texts(program, races):
    """The help texts: that of the program first, those of its commands, and that of the finder of races."""
    def shown(*words):
        ran = subprocess.run([*words, "--help"], stdout=subprocess.PIPE, stderr=subprocess.STDOUT, text=True)
        return ran.stdout

    whole = Help("nicbench", shown(program))
    commands = [command for command in whole.commands if command not in NO_TEXT]
    parts = [Help(f"nicbench {command}", shown(program, command)) for command in commands]
    return [whole, *parts, Help(RACES, shown(*races).replace(*PLACE).replace("tools/races", RACES))]


# Man pages

def roff(text):
    """A line of text, with the characters escaped that are commands of roff."""
    text = text.replace("\\", "\\e").replace("-", "\\-")
    return f"\\&{text}" if text[:1] in (".", "'") else text


def paragraphs(lines):
    """Yields the lines of roff for these lines. Texts are filled, and tables and examples keep their lines."""
    block = []
    for line in [*lines, ""]:
        if line.strip():
            block.append(line)
        elif block:
            if HEADING.match(block[0]):
                yield f".SH {block[0][:-1].upper()}"
                block = block[1:]
            is_text = block and not block[0].startswith(" ")
            if is_text:
                yield from [".PP", *map(roff, block)]
            elif block:
                yield from [".PP", ".nf", *map(roff, block), ".fi"]
            block = []


def man_page(text, version, moment):
    """Returns the man page of a help text, in section 1. `moment` is its date, in seconds since 1970."""
    name = text.name.replace(" ", "-")
    date = time.strftime("%Y-%m-%d", time.gmtime(moment))
    # the description comes after the last table
    end, is_table = 0, False
    for at, line in enumerate(text.rest, 1):
        is_table = bool(HEADING.match(line)) or is_table and bool(line.strip())
        end = at if is_table else end
    lines = [f'.TH {name.upper()} 1 "{date}" "nicbench {version}" "nicbench"',
             ".SH NAME", f"{roff(name)} \\- {roff(text.summary)}", ".SH SYNOPSIS", f".B {roff(text.usage)}",
             *paragraphs(text.rest[:end]), ".SH DESCRIPTION", *paragraphs(text.rest[end:])]
    return "\n".join(lines) + "\n"


def man_pages(found, version, moment):
    """Returns the man pages of these help texts, by file name."""
    return {f"{text.name.replace(' ', '-')}.1": man_page(text, version, moment) for text in found}


# Completions

BASH = """# bash completion for nicbench and nicbench-races, made from their help texts
_nicbench() {
    local current=${COMP_WORDS[COMP_CWORD]} words=
    COMPREPLY=()
    if [ "$COMP_CWORD" -eq 1 ]; then
        words='@FIRST@'
    else
        case ${COMP_WORDS[1]} in
@CASES@
        esac
        # other words are names of files
        case $current in -*) ;; *) return ;; esac
    fi
    COMPREPLY=($(compgen -W "$words" -- "$current"))
}
_nicbench_races() {
    local word
    COMPREPLY=()
    # the words after -- are a command
    for word in "${COMP_WORDS[@]:1:COMP_CWORD - 1}"; do
        [ "$word" = -- ] && return
    done
    case ${COMP_WORDS[COMP_CWORD]} in
        -*) COMPREPLY=($(compgen -W '@RACES@' -- "${COMP_WORDS[COMP_CWORD]}")) ;;
    esac
}
complete -o default -F _nicbench nicbench
complete -o default -F _nicbench_races nicbench-races
"""
ZSH = """#compdef nicbench nicbench-races
# zsh completion for nicbench and nicbench-races, made from their help texts
_nicbench() {
    local context state line
    local -a commands=(
@COMMANDS@
    )
    if [[ $service = nicbench-races ]]; then
        _arguments @RACES@ '*::command:_normal'
        return
    fi
    _arguments -C @OPTIONS@ '1:command:->command' '*::word:->word'
    case $state in
        command) _describe command commands ;;
        word)
            case $line[1] in
@CASES@
            esac ;;
    esac
}
_nicbench "$@"
"""


def flags(text):
    return " ".join(f"--{name}" for name in text.options)


def bash(found):
    whole, *parts, races = found
    cases = "\n".join(f"            {text.name.split()[1]}) words='{flags(text)}' ;;" for text in parts)
    first = f"{' '.join(whole.commands)} {flags(whole)}"
    return BASH.replace("@FIRST@", first).replace("@CASES@", cases).replace("@RACES@", f"{flags(races)} --")


def quoted(text):
    return "'" + text.replace("'", "'\\''") + "'"


def zsh_options(text):
    """The options of a help text, as words of _arguments."""
    def word(name, value, does):
        does = re.sub(r"([\[\]:\\])", r"\\\1", does.split(". ")[0])
        return quoted(f"--{name}{'=' * bool(value)}[{does}]" + (f":{value.replace(':', ' ')}:_files" if value else ""))

    return " ".join(word(name, value, does) for name, (value, does) in text.options.items())


def zsh(found):
    whole, *parts, races = found
    escaped = {name: does.replace(":", "\\:") for name, does in whole.commands.items()}
    commands = "\n".join(f"        {quoted(f'{name}:{does}')}" for name, does in escaped.items())
    cases = "\n".join(f"                {text.name.split()[1]}) _arguments {zsh_options(text)} '*:file:_files' ;;"
                      for text in parts)
    return (ZSH.replace("@COMMANDS@", commands).replace("@CASES@", cases).replace("@OPTIONS@", zsh_options(whole))
            .replace("@RACES@", zsh_options(races)))
