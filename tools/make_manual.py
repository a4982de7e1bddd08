#!/usr/bin/env python3
"""Makes the manual page and the shell completions of focusd from what its own help and its codes say.

    tools/make_manual.py out/focusd            writes the files below share/
    tools/make_manual.py out/focusd --check    says which of them are not what the program says, and writes none

The program is asked for `--help` and for `COMMAND --help`: so a page or a completion can't name an option that the program doesn't
take. It is asked by `explain` for each code that it prints, what that means and what to do. Exit status: 0; 1 where --check found a difference; 2 where the help can't be read.
"""

import os
import re
import subprocess
import sys
from dataclasses import dataclass, field

from command_line import TOP, parser_of

# What is made, below the top of the repository.
MANUAL = "share/man/man1/focusd.1"
BASH = "share/bash-completion/completions/focusd"
ZSH = "share/zsh/site-functions/_focusd"
FISH = "share/fish/vendor_completions.d/focusd.fish"
# Options whose value is a folder, and arguments that are files.
FOLDERS = ("--dir", "--into")
FILES = ("FILE",)


class HelpError(Exception):
    """A help that can't be read."""


@dataclass
class Option:
    """An option: its names, the name of its value if it takes one, and what it says."""

    names: list
    value: str
    help: str

    @property
    def words(self):
        """The values that the option takes, where the help lists them."""
        listed = re.search(r"\[possible values: ([^\]]*)\]", self.help)
        return listed[1].split(", ") if listed else []

    @property
    def summary(self):
        """What it says, without the values and the default."""
        return re.sub(r"\s*\[(possible values|default): [^\]]*\]", "", self.help)


@dataclass
class Help:
    """What a help says."""

    about: str
    usage: str
    commands: dict = field(default_factory=dict)
    arguments: list = field(default_factory=list)
    options: list = field(default_factory=list)
    after: str = ""


def printed(program, words):
    """What the program prints."""
    done = subprocess.run([program, *words], stdout=subprocess.PIPE, stderr=subprocess.PIPE, text=True, check=False)
    if done.returncode or not done.stdout.strip():
        raise HelpError(f"{program} {' '.join(words)} printed nothing: {done.stderr.strip()[:200]}")
    return done.stdout


def asked(program, words):
    """The help that the program prints."""
    return printed(program, [*words, "--help"])


def explained(program):
    """What the program says of each code that it prints: the code with its name, what it means, and what to do."""
    words = [[line.split(":")[0].split()[0]] for line in printed(program, ["explain"]).splitlines()]
    found = []
    for word in words:
        said = re.fullmatch(r"([^:\n]+): (.+)\n(What to do: .+)\n", printed(program, ["explain", *word]))
        if not said:
            raise HelpError(f"{program} explain {word[0]} doesn't say what it means and what to do")
        found.append(said.groups())
    return found


def entries(lines):
    """The entries of a section: a name at two spaces or more, and its text, which may go on further to the right."""
    found = []
    for line in lines:
        entry = re.fullmatch(r" {2,6}(\S.*?)(?: {2,}(\S.*))?", line)
        if entry and len(line) - len(line.lstrip()) <= 6:
            found.append([entry[1], entry[2] or ""])
        elif line.strip() and found:
            found[-1][1] = f"{found[-1][1]} {line.strip()}".strip()
    return found


def option_of(name, text):
    """An option of its entry, as `-h, --help` or `--dir <DIR>`."""
    names = re.findall(r"(?<!\S)(--?[\w-]+)", name)
    value = re.search(r"<([^>]*)>", name)
    if not names:
        raise HelpError(f"no option: {name}")
    return Option(names, value[1] if value else "", text)


def read_help(text):
    """A help, read: the lines of about, usage, and the sections Commands, Arguments and Options, and what follows them."""
    about, _, rest = text.partition("\n\n")
    usage = re.match(r"Usage: (.*)\n", rest)
    if not usage:
        raise HelpError("no usage")
    made = Help(" ".join(about.split()), usage[1])
    blocks = rest[usage.end() :].strip("\n").split("\n\n")
    while blocks and re.match(r"(Commands|Arguments|Options):\n", blocks[0]):
        title, *lines = blocks.pop(0).split("\n")
        listed = entries(lines)
        if title == "Commands:":
            made.commands = dict(listed)
        elif title == "Arguments:":
            made.arguments = [tuple(it) for it in listed]
        else:
            made.options = [option_of(name, said) for name, said in listed]
    made.after = "\n\n".join(blocks).rstrip("\n")
    if not made.options:
        raise HelpError("no options")
    return made


def roff(text):
    """A text as a manual page has it."""
    escaped = text.replace("\\", "\\e").replace("-", "\\-")
    return re.sub(r"(?m)^([.'])", r"\\&\1", escaped)


def roff_option(option):
    names = ", ".join(f"\\fB{roff(name)}\\fR" for name in option.names)
    value = f" \\fI{roff(option.value)}\\fR" if option.value else ""
    return f".TP\n{names}{value}\n{roff(option.help)}\n"


def roff_after(text):
    """What follows the options, laid out as the help has it."""
    return f".PP\n.nf\n{roff(text)}\n.fi\n" if text else ""


def manual(version, top, helps, codes):
    """The manual page."""
    made = f'.TH FOCUSD 1 "" "{version}" "User Commands"\n'
    made += f".SH NAME\nfocusd \\- {roff(top.about[0].lower() + top.about[1:])}\n"
    made += f".SH SYNOPSIS\n.B focusd\n\\fICOMMAND\\fR [\\fIOPTIONS\\fR]\n.SH DESCRIPTION\n{roff(top.about)}.\n{roff_after(top.after)}.SH COMMANDS\n"
    for name, said in helps.items():
        made += f".SS {name}\n{roff(said.about)}.\n.PP\n\\fB{roff(said.usage)}\\fR\n"
        made += "".join(f".TP\n\\fI{roff(argument)}\\fR\n{roff(text)}\n" for argument, text in said.arguments)
        made += "".join(roff_option(option) for option in said.options)
        made += roff_after(said.after)
    if codes:
        made += ".SH CODES\nWhat each code means that a command prints, and what to do.\n"
        made += "".join(f".TP\n\\fB{roff(name)}\\fR\n{roff(meaning)}\n{roff(remedy)}\n" for name, meaning, remedy in codes)
    return made


def is_file(argument):
    return any(kind in argument for kind in FILES)


def takes_files(said):
    return any(is_file(argument) for argument, _ in said.arguments)


def is_folder(option):
    return option.names[-1] in FOLDERS


BASH_START = r"""# bash completion of focusd, for bash 4 and later. Made by tools/make_manual.py from the program's help.

# Offers those of a list of words that begin with $2.
_focusd_words() {
    mapfile -t COMPREPLY < <(compgen -W "$1" -- "$2")
}

# Offers the files (-f) or the folders (-d) whose names begin with $2. bash quotes what it inserts.
_focusd_names() {
    local place name variable
    compopt -o filenames 2>/dev/null
    mapfile -t COMPREPLY < <(compgen "$1" -- "$2")
    for place in "${!COMPREPLY[@]}"; do
        name="${COMPREPLY[place]}"
        # A leading ~ or $NAME is written out, since bash can't quote a name behind it in each case.
        if [[ ! -e $name && ! -L $name ]]; then
            case "$name" in
                '~/'*) name="$HOME${name:1}" ;;
                '$'[A-Za-z_]*/*)
                    variable="${name%%/*}" variable="${variable:1}"
                    [[ $variable == *[!A-Za-z0-9_]* ]] || name="${!variable}/${name#*/}"
                    ;;
            esac
        fi
        # compgen prints a line for each name, so one with a line feed comes in pieces. What isn't there is left to bash's own completion.
        if [[ ! -e $name && ! -L $name ]]; then
            COMPREPLY=()
            if [[ $1 == -d ]]; then compopt -o dirnames; else compopt -o default; fi 2>/dev/null
            return
        fi
        # A name that begins with - would be taken for an option.
        [[ -z $2 && $name == -* ]] && name="./$name"
        COMPREPLY[place]="$name"
    done
}

_focusd() {
    local IFS=$' \t\n' here="${COMP_WORDS[COMP_CWORD]}" command="${COMP_WORDS[1]}" options="" takes_files="" past_options=""
    local word="${2-$here}" before="${3-${COMP_WORDS[COMP_CWORD-1]}}"
    COMPREPLY=()
    # bash cuts words at =, : and @ without quotes. So --dir=costs comes as three words; of a name that is cut the start is not known.
    if [[ $before == = && ${COMP_WORDS[COMP_CWORD-2]} == --* ]]; then
        before="${COMP_WORDS[COMP_CWORD-2]}"
    elif [[ $before == [=:@]* || ( $here == [=:@]* && $before != --* ) ]]; then
        return
    fi
    case "$before" in
        '<' | '>' | '>>' | '<>' | '>|' | '>&' | '&>') _focusd_names -f "$word"; return ;;
    esac
"""
BASH_END = r"""    esac
    [[ " ${COMP_WORDS[*]:2:COMP_CWORD-2} " == *" -- "* ]] && past_options=yes
    if [[ $takes_files && ( $word != -* || $past_options ) ]]; then
        _focusd_names -f "$word"
    else
        _focusd_words "$options" "$word"
    fi
}
complete -F _focusd focusd
"""


def bash_value(option):
    """What offers the values of an option, if anything does."""
    if option.words:
        return f'_focusd_words "{" ".join(option.words)}" "$word"; '
    return '_focusd_names -d "$word"; ' if is_folder(option) else ""


def last_names(said):
    return " ".join(option.names[-1] for option in said.options)


def bash_completion(top, helps):
    """The completion of bash."""
    commands = " ".join(top.commands)
    made = BASH_START + '    if [[ $COMP_CWORD -eq 1 ]]; then\n'
    made += f'        if [[ $word == -* ]]; then options="{last_names(top)}"; else options="{commands}"; fi\n'
    made += '        _focusd_words "$options" "$word"\n        return\n    fi\n    case "$command $before" in\n'
    for name, said in helps.items():
        for option in said.options:
            if option.value:
                made += f'        "{name} {option.names[-1]}") {bash_value(option)}return ;;\n'
    made += '    esac\n    case "$command" in\n'
    for name, said in helps.items():
        made += f'        {name}) options="{last_names(said)}"{" takes_files=yes" if takes_files(said) else ""} ;;\n'
    return made + (f'        help) options="{" ".join(helps)}" ;;\n' if "help" in top.commands else "") + BASH_END


def zsh_text(text):
    return text.replace("'", "'\\''").replace("[", "\\[").replace("]", "\\]").replace(":", "\\:")


def zsh_value(option):
    if option.words:
        return f":{option.value}:({' '.join(option.words)})"
    return f":{option.value}:_files -/" if is_folder(option) else f":{option.value}:"


def zsh_arguments(said):
    """The options and the arguments of a command, as `_arguments` reads them. `-S`: after `--` there are no options."""
    made = "_arguments -S"
    for option in said.options:
        made += f" \\\n                '{option.names[-1]}[{zsh_text(option.summary)}]{zsh_value(option) if option.value else ''}'"
    for argument, _ in said.arguments:
        many = "*" if argument.endswith("...") else ""
        made += f" \\\n                '{many}:{re.sub(r'[^A-Z]', '', argument)}:{'_focusd_files' if is_file(argument) else ''}'"
    return made + "\n"


ZSH_START = """#compdef focusd
# Made by tools/make_manual.py from the program's help.

# Files. A name that begins with - would be taken for an option, so ./ stands before it.
_focusd_files() {
    if [[ -n $PREFIX ]]; then
        _files "$@"
        return
    fi
    local -i found=1
    _files -F '(-*)' "$@" && found=0
    _path_files -g '-*' -P ./ "$@" && found=0
    return found
}

_focusd() {
    local -a commands
    commands=(
"""


def zsh_completion(top, helps):
    """The completion of zsh."""
    made = ZSH_START
    made += "".join(f"        '{name}:{zsh_text(about)}'\n" for name, about in top.commands.items())
    made += "    )\n    if (( CURRENT == 2 )); then\n        if [[ $PREFIX == -* ]]; then\n"
    made += f"            {zsh_arguments(top)}        else\n            _describe command commands\n        fi\n        return\n    fi\n"
    made += "    local command=$words[2]\n    shift words\n    (( CURRENT-- ))\n    case $command in\n"
    for name, said in helps.items():
        made += f"        {name})\n            {zsh_arguments(said)}            ;;\n"
    if "help" in top.commands:
        made += "        help)\n            (( CURRENT == 2 )) && _describe command commands\n            ;;\n"
    return made + "    esac\n}\n_focusd \"$@\"\n"


def fish_text(text):
    return text.replace("\\", "\\\\").replace("'", "\\'")


FISH_START = """# Made by tools/make_manual.py from the program's help.

# Whether the command line has this command.
function __focusd_runs
    set -l words (commandline -opc)
    test (count $words) -gt 1; and test $words[2] = $argv[1]
end

complete -c focusd -f
"""


def fish_option(where, option):
    if option.words:
        takes = f" -x -a '{' '.join(option.words)}'"
    elif is_folder(option):
        takes = " -x -a '(__fish_complete_directories)'"
    else:
        takes = " -x" if option.value else ""
    return f"complete -c focusd -n {where} -l {option.names[-1].lstrip('-')}{takes} -d '{fish_text(option.summary)}'\n"


def fish_completion(top, helps):
    """The completion of fish."""
    made = FISH_START
    for name, about in top.commands.items():
        made += f"complete -c focusd -n __fish_use_subcommand -a {name} -d '{fish_text(about)}'\n"
    made += "".join(fish_option("__fish_use_subcommand", option) for option in top.options)
    for name, said in helps.items():
        where = f"'__focusd_runs {name}'"
        made += "".join(fish_option(where, option) for option in said.options)
        if takes_files(said):
            made += f"complete -c focusd -n {where} -F\n"
    if "help" in top.commands:
        made += f"complete -c focusd -n '__focusd_runs help' -a '{' '.join(helps)}'\n"
    return made


def made_of(program):
    """The files that the program's help and its codes make, by their paths."""
    top = read_help(asked(program, []))
    helps = {name: read_help(asked(program, [name])) for name in top.commands if name != "help"}
    codes = explained(program) if "explain" in helps else []
    version = subprocess.run([program, "--version"], stdout=subprocess.PIPE, text=True, check=False).stdout.strip()
    return {MANUAL: manual(version, top, helps, codes), BASH: bash_completion(top, helps), ZSH: zsh_completion(top, helps), FISH: fish_completion(top, helps)}


def main():
    parser = parser_of(__doc__)
    parser.add_argument("program", help="the built program")
    parser.add_argument("--check", action="store_true", help="write nothing, and say what differs")
    options = parser.parse_args()
    try:
        files = made_of(options.program)
    except (HelpError, OSError) as error:
        print(f"tools/make_manual.py: {error}", file=sys.stderr)
        return 2
    stale = []
    for path, text in files.items():
        target = os.path.join(TOP, path)
        if options.check:
            try:
                with open(target, encoding="utf-8") as file:
                    is_same = file.read() == text
            except OSError:
                is_same = False
            if not is_same:
                stale.append(path)
            continue
        os.makedirs(os.path.dirname(target), exist_ok=True)
        with open(target, "w", encoding="utf-8") as file:
            file.write(text)
    for path in stale:
        print(f"{path} is not what {options.program} says: run tools/make_manual.py {options.program}")
    return 1 if stale else 0


if __name__ == "__main__":
    sys.exit(main())
