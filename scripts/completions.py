"""Completions of bash for the program, its adapters and its tools, made from what each says of itself by --help."""

import re

OPTION = re.compile(r"^ {2,8}(?:-\w, )?(--[a-z\d-]+)(?: [<[]?([A-Z][^] >]*)[]>]?(?: \[[^]]*\])?)?(?:  |$)", re.MULTILINE)
ARGUMENT = re.compile(r"^  <?([A-Z]{3,})>?(?:  |$)", re.MULTILINE)
COMMANDS = re.compile(r"^(?:Commands:|  COMMAND)\n((?: +\S.*\n)+)", re.MULTILINE)
COMMAND = re.compile(r"^ {2,4}([a-z]+)(?:  |$)", re.MULTILINE)
# The values and arguments that are files or folders, by their names. The others are numbers and words of any kind.
FILES = {"FILE", "PATH", "STORE", "ORDERS", "SCENARIO", "HEXFILE", "JOURNAL", "DEVICE"}
FOLDERS = {"F"}
FUNCTIONS = """\
# The words that may come after a program and its command: commands, options, and those of them that a value follows.
_dali_bench_table() { # program and command, with a blank between them
    commands='' options='' values='' files='' folders='' has_files=''
    case $1 in
%(table)s    esac
}

# The name by which a program stands in the table.
_dali_bench_name() { # word
    local name=${1##*/}
    name=${name%%.py}
    case $name in dali_*_link) name=${name#dali_} ;; esac
    echo "$name"
}

_dali_bench_files() { # word, what compgen is to give
    # Where no completion is under way, as in a test, there are no options of it.
    compopt -o filenames 2>/dev/null
    mapfile -t COMPREPLY < <(compgen "$2" -- "$1")
}

_dali_bench() {
    local commands options values files folders has_files command='' at first=0 name
    local now=${COMP_WORDS[COMP_CWORD]} before=${COMP_WORDS[COMP_CWORD - 1]}
    # Behind a -- stands another command.
    for ((at = 1; at < COMP_CWORD; at++)); do
        [ "${COMP_WORDS[at]}" = -- ] && first=$((at + 1))
    done
    COMPREPLY=()
    [ "$first" = "$COMP_CWORD" ] && { _dali_bench_files "$now" -c; return; }
    name=$(_dali_bench_name "${COMP_WORDS[first]}")
    for ((at = first + 1; at < COMP_CWORD; at++)); do
        case ${COMP_WORDS[at]} in [a-z]*) command=${COMP_WORDS[at]}; break ;; esac
    done
    _dali_bench_table "$name $command"
    [ -n "$options" ] || _dali_bench_table "$name "
    case " $files " in *" $before "*) _dali_bench_files "$now" -f; return ;; esac
    case " $folders " in *" $before "*) _dali_bench_files "$now" -d; return ;; esac
    case " $values " in *" $before "*) return ;; esac
    case $now in
        -*) COMPREPLY=($(compgen -W "$options" -- "$now")) ;;
        *) COMPREPLY=($(compgen -W "$commands" -- "$now")) ;;
    esac
    # Of a program that isn't ours nothing is known.
    [ -n "$options" ] && [ -z "$has_files" ] || [ -n "${COMPREPLY[*]}" ] || _dali_bench_files "$now" -f
}

complete -F _dali_bench %(names)s
"""


def row(key, text):
    """Give the line of a program and its command by the text of its help."""
    block = COMMANDS.search(text)
    commands = COMMAND.findall(block[1]) if block else []
    options = OPTION.findall(text)
    ends = ["--"] if re.search(r"^usage: .* -- ", text) else []
    parts = {"commands": " ".join(commands), "options": " ".join([*(option for option, _ in options), *ends]),
             "values": " ".join(option for option, value in options if value and value not in FILES | FOLDERS),
             "files": " ".join(option for option, value in options if value in FILES),
             "folders": " ".join(option for option, value in options if value in FOLDERS),
             "has_files": "yes" if FILES & set(ARGUMENT.findall(text)) else ""}
    return f"        {key!r}) " + " ".join(f"{name}='{it}'" for name, it in parts.items() if it) + " ;;\n"


def names_of(program):
    """Give the names under which a program is started."""
    return [f"{program}.py", f"dali_{program}"] if program.endswith("_link") else [program]


def completions(helps):
    """Make the completions by the help of each program and each of its commands ('')."""
    table = "".join(row(f"{program} {command}", text) for (program, command), text in helps.items())
    names = [name for program in dict.fromkeys(program for program, _ in helps) for name in names_of(program)]
    about = "# Completions of bash, made from the texts of --help by scripts/release: `. FILE` has them.\n\n"
    return about + FUNCTIONS % {"table": table, "names": " ".join(names)}
