"""Writes the manual page and the completions of bash, from what the program says of itself: its `--help`, and its `help COMMAND`.

    python3 tools/man.py [PROGRAM OUTFOLDER]

PROGRAM is the built program (crates/onfiseq/out/onfiseq when none is given), and OUTFOLDER (out/man when none is given) then has onfiseq.1 and
onfiseq.bash. They are tried: groff, where it is installed, has nothing against the page, and bash completes each command and option. A line of a help
that isn't understood, and what went wrong in a trial, ends it with 1 and is shown.
"""
import os
import re
import shutil
import subprocess
import sys
from dataclasses import dataclass, field

SECTIONS = {"Commands:": "commands", "Arguments:": "arguments", "Options:": "options"}
ENTRY = re.compile(r"^ {2,}(\S.*?)(?: {2,}(\S.*))?$")
EXAMPLES = re.compile(r"^Examples?: (.*)$")
POSSIBLE = re.compile(r" \[possible values: (.*?)\]")


@dataclass
class Entry:
    """A command, an argument or an option: how it is written, and what is said of it."""

    written: str
    said: str

    def names(self):
        """The forms of an option, or a command's name."""
        return re.findall(r"(?<!\S)--?[\w-]+", self.written) or [self.written]

    def value(self):
        """What may stand where it takes a value: words, FILE, COMMAND, ANY; None where it takes none."""
        known, name = POSSIBLE.search(self.said), re.search(r"[<\[](\w+)[>\]]", self.written)
        if not name:
            return None
        if known:
            return known.group(1).replace(",", "")
        return name.group(1) if name.group(1) == "COMMAND" else "FILE" if name.group(1).isupper() else "ANY"


@dataclass
class Help:
    about: str = ""
    usage: str = ""
    commands: list = field(default_factory=list)
    arguments: list = field(default_factory=list)
    options: list = field(default_factory=list)
    examples: list = field(default_factory=list)


def run(*words):
    ran = subprocess.run(words, stdout=subprocess.PIPE, stderr=subprocess.STDOUT, text=True)
    if ran.returncode:
        sys.exit("man: `%s` ended with %d and said\n%s" % (" ".join(words), ran.returncode, ran.stdout))
    return ran.stdout.strip()


def read_help(*words):
    """What the help says that these words print."""
    found, section = Help(), None
    for line in run(*words).split("\n"):
        entry, examples = ENTRY.match(line), EXAMPLES.match(line)
        if line in SECTIONS:
            section = getattr(found, SECTIONS[line])
        elif line.startswith("Usage: "):
            found.usage = line[len("Usage: "):]
        elif examples:
            found.examples = examples.group(1).split("; ")
        elif entry and section is not None:
            section.append(Entry(entry.group(1), entry.group(2) or ""))
        elif line and not found.usage:
            found.about = (found.about + " " + line).strip()
        elif line:
            sys.exit("man: `%s` has a line that isn't understood: %s" % (" ".join(words), line))
    if not found.about or not found.usage:
        sys.exit("man: `%s` says nothing, or no usage" % " ".join(words))
    return found


# ---- the manual page

def roff(text):
    """A text as groff has it: what stands in `` is bold, and what stands in <> italic."""
    text = text.replace("\\", "\\e").replace("-", "\\-")
    text = re.sub(r"`(.*?)`", r"\\fB\1\\fR", text)
    text = re.sub(r"<(\w+)>", r"\\fI\1\\fR", text)
    return "\\&" + text if text[:1] in (".", "'") else text


def usage_lines(usage):
    program, rest = usage.split(" ", 1)
    return [".B %s" % roff(program), roff(rest)]


def entry_lines(entry):
    names = re.sub(r"(?<!\S)(--?[\w-]+)", r"`\1`", entry.written)
    return [".TP", roff(names), roff(entry.said)]


def example_lines(examples):
    return [".PP", ".nf", *("    %s" % roff(it) for it in examples), ".fi"] if examples else []


def command_lines(name, told):
    """A command's part of the page; that it has a help is said once, of the program."""
    lines = [".SS %s" % name, roff(told.about) + ".", ".PP", *usage_lines(told.usage)]
    for entry in told.arguments + told.options:
        if "--help" not in entry.names():
            lines += entry_lines(entry)
    return lines + example_lines(told.examples)


def man_page(name, version, told, commands):
    about = told.about[0].lower() + told.about[1:]
    lines = ['.TH %s 1 "" "%s" "User Commands"' % (name.upper(), version)]
    lines += [".SH NAME", "%s \\- %s" % (name, roff(about)), ".SH SYNOPSIS", *usage_lines(told.usage), ".SH COMMANDS"]
    for command, part in commands.items():
        lines += command_lines(command, part)
    lines.append(".SH OPTIONS")
    for entry in told.options:
        lines += entry_lines(entry)
    if told.examples:
        lines += [".SH EXAMPLES", *example_lines(told.examples)[1:]]
    return "\n".join(lines) + "\n"


# ---- the completions

BASH = r"""# Completions of bash for @NAME@, made of what it says of itself: source this file, or put it into ~/.local/share/bash-completion/completions
_@NAME@() {
    local word=${COMP_WORDS[COMP_CWORD]} before=${COMP_WORDS[COMP_CWORD - 1]} command=${COMP_WORDS[1]} options value places=() place=0 k
    # --option=value stands in three words
    if [ "$word" = = ]; then word=; elif [ "$before" = = ]; then before=${COMP_WORDS[COMP_CWORD - 2]}; fi
    COMPREPLY=()
    if [ "$COMP_CWORD" = 1 ]; then
        COMPREPLY=($(compgen -W "@COMMANDS@ @OPTIONS@" -- "$word"))
        return
    fi
    case $command in
@CASES@
        *) return ;;
    esac
    _@NAME@_value "$before"
    if [ -z "$value" ]; then
        case $word in -*) COMPREPLY=($(compgen -W "$options" -- "$word")) && return ;; esac
        # which argument it is: those in front of it are neither options nor their values
        for ((k = 2; k < COMP_CWORD; k++)); do
            case ${COMP_WORDS[k]} in
                =) ((k++)) ;;
                -*) _@NAME@_value "${COMP_WORDS[k]}"; if [ -n "$value" ] && [ "${COMP_WORDS[k + 1]}" != = ]; then ((k++)); fi ;;
                *) ((place++)) ;;
            esac
        done
        value=${places[place]}
    fi
    case $value in
        FILE) compopt -o filenames 2> /dev/null; mapfile -t COMPREPLY < <(compgen -f -- "$word") ;;
        COMMAND) COMPREPLY=($(compgen -W "@COMMANDS@" -- "$word")) ;;
        ANY | '') ;;
        *) COMPREPLY=($(compgen -W "$value" -- "$word")) ;;
    esac
}

# What the option of this name takes, in value: nothing, a FILE, one of some words, or ANY.
_@NAME@_value() {
    value=
    case $command$1 in
@VALUES@
    esac
}

complete -F _@NAME@ @NAME@
"""


def quoted(words):
    return "'%s'" % words


def option_names(told):
    return " ".join(name for entry in told.options for name in entry.names())


def case_line(command, told):
    places = " ".join(quoted(entry.value()) for entry in told.arguments)
    return "        %s) options=%s places=(%s) ;;" % (command, quoted(option_names(told)), places)


def value_lines(command, told):
    """A line for each option of a command that takes a value."""
    taking = [entry for entry in told.options if entry.value()]
    return ["        %s) value=%s ;;" % (" | ".join(command + name for name in entry.names()), quoted(entry.value())) for entry in taking]


def completions(name, told, commands):
    parts = {
        "NAME": name,
        "COMMANDS": " ".join(commands),
        "OPTIONS": option_names(told),
        "CASES": "\n".join(case_line(*it) for it in commands.items()),
        "VALUES": "\n".join(line for it in commands.items() for line in value_lines(*it)),
    }
    return re.sub(r"@([A-Z]+)@", lambda found: parts[found.group(1)], BASH)


# ---- trying them

# Completes each line of the input, whose last word is begun, and prints what may stand there, or nothing.
TRIAL = r"""
source "$1" || exit 1
while read -r -a COMP_WORDS; do
    COMP_CWORD=$((${#COMP_WORDS[@]} - 1))
    _@NAME@ && echo "${COMPREPLY[@]}"
done
"""


def trials(name, told, commands):
    """Begun lines, each with a word that may be the next: the commands, and their options and values without the last letter."""
    yield from (("%s %s" % (name, command[:-1]), command) for command in commands)
    for command, part in commands.items():
        for entry in part.options:
            yield "%s %s %s" % (name, command, entry.names()[-1][:-1]), entry.names()[-1]
            for value in (entry.value() or "ANY").split():
                if not value.isupper():
                    yield "%s %s %s %s" % (name, command, entry.names()[-1], value), value
                    yield "%s %s %s = %s" % (name, command, entry.names()[-1], value), value


def try_page(path):
    """What groff has against a page."""
    if shutil.which("groff") is None:
        return ""
    return subprocess.run(["groff", "-man", "-ww", "-z", path], stdout=subprocess.PIPE, stderr=subprocess.STDOUT, text=True).stdout


def try_completions(path, name, rows):
    """What bash doesn't complete."""
    lines = "".join(line + "\n" for line, _ in rows)
    ran = subprocess.run(["bash", "-c", TRIAL.replace("@NAME@", name), "bash", path], input=lines, stdout=subprocess.PIPE, stderr=subprocess.STDOUT, text=True)
    answers = ran.stdout.split("\n")
    wrong = ["`%s` is completed by `%s`\n" % (line, answer) for (line, word), answer in zip(rows, answers) if word not in answer.split()]
    return "".join(wrong) if len(answers) == len(rows) + 1 else ran.stdout


def main():
    if len(sys.argv) not in (1, 3):
        sys.exit(__doc__.strip())
    program, folder = sys.argv[1:] or ("crates/onfiseq/out/onfiseq", "out/man")
    name = os.path.basename(program)
    told = read_help(program, "--help")
    commands = {it.written: read_help(program, "help", it.written) for it in told.commands}
    os.makedirs(folder, exist_ok=True)
    for ending, text in (("1", man_page(name, run(program, "--version"), told, commands)), ("bash", completions(name, told, commands))):
        with open(os.path.join(folder, "%s.%s" % (name, ending)), "w") as it:
            it.write(text)
    rows = list(trials(name, told, commands))
    wrong = try_page(os.path.join(folder, name + ".1")) + try_completions(os.path.join(folder, name + ".bash"), name, rows)
    if wrong:
        sys.exit("man: " + wrong)
    print("man: %s.1 and %s.bash, with %d words that bash completes" % (name, name, len(rows)))


if __name__ == "__main__":
    main()
