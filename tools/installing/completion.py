"""The completion for bash, of the commands and of their words, by what the help says."""

import re

# A word with a value is several ones for bash, which takes `=` and `:` for breaks: so the line itself is read, and what stands
# before the last break isn't given again.
PROGRAM = """\
# Completion for bash of gevacq's commands and their words. It needs no other file.
_gevacq() {{
    local line=${{COMP_LINE:0:COMP_POINT}} word words
    word=${{line##*[[:space:]]}}
    if ((COMP_CWORD == 1)); then
        words="{commands}"
    else
        case ${{COMP_WORDS[1]}} in
{cases}
        *) words= ;;
        esac
    fi
    COMPREPLY=($(compgen -W "$words" -- "$word"))
    # (a word that waits for its value has no space behind it)
    [[ ${{#COMPREPLY[@]}} -eq 1 && ${{COMPREPLY[0]}} == *[=:] ]] && compopt -o nospace 2>/dev/null
    if [[ $word == *[=:]* && $COMP_WORDBREAKS == *[=:]* ]]; then
        COMPREPLY=("${{COMPREPLY[@]#"${{word%"${{word##*[=:]}}"}}"}}")
    fi
}}
complete -o default -F _gevacq gevacq
"""

TOOL = """\
# Completion for bash of the options of {name}, and of files.
complete -o default -W "{words}" {name}
"""


def of_program(it):
    names = " ".join([*(part.command() for part in it.commands), "help", "--help", "--version"])
    cases = [f'        {part.command()}) words="{" ".join([*part.keys(), "--help"])}" ;;' for part in it.commands]
    return PROGRAM.format(commands=names, cases="\n".join(cases))


def of_tool(name, help_text):
    """The options that the tool's help shows. A tool without any completes files."""
    words = dict.fromkeys([*re.findall(r"(?<![\w-])--[a-z][a-z-]*", help_text), "--help"])
    return TOOL.format(name=name, words=" ".join(words))
