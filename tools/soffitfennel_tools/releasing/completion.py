"""Completion for bash, zsh and fish, of one table: the options that each command's --help lists."""
from __future__ import annotations

from .commands import Command, Option

BASH = """# Completion for bash: options of soffitfennel and its tools, else the names of files.
_soffitfennel() {{
  local word=${{COMP_WORDS[COMP_CWORD]}} name=${{COMP_WORDS[0]##*/}} options=
  COMPREPLY=()
  case $name in
{cases}
  esac
  if [[ $word == -* ]]; then mapfile -t COMPREPLY < <(compgen -W "$options" -- "$word"); fi
}}
complete -o default -F _soffitfennel {names}
"""


def flags(command: Command) -> list[str]:
    """All options of a command, by their names."""
    return [name for it in command.options for name in it.flags]


def bash(commands: list[Command]) -> str:
    """The file for bash."""
    cases = "\n".join(f"    {it.name}) options='{' '.join(flags(it))}' ;;" for it in commands)
    return BASH.format(cases=cases, names=" ".join(it.name for it in commands))


def quoted(text: str) -> str:
    """A word in single quotes, for zsh and fish."""
    return "'" + text.replace("\\", "\\\\").replace("'", "'\\''") + "'"


def zsh_option(option: Option) -> list[str]:
    """The lines of an option, for _arguments."""
    about = option.about
    for mark in "\\[]:":
        about = about.replace(mark, f"\\{mark}")
    takes = f":{option.takes.split(' ')[0].replace(':', ' ')}:_files" if option.takes else ""
    return [quoted(f"{name}[{about}]{takes}") for name in option.flags]


def zsh(commands: list[Command]) -> str:
    """The file for zsh."""
    made = [f"#compdef {' '.join(it.name for it in commands)}", "# Completion for zsh: options, else files."]
    made.append("case $service in")
    for it in commands:
        words = [f"      {word} \\" for option in it.options for word in zsh_option(option)]
        made += [f"  {it.name})", "    _arguments \\", *words, "      '*:file:_files' ;;"]
    return "\n".join([*made, "esac"]) + "\n"


def fish_option(name: str, option: Option) -> str:
    """The line of an option."""
    letters = "".join(f" -s {it[1:]}" if len(it) == 2 else f" -l {it[2:]}" for it in option.flags)
    about = quoted(option.about).replace("'\\''", "\\'")
    return f"complete -c {name}{letters}{' -r' if option.takes else ''} -d {about}"


def fish(command: Command) -> str:
    """The file for fish of one command, since it looks for a file with the command's name."""
    lines = [fish_option(command.name, it) for it in command.options]
    return "\n".join([f"# Completion for fish: options of {command.name}, else files.", *lines]) + "\n"
