# How a tool in bash answers --help and --version, and refuses a word that it doesn't take, as argparse does for the
# tools in Python:
#
#   . "$top/tools/bench/manners.bash"
#   manners '[NAME ...]' "$@"
#
# The first argument says which words the tool takes, or is empty where it takes none. The comment at the tool's head is
# its help.

# The path of the tool in its tree.
tool_name() {
  local path
  path=$(readlink -f "$0")
  echo "tools/${path##*/tools/}"
}

usage_line() {
  echo "usage: $(tool_name) [-h]${1:+ $1}"
}

# Folds text to 79 columns. Paragraphs, members of a list and lines that begin with a tool's name stay apart.
fold_help() {
  awk '
    function flush(    i, line) {
      for (i = 1; i <= many; i++) {
        if (line != "" && length(line) + 1 + length(words[i]) > 79) { print line; line = indent words[i] }
        else line = line (line == "" ? "" : " ") words[i]
      }
      if (line != "") print line
      many = 0; indent = ""
    }
    /^$/ { flush(); print; next }
    /^(- |tools\/|usage: )/ { flush(); indent = "  " }
    { for (i = 1; i <= NF; i++) words[++many] = $i }
    END { flush() }
  '
}

show_help() {
  {
    usage_line "$1"
    echo
    sed -n '2,/^[^#]/s/^# \{0,1\}//p' "$0"
  } | fold_help
  exit 0
}

show_version() {
  echo "$(basename "$0") (Soffitfennel) $(<"$(dirname "${BASH_SOURCE[0]}")/../words/version")"
  exit 0
}

refuse_words() {
  echo "$(tool_name): error: unrecognized arguments: ${*:2}" >&2
  exit 2
}

manners() {
  case ${2-} in
    -h | --help) show_help "$1" ;;
    --version) show_version ;;
    -*) refuse_words "$@" ;;
  esac
  if [ $# -gt 1 ] && [ -z "$1" ]; then refuse_words "$@"; fi
}
