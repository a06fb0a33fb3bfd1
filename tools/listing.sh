# What ./reachlist and ./namelist share: the rule file that they are given, the proved program that they hand it to, and what they say of a
# refusal. They source it, with `root` and `name` set, and define `help`; `name` is the script's own, and that of its crate and its program.

source "$root/tools/build.sh"
program="$root/crates/$name/out/$name"

current_program() {
    current "$program" "${crates[@]}"
}

build() {
    local all
    begin_build
    current_program && return
    begin_proof "proving and building the program"
    all="$(crates_for "$name")"
    prove "$all" "$name"
    show_count "$all" "$all"
}

# The file that is named, in place of standard input.
open_file() { # FILE
    [ -e "$1" ] || fault "there is no file '$1'"
    [ ! -d "$1" ] || fault "'$1' is a folder, not a rule file"
    { exec < "$1"; } 2> /dev/null || fault "the file '$1' cannot be read"
}

# Prints the help that is asked for, or makes the rule file standard input.
take_words() { # WORDS...
    case "${1:-}" in
    -h | --help) help || exit 4; exit 0 ;;
    -?*) fault "there is no option $1; see ./$name --help" ;;
    esac
    [ $# -le 1 ] || fault "one rule file at a time; see ./$name --help"
    if [ $# -eq 1 ] && [ "$1" != - ]; then
        open_file "$1"
    fi
    { : 3<&0; } 2> /dev/null || fault "standard input is closed"
}

# Hands the rule file to the program. `hex` has its bytes then, `text` what the program prints, and `last` the last line of that. One byte more is
# taken than a rule file may have, as the program does. A text of bytes in the shell is hexadecimal. The shell would drop the empty lines at the
# end of what is printed, so that a full stop stands behind them for a while.
run_program() {
    current_program || build
    hex="$(head -c 16385 2> /dev/null | od -An -v -tx1 | tr -d '\n')" || fault "the rule file cannot be read"
    text="$(printf "${hex// /\\x}" | "$program" && echo .)" || fault "the program has ended with status $?"
    text="${text%.}"
    last="${text%$'\n'}"
    last="${last##*$'\n'}"
}

print_text() { # WHAT
    trap 'exit 4' PIPE
    printf '%s' "$text" 2> /dev/null || fault "$1 cannot be written: standard output is full, or not for writing"
}

# The depth and the step limit of a rule file that is not refused, in words. They are its last three bytes, of which the last is 0, since the
# program takes no more than 240 steps.
limits() {
    local bytes=($hex) steps unit=steps
    steps=$((16#${bytes[-2]}))
    [ "$steps" -ne 1 ] || unit=step
    echo "within depth $((16#${bytes[-3]})), $steps $unit"
}

# Whether the bytes are a text and no rule file, in the way of ./remburai --help.
is_text() {
    [ -n "$hex" ] && [[ $hex != " 54 59"* ]] && ! [[ $hex =~ " "(0[0-8bcef]|1[0-9a-f]|7f) ]]
}

# Says of a refusal its word, and of some what to do.
explain() { # NUMBER
    local words=("" short mark range stranger code misfit tail hollow shallow input bench full page scrap spelling)
    echo "$name: refused $1 ${words[$1]}" >&2
    if is_text; then
        echo "$name: this is a text, not a rule file: try ./remburai $other, or make the rule file by tools/rule build" >&2
    elif [ "$1" -eq 11 ] || [ "$1" -eq 12 ]; then
        echo "$name: the rule is too large for this program: try ./remburai $other" >&2
    else
        echo "$name: README.md says what to do about it" >&2
    fi
}
