# What ./reachlist, ./namelist and ./remburai share: faults, and the proof of what they run. They source it, with `root` and `name` set; `name`
# is the script's own, for messages.

log="$root/target/$name.log"

# What programs and library are made from. What rt keeps beside it, in crates/CRATE/out, is none of it.
crates=("$root/crates.txt")
for part in "$root"/crates/*/{src,specs,proofs}; do
    [ ! -d "$part" ] || crates+=("$part")
done

# What keeps the script from its work: a fault of use, of reading or of writing, or a program that cannot be built.
fault() {
    echo "$name: $1" >&2
    exit 4
}

# A standard output that is closed is a fault here, and not once all is done.
{ : 3>&1; } 2> /dev/null || fault "standard output is closed"

# Whether a file is there and nothing of what it is made from has changed since.
current() { # FILE SOURCE...
    local file="$1"
    shift
    [ -e "$file" ] && [ -z "$(find "$@" -newer "$file" -print -quit)" ]
}

# How many crates are to be proved for a crate, itself one of them.
crates_for() { # CRATE
    awk -v first="$1" '
        { sub(/#.*/, "") }
        /:/ { crate = $1; sub(/:.*/, "", crate); sub(/^[^:]*:/, ""); needs[crate] = $0 }
        function visit(crate,    all, n, k) {
            if (seen[crate]++ || !(crate in needs)) return
            count++
            n = split(needs[crate], all, " ")
            for (k = 1; k <= n; k++) visit(all[k])
        }
        END { visit(first); print count }' "$root/crates.txt"
}

# Says how many of the crates are proved: in one line on a terminal, else in a line each time.
show_count() { # NUMBER ALL
    local end='\n'
    [ ! -t 2 ] || end='\r'
    printf "%s: %d of %d crates proved$end" "$name" "$1" "$2" >&2
}

# Keeps in the log what rt prints, and shows how many of the crates are proved. Of a crate rt prints the name and then what it said of it, which
# is nothing where nothing has changed, so that it counts when the next name comes. The last one is what is built, and counts once it is.
show_proved() { # ALL
    local line count=0 state=
    while IFS= read -r line; do
        printf '%s\n' "$line" >> "$log"
        case "$line" in
        "== summary") state= ;;
        "== "*)
            case "$state" in silent | proved) show_count $((count += 1)) "$1" ;; esac
            state=silent
            ;;
        "rt: "*) ;;
        "logic=proved "*) state="${state:+proved}" ;;
        *) state="${state/silent/open}" ;;
        esac
    done
}

# Proves a crate, for which ALL crates are to be proved, and builds it.
prove() { # ALL CRATE
    "$root/tools/prove" "$2" 2>&1 < /dev/null | show_proved "$1" || fault "not proved; see $log"
}

# Takes turns with other scripts that build, up to the end of this one.
begin_build() {
    mkdir -p "$root/target" 2> /dev/null && { exec {lock}> "$root/target/lock"; } 2> /dev/null ||
        fault "the program has to be built, and $root/target cannot be written"
    flock "$lock" || fault "$root/target/lock cannot be locked"
    : > "$log" || fault "$log cannot be written"
}

# Says that a proof begins, and how long it takes on two processors.
begin_proof() { # WHAT
    command -v rt > /dev/null || fault "'rt', the Rattle toolchain, is needed to prove what is run, and it is not on the PATH"
    echo "$name: $1: about five minutes on first use, less after a change (log: $log)" >&2
}
