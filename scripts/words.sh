# The words of a script of bash, which sources this file.

# Answers --help by the comment that heads the script, and refuses a word that begins with a dash, or more words than so
# many: takes MOST WORD..
takes() {
    local most=$1 name=${0##*/} word
    shift
    for word in "$@"; do
        if [[ $word == --help || $word == -h ]]; then
            sed -n '2,/^[^#]/s/^# \{0,1\}//p' "$0"
            exit 0
        fi
        if [[ $word == -* ]]; then
            echo "$name: it does not take $word: $name --help says what it does" >&2
            exit 2
        fi
    done
    if (($# > most)); then
        echo "$name: it takes no word ${*:most + 1:1}: $name --help says what it does" >&2
        exit 2
    fi
}

# Refuses a word that is no number.
is_number() {
    if [[ ! $1 =~ ^[0-9]+$ ]]; then
        echo "${0##*/}: $1 is no number: ${0##*/} --help says what it does" >&2
        exit 2
    fi
}
