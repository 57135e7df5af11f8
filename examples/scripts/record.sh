# shellcheck shell=sh
# shellcheck disable=SC2034,SC2154 # Some variables are set or read in the scripts that include this one.
# The record of the numbers that the archive gave: one of the user's files, a line for each. A script that runs again finds there what it
# sent before, and sends it again only if the archive doesn't confirm the line. So the record of another archive does no harm.

record=${XDG_STATE_HOME:-${HOME:+$HOME/.local/state}}
record=${record:+$record/life/kept}

# Copies the lines of this archive and this member from the record.
read_record() {
  : > "$room/known"
  [ ! -r "$record" ] || archive=$archive member=$member awk -F '\t' \
    '$1 "" == ENVIRON["archive"] && $2 "" == ENVIRON["member"] { print $3 FS $4 FS $5 }' "$record" > "$room/known"
}

# Sets 'number' and 'digest' to those that the record has for a token; false if it doesn't have the token.
recall() {
  line=$(grep "^$1${tab}[1-9][0-9]\{0,8\}$tab" "$room/known" | tail -n 1)
  line=${line#*"$tab"}
  number=${line%%"$tab"*}
  digest=${line#*"$tab"}
  [ -n "$number" ]
}

# Adds a token's number to the record, with the digest of what the archive shows under it. If the record can't be written, the next run
# sends the same again, which changes nothing.
remember() {
  [ -z "$record" ] || (
    umask 077
    mkdir -p "${record%/*}" && printf '%s\t%s\t%s\t%s\t%s\n' "$archive" "$member" "$1" "$2" "$3" >> "$record"
  ) 2> /dev/null || :
}
