# shellcheck shell=sh
# Shared by the scripts in this folder: sending requests with curl, and explaining refusals.

LC_ALL=C
export LC_ALL

# A folder for the last reply. It is removed when the script ends, even by a signal.
room=$(mktemp -d)
trap 'rm -rf "$room"' EXIT
trap 'exit 129' HUP
trap 'exit 130' INT
trap 'exit 141' PIPE
trap 'exit 143' TERM

# The progress: how many are done, out of how many. The next message about it is due after this many seconds of waiting.
finished=0
total=0
message_in=5

tab=$(printf '\t')
line_feed='
'

# Prints an error message and ends.
end() {
  echo "${0##*/}: $1" >&2
  exit "${2:-1}"
}

# limits: written by tools/make-tables from docs/limits.csv
longest_file=1048576
longest_member=32
# end of limits

# Ends with an error if a text is not a valid member name.
judge_member() {
  case $1 in
    '' | *[!a-z0-9-]*) end "a member name has 1 to $longest_member of the characters a-z, 0-9 and -" 2 ;;
  esac
  [ "${#1}" -le "$longest_member" ] || end "a member name has 1 to $longest_member of the characters a-z, 0-9 and -" 2
}

# Whether a file has more bytes than the archive accepts.
is_too_long() {
  [ "$(wc -c < "$1")" -gt "$longest_file" ]
}

# Sets 'url' to the archive's URL without a trailing slash, and 'archive' to the same without a password, for messages.
take_url() {
  url=${1%/}
  archive=$(printf '%s\n' "$url" | sed 's|^\([^/@]*://\)\{0,1\}[^/]*@|\1|')
}

# Sends a request with these curl arguments. Sets 'status' and 'body' to those of the reply; status 000 means that no reply came. The
# password comes from ~/.netrc, if it has one for the host. (Unless the header 'expect' is removed, some versions of curl wait a second
# for a '100 Continue', which the server doesn't send.)
ask() {
  : > "$room/head"
  : > "$room/body"
  status=$(curl --disable --silent --show-error --globoff --netrc-optional --connect-timeout 10 --header 'expect:' \
    --dump-header "$room/head" --output "$room/body" --write-out '%{http_code}' "$@" 2> "$room/errors") || status=000
  body=$(tr -d '\000' < "$room/body")
}

# Waits as a reply with status 429 asks: for the seconds in its header 'Retry-After', or for 1. A long wait prints the progress.
wait_as_asked() {
  seconds=$(tr '[:upper:]' '[:lower:]' < "$room/head" |
    sed -n 's/^retry-after:[[:space:]]*0*\([1-9][0-9]\{0,5\}\)[[:space:]]*$/\1/p' | tail -n 1)
  seconds=${seconds:-1}
  message_in=$((message_in - seconds))
  if [ "$message_in" -le 0 ]; then
    echo "${0##*/}: waiting, since the server limits requests; $finished of $total done" >&2
    message_in=30
  fi
  sleep "$seconds"
}

# Sends a request again as long as the reply is 429: such a request did not reach the archive, so that is safe.
ask_in_turn() {
  ask "$@"
  while [ "$status" = 429 ]; do
    wait_as_asked
    ask "$@"
  done
}

# Sends a request, and up to three times more if no reply came or nothing was done.
ask_again() {
  for pause in 1 2 4 none; do
    ask_in_turn "$@"
    case $status in
      000 | 502 | 503 | 504) [ "$pause" = none ] || sleep "$pause" ;;
      *) return ;;
    esac
  done
}

# Ends because no reply came, after printing curl's own error. The argument goes in front of the message.
no_reply() {
  sed -n 1p "$room/errors" >&2
  end "${1-}no reply from $archive; run the same command again"
}

# Sets 'listed' to a line 'NUMBER MEMBER' for each of the deposits after number 'last', at most 100 of them, and then 'last' to the greatest
# of these numbers.
list_next() {
  ask_again "$url/deposits/after/$last"
  [ "$status" != 000 ] || no_reply ''
  case $body in
    '{"deposits":['*) ;;
    *) end "$(why)" ;;
  esac
  listed=$(printf '%s\n' "$body" | tr '{' '\n' | sed -n 's/^"id":\([0-9]*\),"member":"\([a-z0-9-]*\)",.*/\1 \2/p')
  [ -z "$listed" ] || {
    last=${listed##*"$line_feed"}
    last=${last%% *}
  }
}

# Prints a file's name as one field of one line: a tab is \t, a line feed is \n and a backslash is \\.
shown() {
  case $1 in
    *[\\"$tab$line_feed"]*) printf '%s\n' "$1" | sed "s/\\\\/&&/g; s/$tab/\\\\t/g" | awk '{ printf "%s%s", separator, $0; separator = "\\n" }' ;;
    *) printf '%s' "$1" ;;
  esac
}

# Prints the number that the reply has under a key, or nothing.
number_of() {
  printf '%s\n' "$body" | sed -n "s/^{\"$1\":\([0-9]*\)}\$/\1/p"
}

# faults: written by tools/make-tables from docs/refusals.csv
# Prints the fault of a pattern file that has this number.
fault() {
  case $1 in
    1) echo 'too-long: the file has more than 1,048,576 bytes' ;;
    2) echo 'text-limit: a name, an author or a comment of more than 200 bytes, or more than 64 comments' ;;
    3) echo 'no-header: there is no line "x = 3, y = 3" before the body' ;;
    4) echo 'bad-header: the header is not "x = 3, y = 3", with or without ", rule = B3/S23"' ;;
    5) echo 'bad-rule: the rule is not of the form B3/S23, S23/B3 or 23/3' ;;
    6) echo 'birth-zero: the rule has 0 among its births' ;;
    7) echo 'other-tag: the body has an item other than b, o, $ and !' ;;
    8) echo 'bad-count: a count of 0 or over 1,000,000, one before "!", or one at the end of the file' ;;
    9) echo 'too-wide: a live cell in a column or row over 1023' ;;
    10) echo 'no-end: the body ends without "!"' ;;
    *) echo "fault $1 of pattern files" ;;
  esac
}
# end of faults

# refusals: written by tools/make-tables from docs/refusals.csv
# Prints the refusal that has this name.
refusal() {
  case $1 in
    token-reused) echo 'token-reused: the token of this request was already used for something else' ;;
    out-of-limit) echo 'out-of-limit: a generation is 0 to 2048, a limit 1 to 2048' ;;
    full) echo 'full: the archive has no room for more' ;;
    unavailable) echo 'unavailable: the archive could not do it now; run the same command again: each request is stored only once' ;;
    no-such-page) echo 'no-such-page: the URL does not lead to an archive, such as http://localhost:8080' ;;
    password) echo 'password: the club knows its members by passwords; write yours into ~/.netrc' ;;
    *) echo "$1" ;;
  esac
}
# end of refusals

# Prints why the request was refused: the fault of a pattern file, or the name of the refusal.
why() {
  name=$(printf '%s\n' "$body" | sed -n 's/^{"error":"\([a-z-]*\)".*/\1/p')
  number=$(printf '%s\n' "$body" | sed -n 's/.*"rle":\([0-9]*\)}$/\1/p')
  [ "$status" != 401 ] || name=password
  case $name in
    bad-pattern) fault "$number" ;;
    '') echo "a reply of status $status, but not from an archive" ;;
    *) refusal "$name" ;;
  esac
}
