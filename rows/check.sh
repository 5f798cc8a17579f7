#!/usr/bin/env bash
# Runs each NAME.script of a folder, this one unless another is named, through the built program, each in an empty
# folder of its own. It must write what NAME.out has and end with the status in NAME.status, or 0 without that file.
# NAME.args has the words of the call, one a line, where they aren't `run`. The last line counts.
set -u
here=$(cd "$(dirname "$0")" && pwd)
rows=$(cd "${1:-$here}" && pwd)
program=$here/../crates/excisedb/out/excisedb
work=$(mktemp -d)
trap 'rm -rf "$work"' EXIT
passed=0
failed=0

# One call: its name, its status, the files with what it must write, with its words and its script, and where it writes.
check() {
  local name=$1 code=$2 want=$3 args=$4 script=$5 out=${6:-$work/out} words=(run) got
  [ -f "$args" ] && mapfile -t words <"$args"
  mkdir "$work/empty"
  (cd "$work/empty" && exec timeout 120 "$program" ${words[@]+"${words[@]}"} <"$script" >"$out" 2>"$work/errors")
  got=$?
  rm -rf "$work/empty"
  if [ "$got" -ne "$code" ]; then
    echo "$name: status $got, not $code"
  elif [ -f "$out" ] && ! cmp "$out" "$want"; then
    echo "$name: not what $want has"
  else
    passed=$((passed + 1))
    return
  fi
  head -n 5 "$work/errors"
  failed=$((failed + 1))
}

letters() {
  head -c "$2" /dev/zero | tr '\0' "$1"
}

# A put of a key and a value of these lengths.
check_put() {
  local line
  line="c1 put $(letters k "$1") $(letters v "$2")"
  printf '%s\n' "$line" >"$work/script"
  if [ "$3" -eq 0 ]; then
    printf '%s -> done\n' "$line" >"$work/want"
  else
    echo 'line 1: length' >"$work/want"
  fi
  check "a key of $1 bytes and a value of $2" "$3" "$work/want" '' "$work/script"
}

# A script of so many line feeds, and what it must write.
check_line_feeds() {
  letters '\n' "$1" >"$work/script"
  printf '%s' "$3" >"$work/want"
  check "$1 line feeds" "$2" "$work/want" '' "$work/script"
}

# The proved program, and no other one, is built before the first row.
"$here/../build" >/dev/null || exit

for script in "$rows"/*.script; do
  row=${script%.script}
  code=0
  [ -f "$row.status" ] && code=$(cat "$row.status")
  check "$(basename "$row")" "$code" "$row.out" "$row.args" "$script"
done

if [ "$rows" = "$here" ]; then
  # Limits whose scripts would be long files.
  check_put 1024 65536 0
  check_put 1025 1 2
  check_put 1 65537 2
  check_line_feeds 1048576 0 ''
  check_line_feeds 1048577 2 $'line 1048577: long\n'
  # A folder can't be read, and a full device takes nothing.
  check 'a folder as input' 3 /dev/null '' "$work"
  check 'a full device as output' 4 /dev/null '' "$here/stored_run.script" /dev/full
fi

echo "$passed passed, $failed failed"
[ "$failed" -eq 0 ]
