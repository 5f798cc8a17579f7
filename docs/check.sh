#!/usr/bin/env bash
# What the documents say of files and of contracts:
# - a link leads to a file or a folder that exists;
# - a link to a specification, named as a definition, leads to the file that defines it;
# - in a row of a table, where a cell of clauses stands before a link to a source, these clauses stand there, each in the
#   contract of the function that the cell names;
# - each line of a block that names a file behind its language, as in ```text FILE, stands in that file.
# The last line counts.
set -u
cd "$(dirname "$0")/.." || exit 1
passed=0
failed=0

# `FILE FUNCTION` for each function of the sources, and `FILE FUNCTION CLAUSE` for each clause of its contract.
clauses_that_stand() {
  find crates/*/src -name '*.rt' -exec awk '
    match($0, /(^| )fn [a-z_0-9]+/) {
      name = substr($0, RSTART, RLENGTH)
      sub(/^ ?fn /, "", name)
      print FILENAME, name
    }
    $1 == "ensures" && $2 != "{" { print FILENAME, name, $2 }' {} +
}

# `FILE NAME` for each definition.
definitions() {
  find crates/*/specs -name '*.antt' -exec awk '
    /^ *(unfoldable |abbrev |pub )/ {
      line = $0
      sub(/^ *(unfoldable |abbrev )?(pub )?(record |data )?/, "", line)
      sub(/[ :].*/, "", line)
      print FILENAME, line
    }' {} +
}

# What the documents claim, a line for each claim: `link`, `definition`, `clause` or `quote`, where it is said, the file,
# and the names or the text.
claims() {
  find . \( -name out -o -name .git \) -prune -o -name '*.md' -print0 | xargs -0 awk '
    # The path without `.` and `..`.
    function plain(path,   parts, n, kept, i, out) {
      n = split(path, parts, "/")
      kept = 0
      for (i = 1; i <= n; i++) {
        if (parts[i] == "" || parts[i] == ".") continue
        if (parts[i] == ".." && kept > 0) kept--
        else stack[++kept] = parts[i]
      }
      out = stack[1]
      for (i = 2; i <= kept; i++) out = out "/" stack[i]
      return kept == 0 ? "." : out
    }

    function target(link,   path) {
      path = link
      sub(/^.*\]\(/, "", path)
      sub(/\)$/, "", path)
      sub(/#.*/, "", path)
      return plain(folder "/" path)
    }

    # The words in backticks, split into the array.
    function quoted(text, words,   n) {
      n = 0
      while (match(text, /`[^`]+`/)) {
        words[++n] = substr(text, RSTART + 1, RLENGTH - 2)
        sub(/.*::/, "", words[n])
        text = substr(text, RSTART + RLENGTH)
      }
      return n
    }

    # The clauses that a cell names, of the functions behind `of`, or these alone.
    function claim(cell, path,   at, n, m, i, j) {
      at = index(cell, " of `")
      n = at ? quoted(substr(cell, 1, at), clauses) : 0
      m = quoted(at ? substr(cell, at) : cell, functions)
      for (j = 1; j <= m; j++) {
        if (n == 0) print "clause", place, path, functions[j]
        for (i = 1; i <= n; i++) print "clause", place, path, functions[j], clauses[i]
      }
    }

    FNR == 1 {
      fenced = 0
      folder = FILENAME
      sub(/\/[^\/]*$/, "", folder)
    }
    /^ *```/ {
      fenced = !fenced
      quoted_file = fenced && NF == 2 ? $2 : ""
      if (quoted_file != "") print "link", FILENAME ":" FNR, quoted_file
      next
    }
    fenced && quoted_file != "" && NF { print "quote", FILENAME ":" FNR, quoted_file, $0 }
    fenced { next }
    {
      place = FILENAME ":" FNR
      rest = $0
      while (match(rest, /\[[^]]*\]\([^)]*\)/)) {
        link = substr(rest, RSTART, RLENGTH)
        rest = substr(rest, RSTART + RLENGTH)
        if (link ~ /\]\((https?:|#)/) continue
        print "link", place, target(link)
        if (link ~ /^\[`[^`]+`\]\([^)]*\.antt\)$/) {
          name = link
          sub(/^\[`/, "", name)
          sub(/`.*/, "", name)
          print "definition", place, target(link), name
        }
      }
    }
    /^\|/ {
      n = split($0, cells, "|")
      for (i = 3; i < n; i++) {
        cell = cells[i]
        gsub(/^ +| +$/, "", cell)
        if (cell ~ /^\[[^]]*\]\([^)]*\.rt\)$/ && cells[i - 1] ~ /^ *`/) claim(cells[i - 1], target(cell))
      }
    }'
}

declare -A stands
while read -r key; do
  stands[$key]=1
done < <(clauses_that_stand; definitions)

holds() {
  case $1 in
    link) [ -e "$2" ] ;;
    quote) [ -f "$2" ] && grep -qF -- "$3" "$2" ;;
    *) [ -n "${stands[$2 $3]:-}" ] ;;
  esac
}

while read -r kind place path text; do
  if holds "$kind" "$path" "$text"; then
    passed=$((passed + 1))
  else
    failed=$((failed + 1))
    echo "$place: no such $kind: $path $text"
  fi
done < <(claims)

echo "$passed passed, $failed failed"
[ "$failed" -eq 0 ] && [ "$passed" -gt 0 ]
