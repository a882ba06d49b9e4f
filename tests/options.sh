#!/usr/bin/env bash
# Compares the options of the help of each command, long and short, with those of the man page and of the completions, both
# ways, and its usage with the man page's synopsis, and installs them into an empty folder. Ends with status 1 where one has an
# option that another lacks, where a line of a help has more than 80 columns, or a file isn't installed.
set -Eeuo pipefail
export LC_ALL=C
cd "$(dirname "${BASH_SOURCE[0]}")/.."
failed=0
scratch=$(mktemp -d)
trap 'rm -rf "$scratch"' EXIT
# Its name is in the line on usage.
program=$scratch/ix_export
ln -s "$(./ix_export --where)" "$program"

# same WHAT COMMAND WANTED CAME
same() {
  [ "$3" = "$4" ] && return
  failed=1
  printf 'tests/options.sh: FAILED: %s of `%s`: the help has %s, and it has %s\n' "$1" "$2" "$3" "${4:-none}" >&2
}

# The options in a text, long and short, in order.
sorted() {
  { grep -oE -e '(^|[^A-Za-z-])-(-[a-z][a-z0-9-]*|[A-Za-z])' | grep -oE -e '-.*' || true; } | sort -u | tr '\n' ' '
}

of_help() {
  "$program" $1 --help | grep -E '^ +(-[A-Za-z], )?--[a-z]' | sed 's/  *[A-Z].*//' | sorted
}

# Of the man page: the lines of options of the command's section, or those before the first.
of_man() {
  awk -v wanted="$1" '
    /^\.SH OPTIONS/ { section = ""; inside = 1; next }
    /^\.SH/ { inside = 0 }
    /^\.SS/ { section = $2; gsub(/\\/, "", section) }
    inside && section == wanted && was == ".TP" { print }
    { was = $0 }' install/ix_export.1 | sed 's/\\-/-/g; s/\\f[A-Z]/ /g' | sorted
}

# What must and may stand after the command in its usage, but for options that may be left out.
of_usage() {
  "$program" $1 --help | sed -n 's/^Usage: ix_export [a-z-]*//p' | sed 's/\[OPTIONS\]//; s/[<>]//g' | xargs
}

# Of the man page: the first synopsis of the command. What is between quotes there keeps its blanks.
of_synopsis() {
  sed '/^\.SH DESCRIPTION/,$d; s/\\f[A-Z]//g; s/\\-/-/g' install/ix_export.1 | awk -v wanted="$1" '
    $1 == ".br" { inside = 0 }
    inside && /^\.[BI] / { print substr($0, 4) }
    inside && /^\.(BI|RI|IR|RB) / {
      count = split(substr($0, 5), part, "\"")
      for (it = 1; it <= count; it++) {
        if (it % 2 == 1) gsub(/ /, "", part[it])
        printf "%s", part[it]
      }
      print ""
    }
    $1 == ".B" && $2 == "ix_export" { inside = $3 == wanted && !seen[$3]++ }' | sed '/^\[-/d; /^\[OPTION\]/d' | xargs
}

# Of bash: what it completes after the command.
of_bash() {
  bash -c '
    source install/ix_export.bash
    COMP_WORDS=(ix_export $1 -) COMP_CWORD=$((${#COMP_WORDS[@]} - 1))
    _ix_export
    printf "%s\n" "${COMPREPLY[@]}"' bash "$1" | sorted
}

# Of zsh: what is in the command's case, or before it.
of_zsh() {
  awk -v wanted="$1" '
    /^ *[a-z-]+\)$/ { section = $1 }
    section == (wanted == "" ? "" : wanted ")") && /^ *\x27/' install/_ix_export | sed 's/([^)]*)//; s/[{,}]/ /g; s/\[.*//' | sorted
}

# Of fish: the lines under the command's condition.
of_fish() {
  local condition=__fish_use_subcommand
  [ -z "$1" ] || condition="'__fish_seen_subcommand_from $1'"
  grep -F -e " -n $condition " install/ix_export.fish |
    sed -nE 's/.* -s ([A-Za-z]) -l ([a-z0-9-]+) .*/-\1 --\2/p; t; s/.* -l ([a-z0-9-]+) .*/--\1/p' | sorted
}

commands=$("$program" --help | sed -n '/^Commands:/,/^$/s/^  *\([a-z-]*\) .*/\1/p' | grep -v '^help$' | sort)
same 'commands of bash' '' "$commands" "$(bash -c '
  source install/ix_export.bash
  COMP_WORDS=(ix_export "") COMP_CWORD=1
  _ix_export
  printf "%s\n" "${COMPREPLY[@]}"' | grep -v '^-' | sort)"
same 'commands of the man page' '' "$commands" "$(sed -n 's/^\.SS //p' install/ix_export.1 | tr -d '\\' | sort)"
same 'commands of zsh' '' "$commands" "$(sed -n 's/^    \([a-z-]*\))$/\1/p' install/_ix_export | sort)"
same 'commands of fish' '' "$commands" "$(sed -n 's/.* -a \([a-z-]*\) .*/\1/p' install/ix_export.fish | sort)"
for command in '' $commands; do
  wide=$("$program" $command --help | grep -E '.{81}' || true)
  if [ -n "$wide" ]; then
    failed=1
    printf 'tests/options.sh: FAILED: lines of more than 80 columns in the help of `%s`:\n%s\n' "$command" "$wide" >&2
  fi
  [ -z "$command" ] || same synopsis "$command" "$(of_usage "$command")" "$(of_synopsis "$command")"
  wanted=$(of_help "$command")
  for it in man bash zsh fish; do
    same "$it" "$command" "$wanted" "$("of_$it" "$command")"
  done
done

# bash_completes WANTED WORD..: what bash completes as the last word is this, in a folder with the file library.car.
bash_completes() {
  local wanted=$1 came
  came=$(cd "$files" && bash -c '
    source "$1"; shift
    COMP_WORDS=("$@") COMP_CWORD=$(($# - 1))
    _ix_export
    printf "%s " "${COMPREPLY[@]}"' bash "$completions" "${@:2}")
  [ "$wanted " = "$came" ] && return
  failed=1
  printf 'tests/options.sh: FAILED: bash completes `%s` to %s\n' "${*:2}" "$came" >&2
}

completions=$PWD/install/ix_export.bash
files=$scratch/files
mkdir "$files"
touch "$files/library.car"
bash_completes library.car ix_export get --blocks li
bash_completes library.car ix_export get --blocks = li
bash_completes library.car ix_export get --blocks =
bash_completes library.car ix_export get --out = li
bash_completes library.car ix_export get -o li
bash_completes '' ix_export jobs -o li
bash_completes --blocks ix_export get --blo

# installed FILE..: what is in the folder, each with its mode.
installed() {
  local came
  came=$(cd "$room" && find . -type f -printf '%m %P\n' | sort)
  [ "$came" = "$(printf '%s\n' "$@")" ] && return
  failed=1
  printf 'tests/options.sh: FAILED: installed are\n%s\n' "$came" >&2
}

if command -v make >/dev/null; then
  room=$scratch/room
  mkdir "$room"
  make --silent install DESTDIR="$room" PREFIX=/usr LIBRARY=
  documents=(docs/*.md)
  installed '644 usr/share/bash-completion/completions/ix_export' "${documents[@]/#docs/644 usr/share/doc/ix_export}" \
    '644 usr/share/fish/vendor_completions.d/ix_export.fish' '644 usr/share/man/man1/ix_export.1' \
    '644 usr/share/zsh/site-functions/_ix_export' '755 usr/bin/ix_export'
  cmp -s "$program" "$room/usr/bin/ix_export" || installed 'another program'
  # Any file serves as a library here.
  make --silent uninstall DESTDIR="$room" PREFIX=/usr
  make --silent install-lib DESTDIR="$room" PREFIX=/usr LIBRARY=README.md
  installed '644 usr/include/ix_export.h' '644 usr/lib/libix_export.a' '644 usr/lib/pkgconfig/ix_export.pc'
  make --silent uninstall DESTDIR="$room" PREFIX=/usr
  installed ''
  [ ! -e "$room/usr/share/doc/ix_export" ] || installed 'the folder of the documents'
fi
[ "$failed" -eq 0 ] || exit 1
echo "tests/options.sh: the man page and the completions have the options of the help"
