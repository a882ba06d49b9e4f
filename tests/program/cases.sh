# How a case is run and judged.

cases=0
verified=0

# Begins a case in an empty folder with an empty folder `out` in it.
begin() {
  title=$1
  cases=$((cases + 1))
  rm -rf "$scratch/work"
  mkdir -p "$scratch/work/out"
  cd "$scratch/work"
  : >"$scratch/stdout"
  : >"$scratch/stderr"
}

# Runs the program; its answer is what `expect` looks at. Of `jobs`, each archive that was named is verified.
run() {
  : >"$scratch/began"
  run_bare "$@" >"$scratch/stdout" 2>"$scratch/stderr"
  if [ "${1-}" = jobs ]; then verify_archives; fi
}

# The archives in the report that this run wrote, are sound, section by section.
verify_archives() {
  local name end rest archives=()
  while read -r name end rest; do
    if [[ $end == @(done|limit) && -f out/$name.car && out/$name.car -nt $scratch/began ]]; then archives+=("out/$name.car"); fi
  done <"$scratch/stdout"
  if [ ${#archives[@]} -gt 0 ]; then
    verified=$((verified + ${#archives[@]}))
    "$program" verify --blocks-only "${archives[@]}" >"$scratch/verified" 2>&1 || fail archives /dev/null "$scratch/verified"
  fi
}

# The same with standard output and standard error as the caller has them.
run_bare() {
  status=0
  local words=("$@")
  if [ -n "${prefetch-}" ] && [[ ${1-} == @(get|jobs) && " $* " != *' --prefetch '* ]]; then
    words=("$1" --prefetch "$prefetch" "${@:2}")
  fi
  "$program" "${words[@]}" || status=$?
}

# run_with_room KIB WORD..: no file can be longer than so many KiB. A write beyond fails.
run_with_room() {
  local room=$1
  shift
  (trap '' XFSZ && ulimit -f "$room" && run_bare "$@" && exit "$status") >"$scratch/stdout" 2>"$scratch/stderr" &&
    status=0 || status=$?
}

# The command `jobs` on the files of the case.
run_jobs() {
  run jobs --blocks blocks.car --jobs jobs.txt --out out
}

# expect STATUS OUTPUT ERRORS: output and errors are given as their lines, each with a line end; an
# empty text is no line.
expect() {
  expect_text 'exit status' "$1" "$status"
  expect_lines 'standard output' "$2" "$scratch/stdout"
  expect_lines 'standard error' "$3" "$scratch/stderr"
}

# refused LINE: status 2, nothing on standard output, one line on standard error.
refused() {
  expect 2 '' "$1"
}

expect_lines() {
  if [ -n "$2" ]; then printf '%s\n' "$2"; fi >"$scratch/wanted"
  expect_same "$1" "$scratch/wanted" "$3"
}

# expect_text WHAT WANTED CAME: two texts are the same.
expect_text() {
  printf '%s\n' "$2" >"$scratch/wanted"
  printf '%s\n' "$3" >"$scratch/came"
  expect_same "$1" "$scratch/wanted" "$scratch/came"
}

# expect_bytes FILE HEX..: the file has exactly these bytes.
expect_bytes() {
  local file=$1
  shift
  bytes "$@" >"$scratch/wanted"
  expect_same "$file" "$scratch/wanted" "$file"
}

# expect_folder FOLDER NAME..: the folder has exactly these names, in order.
expect_folder() {
  local folder=$1
  shift
  expect_text "files in $folder" "$(printf '%s\n' "$@")" "$(ls -A "$folder")"
}

# expect_same WHAT WANTED CAME: two files have the same bytes.
expect_same() {
  cmp -s "$2" "$3" || fail "$@"
}

# fail WHAT WANTED CAME, the last two as files.
fail() {
  {
    printf 'tests/program.sh: FAILED: %s: wrong %s\n' "$title" "$1"
    printf 'wanted:\n%s\n' "$(shown "$2")"
    printf 'came:\n%s\n' "$(shown "$3")"
    printf 'standard error was:\n%s\n' "$(shown "$scratch/stderr")"
  } >&2
  exit 1
}

# A file as text where it is text, else in hex.
shown() {
  if [ ! -e "$1" ]; then
    echo '(no such file)'
  elif grep -qP '[^\x09\x0a\x0d\x20-\x7e]' "$1"; then
    od -An -v -tx1 "$1"
  else
    cat -A "$1"
  fi
}
