# The example directory: archives and report are those of examples/expected, with any number of threads.

# expect_examples TITLE WORD..
expect_examples() {
  local wanted=$top/examples/expected name
  begin "$1"
  shift
  run jobs --blocks "$top/examples/library.car" --jobs "$top/examples/library.jobs" --out out "$@"
  expect 4 "$(cat "$wanted/report.txt")" ''
  expect_folder out album.car first-three.car front.car parts.car whole.car
  for name in album first-three front parts whole; do
    expect_same "out/$name.car" "$wanted/$name.car" "out/$name.car"
  done
}

expect_examples 'the examples'
expect_examples 'the examples with one walker and one verifier' --walkers 1 --verifiers 1
expect_examples 'the examples with 64 walkers and 64 verifiers' --walkers 64 --verifiers 64

begin 'the report in README'
expect_text report "$(cat "$top/examples/expected/report.txt")" \
  "$(sed -n '/^    whole done/,/^    total/s/^    //p' "$top/README.md")"

# commands_in SECTION: the lines of a section of README that set a variable or run the program, or compare.
commands_in() {
  sed -n "/^## $1\$/,/^## /p" "$top/README.md" | grep -E '^    (root=|everything=|\./ix_export (get|receive) |cmp )'
}

# answer COMMAND LINE..: the command prints these lines, or any if there are none.
answer() {
  (eval "$1") >"$scratch/stdout" 2>&1 || true
  [ $# = 1 ] || expect_lines "the answer of $1" "$(printf '%s\n' "${@:2}")" "$scratch/stdout"
}

# The lines of code of the first run in README: those below a command of the program are what it prints.
first_run() {
  local line root said=()
  while IFS= read -r line; do
    case $line in
      git*) ;;
      root=*) root=${line#root=} ;;
      ./ix_export*)
        [ ${#said[@]} = 0 ] || answer "${said[@]}"
        said=("$line")
        ;;
      *) said+=("$line") ;;
    esac
  done < <(sed -n '/^## A first run$/,/^## Install$/p' "$top/README.md" | sed '/^```/,/^```/d' | sed -n 's/^    //p')
  answer "${said[@]}"
}

begin 'the first run in README: what each command prints'
ln -s "$top/ix_export" "$top/examples" .
first_run

begin 'the snapshots in README: what is restored is the whole'
ln -s "$top/ix_export" "$top/examples" .
{ commands_in 'A first run'; commands_in Snapshots; } >commands.sh
bash commands.sh >"$scratch/stdout" 2>"$scratch/stderr" && status=0 || status=$?
expect_text 'exit status' 0 "$status"
expect_lines 'standard output' '' "$scratch/stdout"
expect_same whole.car "$top/examples/expected/whole.car" whole.car
expect_same restored.car "$top/examples/expected/whole.car" restored.car
expect_text 'the line of the difference' "$(sed -n '/^## Snapshots/,/^## /s/^    \(get done .*\)/\1/p' "$top/README.md")" \
  "$(grep ' known=' "$scratch/stderr")"
expect_text 'the report of what is received' "$(sed -n '/^## Snapshots/,/^## /{/^    receive done/,/^    total/s/^    //p}' "$top/README.md")" \
  "$(sed -n '/^receive done visits=10/,/^total/p' "$scratch/stderr")"
expect_same update.car new.car update.car

# The bytes of a section with a block of so many bytes, under a CID of 36.
section_size() {
  echo $(($1 + 36 + ($1 + 36 < 128 ? 1 : 2)))
}

# An archive has a header of 59 bytes; a link in a list has 41.
begin 'the example of snapshots: the sizes, and the fifth restored'
wanted=() photos=() parts=0 wholes=0
for day in {1..10}; do
  photos+=("$(section_size "$(seq -f "photo $day, line %g" 200 | wc -c)")")
  shown=("${photos[@]: -$((day < 6 ? day : 6))}")
  list=$(section_size $((2 + 41 * ${#shown[@]})))
  part=$((59 + list + photos[day - 1])) whole=$((59 + list + $(IFS=+ && echo "${shown[*]}")))
  parts=$((parts + part)) wholes=$((wholes + whole))
  wanted+=("day $day: $part bytes, and $whole if it were whole")
done
"$top/examples/snapshots.sh" >"$scratch/stdout" 2>"$scratch/stderr" && status=0 || status=$?
expect 0 "$(printf '%s\n' "${wanted[@]}" "ten days: $parts bytes, and $wholes if each were whole" \
  'day 5 is restored from five differences')" ''
expect_folder snapshots day-{1,10,2,3,4,5,6,7,8,9}.car library.car restored-5.car whole-5.car
