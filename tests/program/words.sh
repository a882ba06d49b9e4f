# The arguments of the command line. The text for words that are rejected isn't compared.

# words_refused WORD..: status 2, something on standard error and nothing on standard output.
words_refused() {
  begin "the words '$*'"
  good_files
  run "$@"
  expect_text 'exit status' 2 "$status"
  expect_lines 'standard output' '' "$scratch/stdout"
  [ -s "$scratch/stderr" ] || fail 'standard error: nothing' /dev/null "$scratch/stderr"
}

inputs=(--blocks blocks.car --jobs jobs.txt)
words_refused
words_refused ''
words_refused export
words_refused --cid "$abc_text"
words_refused root
words_refused root --cid
words_refused root --cid "$abc_text" more
words_refused root --text "$abc_text"
words_refused root --cid "$abc_text" --cid "$abc_text"
words_refused root $'\xff'
words_refused jobs
words_refused jobs "${inputs[@]}"
words_refused jobs --jobs jobs.txt --out out
words_refused jobs --blocks blocks.car --out out
words_refused jobs "${inputs[@]}" --out
words_refused jobs "${inputs[@]}" --out out --loud
words_refused jobs "${inputs[@]}" --out out more
words_refused jobs "${inputs[@]}" --out out --quiet --quiet
words_refused jobs "${inputs[@]}" --out out --progress --progress
words_refused selector '{".":{}}' more
words_refused selector '{".":{}}' --hex a1612ea0
words_refused selector --hex
words_refused job
words_refused job a "$abc_text" 1
words_refused job a "$abc_text" 1 '{".":{}}' more
words_refused check-jobs
words_refused check-jobs jobs.txt more
for option in --walkers --verifiers; do
  for number in 0 65 x -1 '' 4294967297; do
    words_refused jobs "${inputs[@]}" --out out "$option" "$number"
  done
done
for number in 0 4294967296 x -1 ''; do
  words_refused jobs "${inputs[@]}" --out out --max-limit "$number"
  words_refused job a "$abc_text" 1 '{".":{}}' --max-limit "$number"
  words_refused check-jobs jobs.txt --max-limit "$number"
done
# The words are read before any file.
words_refused jobs --blocks none --jobs none --out none --walkers 0

# helps WORD.. -- TEXT..: status 0 and a help on standard output that has each text.
helps() {
  local words=()
  begin "the help of '$*'"
  while [ "$1" != -- ]; do
    words+=("$1")
    shift
  done
  shift
  run "${words[@]}"
  expect_text 'exit status' 0 "$status"
  expect_lines 'standard error' '' "$scratch/stderr"
  for word in "$@"; do
    grep -qF -e "$word" "$scratch/stdout" || fail "help, without '$word'" /dev/null "$scratch/stdout"
  done
}

helps --help -- get root jobs selector CARv1 SHA-256 SHA-512 identity UnixFS --version 'Usage: ix_export <COMMAND>'
helps -h -- get root jobs selector
helps root --help -- '--cid <TEXT>' hex 'Standard input' 'Status: 0'
helps get --help -- --no-sync '--prefetch <WHEN>' 'by cores' '--blocks <FILE>' '--root <ROOT[,..]>' '--scope <SCOPE>' '--segment <NAME>' '--selector <JSON>' '--selector-hex <HEX>' \
  '--without <FILE>' '--without-list <FILE>' '1 to 4294967295' 'with --every-arrival up to 1000000' FILE.part 'standard output' 'Status: 0' docs/SELECTORS.md
helps jobs --help -- 'NAME ROOTS LIMIT SELECTOR' '--blocks <FILE>' '--jobs <FILE>' '--out <DIR>' '--walkers <N>' \
  '--verifiers <N>' '1 to 64' 'default: 4' '--prefetch <WHEN>' "$abc_text 9 $matcher" 1000000 DIR/NAME.car damaged 'Status: 0' --max-input 'default: 1G' \
  '--without-list <FILE>' DIR/NAME.car.part --sync --progress 'counts twice' SHA-256 SHA-512 identity 'the command `selector`'
helps inspect --help -- --list --cids --without-list
helps selector --help -- '--hex <TEXT>' '[JSON]' '{"R":{"l":{"none":{}},":>":{"a":{">":{"@":{}}}}}}' docs/SELECTORS.md

begin 'the help of a command, whole: its example is indented'
run job --help
expect 0 "Print the line of a job for a job file

Usage: ix_export job [OPTIONS] <NAME> <ROOT[,ROOT..]> <LIMIT> [JSON]

Arguments:
  <NAME>           1 to 64 characters of [a-z0-9_-]
  <ROOT[,ROOT..]>  1 to 64 comma-separated CIDs, or CID/PATH
  <LIMIT>          Link budget, 1 to the N of --max-limit
  [JSON]           IPLD selector as JSON, or - for standard input

Options:
      --blocks <FILE>     CARv1 file in which paths lead; several add up
      --scope <SCOPE>     all|block|entity at the path's end [default: all]
      --max-limit <N>     Greatest LIMIT, to 4294967295 [default: 1000000]
      --max-input <SIZE>  Greatest size of an input, such as 4G
      --carv2             Read CARv2 files too, as the CARv1 in them
      --prefer-sound      Use the first sound copy of a block, if any is
  -q, --quiet             Accepted: there is no progress and no report
  -h, --help              Print help

Append the lines of jobs to a job file:

  ix_export job photos \\
    $abc_text 1000 \\
    '{\"R\":{\"l\":{\"none\":{}},\":>\":{\"a\":{\">\":{\"@\":{}}}}}}' >>photos.jobs

A root may have a path, CID/albums/0, as that of the command \`get\`. It is
followed in the files of --blocks, and the selector of the line goes along it.
Then JSON is the selector from its end, everything without JSON, or with --scope
block the block in which the path ends alone.

Status: 0 if a line was printed, 3 if a path leads no further, 2 if an argument
or a file is rejected, with a line on standard error that says why." ''
for command in get jobs selector verify; do
  title="the help of $command: its examples are indented"
  run "$command" --help
  grep -qE '^  (ix_export |photos |\{)' "$scratch/stdout" || fail 'help' /dev/null "$scratch/stdout"
done

begin 'an argument that is not UTF-8'
run root $'a\xff b'
refused "error: an argument is not UTF-8: number 2, 'a\\xff b'"

# The version names the logic of the kit that made the program; after it is the folder that the program is from.
folder=$(dirname "$("$top/ix_export" --where)")
made_with=$(cat "$folder/KIT")
for word in --version -V; do
  begin "the version, by $word"
  run "$word"
  expect 0 "ix_export 1.0.0, proved in Rattle's ${made_with#* }" ''
  "$top/ix_export" "$word" >"$scratch/stdout"
  expect_lines 'standard output of ./ix_export' "ix_export 1.0.0, proved in Rattle's ${made_with#* }
taken from ${folder##*/}/, made with $made_with" "$scratch/stdout"
done
