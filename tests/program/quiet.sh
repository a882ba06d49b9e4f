# The option --quiet at each command: a report goes where the status is 0. Answers stay, and so does all that is said at other
# statuses.

# same_quiet STATUS WORD..: the program says the same with --quiet and with -q as without.
same_quiet() {
  local wanted=$1 option
  shift
  rm -f out/*
  run_bare "$@" >"$scratch/text" 2>"$scratch/messages"
  expect_text "exit status of $*" "$wanted" "$status"
  for option in --quiet -q; do
    rm -f out/*
    run "$@" "$option"
    expect_text "exit status of $* $option" "$wanted" "$status"
    expect_same "output of $* $option" "$scratch/text" "$scratch/stdout"
    expect_same "messages of $* $option" "$scratch/messages" "$scratch/stderr"
  done
}

begin 'quiet: jobs has a report where the status is not 0'
write_blocks "$one_blocks"
write_jobs "a $one_text 1 $all"
same_quiet 4 jobs "${inputs[@]}" --out out
same_quiet 4 jobs "${inputs[@]}" --out out --json
write_jobs "a $abc_text 1 $all"
write_blocks
same_quiet 3 jobs "${inputs[@]}" --out out
printf x >jobs.txt
same_quiet 2 jobs "${inputs[@]}" --out out

begin 'quiet: jobs has none where it is 0'
write_blocks "$one_blocks"
write_jobs "a $one_job"
run jobs "${inputs[@]}" --out out --quiet
expect 0 '' ''
run jobs "${inputs[@]}" --out out --json -q
expect 0 '' ''
expect_folder out a.car

begin 'quiet: inspect describes no file, and says what another file is'
write_blocks "$one_blocks"
for words in '' --list --cids --json '--json --list'; do
  run inspect blocks.car $words --quiet
  expect 0 '' ''
done
printf x >text
same_quiet 2 inspect text
same_quiet 2 inspect text --json

begin 'quiet: check-jobs says what is wrong'
write_jobs "a $one_job"
same_quiet 0 check-jobs jobs.txt
write_jobs "a $one_text 0 $all"
same_quiet 2 check-jobs jobs.txt

begin 'quiet: answers stay'
write_blocks "$one_blocks"
same_quiet 0 selector '{".":{}}'
same_quiet 2 selector '{'
same_quiet 0 job a "$abc_text" 1 '{".":{}}'
same_quiet 2 job a "$abc_text" 0 '{".":{}}'
same_quiet 0 block --blocks blocks.car "$abc_text"
same_quiet 3 block --blocks blocks.car "$(text "$empty_cid")"
same_quiet 0 show --blocks blocks.car "$abc_text"

begin 'quiet: root prints its archive'
run root --cid "$abc_text" -q <"$top/examples/abc.car.hex"
expect 0 "$abc_archive" ''
