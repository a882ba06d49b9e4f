# The option `--json`: objects that say what the lines of the text report do. What is wanted is the text of the same run without
# the option, out of the objects by tests/program/json_text.py, and the examples of docs/JSON.md.

# as_text FILE: the lines of the text report that the objects in a file stand for.
as_text() {
  python3 "$top/tests/program/json_text.py" <"$1" || fail 'JSON' /dev/null "$1"
}

# said STATUS OUTPUT ERRORS: the same as `expect`, where standard output has objects for these lines.
said() {
  as_text "$scratch/stdout" >"$scratch/said"
  expect_text 'exit status' "$1" "$status"
  expect_lines 'objects' "$2" "$scratch/said"
  expect_lines 'standard error' "$3" "$scratch/stderr"
}

# same_without WORD..: with --json the program says and ends as without it, and its messages are the same. Neither run replaces a file.
same_without() {
  rm -f out/*
  run_bare "$@" >"$scratch/text" 2>"$scratch/messages"
  local wanted=$status
  rm -f out/*
  run "$@" --json
  as_text "$scratch/stdout" >"$scratch/said"
  expect_text "exit status of $*" "$wanted" "$status"
  expect_same "objects of $*" "$scratch/text" "$scratch/said"
  expect_same "messages of $*" "$scratch/messages" "$scratch/stderr"
}

begin 'JSON: the examples of docs/JSON.md'
ln -s "$top/ix_export" "$top/examples" .
shown=0
variables=
while IFS= read -r line; do
  case $line in
    '    root='*) variables=${line#    } ;;
    '    ./ix_export '* | '    printf '*) command=${line#    } ;;
    '    {'*)
      shown=$((shown + 1))
      (set +o pipefail && bash -c "$variables
$command" >"$scratch/stdout" 2>"$scratch/stderr") || true
      expect_lines "answer of $command" "${line#    }" "$scratch/stdout"
      as_text "$scratch/stdout" >"$scratch/said"
      ;;
  esac
done <"$top/docs/JSON.md"
[ "$shown" -ge 9 ] || fail 'number of examples' /dev/null /dev/null

begin 'JSON: the report of the example, and where each archive is'
run jobs --blocks "$top/examples/library.car" --jobs "$top/examples/library.jobs" --out out --json
wanted=$(awk '{ print } $2 == "done" || $2 == "limit" { print "  file out/" $1 ".car" }' "$top/examples/expected/report.txt")
said 4 "$wanted" ''
expect_folder out album.car first-three.car front.car parts.car whole.car

begin 'JSON: jobs that end at their limit or without a root stay as part with --complete'
write_blocks "$one_blocks"
write_jobs "a $one_text 1 $all" "b $one_text 9 $all" "c $(text "$fork_cid") 9 $all"
run jobs --blocks blocks.car --jobs jobs.txt --out out --complete --json
said 4 "a limit visits=1 kept=1 sections=1 bytes=138
  part out/a.car.part
b $one_line
  file out/b.car
c done visits=1 kept=1 sections=0 bytes=59
  part out/c.car.part
  0 missing $(text "$fork_cid")
total jobs=3 done=2 skips=1" "left out/a.car.part: its job ended with limit
left out/c.car.part: its root $(text "$fork_cid") is missing"
expect_folder out a.car.part b.car c.car.part

begin 'JSON: no jobs'
write_blocks
: >jobs.txt
run jobs --blocks blocks.car --jobs jobs.txt --out out --json
expect 0 '{"total":{"jobs":0,"done":0,"skips":0}}' 'note: jobs.txt has no job'

begin 'JSON: get to a file, to standard output, and at its limit, on standard error'
write_blocks "$one_blocks"
run "${get_one[@]}" --out out/a.car --json
mv "$scratch/stderr" "$scratch/stdout"
: >"$scratch/stderr"
said 0 "get $one_line
  file out/a.car
total jobs=1 done=1 skips=0" ''
run "${get_one[@]}" --json
expect_bytes "$scratch/stdout" "$one_archive"
expect_text 'the object of standard output' '"file":"-"' "$(grep -o '"file":"[^"]*"' "$scratch/stderr")"
run "${get_one[@]}" --out out/b.car --limit 1 --json
sed -i '/^left /d' "$scratch/stderr"
mv "$scratch/stderr" "$scratch/stdout"
: >"$scratch/stderr"
said 4 'get limit visits=1 kept=1 sections=1 bytes=138
  part out/b.car.part
total jobs=1 done=0 skips=0' ''
run "${get_one[@]}" --out out/b.car --limit 1 --partial --json
expect_text 'the archive of a limit with --partial' '"file":"out/b.car"' "$(grep -o '"file":"[^"]*"' "$scratch/stderr")"

begin 'JSON: how many blocks are known'
write_blocks "$one_blocks"
bytes "$no_roots" "$(section "$abc_cid" "$abc")" >base.car
write_jobs "a $one_job"
run jobs --blocks blocks.car --jobs jobs.txt --out out --without base.car --json
said 0 'a done visits=2 kept=2 sections=1 bytes=138 known=1
  file out/a.car
total jobs=1 done=1 skips=0' ''

begin 'JSON: no report with --quiet where the status is 0, and else one'
write_blocks "$one_blocks"
run "${get_one[@]}" --out out/a.car --quiet --json
expect 0 '' ''
run "${get_one[@]}" --out out/a.car --limit 1 --quiet --json
expect_text 'objects' '{"job":"get"
{"total":{' "$(grep -oE '^\{"(job":"get"|total":\{)' "$scratch/stderr")"

begin 'JSON: a path with a quote, a backslash, a control character and more than ASCII'
write_blocks "$one_blocks"
odd=$'out/a"b\\c\td\x01 \xc3\xbc\xe2\x82\xac.car'
run "${get_one[@]}" --out "$odd" --json
printf '{"job":"get","end":"done","visits":2,"kept":2,"sections":2,"bytes":178,"file":"%s","skips":[]}\n' \
  $'out/a\\"b\\\\c\\td\\u0001 \xc3\xbc\xe2\x82\xac.car' >"$scratch/wanted"
sed -n 1p "$scratch/stderr" >"$scratch/came"
expect_same 'object' "$scratch/wanted" "$scratch/came"
mv "$odd" "odd\"b.car"
run verify "odd\"b.car" --json
said 0 'odd"b.car sound sections=2 bytes=178' ''

begin 'JSON: verify of several files, one of which is none, with each form of findings'
bytes "$one_archive" >a.car
bytes "$(header "$one_cid")$(section "$abc_cid" 616264)$one_blocks" >b.car
bytes 00 >c.car
same_without verify b.car a.car
bytes "$(header "$one_cid")$(section "$one_cid" "$one")" >lacks.car
bytes "$no_roots$(section "01551e20$(digest "$abc")" "$abc")" >hash.car
same_without verify lacks.car hash.car
same_without verify lacks.car a.car b.car --allow-missing raw
expect_text 'absent' '"absent":1 "absent":0 "absent":0' "$(grep -o '"absent":[0-9]*' "$scratch/stdout" | tr '\n' ' ' | sed 's/ $//')"
same_without verify lacks.car a.car hash.car --quiet
same_without verify c.car none a.car b.car --blocks-only
expect_text 'errors of two' '{"error":"car","message":"c.car: header at 0: not a CARv1 file"}
{"error":"read","message":"cannot read none: No such file or directory (os error 2)"}' "$(grep '^{"error"' "$scratch/stdout")"
same_without verify a.car b.car hash.car --exact --scope block
sections=
for number in $(seq 10 40); do sections+=$(section "$abc_cid" "$number"); done
bytes "$(header "$one_cid")$sections" >d.car
same_without verify d.car
expect_text 'findings' 20 "$(grep -o '"section":' "$scratch/stdout" | wc -l)"
expect_text 'more' '"more":12' "$(grep -o '"more":[0-9]*' "$scratch/stdout")"
run_bare verify --all d.car | sort >"$scratch/text"
run verify --all d.car --json
as_text "$scratch/stdout" | sort >"$scratch/said"
expect_same 'all findings' "$scratch/text" "$scratch/said"

begin 'JSON: inspect, of CARv1 and CARv2 files, and the list'
same_without inspect "$top/examples/library.car"
same_without inspect --list "$top/examples/library.car"
write_blocks
same_without inspect blocks.car
write_blocks "$(section 1220$(digest "$abc") "$abc")$(section 0181029a0101ff '')"
same_without inspect blocks.car
same_without inspect --list blocks.car
# A CARv2 file: its pragma, its header, and the CARv1 file, without an index and with one.
for index in 0 1; do
  size=$((${#one_archive} / 2))
  bytes 0aa16776657273696f6e02 "$(repeated 16 00)" "$(little 51)" "$(little $size)" \
    "$(little $((index * (51 + size))))" "$one_archive" 8108 >both.car
  same_without inspect both.car
  same_without inspect --list both.car
  expect_text 'the first line alone' "$(head -1 "$scratch/stdout")" "$(run_bare inspect --list --json both.car | head -1)"
done

begin 'JSON: inspect of what is no CARv1 file, and of one that ends early'
printf '{"a":1}' >a.json
run inspect a.json --json
expect 2 '{"file":"a.json","fault":"truncated","place":0,"is":"JSON"}
{"error":"car","message":"a.json: truncated at 0: JSON"}' 'a.json: truncated at 0: JSON'
bytes "${one_archive%??}" >cut.car
run inspect --list cut.car --json
expect 2 '{"file":"cut.car","fault":"truncated","place":138,"is":"a CARv1 file","start":0}
{"error":"car","message":"cut.car: truncated at 138: its whole sections are its first 138 bytes (head -c 138)"}' \
  'cut.car: truncated at 138: its whole sections are its first 138 bytes (head -c 138)'
run inspect none --json
expect 2 '{"error":"read","message":"cannot read none: No such file or directory (os error 2)"}' 'cannot read none: No such file or directory (os error 2)'
run inspect a.json --cids --json
expect_text 'exit status' 2 "$status"
expect_lines 'standard output' '' "$scratch/stdout"

begin 'JSON: check-jobs, whose first line is no object'
write_jobs "a $one_job" "b zQ3sh 1 $matcher" "a $one_job" "g  $abc_text 1 $matcher" "i $abc_text 1" $'l\t'"$one_job" \
  "k $abc_text 01 {\".\":{}}" $'m \xc3\xbc 1 a1612ea0'
run_bare check-jobs jobs.txt | sed 1d >"$scratch/text"
run check-jobs jobs.txt --json
said 2 "$(cat "$scratch/text")" ''
expect_text 'the error' '{"error":"jobs","message":"jobs: root at line 2"}' "$(tail -n 1 "$scratch/stdout")"
write_jobs "a $one_job"
run check-jobs jobs.txt --json
expect 0 '' ''
