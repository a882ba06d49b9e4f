# Parts of a job file: `--part`, and the scripts of examples/cluster without an engine.

# run_part K/N
run_part() {
  run jobs --blocks blocks.car --jobs jobs.txt --out out --part "$1"
}

for text in '' / 1 1/ /1 0/1 2/1 0/0 1/0 1/1000001 1000001/1000001 -1/2 1/-2 x/2 1/x 1/2/3 ' 1/2' '1/2 ' 1/4294967297; do
  words_refused jobs "${inputs[@]}" --out out --part "$text"
done
words_refused jobs "${inputs[@]}" --out out --part
words_refused jobs "${inputs[@]}" --out out --part 1/1 --part 1/1
# The words are read before any file.
words_refused jobs --blocks none --jobs none --out none --part 2/1

begin 'a part that is none'
good_files
run_part 3/2
expect 2 '' "error: invalid value '3/2' for '--part <K/N>': K is from 1 to N, and N from 1 to 1000000

Usage: ix_export jobs [OPTIONS] --blocks <FILE> --jobs <FILE> --out <DIR>

For more information, try '--help'."
expect_folder out

begin 'seven jobs in three parts: of two, two and three'
write_blocks "$one_blocks"
{ printf '# jobs\n\n' && seq -f "j%g $one_job" 7; } >jobs.txt
for part in '1 1 2' '2 3 4' '3 5 7'; do
  set -- $part
  rm -f out/*
  run_part "$1/3"
  expect 0 "$(seq -f "j%g $one_line" "$2" "$3")
total jobs=$(($3 - $2 + 1)) done=$(($3 - $2 + 1)) skips=0" ''
  expect_folder out $(seq -f 'j%g.car' "$2" "$3")
done

begin 'the one part of one, and parts without a job'
write_blocks "$one_blocks"
write_jobs "a $one_job"
run_part 1/2
expect 0 'total jobs=0 done=0 skips=0' 'note: part 1/2 of jobs.txt has no job'
expect_folder out
run_part 1/1000000
expect 0 'total jobs=0 done=0 skips=0' 'note: part 1/1000000 of jobs.txt has no job'
run_part 2/2
expect 0 "a $one_line
total jobs=1 done=1 skips=0" ''
run_part 1/1
expect 0 "a $one_line
total jobs=1 done=1 skips=0" ''

begin 'a fault outside the part'
write_blocks "$one_blocks"
write_jobs "a $one_job" "b $one_job" "c" "d $one_job"
for part in 1/4 2/4 4/4 1/1000000; do
  run_part "$part"
  refused 'jobs: fields at line 3'
  expect_folder out
done

begin 'a name that stands in two parts'
write_blocks "$one_blocks"
write_jobs "a $one_job" '# here' "b $one_job" "c $one_job" "a $one_job"
for part in 1/2 2/2; do
  run_part "$part"
  refused 'jobs: repeated at line 5'
done

begin 'more than a thousand jobs in a part'
write_blocks "$one_blocks"
{ echo '#' && seq -f "j%g $one_job" 2501; } >jobs.txt
run_jobs
refused 'jobs: too many at line 1002'
run_part 1/2
expect_text 'exit status' 2 "$status"
expect_lines 'standard error' 'jobs: too many at line 1002' "$scratch/stderr"
run_part 2/2
refused 'jobs: too many at line 2252'
run_part 1/1
refused 'jobs: too many at line 1002'
echo 'j1' >>jobs.txt
run_part 2/2
refused 'jobs: fields at line 2503'

cluster=$top/examples/cluster
export IX_EXPORT=$program

# run_parts N: each part of the case, by `part`. One without a job says so.
run_parts() {
  local part noted
  for ((part = 1; part <= $1; part++)); do
    status=0 noted=
    "$cluster/part" "$part" "$1" blocks.car jobs.txt out >"$scratch/stdout" 2>"$scratch/stderr" || status=$?
    ! grep -Fqsx 'total jobs=0 done=0 skips=0' "out/parts/report.$part-of-$1" || noted="note: part $part/$1 of jobs.txt has no job"
    expect 0 '' "$noted"
  done
}

# merge N: its answer is what `expect` looks at.
merge() {
  status=0
  "$cluster/merge" jobs.txt out "$1" >"$scratch/stdout" 2>"$scratch/stderr" || status=$?
}

# merge_refused N LINE
merge_refused() {
  merge "$1"
  expect_text 'exit status' 2 "$status"
  expect_lines 'standard error' "$2" "$scratch/stderr"
}

# mixed_files: four jobs, one with skips and one at its limit, and in `whole` what one run answers.
mixed_files() {
  write_blocks "$(section "$with_zero_cid" "$with_one")" "$one_blocks"
  write_jobs '# jobs' "a $one_job" '' "b $(text "$with_zero_cid"),$abc_text 100 $all" "short $(text "$one_cid") 1 $all" "d $one_job"
  mkdir whole
  run jobs --blocks blocks.car --jobs jobs.txt --out whole
  whole_status=$status
  whole_report=$(cat "$scratch/stdout")
}

for of in 1 2 3 4 9; do
  begin "the merged report of $of parts is that of one run"
  mixed_files
  run_parts "$of"
  merge "$of"
  expect "$whole_status" "$whole_report" ''
  expect_folder out a.car b.car d.car parts short.car
  for name in a b short d; do
    expect_same "out/$name.car" "whole/$name.car" "out/$name.car"
  done
  expect_folder out/parts $(seq -f "report.%g-of-$of" "$of" | sort)
done

begin '2,500 jobs by three parts'
write_blocks "$one_blocks"
seq -f "j%g $one_job" 2500 >jobs.txt
run_parts 3
merge 3
expect 0 "$(seq -f "j%g $one_line" 2500)
total jobs=2500 done=2500 skips=0" ''
expect_text 'digests of the archives' "$(digest "$one_archive")" "$(sha256sum out/*.car | cut -c 1-64 | uniq)"
expect_text 'archives' 2500 "$(ls out/*.car | wc -l)"

begin 'no job at all'
write_blocks "$one_blocks"
: >jobs.txt
run_parts 2
merge 2
expect 0 'total jobs=0 done=0 skips=0' ''

begin 'reports that are missing, cut, doubled, swapped or of another N'
mixed_files
run_parts 2
run_parts 3
cp -R out/parts good
# again: the reports as they were.
again() {
  rm -rf out/parts
  cp -R good out/parts
}
rm out/parts/report.2-of-3
merge_refused 3 'merge: parts without a report: 2'
merge 2
expect "$whole_status" "$whole_report" ''
again
: >out/parts/report.1-of-3
merge_refused 3 'merge: parts without a report: 1'
again
sed -i '$d' out/parts/report.1-of-3
merge_refused 3 'merge: ./out/parts/report.1-of-3 has no total: it was cut off'
again
sed -i '$d' out/parts/report.3-of-3
merge_refused 3 'merge: ./out/parts/report.3-of-3 has no total: it was cut off'
again
sed -i 1d out/parts/report.1-of-3
merge_refused 3 'merge: ./out/parts/report.1-of-3 has other lines than its total says: total jobs=1 done=1 skips=0'
again
cat good/report.1-of-3 >>out/parts/report.1-of-3
merge_refused 3 'merge: ./out/parts/report.1-of-3 goes on after its total'
again
cp good/report.1-of-3 out/parts/report.2-of-3
merge_refused 3 'merge: ./out/parts/report.2-of-3: job a is there twice'
again
cp good/report.2-of-3 out/parts/report.1-of-3
cp good/report.1-of-3 out/parts/report.2-of-3
merge_refused 3 'merge: ./out/parts/report.1-of-3: job 1 is b, and a in the job file'
again
cp good/report.1-of-2 out/parts/report.1-of-3
merge_refused 3 'merge: ./out/parts/report.2-of-3: job b is there twice'
again
cp good/report.1-of-3 out/parts/report.1-of-2
merge_refused 2 'merge: ./out/parts/report.2-of-2: job 2 is short, and b in the job file'
again
printf 'total jobs=0 done=0 skips=0\n' >out/parts/report.3-of-3
merge_refused 3 'merge: 2 jobs of the job file have no report'

begin 'a part of a faulty job file, and a part that is none'
write_blocks "$one_blocks"
write_jobs "a $one_job" b
status=0
"$cluster/part" 1 2 blocks.car jobs.txt out >"$scratch/stdout" 2>"$scratch/stderr" || status=$?
expect 2 '' "jobs: fields at line 2
part 1 of 2 on $(uname -n): status 2"
expect_folder out parts
expect_folder out/parts

# by_root FILE..: the groups of the case's jobs over these files.
by_root() {
  status=0
  "$cluster/by-root" jobs.txt groups "$@" >"$scratch/stdout" 2>"$scratch/stderr" || status=$?
}

# run_group K N: a group of the case, by `part`.
run_group() {
  status=0
  "$cluster/part" "$1" "$2" groups groups/jobs out >"$scratch/stdout" 2>"$scratch/stderr" || status=$?
}

# rooted_files: the list of one link in one file, and what it links to in another that names the list too; and `abc` alone.
rooted_files() {
  bytes "$(header "$one_cid")" "$(section "$one_cid" "$one")" >one.car
  bytes "$(header "$one_cid")" "$(section "$abc_cid" "$abc")" >rest.car
  bytes "$(header "$abc_cid")" "$(section "$abc_cid" "$abc")" >abc.car
}

begin 'groups by root: the archives and the report are those of one run over all files'
rooted_files
write_jobs '# jobs' "a $one_job" "b $abc_text 100 $all" '' "c $one_job" "both $abc_text,$(text "$one_cid") 100 $all" \
  "none $(text "$with_zero_cid") 100 $all"
by_root one.car rest.car abc.car
expect 0 3 ''
expect_folder groups 1.files 1.jobs 2.files 2.jobs 3.files 3.jobs count jobs
expect_text 'the files of group 1' "$PWD/one.car
$PWD/rest.car" "$(cat groups/1.files)"
expect_text 'the files of group 2' "$PWD/abc.car" "$(cat groups/2.files)"
expect_text 'the files of group 3' "$PWD/one.car
$PWD/rest.car
$PWD/abc.car" "$(cat groups/3.files)"
expect_text 'the jobs' 'a c b both none' "$(cut -d ' ' -f 1 groups/jobs | xargs)"
mkdir whole
run jobs --blocks one.car --blocks rest.car --blocks abc.car --jobs groups/jobs --out whole
whole_status=$status
whole_report=$(cat "$scratch/stdout")
for group in 1 3; do
  run_group "$group" 3
  expect 0 '' ''
done
rm one.car rest.car
run_group 2 3
expect 0 '' ''
status=0
"$cluster/merge" groups/jobs out 3 >"$scratch/stdout" 2>"$scratch/stderr" || status=$?
expect "$whole_status" "$whole_report" ''
for name in a b c both none; do
  expect_same "out/$name.car" "whole/$name.car" "out/$name.car"
done

begin 'groups by root: at most a thousand jobs in one'
rooted_files
seq -f "j%g $one_job" 2500 >jobs.txt
by_root abc.car one.car rest.car
expect 0 3 ''
expect_text 'the jobs of each' '1000 1000 500' "$(grep -c '' groups/{1,2,3}.jobs | cut -d : -f 2 | xargs)"
expect_same 'the jobs' jobs.txt groups/jobs

begin 'groups by root: what is rejected'
rooted_files
write_jobs "a $one_job" "a $one_job"
by_root one.car
expect 2 '' 'jobs: repeated at line 2'
write_jobs "a $one_job"
by_root
expect 2 '' 'by-root: no file of blocks'
by_root one.car
expect 0 1 ''
run_group 1 2
expect 2 '' 'part: groups has other groups than 2'
by_root one.car
expect_text 'exit status' 1 "$status"

unset IX_EXPORT
