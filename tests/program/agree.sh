# `get` and `jobs` know the same options, of two that are opposites the last one counts, and `get` takes the roots in the header
# of its first file where none are given.

# Two lists that link to one list, so that it is expanded once or at every link to it.
twice=82$(link "$one_cid")$(link "$one_cid")
twice_cid=$(cbor "$twice")
twice_text=$(text "$twice_cid")
twice_blocks=$(section "$twice_cid" "$twice")$one_blocks

begin 'opposites: a block expanded once or at every link, by get'
write_blocks "$twice_blocks"
get_twice=(get --blocks blocks.car --root "$twice_text" --out out/a.car)
for words in '' '--once' '--every-arrival --once' '--once --every-arrival --once' '--once --once'; do
  run "${get_twice[@]}" $words
  expect_text "the visits with $words" 'get done visits=4 kept=4 sections=3' "$(sed -n '1s/ bytes=.*//p' "$scratch/stderr")"
done
for words in '--every-arrival' '--once --every-arrival' '--every-arrival --every-arrival'; do
  run "${get_twice[@]}" $words
  expect_text "the visits with $words" 'get done visits=5 kept=5 sections=3' "$(sed -n '1s/ bytes=.*//p' "$scratch/stderr")"
done

begin 'opposites: the same by jobs'
write_blocks "$twice_blocks"
write_jobs "a $twice_text 9 $all"
for words in '' '--every-arrival' '--once --every-arrival'; do
  run jobs --blocks blocks.car --jobs jobs.txt --out out $words
  expect_text "the visits with $words" 'a done visits=5 kept=5 sections=3' "$(sed -n '1s/ bytes=.*//p' "$scratch/stdout")"
done
for words in '--once' '--every-arrival --once'; do
  run jobs --blocks blocks.car --jobs jobs.txt --out out $words
  expect_text "the visits with $words" 'a done visits=4 kept=4 sections=3' "$(sed -n '1s/ bytes=.*//p' "$scratch/stdout")"
done

begin 'opposites: which archives are named'
write_blocks "$one_blocks"
write_jobs "a $one_text 1 $all"
for words in '' '--partial' '--complete --partial'; do
  rm -f out/*
  run jobs --blocks blocks.car --jobs jobs.txt --out out $words
  expect_folder out a.car
done
for words in '--complete' '--partial --complete'; do
  rm -f out/*
  run jobs --blocks blocks.car --jobs jobs.txt --out out $words
  expect_folder out a.car.part
done
for words in '' '--complete' '--partial --complete'; do
  rm -f out/*
  run "${get_one[@]}" --limit 1 --out out/a.car $words
  expect_text 'exit status' 4 "$status"
  expect_folder out a.car.part
done
for words in '--partial' '--complete --partial'; do
  rm -f out/*
  run "${get_one[@]}" --limit 1 --out out/a.car $words
  expect 4 '' 'get limit visits=1 kept=1 sections=1 bytes=138
total jobs=1 done=0 skips=0'
  expect_folder out a.car
done

begin 'opposites: a lesser archive that get names replaces a file with a warning, and one that failed gets no name'
write_blocks "$one_blocks"
bytes ff >out/a.car
run "${get_one[@]}" --limit 1 --out out/a.car --partial
expect 4 '' 'warning: out/a.car replaced an existing file: its job ended with limit
get limit visits=1 kept=1 sections=1 bytes=138
total jobs=1 done=0 skips=0'
expect_bytes out/a.car "$(header "$one_cid")" "$(section "$one_cid" "$one")"
write_blocks "$(section "$abc_cid" "$abc")"
rm -f out/*
run "${get_one[@]}" --out out/a.car --partial
expect_text 'exit status' 4 "$status"
expect_folder out a.car

begin 'opposites: each is accepted with its other'
write_blocks "$one_blocks"
write_jobs "a $one_text 9 $all"
run "${get_one[@]}" --sync --no-sync --sync --verbose
got 0 "$get_report" "$one_archive"
run jobs --blocks blocks.car --jobs jobs.txt --out out --no-sync --sync --no-sync --quiet --verbose
expect 0 '' ''

begin 'get: the roots in the header of the first file'
bytes "$(header "$one_cid")" "$one_blocks" >one.car
bytes "$(header "$abc_cid")" "$(section "$abc_cid" "$abc")" >abc.car
run get --blocks one.car --blocks abc.car
got 0 "note: the roots are those in the header of one.car: $one_text
$get_report" "$one_archive"
run get --blocks abc.car --blocks one.car --quiet
got 0 "$nothing_below" "$(header "$abc_cid")" "$(section "$abc_cid" "$abc")"
run get --blocks one.car --root "$abc_text" --quiet
got 0 "$nothing_below" "$(header "$abc_cid")" "$(section "$abc_cid" "$abc")"
bytes "$(header "$abc_cid" "$one_cid")" "$one_blocks" >both.car
run get --blocks - --out out/a.car <both.car
expect 0 '' "note: the roots are those in the header of -: $abc_text,$one_text
get done visits=3 kept=3 sections=2 bytes=219
total jobs=1 done=1 skips=0"

begin 'get: a header whose roots are those of no job, and arguments that are rejected first'
write_blocks "$one_blocks"
run get --blocks blocks.car --out out/a.car
expect_text 'exit status' 2 "$status"
expect_text 'the first line' "error: the header of blocks.car names no roots: give '--root <CID>'" "$(head -n 1 "$scratch/stderr")"
many=()
for ((at = 0; at < 65; at++)); do
  many+=("$(raw "$(printf %02x "$at")")")
done
bytes "$(header "${many[@]}")" >many.car
run get --blocks many.car --out out/a.car
expect_text 'exit status' 2 "$status"
expect_text 'the first line' 'error: the roots in the header of many.car: --root: ' "$(head -n 1 "$scratch/stderr" | grep -oE '^error: [^:]*: --root: ')"
run get --blocks none.car --limit 0
expect_text 'exit status' 2 "$status"
expect_text 'the line' '--limit' "$(grep -oE '^--limit' "$scratch/stderr")"
bytes ff >cut.car
run get --blocks cut.car
expect_text 'exit status' 2 "$status"
expect_folder out
