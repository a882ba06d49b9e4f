# Prefetching, by the option --prefetch of `get` and `jobs`: archives, reports and statuses are the same.

begin 'prefetch: on, off and auto are the words'
write_blocks "$one_blocks"
write_jobs "a $one_job"
for word in maybe ON '' 1; do
  run "${get_one[@]}" --prefetch "$word"
  expect_text 'exit status' 2 "$status"
  expect_text 'the first line' "error: invalid value '$word' for '--prefetch <WHEN>': it is auto, on or off" "$(head -n 1 "$scratch/stderr")"
  run jobs --blocks blocks.car --jobs jobs.txt --out out --prefetch "$word"
  expect_text 'exit status' 2 "$status"
done
expect_folder out ''

# prefetched STATUS WORD..: a run of `get` to a file, without prefetching, as the program chooses, and with it: the same in all ways.
prefetched() {
  local when
  for when in off auto on; do
    run get --prefetch "$when" "${@:2}" --out out/a.car
    expect_text "exit status with $when" "$1" "$status"
    mv out/a.car "$when.car"
    cp "$scratch/stderr" "$when.report"
    expect_same "report with $when" off.report "$when.report"
    expect_same "archive with $when" off.car "$when.car"
  done
}

library=(--blocks "$top/examples/library.car")
begin 'prefetch: the example, once and at every arrival, with as many threads as there may be'
for threads in 1 2 64; do
  for way in --once --every-arrival; do
    prefetched 3 "${library[@]}" --root $library_root "$way" --walkers "$threads" --verifiers "$threads"
    expect_same 'the archive' "$top/examples/expected/whole.car" on.car
  done
done

begin 'prefetch: all jobs of the example'
for when in off on; do
  mkdir "$when"
  run jobs "${library[@]}" --jobs "$top/examples/library.jobs" --out "$when" --prefetch "$when"
  expect 4 "$(<"$top/examples/expected/report.txt")" ''
  for name in album first-three front parts whole; do
    expect_same "$name with $when" "$top/examples/expected/$name.car" "$when/$name.car"
  done
done

begin 'prefetch: paths, a selector, several roots, a limit'
prefetched 0 "${library[@]}" --root "$library_root/album/photos/0"
prefetched 0 "${library[@]}" --root $library_root --selector '{".":{}}' --complete
prefetched 3 "${library[@]}" --root "$library_root,$library_root" --paths --json
prefetched 4 "${library[@]}" --root $library_root --limit 3 --partial

# A list has a link to a leaf and one to the list before it. With 64 levels of fewer than 128 blocks prefetching ends.
begin 'prefetch: a chain of 150 lists, of which a part is prefetched'
leaf=$(raw 00)
sections=$(section "$leaf" 00)
block=$(item_head 4 1)$(link "$leaf")
for _ in $(seq 150); do
  key=$(cbor "$block")
  sections+=$(section "$key" "$block")
  block=$(item_head 4 2)$(link "$leaf")$(link "$key")
done
write_blocks "$sections"
for way in --once --every-arrival; do
  prefetched 0 --blocks blocks.car --root "$(text "$key")" "$way" --complete
  expect_text 'the report' 'get done visits=300 kept=300 sections=151' "$(head -n 1 off.report | cut -d ' ' -f 1-5)"
done

# Four hundred leaves below twenty lists, with a damaged list and a missing leaf: a level that several threads share.
begin 'prefetch: a graph of some levels, of which a part is damaged and a part is missing'
lists=() sections=
for list in $(seq 20); do
  links= leaves=
  for leaf in $(seq 20); do
    block=$(printf '%04x%04x' "$list" "$leaf")
    key=$(raw "$block")
    links+=$(link "$key")
    [ "$list:$leaf" = 7:7 ] || leaves+=$(section "$key" "$block")
  done
  block=$(item_head 4 20)$links
  key=$(cbor "$block")
  lists+=("$key")
  [ "$list" != 9 ] || block=${block/%??/00}
  sections+=$(section "$key" "$block")$leaves
done
block=$(item_head 4 20)
for key in "${lists[@]}"; do block+=$(link "$key"); done
wide_root=$(text "$(cbor "$block")")
write_blocks "$(section "$(cbor "$block")" "$block")" "$sections"
prefetched 3 --blocks blocks.car --root "$wide_root"
expect_text 'the report' 'get done visits=401 kept=401 sections=399' "$(head -n 1 off.report | cut -d ' ' -f 1-5)"
prefetched 3 --blocks blocks.car --root "$wide_root" --every-arrival

begin 'prefetch: a run that is killed leaves no file under its name, and the next run is whole'
write_blocks "$(section "$(cbor "$block")" "$block")" "$sections"
run get --blocks blocks.car --root "$wide_root" --prefetch off --out whole.car
for delay in 0.001 0.003 0.005 0.01 0.02 0.03; do
  rm -rf out && mkdir out
  { timeout -s KILL "$delay" "$program" get --blocks blocks.car --root "$wide_root" --prefetch on --out out/a.car || :; } >/dev/null 2>&1
  [ ! -e out/a.car ] || expect_same "out/a.car after $delay" whole.car out/a.car
done
run get --blocks blocks.car --root "$wide_root" --prefetch on --out out/a.car
expect_text 'exit status' 3 "$status"
expect_same 'the archive' whole.car out/a.car
expect_folder out a.car
