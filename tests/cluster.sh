#!/usr/bin/env bash
# Runs the scripts of examples/cluster over Slurm, by hand: four nodes on this host, over loopback alone, are started and
# stopped here. 2,500 jobs by eight tasks, of which one is started again by Slurm while it runs and one is cancelled and then
# submitted again, must give the archives and the report of single runs over pieces of a thousand jobs, and so must 3 and 7
# parts without an engine. A thousand jobs by root, a group on each node, must give those of one run over all files, and each
# node must load the files of its jobs' roots and no other. It takes one to five minutes. Ends with status 1 at the first that
# is wrong, and with 0 and a line that says so where Slurm isn't installed.
#
#   apt-get install --no-install-recommends slurmctld slurmd slurm-client munge
#   tests/cluster.sh          as root; with PROGRAM=PATH another program than that of ./ix_export
set -Eeuo pipefail
export LC_ALL=C
for command in munged slurmctld slurmd sbatch scontrol scancel squeue sinfo; do
  PATH=$PATH:/usr/sbin command -v "$command" >/dev/null || {
    echo "tests/cluster.sh: nothing was run, since $command isn't installed"
    exit
  }
done
export PATH=$PATH:/usr/sbin
top=$(cd "$(dirname "${BASH_SOURCE[0]}")/.." && pwd)
program=${PROGRAM:-$("$top/ix_export" --where)}
cluster=$top/examples/cluster
work=$(mktemp -d)
# The daemons' users go through it.
chmod 755 "$work"

# Stops what was started here, by the pids that were noted.
stop() {
  local noted pid
  scancel --state=PENDING,RUNNING --user="$(id -un)" 2>/dev/null && sleep 4
  for noted in "$work"/slurm/run/slurmd-n?.pid "$work"/slurm/run/slurmctld.pid "$work"/munge/munged.pid; do
    [ -s "$noted" ] || continue
    pid=$(cat "$noted")
    case "$(cat "/proc/$pid/comm" 2>/dev/null)" in slurmd | slurmctld | munged) kill "$pid" ;; esac
  done
  sleep 2
  cd / && rm -rf "$work"
}
trap stop EXIT
trap 'exit 1' HUP INT TERM
trap 'echo "tests/cluster.sh: FAILED: $BASH_COMMAND" >&2' ERR

fail() {
  echo "tests/cluster.sh: FAILED: $*" >&2
  tail -n 5 "$work"/slurm/log/* >&2 || :
  exit 1
}

# The daemons.
cd "$work"
mkdir -p munge slurm/{state,log,run} slurm/spool/n{1,2,3,4}
(umask 077 && head -c 1024 /dev/urandom >munge/munge.key)
chown -R munge:munge munge
chmod 755 munge
setpriv --reuid munge --regid munge --clear-groups munged --key-file="$work/munge/munge.key" \
  --socket="$work/munge/munge.socket" --pid-file="$work/munge/munged.pid" --log-file="$work/munge/munged.log" \
  --seed-file="$work/munge/munged.seed" --num-threads=2
export SLURM_CONF=$work/slurm/slurm.conf
host=$(hostname -s)
cat >"$SLURM_CONF" <<END
ClusterName=trial
SlurmctldHost=$host(127.0.0.1)
SlurmctldPort=16817
SlurmUser=root
SlurmdUser=root
AuthType=auth/munge
AuthInfo=socket=$work/munge/munge.socket
CredType=cred/munge
StateSaveLocation=$work/slurm/state
SlurmdSpoolDir=$work/slurm/spool/%n
SlurmctldPidFile=$work/slurm/run/slurmctld.pid
SlurmdPidFile=$work/slurm/run/slurmd-%n.pid
SlurmctldLogFile=$work/slurm/log/slurmctld.log
SlurmdLogFile=$work/slurm/log/slurmd-%n.log
ProctrackType=proctrack/linuxproc
TaskPlugin=task/none
MpiDefault=none
SwitchType=switch/none
SchedulerType=sched/backfill
SelectType=select/cons_tres
SelectTypeParameters=CR_Core
AccountingStorageType=accounting_storage/none
JobAcctGatherType=jobacct_gather/none
ReturnToService=2
SlurmdParameters=config_overrides
MaxArraySize=10001
SlurmdTimeout=15
KillWait=3
MinJobAge=3600
NodeName=n[1-4] NodeHostname=$host NodeAddr=127.0.0.1 Port=[17001-17004] CPUs=1 RealMemory=512 State=UNKNOWN
PartitionName=trial Nodes=n[1-4] Default=YES MaxTime=INFINITE State=UP OverSubscribe=NO
END
slurmctld -f "$SLURM_CONF"
for node in n1 n2 n3 n4; do slurmd -f "$SLURM_CONF" -N "$node"; done
for ((i = 0; i < 120; i++)); do
  [ "$(sinfo -h -o %T | sort -u)" != idle ] || break
  sleep 0.5
done
[ "$(sinfo -h -o %T | sort -u)" = idle ] || fail "the nodes aren't idle: $(sinfo -h -N -o '%N %T')"

# 2,500 jobs, and what single runs over a thousand of them make.
blocks=$top/examples/library.car
for ((i = 1; i <= 500; i++)); do
  sed -n "s/^\([a-z][a-z-]*\) /\1-$i /p" "$top/examples/library.jobs"
done >jobs
[ "$(grep -c '' jobs)" -eq 2500 ] || fail 'the example has other jobs than five'
split -l 1000 jobs piece-
mkdir wanted
for piece in piece-*; do
  status=0
  "$program" jobs --blocks "$blocks" --jobs "$piece" --out wanted >report || status=$?
  [ "$status" -eq 4 ] || fail "a single run ended with $status"
  sed '$d' report
  tail -n 1 report >>totals
done >wanted.report
awk -F '[ =]' '{ jobs += $3; done += $5; skips += $7 } END { print "total jobs=" jobs " done=" done " skips=" skips }' \
  totals >>wanted.report

# is_wanted OUT STATUS: the archives in a folder and its report are those of the single runs.
is_wanted() {
  cmp wanted.report "$1/report" || fail "$1: another report"
  [ "$2" = 4 ] || fail "$1: status $2"
  mkdir -p "$1/archives"
  mv "$1"/*.car "$1/archives/"
  diff -rq wanted "$1/archives" || fail "$1: other archives"
}

# Without an engine.
export IX_EXPORT=$program
for of in 3 7; do
  for ((part = 1; part <= of; part++)); do "$cluster/part" "$part" "$of" "$blocks" jobs "by-$of"; done
  status=0
  "$cluster/merge" jobs "by-$of" "$of" >"by-$of/report" || status=$?
  is_wanted "by-$of" "$status"
done

# By Slurm. The first attempt of the parts 3 and 5 waits.
mkdir waits
cat >held <<END
#!/bin/bash
for word; do
  case \$word in 3/8 | 5/8) mkdir "$work/waits/\${word%/*}" 2>/dev/null && exec sleep 600 ;; esac
done
exec "$program" "\$@"
END
chmod +x held
export IX_EXPORT=$work/held

# ended JOB: waits until no task of it is left in the queue.
ended() {
  local i
  for ((i = 0; i < 600; i++)); do
    [ -n "$(squeue -h -t PENDING,RUNNING,COMPLETING,CONFIGURING -j "$1" 2>/dev/null)" ] || return 0
    sleep 0.5
  done
  fail "job $1 doesn't end: $(squeue -j "$1")"
}

SECONDS=0
read -r _ array _ merge <<<"$("$cluster/submit" "$blocks" jobs out 8)"
until [ -d waits/3 ] && [ -d waits/5 ]; do
  [ "$SECONDS" -lt 120 ] || fail "the parts 3 and 5 don't start: $(squeue)"
  sleep 0.2
done
scontrol requeue "${array}_3"
scancel "${array}_5"
# Slurm waits two minutes with a task that it starts again.
for ((i = 0; i < 60; i++)); do
  [ -n "$(squeue -h -t PENDING -j "${array}_3" 2>/dev/null)" ] && scontrol update "JobId=${array}_3" StartTime=now && break
  sleep 0.5
done
ended "$array"
ended "$merge"
grep -Fxq 'merge: parts without a report: 5' out/parts/log.merge || fail "merge told $(cat out/parts/log.merge)"
[ ! -e out/report ] || fail 'a report without a part'
read -r _ array _ merge <<<"$(IX_PARTS=5 "$cluster/submit" "$blocks" jobs out 8)"
ended "$array"
ended "$merge"
took=$SECONDS
[ -e out/report ] || fail "no report: $(cat out/parts/log.*)"
is_wanted out "$(cat out/status)"

# By root: each task loads only the files that name a root of its jobs. To the jobs of the examples, over the root of the
# library and over the album and the notes, come some over either of these alone, so there are four groups. Those have limits
# that take an option.
mkdir files wanted-by-root
given=()
for root in $(sed -n 's/^[a-z-]* \([^ ]*\) .*/\1/p' "$top/examples/library.jobs" | tr , '\n' | sort -u); do
  "$program" get --blocks "$blocks" --root "$root" --out "files/$root.car" 2>/dev/null || [ $? -eq 3 ]
  given+=(--blocks "files/$root.car")
done
{
  head -n 800 jobs
  sed -n 's/^parts-\([0-9]*\) \([^,]*\),[^ ]* 1000 /album-alone-\1 \2 2000000 /p; 500q' jobs
  sed -n 's/^parts-\([0-9]*\) [^,]*,\([^ ]*\) 1000 /notes-alone-\1 \2 2000000 /p; 500q' jobs
} >some-jobs
[ "$(grep -c '' some-jobs)" -eq 1000 ] || fail 'there are no thousand jobs by root'
status=0
IX_EXPORT=$program "$cluster/by-root" some-jobs groups files/*.car 2>told || status=$?
[ "$status" -eq 2 ] && grep -Fxq 'jobs: limit at line 801' told || fail "by-root told $(cat told), status $status"
export IX_OPTIONS='--max-limit 2000000'
count=$(IX_EXPORT=$program "$cluster/by-root" some-jobs groups files/*.car)
[ "$count" -eq 4 ] || fail "$count groups"
status=0
"$program" jobs "${given[@]}" --jobs groups/jobs --out wanted-by-root --max-limit 2000000 >wanted-by-root.report || status=$?
[ "$status" -eq 4 ] || fail "a single run over several files ended with $status"
# The program of a task notes which files it is given, and waits until each node has a task.
mkdir loaded nodes
cat >noting <<END
#!/bin/bash
if [ -n "\${SLURM_ARRAY_TASK_ID-}" ]; then
  before=
  for word; do
    [ "\$before" != --blocks ] || echo "\$word"
    before=\$word
  done | sort >"$work/loaded/\$SLURM_ARRAY_TASK_ID"
  touch "$work/nodes/\$SLURMD_NODENAME"
  for ((i = 0; i < 300; i++)); do
    [ "\$(ls "$work/nodes" | wc -l)" -lt 4 ] || break
    sleep 0.2
  done
fi
exec "$program" "\$@"
END
chmod +x noting
read -r _ array _ merge <<<"$(IX_EXPORT=$work/noting "$cluster/submit" groups groups/jobs out-by-root "$count")"
ended "$array"
ended "$merge"
[ -e out-by-root/report ] || fail "no report: $(cat out-by-root/parts/log.*)"
cmp wanted-by-root.report out-by-root/report || fail 'by root: another report'
[ "$(cat out-by-root/status)" = 4 ] || fail "by root: status $(cat out-by-root/status)"
mkdir out-by-root/archives
mv out-by-root/*.car out-by-root/archives/
diff -rq wanted-by-root out-by-root/archives || fail 'by root: other archives'
[ "$(ls nodes)" = "$(printf 'n%s\n' 1 2 3 4)" ] || fail "by root: on the nodes $(ls nodes)"
for ((group = 1; group <= count; group++)); do
  cut -d ' ' -f 2 "groups/$group.jobs" | tr , '\n' | sort -u | sed "s|.*|$(realpath files)/&.car|" >wanted-loaded
  cmp wanted-loaded "loaded/$group" || fail "by root: group $group loaded $(cat "loaded/$group")"
  [ "$(grep -c '' wanted-loaded)" -lt 3 ] || fail "by root: group $group needs all files"
done
unset IX_OPTIONS

# A faulty job file is rejected before anything is queued.
{ cat jobs && head -n 1 jobs; } >twice
status=0
IX_EXPORT=$program "$cluster/submit" "$blocks" twice out-2 8 2>told || status=$?
[ "$status" -eq 2 ] && grep -Fxq 'jobs: repeated at line 2501' told || fail "submit told $(cat told), status $status"
status=0
IX_EXPORT=$program "$cluster/submit" "$blocks" jobs out-3 2 2>told || status=$?
[ "$status" -eq 2 ] && grep -Fxq 'submit: a part has at most 1000 jobs, so 2500 want 3 tasks' told || fail "submit told $(cat told)"
echo "tests/cluster.sh: 2,500 jobs by 3 and 7 parts, and by 8 tasks of Slurm on four nodes in $took s, one requeued and one cancelled, and a thousand by root, each node with its files alone: as by single runs"
