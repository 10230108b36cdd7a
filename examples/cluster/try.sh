#!/usr/bin/env bash
# Tries the jobs of this folder on one machine: starts Slurm here, on the loopback interface only, submits them to it, and stops it again.
#
#     examples/cluster/try.sh [INPUTS [EVENTS]]      130 inputs of 400 drawn events each without these
#
# As root, with Debian's slurm-wlm and munge. NTUPLE names the built program; without it that is .built/nt_tool, which ./ntuple builds.
# One of the jobs is killed while it writes. The file that it left is refused, and the jobs are submitted once more. Then the totals and
# the entries of the whole are compared with those of a file that one `write` makes of all events. It ends with 0 if they are the same.
set -eu
here=$(cd "$(dirname "$0")" && pwd)
program=$(realpath -m "${NTUPLE:-$here/../../.built/nt_tool}")
inputs=${1:-130} events=${2:-400}
[ -x "$program" ] || { echo "no program at $program; ./ntuple builds it" >&2; exit 1; }
[ "$(id -u)" -eq 0 ] || { echo 'this starts services, so it has to run as root' >&2; exit 1; }
command -v munged slurmctld slurmd sbatch >/dev/null || { echo 'apt-get install slurm-wlm munge' >&2; exit 1; }
work=$(mktemp -d)
chmod 711 "$work" # munge wants its socket to be within reach of all
folder=$work/shared
host=$(hostname -s)
started=()

stop() { # stops what was started here, the last first; keeps what was made if something failed
    local status=$?
    for ((k = ${#started[@]} - 1; k >= 0; k--)); do
        kill "${started[k]}" 2>/dev/null || true
        wait "${started[k]}" 2>/dev/null || true
    done
    if [ "$status" -eq 0 ]; then
        rm -rf "$work"
    else
        echo "what it left is in $work" >&2
    fi
}
trap stop EXIT

start_munge() {
    install -d -m 755 "$work/munge"
    head -c 128 /dev/urandom >"$work/munge/key"
    chmod 400 "$work/munge/key"
    munged --foreground --socket="$work/munge/socket" --key-file="$work/munge/key" --pid-file="$work/munge/pid" \
        --log-file="$work/munge/log" --seed-file="$work/munge/seed" 2>"$work/munge/err" &
    started+=($!)
    wait_until 'munge listens' '[ -S "$work/munge/socket" ]'
}

start_slurm() {
    mkdir "$work/state" "$work/spool"
    export SLURM_CONF=$work/slurm.conf
    cat >"$SLURM_CONF" <<END
ClusterName=try
SlurmctldHost=$host(127.0.0.1)
CommunicationParameters=NoInAddrAny,NoCtldInAddrAny
AuthType=auth/munge
AuthInfo=socket=$work/munge/socket
SlurmUser=root
SlurmdUser=root
StateSaveLocation=$work/state
SlurmdSpoolDir=$work/spool
SlurmctldPidFile=$work/slurmctld.pid
SlurmdPidFile=$work/slurmd.pid
SlurmctldLogFile=$work/slurmctld.log
SlurmdLogFile=$work/slurmd.log
ProctrackType=proctrack/linuxproc
TaskPlugin=task/none
JobAcctGatherType=jobacct_gather/none
SelectType=select/cons_tres
SelectTypeParameters=CR_Core
ReturnToService=2
NodeName=$host NodeAddr=127.0.0.1 CPUs=$(nproc) State=UNKNOWN
PartitionName=all Nodes=$host Default=YES MaxTime=INFINITE State=UP
END
    slurmctld -D 2>/dev/null &
    started+=($!)
    sleep 2
    slurmd -D 2>/dev/null &
    started+=($!)
    wait_until 'sinfo says idle' 'timeout 5 sinfo -h -o %T 2>/dev/null | grep -q idle'
}

wait_until() { # WHAT TEST: tests every half second, for five minutes at most
    for ((k = 0; k < 600; k++)); do
        ! eval "$2" || return 0
        sleep 0.5
    done
    echo "failed: waited in vain until $1" >&2
    exit 1
}

draw() { # draws the inputs, and fills the folder as submit.sh wants it
    mkdir -p "$folder/inputs"
    cp "$here/../dimuon/schema.txt" "$folder"
    cp "$program" "$folder/ntuple"
    echo '--cluster 100' >"$folder/options.txt"
    for ((k = 0; k < inputs; k++)); do
        python3 "$here/../dimuon/draw.py" "$k" "$events" >"$folder/inputs/$k.txt"
        echo "$folder/inputs/$k.txt" >>"$folder/inputs.txt"
    done
}

lose_a_job() { # the input of the last job but two becomes a pipe with no end; the job is killed while it waits for more
    lost=$((inputs - 3))
    mv "$folder/inputs/$lost.txt" "$work/kept.txt"
    mkfifo "$folder/inputs/$lost.txt"
    submit
    (head -n $((events / 2)) "$work/kept.txt" && exec sleep 600) >"$folder/inputs/$lost.txt" &
    started+=($!)
    wait_until 'all jobs but one are done' '[ "$(squeue -h -r -t R,PD -n write | wc -l)" -eq 1 ]'
    left=$(printf 'round-0/%06d.root' $lost)
    wait_until 'it has begun its file' '[ -s "$folder/$left" ]'
    scancel --signal=KILL --full "${job}_$lost"
    wait_until 'no job is left' '[ -z "$(squeue -h)" ]'
    rm "$folder/inputs/$lost.txt"
    mv "$work/kept.txt" "$folder/inputs/$lost.txt"
}

submit() { # submits the jobs of the folder; `job` is then the number of the job that writes
    "$here/submit.sh" "$folder" | tee "$work/said"
    job=$(sed -n 's/^job \([0-9]*\) writes.*/\1/p' "$work/said")
}

refused() { # WORD..: the program must answer 3 to these words; prints what it says
    local status=0
    (cd "$folder" && ./ntuple "$@" >/dev/null) || status=$?
    [ "$status" -eq 3 ] || { echo "failed: status $status and not 3" >&2; exit 1; }
}

same() { # WHAT FILE FILE
    cmp "$2" "$3" || { echo "failed: other $1" >&2; exit 1; }
    echo "the same $1 as on one machine: $(wc -l <"$2") lines"
}

draw
start_munge
start_slurm
echo "Slurm $(sinfo -V | cut -d' ' -f2) with $(nproc) processors, $inputs inputs of $events events"
lose_a_job
echo "a job was killed; it left $(stat -c %s "$folder/$left") bytes as $left"
refused schema "$left"
refused merge refused.root round-0/000000.root "$left"
[ ! -e "$folder/refused.root" ] || { echo 'failed: a merge of an unfinished file made one' >&2; exit 1; }

began=$(date +%s)
submit
wait_until 'no job is left' '[ -z "$(squeue -h)" ]'
echo "$(grep -l 'whole already' "$folder"/logs/write-"$job"-*.log | wc -l) of the jobs had nothing to do, and all were done after $(($(date +%s) - began)) s"
(cd "$folder" && du -cbs round-* | sed 's/^/bytes: /')

cat $(cat "$folder/inputs.txt") >"$work/all.txt"
"$program" write --cluster 100 "$work/one.root" "$folder/schema.txt" "$work/all.txt" >/dev/null
"$program" scan "$work/one.root" >"$work/one.scan"
"$program" entries "$work/one.root" >"$work/one.txt"
same 'totals' "$folder/whole.scan" "$work/one.scan"
same 'entries' "$folder/whole.txt" "$work/one.txt"
