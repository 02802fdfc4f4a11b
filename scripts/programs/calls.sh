# What the runs of scripts/programs call beside the programs. What isn't as it should be is printed, and no run says that it is.

# Flips a bit of the byte at a place of a file: flip PLACE FILE.
flip() {
    printf "\\x$(printf %x $(($(od -An -tu1 -j "$1" -N 1 "$2") ^ 4)))" | dd of="$2" bs=1 seek="$1" conv=notrunc status=none
}

# Writes the bytes of digits.
unhex() { printf "$(sed 's/../\\x&/g' <<< "$1")"; }

# Writes so many entries, the same ones each time for a word: some COUNT WORD.
some() { seq -f "$(printf "$2" | od -An -tx1 | tr -d ' ')%06.0f" "$1"; }

# Writes so many insertions, whose keys are the same ones for each word: pairs COUNT WORD.
pairs() { some "$@" | sed 's/.*\(......\)$/\1 &/'; }

# The digits of a registry's map root.
map_root() { sed -n 's/^map //p' "$1/checkpoint" | base64 -d | od -An -v -tx1 | tr -d ' \n'; }

# Says what a registry has under a key, and what warg_verdict says of the proof: judged FOLDER KEY.
judged() {
    local said value
    said=$(warg_tlog get "$1" "$2") || return
    value=$(sed -n 's/^value -\?//p' <<< "$said")
    sed '$d' <<< "$said"
    case $said in
        absent*) sed -n 's/^proof //p' <<< "$said" | warg_verdict absent - --hex --root "$(map_root "$1")" --key "hex:${2#-}" ;;
        *) sed -n 's/^proof //p' <<< "$said" | warg_verdict key - --hex --root "$(map_root "$1")" --key "hex:${2#-}" --value "hex:$value" ;;
    esac
}

# The page below the first one on a key's way, of which there is one version: second KEY.
second() { echo "map/x$(unhex "$1" | sha256sum | head -c 2)"/[0-9]*; }

# Makes a registry of these insertions without publish: their entries are appended, and Python's hashlib makes the map.
by_hashlib() {
    warg_tlog init "$1" example.com/log
    sed 's/-//g' "$2" | awk -F '[ ]' '{ for (at = 1; at < 3; at++) printf "%016x%s", length($at) / 2, $at; print "" }' | warg_tlog append "$1"
    python3 -c 'import pathlib, sys; sys.path.append(sys.argv[1]); import trees
lines = [line.replace("-", "").rstrip("\n").split(" ") for line in open(sys.argv[3])]
trees.add_map(pathlib.Path(sys.argv[2]), [[bytes.fromhex(word) for word in line] for line in lines])' "$TREE/scripts" "$1" "$2"
}

# Makes a registry `reg` of 100 insertions, and the same as `before`.
registry() {
    warg_tlog init reg example.com/log --map
    pairs 100 a | warg_tlog publish reg > /dev/null
    cp -r reg before
}

# A command on `log`, or on what $log names, as whom $AS says.
tlog() { $AS warg_tlog "$1" "${log-log}" "${@:2}"; }

# The proof of entry 1 in proof.bundle, or in what $file names.
entry() {
    local file=${file-proof.bundle}
    warg_verdict entry "$file" --length 2 --root "$BOTH" --index 1 "$@"
}

# Judges the check lines of the vectors as warg_verdict does, and prints those that are answered otherwise there, or that are false with
# no reason by -v.
verdicts() {
    local -A options=([entry]="index value length root" [growth]="old-length old-root new-length new-root" [key]="key value root"
        [absent]="key root" [update]="key old-value new-value old-root new-root" [insertion]="key value old-root new-root")
    local reasons='^false: .*(root|length|index|entry|empty|longer|missing)$'
    "$TREE/ffi/lines.sh" .
    paste lines answers | while IFS=$'\t' read -r line answer; do
        read -ra words <<< "${line#check_}"
        [ -n "${options[${words[0]}]}" ] || continue
        given=("${words[0]}" - --hex --at "${words[2]}") at=3
        for option in ${options[${words[0]}]}; do
            case $option in *key | *value) words[at]=hex:${words[at]#-} ;; esac
            given+=("--$option" "${words[at++]}")
        done
        said=$(warg_verdict "${given[@]}" <<< "${words[1]#-}" 2> /dev/null)
        case "$? ${said%%:*} ${answer%% *}" in
            "0 true true" | "2 refused refused" | "3  bad") ;;
            "1 false false") [[ $(warg_verdict "${given[@]}" -v <<< "${words[1]#-}") =~ $reasons ]] || echo "no reason: $line" ;;
            *) echo "$line: $said" ;;
        esac
    done
    wc -l < lines
}

# Has Google's protobuf read each message of the vectors' wire lines and write it: all at once, as the fields of one message.
protobuf() {
    local package kinds=(LogProofBundle MapProofBundle StackLog VecLog)
    package=$(sed -n 's/^package \(.*\);/\1./p' "$TREE/docs/warg.proto")
    (echo 'syntax = "proto3"; import "warg.proto"; message All {' && for ((at = 0; at < 4; at++)); do
        echo "repeated $package${kinds[at]} of_kind_$at = $((at + 1));"
    done && echo '}') > all.proto
    paste "$TREE"/crates/warg_vectors/{stdin,stdout} |
        sed -n 's/^\(each \)\?wire \([A-Za-z]*\) \S*\t-\?\([0-9a-f]*\)$/\2 \3/p' | sort -u > messages
    unhex "$(awk -v "kinds=${kinds[*]}" 'BEGIN { split(kinds, all); for (at in all) number[all[at]] = at }
        { printf "%02x", 8 * number[$1] + 2
          for (left = length($2) / 2; left >= 128; left = int(left / 128)) printf "%02x", 128 + left % 128
          print sprintf("%02x", left) $2 }' messages | tr -d '\n')" > given
    protoc "--proto_path=$TREE/docs" --proto_path=. --decode=All all.proto < given > text
    protoc "--proto_path=$TREE/docs" --proto_path=. --encode=All all.proto < text | cmp - given
    echo "seen: $(wc -l < messages) messages of the vectors, $(wc -c < given) bytes, are the same by protobuf"
}

# Starts an append that has read standard input and waits for more.
waits() {
    mkfifo in
    warg_tlog append "$1" < in > /dev/null &
    exec 9> in
    cat >&9
    until ls "$1"/.log/staged/tile* > /dev/null 2>&1; do sleep .01; done
}

# Fetches what a folder serves as a mirror does, which never fetches a name below tile/ or map/ twice: no file is empty, each name
# that was fetched has the same bytes, and log and mirror pass.
mirrored() {
    local below
    mkdir -p mirror
    for below in tile map; do
        [ -d "$1/$below" ] || continue
        mkdir -p "mirror/$below"
        cp -rn "$1/$below" mirror
        diff -r "$1/$below" "mirror/$below" | grep -v '^Only in mirror'
        find "$1/$below" -type f -empty
    done
    cp "$1/checkpoint" mirror
    warg_tlog audit "$1" > /dev/null && warg_tlog audit mirror > /dev/null
}

# Makes the log `start` by two appends, and two batches that could follow: `first`, which will be disturbed, and `second`, which
# comes next where the first one has left nothing: batches LENGTH END. A registry, by publish: batches LENGTH END publish. The command
# that adds is told in `adding`.
batches() {
    local made=some
    [ $# = 2 ] || made=pairs
    echo "$1 $2" > lengths
    echo "${3-append}" > adding
    $made $(($2 - $1)) first > first
    $made $(($2 - $1)) second > second
    $made "$1" start | tail -n $(($1 / 2)) > last
    warg_tlog init earlier example.com/log ${3+--map}
    $made "$1" start | head -n $(($1 - $1 / 2)) | warg_tlog "$(cat adding)" earlier
    cp -r earlier start
    warg_tlog "$(cat adding)" start < last
    for it in first second; do
        cp -r start "behind-$it"
        warg_tlog "$(cat adding)" "behind-$it" < "$it"
    done
}

# Reads a log as a client does, before anybody opens it again. Then it goes on, and has to come to the files of an undisturbed run,
# over names that keep their bytes. Says `stood` or `gone` of the first batch.
go_on() {
    read -r length end < lengths
    rm -rf mirror
    mirrored "$1"
    warg_tlog "$(cat adding)" "$1" < /dev/null > /dev/null
    mirrored "$1"
    case "$(sed -n 2p "$1/checkpoint")" in
        "$end") diff -r "$1" behind-first && echo stood ;;
        "$length") warg_tlog "$(cat adding)" "$1" < second > /dev/null && mirrored "$1" && diff -r "$1" behind-second && echo gone ;;
        *) echo "a checkpoint of $(sed -n 2p "$1/checkpoint") entries" ;;
    esac
}

# Appends the first batch by these words, over a new copy of the log, and then as `ended` says: disturbed WORDS..
disturbed() {
    rm -rf log
    cp -r start log
    # (by a pipe, since a limit on files is one on what it says, too)
    (trap '' XFSZ; "$@" warg_tlog "$(cat adding)" log < first; exit $?) 2>&1 > /dev/null | cat > said
    ended "${PIPESTATUS[0]}" log
}

# A run that a fault met ends with one line and a status of such faults (127 is a loader's that finds no library), or well, and then
# its batch stands; or it was killed. Then the log goes on: ended STATUS LOG.
ended() {
    status=$1 found="$(go_on "$2")"
    case "$status $found" in
        "0 stood" | "137 stood" | "137 gone") ;;
        "1"[0-3]" stood" | "1"[0-3]" gone" | "127 gone") [ "$(wc -l < said)" = 1 ] || cat said ;;
        *) echo "status $status: $found: $(cat said)" ;;
    esac
}

# Harms each of these calls of an append in turn, by strace, and by the harms in turns: each_call CALLS HARM..
each_call() {
    local calls=$1 harms=("${@:2}") turn stood=0
    for ((turn = 1; ; turn++)); do
        harm=${harms[turn % ${#harms[@]}]}
        disturbed strace -qq -o trace -e "trace=$calls" -e "inject=$calls:$harm:when=$turn"
        [ "$status" = 137 ] || grep -q INJECTED trace || break
        [ "$found" != stood ] || stood=$((stood + 1))
    done
    [ "$turn" -gt 1 ] || echo "none of $calls was harmed"
    echo "seen: $calls: $((turn - 1)) were harmed by ${harms[*]}, and $stood batches stood"
}

# Starts an append of the first batch to a log, and waits for a random part of so many microseconds: started LOG MICROSECONDS.
started() {
    warg_tlog "$(cat adding)" "$1" < first > /dev/null 2>&1 &
    sleep "$(printf '%d.%06d' $((RANDOM * $2 / 32768 / 1000000)) $((RANDOM * $2 / 32768 % 1000000)))"
}

# Returns how many microseconds a command takes.
microseconds() {
    local began=${EPOCHREALTIME/./}
    "$@" > /dev/null
    echo $((${EPOCHREALTIME/./} - began))
}

# Kills appends at random moments, until so many were killed before their end: killed_at_random TIMES.
killed_at_random() {
    local killed=0 runs whole
    cp -r start log
    whole=$(microseconds warg_tlog "$(cat adding)" log < first)
    for ((runs = 0; killed < $1 && runs < 10 * $1; runs++)); do
        rm -rf log
        cp -r start log
        started log "$whole"
        { kill -9 $!; wait $!; } 2> /dev/null
        [ $? != 137 ] || killed=$((killed + 1))
        go_on log > found
        grep -qx 'stood\|gone' found || cat found
    done
    echo "seen: killed at $killed random moments of $(cat adding), and at $((runs - killed)) behind its end"
}

# Appends on a disk of some bytes, mounted anew by options before that and after it: on_disk BYTES BEFORE AFTER.
on_disk() {
    mkdir -p disk
    mount -t tmpfs -o "size=$1" tmpfs disk
    cp -r start disk/log
    mount -o "remount,$2" disk
    warg_tlog "$(cat adding)" disk/log < first > /dev/null 2> said
    status=$?
    for it in audit checkpoint "prove $(($(sed 's/ .*//' lengths) - 1))" 'consistency 5'; do log=disk/log tlog $it > /dev/null; done
    mount -o "remount,$3" disk
    ended $status disk/log
    umount disk
}

# Appends on disks of growing sizes, up to the first that is large enough.
small_disks() {
    local pages sizes=0
    pages=$(find start -type f -printf '%s\n' | awk '{ sum += int(($1 + 4095) / 4096) } END { print sum }')
    for ((status = 1; status; sizes++)); do on_disk $((4096 * (pages + sizes + 1))) rw size=16m; done
    echo "seen: $((sizes - 1)) sizes of a disk were too small"
}

# Appends a batch under a trace, and kills that before a call that forces, if one is named: traced BATCH [CALL].
traced() {
    strace -y -qq -o trace -e trace=openat,write,mkdir,fsync,rename,unlink -s 8 ${2:+-e "inject=fsync:error=EIO:signal=KILL:when=$2"} \
        warg_tlog "$(cat adding)" "$PWD/log" < "$1"
    status=$?
    (cat trace; echo "ended $status") >> traces
}

# Looks at what an append, which is killed before each of its calls that force in turn, and the next one force to the disk.
forced() {
    local call
    for ((call = 0; ; call++)); do
        rm -rf log traces
        cp -r start log
        (traced first "${call#0}"; exit $status) > /dev/null 2>&1
        killed=$?
        traced second > /dev/null
        [ "$status" = 0 ] || echo "status $status"
        awk -v "log_folder=$PWD/log" -f "$TREE/scripts/programs/forced.awk" traces
        [ "$call" = 0 ] || [ "$killed" = 137 ] || break
    done
    [ "$call" -gt 1 ] || echo "no call forces"
    echo "seen: all that a commit needs is forced before it stands, also after kills before $((call - 1)) calls that force"
}

# Halts an append, copies the disk's file as it is at one moment, until two copies in a row are alike, lets the append end, and mounts
# the copy: cut [APPEND].
cut() {
    [ $# = 0 ] || kill -STOP "$1" 2> /dev/null
    cp --sparse=always disk.image left.image
    until cp --sparse=always disk.image again.image && cmp -s left.image again.image; do mv again.image left.image; done
    [ $# = 0 ] || kill -CONT "$1" 2> /dev/null
    [ $# = 0 ] || wait "$1" || echo "an append ended badly"
    mkdir -p after
    mount -o "$OPTION" left.image after
}

# Makes a disk of a file system, with a log of no entries, and looks at what a loss of power leaves: power_disk BYTES MAKER..
power_disk() {
    truncate -s "$1" disk.image
    "${@:2}" disk.image > /dev/null 2>&1
    mkdir disk
    mount -o "$OPTION" disk.image disk
    warg_tlog init disk/log example.com/log $(sed -n 's/publish/--map/p' adding)
    cut
    mirrored after/log
    umount after
}

# Cuts the power under an append, which follows another one over a log that is forced to the disk: at a random moment of so many
# microseconds, or so many seconds behind its end. Says whether the batch stood: power_cut MICROSECONDS [SECONDS].
power_cut() {
    rm -rf disk/log
    cp -r earlier disk/log
    sync -f disk
    warg_tlog "$(cat adding)" disk/log < last > /dev/null
    started disk/log "$1"
    [ $# = 1 ] || { wait $!; sleep "$2"; }
    kill -0 $! 2> /dev/null; is_ended=$?
    cut $!
    found="$(go_on after/log)"
    umount after
    case "$is_ended $found" in
        "1 stood" | "0 stood" | "0 gone") echo "$found" ;;
        *) echo "not as it should be: $found" ;;
    esac
}

# Cuts the power under appends, until it was cut so often or so many seconds are over: power_cuts TIMES SECONDS.
power_cuts() {
    local whole times
    rm -rf disk/log
    cp -r start disk/log
    whole=$(microseconds warg_tlog "$(cat adding)" disk/log < first)
    for ((SECONDS = times = 0; times < $1 && SECONDS < $2; times++)); do power_cut $((whole * 3 / 4)); done > cuts
    echo "seen: the power cut during appends: $(grep -c '^stood$' cuts) batches stood, $(grep -c '^gone$' cuts) were gone"
    grep -v '^stood$\|^gone$' cuts || true
}
