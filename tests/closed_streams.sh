#!/bin/sh
# Runs the built program where something outside isn't as it should be, as .ci/run does behind the gate: standard streams
# that are closed, a reader that went away, a limit on the length of files, a full file system, and names of stores that
# are no files. The store is read afterwards each time. Another program is tried where it is named:
# tests/closed_streams.sh PROGRAM.
set -eu
name=closed_streams
here=$(cd "$(dirname "$0")/.." && pwd)
. "$here/tests/program.sh"

# Runs the program without some of the streams 0, 1 and 2.
without() {
    closed=$1
    shift
    (
        case $closed in *0*) exec <&- ;; esac
        case $closed in *1*) exec >&- ;; esac
        case $closed in *2*) exec 2>&- ;; esac
        exec "$program" "$@"
    )
}

# A store with one secret, whose id stands in the file kept.
store() {
    rm -f "$1".0 "$1".1
    ends 0 init --store "$1"
    serve "$1" <"$here/examples/post.http" >reply
    secrets_of reply >kept
    [ -s kept ] || fail "a secret has no link"
}

# Fails unless the two files are a store's and nothing else: no reply stands in them, and each secret in kept is there.
is_whole() {
    ! grep -aqs 'HTTP/1.1' "$1".0 "$1".1 || fail "$2: a reply stands in a file of the store"
    ! grep -aqs 'barbicand:' "$1".0 "$1".1 || fail "$2: the line for the operator stands in a file of the store"
    has_all "$1" kept
}

# Fails unless the last status is this one.
status_is() {
    [ "$status" -eq "$1" ] || fail "$2: status $status and not $1"
}

closed_streams() {
    for closed in 0 1 2 01 02 12 012; do
        rm -f n.0 n.1
        status=0
        without "$closed" init --store n </dev/null >reply 2>said || status=$?
        status_is 0 "init without $closed"
        [ ! -s reply ] || fail "init without $closed has a reply"
        ends 3 init --store n
        : >none
        has_all n none

        store s
        case $closed in 2) wanted=0 ;; *) wanted=6 ;; esac
        status=0
        without "$closed" pipe --store s --keys k --endpoint http://k/v1 <"$here/examples/post.http" >reply 2>said ||
            status=$?
        status_is "$wanted" "pipe without $closed"
        case $closed in
            2) secrets_of reply >>kept ;;
            *) [ ! -s reply ] || fail "pipe without $closed has a reply" ;;
        esac
        is_whole s "pipe without $closed"
    done
}

# A reader of standard output that goes away before the reply, and one of standard error before the line.
closed_pipe() {
    store s
    mkfifo asking answering
    "$program" pipe --store s --keys k --endpoint http://k/v1 <asking >answering 2>said &
    process=$!
    exec 3>asking
    : <answering
    cat "$here/examples/post.http" >&3 || fail "the program ended before its request"
    exec 3>&-
    status=0
    wait "$process" || status=$?
    status_is 6 "pipe whose reader went away"
    is_whole s "pipe whose reader went away"

    "$program" pipe --store s --keys k --endpoint http://k/v1 <asking 2>answering >reply &
    process=$!
    exec 3>asking
    : <answering
    echo "no message" >&3
    exec 3>&-
    status=0
    wait "$process" || status=$?
    status_is 9 "pipe whose reader of standard error went away"
    rm -f asking answering
}

# Serves many requests until the store has no more room: those that have a reply are kept, and the one after them has 503.
runs_out() {
    requests 400 >request
    {
        status=0
        (
            $2
            serve "$1" <request 2>said
        ) || status=$?
        echo "$status" >ended
    } | cat >reply
    read -r status <ended
    status_is 5 "$3"
    [ "$(count_of 503 reply)" -eq 1 ] || fail "$3: no 503"
    [ "$(count_of 201 reply)" -gt 1 ] || fail "$3: nothing was acknowledged"
    [ "$(count_of 201 reply)" -eq "$(secrets_of reply | wc -l)" ] || fail "$3: a reply has no link"
    secrets_of reply >>kept
}

# The limit is counted in blocks of 512 bytes, and holds for every file that the program writes.
file_limit() {
    store s
    runs_out s "ulimit -f 8" "pipe under a limit on files"
    is_whole s "pipe under a limit on files"

    store s
    read -r id <kept
    for _ in 1 2 3 4 5 6 7 8; do
        request_for "$id"
    done >request
    status=0
    (ulimit -f 2 && serve s <request >reply 2>said) || status=$?
    status_is 6 "pipe whose output reached the limit on files"
    is_whole s "pipe whose output reached the limit on files"

    rm -f n.0 n.1
    status=0
    (ulimit -f 0 && exec "$program" init --store n 2>said) || status=$?
    status_is 5 "init under a limit on files"
    ends 0 init --store n
}

no_room() {
    mkdir disk
    mount -t tmpfs -o size=96k none disk 2>/dev/null || {
        echo "$name: skipped a full file system, since none can be mounted here"
        return
    }
    trap 'umount "$room/disk"; rm -rf "$room"' EXIT
    store disk/s
    head -c 90000 /dev/zero >disk/rest
    runs_out disk/s : "pipe on a full file system"
    status=0
    "$program" init --store disk/n 2>said || status=$?
    status_is 5 "init on a full file system"
    rm disk/rest
    is_whole disk/s "pipe on a full file system"
    ends 0 init --store disk/n
}

full_output() {
    [ -c /dev/full ] || {
        echo "$name: skipped an output without room, since there is no /dev/full"
        return
    }
    store s
    status=0
    serve s <"$here/examples/post.http" >/dev/full 2>said || status=$?
    status_is 6 "pipe whose output has no room"
    is_whole s "pipe whose output has no room"
}

# All that stands in the folder names, with lengths and times.
listed() {
    ls -lAR --time-style=full-iso names
}

# Fails unless both commands refuse this name with status 5, and leave the folder as it was. The program is run by the
# words in $as, so maybe as another user.
is_refused() {
    listed >before
    for command in init pipe; do
        case $command in
            init) rest= ;;
            pipe) rest="--keys k --endpoint http://k/v1" ;;
        esac
        status=0
        # The words in $as and $rest are to be cut.
        timeout 20 $as "$tried" "$command" --store "names/$1" $rest <"$here/examples/post.http" >reply 2>said || status=$?
        status_is 5 "$command over $2"
        [ ! -s reply ] || fail "$command over $2 has a reply"
        listed | cmp -s before - || fail "$command over $2 made or changed something"
    done
}

# Each kind of thing that is no file stands under the name of the store's first file, its second file and the name itself.
bad_names() {
    as=
    tried=$program
    for place in n.0 n.1 n; do
        for kind in "a folder" "a pipe" "a device" "a link to itself"; do
            rm -rf names
            mkdir names
            case $kind in
                "a folder") mkdir "names/$place" ;;
                "a pipe") mkfifo "names/$place" ;;
                "a device") ln -s /dev/zero "names/$place" ;;
                "a link to itself") ln -s "$place" "names/$place" ;;
            esac
            is_refused n "$kind under the name $place"
        done
    done
    rm -rf names
    mkdir names
    is_refused none/n "a name without a folder"
    : >names/file
    is_refused file/n "a name below a file"
    unreadable
}

# Root may read all: then the program is run as nobody.
unreadable() {
    if [ "$(id -u)" -eq 0 ]; then
        as="setpriv --reuid=65534 --regid=65534 --clear-groups"
        tried=$room/program
        cp "$program" "$tried"
        chmod 755 "$room" "$tried"
        status=0
        $as "$tried" 2>said || status=$?
        [ "$status" -eq 1 ] || {
            echo "$name: skipped files that can't be read, since root reads all and the program can't be run as another"
            return
        }
    fi
    for place in n.0 n.1 n; do
        rm -rf names
        mkdir names
        chmod 777 names
        : >"names/$place"
        chmod 0 "names/$place"
        is_refused n "a file $place that can't be read"
    done
}

# What is missing of a store is made, empty, as for a store that isn't there.
second_file_missing() {
    store s
    rm s.1
    is_whole s "a store without its second file"
    rm s.0
    cp s.1 second
    ends 3 pipe --store s --keys k --endpoint http://k/v1 </dev/null
    cmp -s s.1 second || fail "a store without its first file has another second one"
}

closed_streams
closed_pipe
file_limit
no_room
full_output
bad_names
second_file_missing
echo "$name: ok"
