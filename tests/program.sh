# What the scripts that run the built program share. A script sets `name` and `here`, the top of the repository, reads this
# file, and then stands in a folder of its own that goes when it ends. Without a program it fails.
program=${1:-$here/crates/barbicand/out/barbicand}
case $program in
    /*) ;;
    *) program=$PWD/$program ;;
esac

fail() {
    echo "$name: $1" >&2
    exit 1
}

[ -x "$program" ] || fail "there is no program $program: build it by 'rt ci' or ./quickstart"
room=$(mktemp -d)
trap 'rm -rf "$room"' EXIT
cd "$room" || exit 1
# a key file of one master key, and another
echo AAECAwQFBgcICQoLDA0ODxAREhMUFRYXGBkaGxwdHh8= >k
echo ICEiIyQlJicoKSorLC0uLzAxMjM0NTY3ODk6Ozw9Pj8= >other

# Ends with this status, and leaves what was written in the files said and reply.
ends() {
    wanted=$1
    shift
    status=0
    "$program" "$@" >reply 2>said || status=$?
    [ "$status" -eq "$wanted" ] || fail "'$*' ended with status $status and not $wanted: $(cat said)"
}

# Serves a store.
serve() {
    "$program" pipe --store "$1" --keys k --endpoint http://k/v1
}

# The ids of the secrets that replies link to, a line each.
secrets_of() {
    grep -o '/v1/secrets/[0-9a-f-]*"' "$1" | tr -d '"' | cut -d / -f 4
}

# How many replies in a file have this status.
count_of() {
    grep -o "HTTP/1.1 $1 " "$2" | wc -l
}

# The request for this secret's attributes.
request_for() {
    sed "s/SECRET/$1/" "$here/examples/get.http"
}

# Requests for so many secrets, with names of their own.
requests() {
    made=0
    while [ "$made" -lt "$1" ]; do
        sed "s/2026/$((1000 + made))/" "$here/examples/post.http"
        made=$((made + 1))
    done
}

# The names in a file of requests or replies, a line each.
names_of() {
    grep -o '"name":"[^"]*"' "$1"
}

# Fails unless the store has each secret whose id stands in the file.
has_all() {
    while read -r id; do
        request_for "$id"
    done <"$2" >asked
    status=0
    serve "$1" <asked >found 2>said || status=$?
    [ "$status" -eq 0 ] || fail "the store $1 isn't served: status $status, $(cat said)"
    [ "$(count_of 200 found)" -eq "$(wc -l <"$2")" ] || fail "the store $1 has lost a secret"
}
