#!/bin/sh
# Runs the built program over real files until a snapshot takes the place of the records, as .ci/run does behind the gate: the
# store goes on in its other file, the file before isn't much longer than 4,194,304 bytes, and another process finds each
# secret. Another program is tried where it is named: tests/turns_over.sh PROGRAM.
set -eu
name=turns_over
here=$(cd "$(dirname "$0")/.." && pwd)
. "$here/tests/program.sh"
fields='X-Project-Id: p1\r\nX-User-Id: u1\r\nX-Roles: creator\r\n'

# Requests for so many secrets, with names of 250 bytes.
long_names() {
    awk -v count="$1" -v fields="$fields" 'BEGIN {
        for (i = 0; i < count; i++) {
            body = sprintf("{\"name\":\"%0250d\"}", i)
            printf "POST /v1/secrets HTTP/1.1\r\n%sContent-Type: application/json\r\nContent-Length: %d\r\n\r\n%s", fields, length(body), body
        }
    }'
}

# The requests for the attributes of these secrets.
attributes_of() {
    awk -v fields="$fields" '{ printf "GET /v1/secrets/%s HTTP/1.1\r\n%s\r\n", $1, fields }' "$1"
}

# Fails unless each of these secrets is found.
finds() {
    attributes_of "$1" >asked
    serve s <asked >found
    [ "$(count_of 200 found)" -eq "$(wc -l <"$1")" ] || fail "a secret is lost"
}

ends 0 init --store s
long_names 14000 >request
ends 0 pipe --store s --keys k --endpoint http://k/v1 <request
secrets_of reply >kept
[ "$(wc -l <kept)" -eq 14000 ] || fail "not each of 14000 secrets has a link"
before=$(wc -c <s.0)
after=$(wc -c <s.1)
[ "$before" -gt 4194304 ] && [ "$before" -lt 4195304 ] || fail "the first file has $before bytes"
[ "$after" -gt 3500000 ] && [ "$after" -lt 8388608 ] || fail "the second file has $after bytes"
finds kept
long_names 1 >request
ends 0 pipe --store s --keys k --endpoint http://k/v1 <request
secrets_of reply >>kept
[ "$(wc -c <s.0)" -eq "$before" ] || fail "the first file is still written"
[ "$(wc -c <s.1)" -gt "$after" ] || fail "the second file isn't written"
finds kept
echo "turns_over: ok"
