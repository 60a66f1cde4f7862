#!/bin/sh
# Runs the built program over real files and streams, as .ci/run does behind the gate: a store is made once, two have
# tags of their own, a secret is read by another process, also where the one that created it was killed behind its reply,
# and a store is open once. Another program is tried where it is named: tests/keeps_secrets.sh PROGRAM.
set -eu
name=keeps_secrets
here=$(cd "$(dirname "$0")/.." && pwd)
. "$here/tests/program.sh"

pipe() {
    ends "$1" pipe --store s --keys k --endpoint http://k/v1
}

pipe 3 </dev/null
ends 0 init --store s
ends 3 init --store s
ends 0 init --store t
! cmp -s s.0 t.0 || fail "two stores have one tag"
pipe 0 </dev/null
[ ! -s reply ] || fail "an empty stream has a reply"

pipe 0 <"$here/examples/post.http"
secret=$(secrets_of reply)
[ -n "$secret" ] || fail "a secret has no link"
request_for "$secret" >request
pipe 0 <request
grep -q '"name":"tls key 2026"' reply || fail "another process doesn't find the secret"
sed "s/SECRET/$secret/" "$here/examples/another_project.http" >request
pipe 0 <request
grep -q '^HTTP/1.1 403 ' reply && ! grep -q 'tls key 2026' reply || fail "another project is shown the secret"
head -c 40 "$here/examples/post.http" >request
pipe 9 <request
[ ! -s reply ] || fail "a part of a request has a reply"

requests 30 >request
pipe 0 <request
names_of request >names
secrets_of reply >kept
[ "$(wc -l <kept)" -eq 30 ] || fail "not each of 30 secrets has a link"
has_all s kept
names_of found | cmp -s - names || fail "a secret has another one's name"
echo "$secret" >>kept

mkfifo line
"$program" pipe --store s --keys k --endpoint http://k/v1 <line >first &
process=$!
exec 3>line
cat "$here/examples/post.http" >&3 || fail "the program ended before its request"
waited=0
while [ -z "$(secrets_of first)" ]; do
    waited=$((waited + 1))
    [ "$waited" -le 100 ] || fail "no reply came within ten seconds"
    sleep 0.1
done
pipe 5 </dev/null
kill -9 "$process" 2>/dev/null || fail "the process was gone before it was killed"
exec 3>&-
wait "$process" 2>/dev/null || true
secrets_of first >>kept
has_all s kept

# payloads: sealed on the disk, under the master key of the file alone
has() {
    sed "s/SECRET/$secret/" "$here/examples/payload.http" >request
    ends 0 pipe --store s --keys "$1" --endpoint http://k/v1 <request
    tail -n 1 reply | grep -q '^not a real private key$' || fail "the payload isn't what was put"
}

pipe 0 <"$here/examples/post_payload.http"
secret=$(secrets_of reply)
has k
if grep -q 'real private' s.0 s.1; then
    fail "a payload stands in plain on the disk"
fi
cat other k >both
has both
ends 7 pipe --store s --keys other --endpoint http://k/v1 </dev/null
grep -q '^barbicand: no master key for project web$' said || fail "another master key is refused by: $(cat said)"

# a key file that can't be read, or is none, is refused before the store is opened
mkdir folder
mkfifo fifo
ln -s loop loop
for keys in absent folder fifo loop /dev/zero k/under; do
    ends 11 pipe --store s --keys "$keys" --endpoint http://k/v1 </dev/null
    grep -q '^barbicand: key file fault$' said || fail "the key file $keys is refused by: $(cat said)"
done
: >none
tr '\n' '\r' <k >carriage
head -c 2000 /dev/zero | tr '\0' A >long
for keys in none carriage long; do
    ends 2 pipe --store s --keys "$keys" --endpoint http://k/v1 </dev/null
    grep -q '^barbicand: key file line 1: not a key$' said || fail "the key file $keys is refused by: $(cat said)"
done
cat k k >twice
ends 2 pipe --store s --keys twice --endpoint http://k/v1 </dev/null
grep -q '^barbicand: key file line 2: same as line 1$' said || fail "a key that stands twice is refused by: $(cat said)"
cp s.0 kept.0
ends 2 pipe --store s --keys twice --endpoint http://k/v1 <"$here/examples/post.http"
cmp -s s.0 kept.0 || fail "a store was written under a key file that is none"
tr -d '\n' <k >unended
has unended
has k
echo "keeps_secrets: ok"
