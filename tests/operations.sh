#!/bin/sh
# Asks the built program for each operation that is served, one after the other over one store, each by a process of its own, as
# .ci/run does behind the gate: what is answered begins with this status and has this text. Among the rows are requests that
# break two rules at once, of which the earlier is answered, and a refused request changes nothing. Another program is tried
# where it is named: tests/operations.sh PROGRAM.
set -eu
name=operations
here=$(cd "$(dirname "$0")/.." && pwd)
. "$here/tests/program.sh"

# A field of a head, with its line's end.
field() {
    printf '%b_' "$1\\r\\n"
}

json=$(field 'Content-Type: application/json')
json=${json%_}
text=$(field 'Content-Type: text/plain')
text=${text%_}
base64=$(field 'Content-Type: application/octet-stream\r\nContent-Encoding: base64')
base64=${base64%_}

# Asks as a user of a project with these roles: WHO is PROJECT/USER/ROLES. @ in a path is the secret's id.
ask() {
    who=$1 method=$2 path=$3 body=$4
    path=$(printf '%s' "$path" | sed "s/@/$secret/")
    {
        printf '%s %s HTTP/1.1\r\nX-Project-Id: %s\r\nX-User-Id: %s\r\nX-Roles: %s\r\n%s' "$method" "$path" \
            "$(printf '%s' "$who" | cut -d / -f 1)" "$(printf '%s' "$who" | cut -d / -f 2)" "$(printf '%s' "$who" | cut -d / -f 3)" "${accept-}"
        [ "$body" = - ] || printf '%sContent-Length: %d\r\n\r\n%s' "${type-"$json"}" "${#body}" "$body"
        [ "$body" != - ] || printf '\r\n'
    } >request
    ends 0 pipe --store s --keys k --endpoint http://k/v1 <request
}

# Fails unless this is answered: a status, and a text that the reply has.
row() {
    ask "$1" "$2" "$3" "$4"
    head -n 1 reply | grep -q "^HTTP/1.1 $5 " || fail "$1 $2 $3 $4 is answered by $(head -n 1 reply) and not by $5"
    grep -qF -e "$6" reply || fail "$1 $2 $3 $4 is answered without $6: $(tail -n 1 reply)"
}

# The id of the container that a reply links to.
container_of() {
    grep -o '/v1/containers/[0-9a-f-]*"' "$1" | tr -d '"' | cut -d / -f 4
}

secret=none
maker=p1/u1/creator
ends 0 init --store s

# secrets
row $maker POST /v1/secrets '{"name":"tls","algorithm":"aes","bit_length":256,"mode":"cbc","secret_type":"symmetric","expiration":"2999-01-01T00:00:00"}' 201 secret_ref
secret=$(secrets_of reply)
row $maker GET /v1/secrets/@ - 200 '"algorithm":"aes","bit_length":256,"created":"'
row $maker GET /v1/secrets/@ - 200 '"expiration":"2999-01-01T00:00:00","mode":"cbc","name":"tls","secret_ref":"http://k/v1/secrets/'
row p1/u2/observer GET /v1/secrets/@ - 200 '"secret_type":"symmetric","status":"ACTIVE"'
row p2/u1/admin GET /v1/secrets/@ - 403 'Denied: secret:get/project'
row p1/u2/ GET /v1/secrets/@ - 403 'Denied: secret:get/role'
row p1/u2/ GET /v1/secrets/00000000-0000-8000-8000-000000000000 - 404 NoObject
row p1/u2/observer POST /v1/secrets '{"bit_length":0}' 403 'Denied: secret:create/role'
row $maker POST /v1/secrets '{"bit_length":0,"secret_type":"x"}' 400 'BadBody: bit_length'
row $maker POST /v1/secrets '{"expiration":"2000-01-01T00:00:00"}' 400 'BadBody: expiration'
row $maker POST /v1/secrets '{"name":1}' 400 'BadBody: name'
row $maker POST /v1/secrets '{"payload":"a"}' 400 'BadBody: payload_content_type'
accept=$(field 'Accept: text/plain')
accept=${accept%_}
row $maker GET /v1/secrets/@ - 406 NotAcceptable
row p2/u1/admin GET /v1/secrets/@ - 403 'Denied: secret:get/project'
accept=

# metadata
row $maker GET /v1/secrets/@/metadata - 200 '{"metadata":{}}'
row $maker PUT /v1/secrets/@/metadata '{"metadata":{"Owner":"ops","env":"prod"}}' 201 '/metadata"}'
row $maker GET /v1/secrets/@/metadata - 200 '{"metadata":{"env":"prod","owner":"ops"}}'
row $maker PUT /v1/secrets/@/metadata '{"metadata":{"a":"1","A":"2"}}' 400 'BadBody: metadata'
row p1/u2/observer PUT /v1/secrets/@/metadata '{"metadata":1}' 403 'Denied: secret:write/role'
row $maker POST /v1/secrets/@/metadata '{"key":"x","value":"1"}' 201 '{"key":"x","value":"1"}'
row $maker POST /v1/secrets/@/metadata '{"key":"X","value":"2"}' 409 Conflict
row $maker GET /v1/secrets/@/metadata/x - 200 '{"key":"x","value":"1"}'
row $maker PUT /v1/secrets/@/metadata/x '{"key":"x","value":"3"}' 200 '{"key":"x","value":"3"}'
row $maker DELETE /v1/secrets/@/metadata/x - 204 'HTTP/1.1 204 No Content'
row $maker GET /v1/secrets/@/metadata/x - 404 NoObject
row $maker GET /v1/secrets/@/metadata - 200 '{"metadata":{"env":"prod","owner":"ops"}}'

# access lists
row $maker GET /v1/secrets/@/acl - 200 '"project-access":true'
row $maker PUT /v1/secrets/@/acl '{"read":{"users":["u9"],"project-access":false}}' 200 '{"acl_ref":"http://k/v1/secrets/'
row $maker GET /v1/secrets/@/acl - 200 '"project-access":false'
row p2/u9/ GET /v1/secrets/@ - 200 '"name":"tls"'
row p1/u2/observer GET /v1/secrets/@ - 403 'Denied: secret:get/private'
row $maker PATCH /v1/secrets/@/acl '{"read":{"project-access":true}}' 200 acl_ref
row $maker GET /v1/secrets/@/acl - 200 '"users":["u9"]'
row p1/u2/observer GET /v1/secrets/@ - 200 '"name":"tls"'
row $maker PUT /v1/secrets/@/acl '{"read":{"users":["u 9"]}}' 400 'BadBody: users'
row $maker GET /v1/secrets/@/acl - 200 '"users":["u9"]'
row $maker DELETE /v1/secrets/@/acl - 200 'HTTP/1.1 200 OK'
row p2/u9/ GET /v1/secrets/@ - 403 'Denied: secret:get/'

# quotas
row $maker GET /v1/quotas - 200 '{"quotas":{"consumers":-1,"containers":-1,"orders":-1,"secrets":-1}}'
row $maker PUT /v1/project-quotas/p1 '{"project_quotas":{"secrets":1}}' 403 'Denied: quota:admin/role'
operator=ops/root/key-manager:service-admin
row $operator PUT /v1/project-quotas/p1 '{"project_quotas":{"secrets":1}}' 204 'HTTP/1.1 204 No Content'
row $maker GET /v1/quotas - 200 '"secrets":1}'
row $maker POST /v1/secrets '{"name":"more"}' 403 'QuotaReached: secrets 1'
row $maker POST /v1/secrets '{"name":1}' 400 'BadBody: name'
row $operator DELETE /v1/project-quotas/p1 - 204 'HTTP/1.1 204 No Content'
row $operator GET /v1/project-quotas/p1 - 404 NoObject
row $maker POST /v1/secrets '{"name":"more"}' 201 secret_ref

# payloads: with their secret, and put afterwards, once
first=$secret
row $maker POST /v1/secrets '{"payload":"a","payload_content_type":"x"}' 400 'BadBody: payload_content_type'
row $maker POST /v1/secrets '{"payload":"","payload_content_type":"text/plain"}' 400 'BadBody: payload'
row $maker POST /v1/secrets '{"name":"sealed","payload":"a passphrase","payload_content_type":"text/plain"}' 201 secret_ref
secret=$(secrets_of reply)
row $maker GET /v1/secrets/@ - 200 '"content_types":{"default":"text/plain"}'
row $maker GET /v1/secrets/@/payload - 200 'a passphrase'
row p1/u2/observer GET /v1/secrets/@/payload - 200 'Content-Type: text/plain'
row p1/u2/audit GET /v1/secrets/@/payload - 403 'Denied: secret:decrypt/role'
row p2/u1/admin GET /v1/secrets/@/payload - 403 'Denied: secret:decrypt/project'
accept=$(field 'Accept: application/json')
accept=${accept%_}
row $maker GET /v1/secrets/@/payload - 406 NotAcceptable
row p1/u2/audit GET /v1/secrets/@/payload - 403 'Denied: secret:decrypt/role'
accept=
type=$text
row $maker PUT /v1/secrets/@ 'another' 409 Conflict
row p1/u2/observer PUT /v1/secrets/@ '' 403 'Denied: secret:write/role'
row $maker GET /v1/secrets/@/payload - 200 'a passphrase'
unset type
row $maker POST /v1/secrets '{"name":"filled later"}' 201 secret_ref
secret=$(secrets_of reply)
row $maker GET /v1/secrets/@/payload - 404 NoObject
row $maker PUT /v1/secrets/@ '{}' 415 WrongType
type=$base64
row $maker PUT /v1/secrets/@ 'no base64' 400 'BadBody: payload'
row $maker PUT /v1/secrets/@ 'aGVsbG8=' 204 'HTTP/1.1 204 No Content'
row $maker PUT /v1/secrets/@ 'no base64' 400 'BadBody: payload'
unset type
row $maker GET /v1/secrets/@/payload - 200 hello
row $maker GET /v1/secrets/@ - 200 '"content_types":{"default":"application/octet-stream"}'
row $maker DELETE /v1/secrets/@ - 204 'HTTP/1.1 204 No Content'
row $maker GET /v1/secrets/@/payload - 404 NoObject
secret=$first

# containers, of secrets that are there
row $maker POST /v1/secrets '{"name":"certificate"}' 201 secret_ref
certificate=http://k/v1/secrets/$(secrets_of reply)
row $maker POST /v1/secrets '{"name":"key"}' 201 secret_ref
key=http://k/v1/secrets/$(secrets_of reply)
row p2/u5/creator POST /v1/secrets '{"name":"another project"}' 201 secret_ref
another=http://k/v1/secrets/$(secrets_of reply)
row p1/u2/observer POST /v1/containers '{"type":1}' 403 'Denied: container:create/role'
row $maker POST /v1/containers '{"type":"x","secret_refs":1}' 400 'BadBody: secret_refs'
row $maker POST /v1/containers '{"type":"certificate","secret_refs":[]}' 400 'BadBody: secret_refs'
row $maker POST /v1/containers "{\"type\":\"x\",\"secret_refs\":[{\"secret_ref\":\"$another\"}]}" 400 'BadBody: type'
row $maker POST /v1/containers "{\"type\":\"generic\",\"secret_refs\":[{\"secret_ref\":\"$another\"}]}" 404 NoObject
row $maker POST /v1/containers "{\"type\":\"certificate\",\"name\":\"web\",\"secret_refs\":[{\"name\":\"certificate\",\"secret_ref\":\"$certificate\"}]}" 201 container_ref
web=/v1/containers/$(container_of reply)
row $maker POST /v1/containers '{"type":"generic"}' 201 container_ref
bag=/v1/containers/$(container_of reply)
row $maker GET "$web" - 200 '"name":"web","secret_refs":[{"name":"certificate","secret_ref":"http://k/v1/secrets/'
row p2/u1/admin GET "$web" - 403 'Denied: container:get/project'
row p1/u2/ GET /v1/containers/00000000-0000-8000-8000-000000000000 - 404 NoObject

# members
row $maker POST "$web/secrets" "{\"name\":\"private_key\",\"secret_ref\":\"$key\"}" 409 Conflict
row $maker POST "$web/secrets" "{\"secret_ref\":\"$another\"}" 404 NoObject
row $maker POST "$bag/secrets" "{\"name\":\"a\",\"secret_ref\":\"$key\"}" 201 container_ref
row $maker POST "$bag/secrets" "{\"name\":\"b\",\"secret_ref\":\"$key\"}" 409 Conflict
row p1/u2/observer POST "$bag/secrets" '{"secret_ref":1}' 403 'Denied: container:write/role'
row $maker POST "$bag/secrets" '{"secret_ref":"x"}' 400 'BadBody: secret_ref'
row $maker GET "$bag" - 200 '"secret_refs":[{"name":"a","secret_ref":"'
row $maker DELETE "$bag/secrets" "{\"name\":\"b\",\"secret_ref\":\"$key\"}" 404 NoObject
row $maker DELETE "$web/secrets" "{\"name\":\"certificate\",\"secret_ref\":\"$certificate\"}" 409 Conflict
row $maker DELETE "$bag/secrets" "{\"name\":\"a\",\"secret_ref\":\"$key\"}" 204 'HTTP/1.1 204 No Content'
row $maker GET "$bag" - 200 '"secret_refs":[]'

# consumers; the same one twice is there once
balancer='{"name":"balancer","URL":"https://b"}'
row p1/u2/audit POST "$web/consumers" '{"name":""}' 403 'Denied: consumer:write/role'
row p1/u2/observer POST "$web/consumers" '{"name":"","URL":""}' 400 'BadBody: name'
row p1/u2/observer POST "$web/consumers" "$balancer" 200 '"consumers":[{"URL":"https://b","name":"balancer"}]'
row p1/u2/observer POST "$web/consumers" "$balancer" 200 '"consumers":[{"URL":"https://b","name":"balancer"}]'
row p1/u2/observer DELETE "$web/consumers" '{"name":"balancer","URL":"https://c"}' 404 NoObject
row p1/u2/observer DELETE "$web/consumers" "$balancer" 200 '"consumers":[]'
row $operator PUT /v1/project-quotas/p1 '{"project_quotas":{"consumers":1,"containers":2}}' 204 'HTTP/1.1 204 No Content'
row $maker POST "$web/consumers" "$balancer" 200 '"name":"balancer"'
row $maker POST "$bag/consumers" '{"name":"more","URL":"https://m"}' 403 'QuotaReached: consumers 1'
row $maker POST "$web/consumers" "$balancer" 200 '"name":"balancer"'
row $maker POST /v1/containers '{"type":"generic"}' 403 'QuotaReached: containers 2'
row $maker POST /v1/containers '{"type":"x"}' 400 'BadBody: type'

# lists; the secrets of p1 are tls, more, certificate and key
row p1/u2/ GET '/v1/secrets?limit=0' - 403 'Denied: secret:list/role'
row $maker GET '/v1/secrets?limit=0' - 400 'BadBody: limit'
row $maker GET '/v1/secrets?limit=1&limit=2' - 400 'BadBody: limit'
row $maker GET '/v1/secrets?sort=size' - 400 'BadBody: sort'
row $maker GET '/v1/secrets?acl_only=1' - 400 'BadBody: acl_only'
row $maker GET /v1/secrets - 200 '"total":5}'
row $maker GET '/v1/secrets?limit=2&offset=1' - 200 '"next":"http://k/v1/secrets?limit=2&offset=3","previous":"http://k/v1/secrets?limit=2&offset=0"'
row $maker GET '/v1/secrets?bits=256' - 200 '"name":"tls"'
row $maker GET '/v1/secrets?bits=256' - 200 '"total":1}'
row $maker GET '/v1/secrets?sort=name&limit=1' - 200 '"name":"certificate"'
row $maker GET '/v1/secrets?sort=name:desc&limit=1' - 200 '"name":"tls"'
row $maker PUT /v1/secrets/@/acl '{"read":{"project-access":false}}' 200 acl_ref
row p1/u2/observer GET /v1/secrets - 200 '"total":4}'
row $maker DELETE /v1/secrets/@/acl - 200 'HTTP/1.1 200 OK'
row p2/u5/observer GET /v1/secrets - 200 '"name":"another project"'
row $maker GET '/v1/containers?limit=1' - 200 '"next":"http://k/v1/containers?limit=1&offset=1","total":2}'
row p2/u5/observer GET /v1/containers - 200 '{"containers":[],"total":0}'
row p1/u2/audit GET "$web/consumers?offset=1" - 200 "{\"consumers\":[],\"previous\":\"http://k$web/consumers?limit=10&offset=0\",\"total\":1}"
row p2/u1/admin GET "$web/consumers?limit=0" - 403 'Denied: consumer:get/project'
row $maker GET '/v1/project-quotas?limit=0' - 403 'Denied: quota:admin/role'
row $operator GET /v1/project-quotas - 200 '"project_id":"p1"'
row $operator GET '/v1/project-quotas?offset=4294967296' - 400 'BadBody: offset'

# deletion
row $maker DELETE "/v1/secrets/${certificate##*/}" - 204 'HTTP/1.1 204 No Content'
row $maker GET "$web" - 200 '"secret_refs":[{"name":"certificate","secret_ref":"http://k/v1/secrets/'
row p1/u2/observer DELETE "$web" - 403 'Denied: container:delete/role'
row $maker DELETE "$web" - 204 'HTTP/1.1 204 No Content'
row $maker GET "$web/consumers" - 404 NoObject
row $maker POST "$bag/consumers" "$balancer" 200 '"name":"balancer"'
row p1/u2/observer DELETE /v1/secrets/@ - 403 'Denied: secret:delete/role'
row $maker DELETE /v1/secrets/@ - 204 'HTTP/1.1 204 No Content'
row $maker GET /v1/secrets/@ - 404 NoObject
row $maker GET /v1/secrets/@/metadata - 404 NoObject
row $maker GET /v1/secrets/@/acl - 404 NoObject
echo "operations: ok"
