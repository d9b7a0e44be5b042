#!/bin/sh
# What a platform asks of the broker. Each line that this prints is the body of an answer and its HTTP status. The token
# of a binding is random, so sed replaces it.
instance=http://127.0.0.1:$PORT/v2/service_instances/00000000-0000-0000-0000-000000000001
binding=$instance/service_bindings/00000000-0000-0000-0000-000000000002
ids='"service_id": "00000000-0000-0000-0000-0000000000a0", "plan_id": "00000000-0000-0000-0000-0000000000b1"'
query='service_id=00000000-0000-0000-0000-0000000000a0&plan_id=00000000-0000-0000-0000-0000000000b1'

ask() {
    curl -sS -u "platform:$BROKER_PASSWORD" -H 'X-Broker-API-Version: 2.17' -w ' %{http_code}\n' "$@" |
        sed 's/"token":"[0-9a-f]*"/"token":".."/'
}

create() {
    ask -X PUT -d "{$ids, \"organization_guid\": \"an organization\", \"space_guid\": \"a space\"}" "$instance"
}

create
create # again: it exists already
ask -X PUT -d "{$ids}" "$binding"
ask "$binding"
ask -X DELETE "$instance?$query" # rejected: it has a binding
ask -X DELETE "$binding?$query"
ask -X DELETE "$instance?$query"
create # a late copy of the first request
