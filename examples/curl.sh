#!/bin/bash
# A signed request by openssl and curl, to a server that was started with examples/config.json. Without words it publishes an
# event; with words it sends the request that they say:
#
#   examples/curl.sh
#   examples/curl.sh GET  /channels 'filter_by_prefix=presence-&info=user_count'
#   examples/curl.sh POST /events '' '{"name":"n","channel":"#server-to-user-w","data":"d"}'
#
# It prints the reply's body and status, and ends with 0 where that is 200.
key=k secret=s app=1 host=127.0.0.1:6001
method=${1:-POST} path=/apps/$app${2:-/events} more=$3 body=$4
[ $# -gt 0 ] || body='{"name":"headline","channel":"news","data":"{\"text\":\"by curl\"}","info":"subscription_count"}'

query="auth_key=$key&auth_timestamp=$(date +%s)&auth_version=1.0"
[ -z "$body" ] || query="$query&body_md5=$(printf %s "$body" | openssl md5 -r | cut -d' ' -f1)"
[ -z "$more" ] || query="$query&$more"
# the parameters stand in the order of their names; values are signed as they are before percent-encoding
query=$(printf %s "$query" | tr '&' '\n' | LC_ALL=C sort -t= -k1,1 | paste -sd '&' -)
signature=$(printf '%s\n%s\n%s' "$method" "$path" "$query" | openssl dgst -sha256 -hmac "$secret" -r | cut -d' ' -f1)

reply=$(curl -sS -X "$method" -w '\n%{http_code}' "http://$host$path?$query&auth_signature=$signature" ${body:+--data-binary "$body"})
printf '%s\n' "$reply"
[ "${reply##*$'\n'}" = 200 ]
