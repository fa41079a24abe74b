#!/bin/sh
# Signs an event for two channels with openssl, as a back end does, and replays the bytes of the request with a subscriber
# of each channel.
here=$(cd "$(dirname "$0")" && pwd) || exit 1
secret=s path=/apps/1/events
body='{"name":"e","channels":["a","b"],"data":"{\"x\":1}"}'

digest=$(printf %s "$body" | openssl md5 -r | cut -d' ' -f1)
query="auth_key=k&auth_timestamp=1000&auth_version=1.0&body_md5=$digest"
signature=$(printf 'POST\n%s\n%s' "$path" "$query" | openssl dgst -sha256 -hmac "$secret" -r | cut -d' ' -f1)
request=$(printf 'POST %s?%s&auth_signature=%s HTTP/1.1\r\nHost: localhost\r\nContent-Length: %d\r\n\r\n%s' \
    "$path" "$query" "$signature" "${#body}" "$body" | od -An -v -tx1 | tr -d ' \n')

"$here/../channelsd" replay <<END
0 open /app/k?protocol=7
0 open /app/k?protocol=7
1 say 1 {"event":"pusher:subscribe","data":{"channel":"a"}}
1 say 2 {"event":"pusher:subscribe","data":{"channel":"b"}}
1000000 http $request
END
