#!/usr/bin/env bash
# Times `serve` beside nginx, which answers a fixed body of the same length, on this machine in one run.
# usage: bench/serve.sh PROGRAM    (needs wrk and nginx; it prints requests a second, latencies and memory)
set -eu
program=$1 here=$(cd "$(dirname "$0")" && pwd) work=$(mktemp -d)
trap 'kill $(jobs -p) 2>/dev/null || true; rm -rf "$work"' EXIT
port=16080 front=16081

python3 - "$work" <<'PY'
import json, sys
work = sys.argv[1]
DEF = {"name": "hive", "resources": [{"name": "database", "level": 10}, {"name": "table", "level": 20, "parent": "database"}], "accessTypes": [{"name": "select"}]}
CONFIG = {"admins": ["root"], "plugin": "hive1", "serviceDefs": [DEF], "services": [{"name": "hive1", "type": "hive"}]}
with open(work + "/config", "w") as out:
    print("config", json.dumps(CONFIG), file=out)
    for n in range(1000):
        item = {"users": [f"u{n % 100}"], "accesses": [{"type": "select"}]}
        policy = {"service": "hive1", "name": f"p{n}", "resources": {"database": {"values": [f"db{n % 50}"]}, "table": {"values": [f"t{n}"]}}, "policyItems": [item]}
        print("admin root", json.dumps({"command": "createPolicy", "policy": policy}), file=out)
body = json.dumps({"user": "u7", "resource": {"elements": {"database": "db7", "table": "t7"}}, "accessType": "select", "accessTime": 0})
with open(work + "/decide.lua", "w") as out:
    out.write(f"""wrk.method = "POST"
wrk.path = "/service/decide/hive1"
wrk.headers["x-user"] = "root"
wrk.body = [[{body}]]
""")
with open(work + "/close.lua", "w") as out:
    out.write(open(work + "/decide.lua").read() + 'wrk.headers["Connection"] = "close"\n')
PY
answer='{"access":"ALLOWED","audited":true,"mask":null,"policyId":8,"policyVersion":1001,"rowFilter":null,"serial":2,"tagVersion":1}'
cat > "$work/nginx.conf" <<CONF
worker_processes 4; pid $work/nginx.pid; error_log $work/error.log; daemon off;
events { worker_connections 1024; }
http {
    access_log off; keepalive_requests 100000000;
    client_body_temp_path $work/body; proxy_temp_path $work/proxy; fastcgi_temp_path $work/fastcgi; uwsgi_temp_path $work/uwsgi; scgi_temp_path $work/scgi;
    server { listen 127.0.0.1:$front; location / { default_type application/json; return 200 '$answer'; } }
}
CONF
"$program" serve "127.0.0.1:$port" 1000000 < "$work/config" > "$work/replies" &
server=$!
nginx -c "$work/nginx.conf" &
until [ "$(wc -l < "$work/replies")" -ge 1000 ]; do sleep 0.2; done
sleep 1
# wrk ends a connection after 10,000 messages no earlier than the server does, so each run is short
time_of() { wrk -t2 -c4 -d5s --latency -s "$2" "http://127.0.0.1:$1" | awk -v n="$3" '/50%/ {a = $2} /99%/ {b = $2} /Requests\/sec/ {r = $2} END {printf "%s: %s a second, p50 %s, p99 %s\n", n, r, a, b}'; }
time_of $port "$work/decide.lua" "decisions, keep-alive"
time_of $front "$work/decide.lua" "nginx, keep-alive"
time_of $port "$work/close.lua" "decisions, a connection each"
time_of $front "$work/close.lua" "nginx, a connection each"
python3 "$here/change.py" $port 5 &
time_of $port "$work/decide.lua" "decisions beside ten changes a second"
awk '/VmRSS/ {printf "memory with 64 workers: %d MB\n", $2 / 1024}' "/proc/$server/status"
