#!/usr/bin/env python3
"""Changes one policy of a service ten times a second: bench/change.py PORT SECONDS."""
import http.client, json, sys, time

link = http.client.HTTPConnection("127.0.0.1", int(sys.argv[1]))
end, n = time.time() + float(sys.argv[2]), 0
while time.time() < end:
    item = {"users": [f"v{n % 2}"], "accesses": [{"type": "select"}]}
    policy = {"service": "hive1", "name": "p999", "resources": {"database": {"values": ["db49"]}, "table": {"values": ["t999"]}}, "policyItems": [item]}
    link.request("PUT", "/service/public/v2/api/policy/1000", json.dumps(policy), {"x-user": "root"})
    link.getresponse().read()
    n += 1
    time.sleep(0.1)
