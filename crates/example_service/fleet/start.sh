#!/bin/sh
# Starts fifty of the example, which `rt run` has built, on the ports from 9900 on, and names them to Prometheus (../out/targets.json). Ctrl-C ends
# them all.
set -eu
cd "$(dirname "$0")"
targets='' started=''
trap 'kill $started' EXIT
trap 'exit' INT TERM
for port in $(seq 9900 9949); do
    ../out/example_service "$port" 1000000 > /dev/null 2>&1 &
    started="$started $!"
    targets="$targets${targets:+, }\"127.0.0.1:$port\""
done
echo "[{\"targets\": [$targets]}]" > ../out/targets.json
wait
