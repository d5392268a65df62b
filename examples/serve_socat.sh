#!/usr/bin/env bash
# Serves a disk to one base station at an ADDRESS of socat, and to a desk over standard input and output, which is station 2, until SIGINT
# or SIGTERM. If the link ends, the address is opened anew; the base station then comes back as docs/operate.md says.
# Usage: examples/serve_socat.sh DISK ADDRESS
#   a TCP socket:  examples/serve_socat.sh switch.disk TCP-LISTEN:7001,bind=127.0.0.1,reuseaddr
#   a serial line: examples/serve_socat.sh switch.disk /dev/ttyS0,raw,echo=0,b9600
set -euo pipefail
umask 077
disk=${1:?DISK ADDRESS} address=${2:?ADDRESS}
program=${TETRA_SWITCH:-$(dirname "$0")/../tetra-switch}

# Opens the address again and again. It holds both ends of both pipes, so that the station does not end with a link.
keep_linked() {
  trap 'kill "$waited" 2>/dev/null; exit' TERM
  exec 3<>"$folder/in" 4<>"$folder/out"
  while :; do
    socat "$address" "OPEN:$folder/out,rdonly!!OPEN:$folder/in,wronly" &
    waited=$! && wait "$waited" || true
    sleep 0.5 &
    waited=$! && wait "$waited"
  done
}

folder=$(mktemp -d)
trap 'kill "$switch" "$bridge" 2>/dev/null || true; rm -r "$folder"' EXIT
trap 'exit 130' INT
trap 'exit 143' TERM
mkfifo "$folder/in" "$folder/out"
keep_linked &
bridge=$!
"$program" serve "$disk" "$folder/in" "$folder/out" /dev/stdin /dev/stdout <&0 &
switch=$!
wait "$switch"
