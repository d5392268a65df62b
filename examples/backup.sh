#!/usr/bin/env bash
# Copies a disk while the process PID serves it. All its threads are stopped meanwhile, so the copy is what a stop at that moment leaves:
# it has every command that was answered.
# Usage: examples/backup.sh PID DISK COPY
#   examples/backup.sh "$(systemctl show -P MainPID tetra-switch)" /var/lib/tetra-switch/switch.disk /backup/switch.disk
set -euo pipefail
umask 077
pid=${1:?PID DISK COPY} disk=${2:?PID DISK COPY} copy=${3:?PID DISK COPY}

trap 'kill -CONT "$pid"' EXIT
kill -STOP "$pid"
# A thread within a call of the disk stops after it.
until [ "$(sed -n 's/^State:[[:space:]]*\(.\).*/\1/p' "/proc/$pid/task/"*/status | sort -u)" = T ]; do
  sleep 0.01
done
cp "$disk" "$copy"
kill -CONT "$pid"
sync "$copy"
