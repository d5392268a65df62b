#!/usr/bin/env bash
# Serves a disk to two base stations over named pipes, and to a desk over standard input and output, which is station 3. Base station K
# writes its lines to FOLDER/K.in, and reads the answers from FOLDER/K.out. It holds both open: its station ends when it closes them, as
# `echo count >FOLDER/1.in` does. From a shell, first IN, then OUT:
#   exec 3>FOLDER/1.in 4<FOLDER/1.out
#   echo '1 0 rule 234-14-0/24 1 99 1 3600' >&3; read -r answer <&4; echo "$answer"
#   echo count >&3; read -r answer <&4; echo "$answer"
# Usage: examples/serve.sh DISK FOLDER
set -euo pipefail
umask 077
disk=${1:?DISK FOLDER} folder=${2:?FOLDER}
program=${TETRA_SWITCH:-$(dirname "$0")/../tetra-switch}

mkdir -p "$folder"
# Made anew: lines that an earlier run left in them would be carried out before those that are sent again.
rm -f "$folder"/{1,2}.{in,out}
mkfifo "$folder"/{1,2}.{in,out}
exec "$program" serve "$disk" "$folder"/1.{in,out} "$folder"/2.{in,out} /dev/stdin /dev/stdout
