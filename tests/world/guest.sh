#!/bin/busybox sh
# The first process of the machines of tests/run power. It is told a file system and a job over console 0. It mounts its disk, reports on
# the serial line what the program finds there, and does its job until the power goes. The machine ends when `serve` does.
/bin/busybox mkdir -p /dev /proc /disk
/bin/busybox --install -s /bin
mount -t devtmpfs dev /dev
mount -t proc proc /proc
for module in $(cat /modules); do insmod "/$module.ko"; done
until [ -b /dev/vda ] && [ -c /dev/hvc3 ]; do sleep 0.02; done
exec >/dev/ttyS0 2>&1 3<>/dev/hvc0 4<>/dev/hvc1 5<>/dev/hvc2 6<>/dev/hvc3
for console in 0 1 2 3; do stty raw -echo </dev/hvc$console; done
echo '== booted'
read -r fs job <&3

# Reports what the program prints and its status. It prints into a file, since it shows its progress on a terminal.
report() {
  echo "== $1"
  /program "$@" >/printed 2>&1
  status=$?
  cat /printed
  echo "== status $status"
}

# A cut may tear what a file system writes in place, as its superblock, where that has several sectors. Its own tool mends that.
mount -t "$fs" /dev/vda /disk || {
  case $fs in
  ext4) e2fsck -y /dev/vda ;;
  btrfs) btrfs rescue super-recover -y /dev/vda ;;
  esac
  mount -t "$fs" /dev/vda /disk
} && echo '== mounted'
cd /disk
if [ -e switch.disk ]; then
  report check switch.disk
  report dump switch.disk
fi
case $job in
serve)
  [ -e switch.disk ] || report format /settings.toml switch.disk
  echo '== ready'
  report serve switch.disk /dev/hvc0 /dev/hvc0 /dev/hvc1 /dev/hvc1 /dev/hvc2 /dev/hvc2 /dev/hvc3 /dev/hvc3
  poweroff -nf
  ;;
format | load)
  rm -f switch.disk
  sync
  echo '== ready'
  read -r line <&3
  if [ "$job" = load ]; then register=/register.txt; fi
  report "$job" $register /settings.toml switch.disk
  ;;
esac
sleep 1000
