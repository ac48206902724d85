#!/bin/bash
# A machine of hub/test_cluster_disk.py: a guest of qemu, without the processor's help, with Debian's kernel and drbd. Its words are those of
# cluster_host.sh but `in`. PLACE has the kernel, the first file system, and the image that each guest's own lies over.
n=$1 what=$2
shift 2
dir=$PLACE/guest$n
qemu() { cat "$dir/pid" 2>/dev/null; }
is_on() { [ -d "/proc/$(qemu)/fd" ]; }

on() {
  is_on && return
  mkdir -p "$dir"
  [ -e "$dir/disk" ] || qemu-img create -q -f qcow2 -b "$PLACE/guest.img" -F raw "$dir/disk"
  [ -e "$dir/data" ] || truncate -s 64M "$dir/data"
  ip tuntap add "vfc$n" mode tap 2>/dev/null
  ip link set "vfc$n" master vfcbr up
  setsid qemu-system-x86_64 -accel tcg,tb-size=256 -cpu max -m 640 -nographic -no-reboot -kernel "$PLACE/vmlinuz" -initrd "$PLACE/initrd" \
    -append "console=ttyS0,115200 panic=-1 net.ifnames=0 no_timer_check nolapic_timer tsc=unstable clocksource=hpet quiet n=$n" \
    -drive "file=$dir/disk,format=qcow2,if=virtio,cache=unsafe" -drive "file=$dir/data,format=raw,if=virtio,cache=writeback" \
    -netdev "tap,id=net,ifname=vfc$n,script=no,downscript=no" -device "virtio-net-pci,netdev=net,mac=52:54:00:00:00:0$n,romfile=" \
    </dev/null >>"$dir/console" 2>&1 &
  echo $! >"$dir/pid"
}

off() {
  is_on && kill -9 "$(qemu)"
  for _ in {1..200}; do is_on || break; sleep 0.05; done
  ip link del "vfc$n" 2>/dev/null
  ! is_on
}

case $what in
  on) on ;;
  off) off ;;
  status) is_on ;;
  cut) ip link set "vfc$n" down ;;
  join) ip link set "vfc$n" up ;;
  freeze) kill -STOP "$(qemu)" ;;
  thaw) kill -CONT "$(qemu)" ;;
  get)
    for word in "$@"; do
      [ "$word" = power ] && { is_on && echo power:1 || echo power:0; } || echo "$word:0"
    done ;;
  set)
    echo "$(date +%s.%N) $n $*" >>"$PLACE/power"
    case $* in
      *power\ 0*) off ;;
      *power\ 1*) on </dev/null >/dev/null 2>&1 ;;
      *reset\ 1*) off && on </dev/null >/dev/null 2>&1 ;;
    esac ;;
esac
