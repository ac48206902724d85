#!/bin/bash
# A machine of hub/test_cluster.py, made of namespaces with a real systemd as its init: cluster_host.sh N WORD, N being 1 to 3.
#   on, off      its power: off ends all its processes at once      status       whether it is on
#   cut, join    its network cable                                  freeze, thaw it stands still as a whole, and goes on
#   in CMD ..    runs a command in it
#   get power .., set power 0|1 ..                                  what `ipmi_sim` asks of a chassis
# PLACE has the tree of Debian, the files that go over it, and what all machines share; CG is its cgroup.
n=$1 what=$2
shift 2
dir=$PLACE/n$n cg=$CG/n$n
init() { cat "$dir/init" 2>/dev/null; }
is_on() { grep -q 'populated 1' "$cg/cgroup.events" 2>/dev/null; }

# What the machine does before its init: `sh` runs it in namespaces of net and mount, then in the others.
mounts='
  echo $$ >$cg/cgroup.procs; echo $$ >$dir/outer
  while ! ip link show eth0 >/dev/null 2>&1; do sleep 0.05; done
  ip link set lo up; ip addr add 10.0.0.1$n/24 dev eth0; ip link set eth0 up; ip route add default via 10.0.0.254
  mount -t overlay overlay -o lowerdir=$PLACE/files:$PLACE/tree,upperdir=$dir/up,workdir=$dir/work $dir/root
  mkdir -p $dir/root/shared; mount --bind $PLACE/shared $dir/root/shared
  mount -t tmpfs tmpfs $dir/root/run; mount -t tmpfs tmpfs $dir/root/tmp
  exec unshare --pid --uts --ipc --cgroup --fork --kill-child sh -c "$begins"'
begins='
  hostname n$n; cd $dir/root
  mount -t proc proc proc; mount -t sysfs sysfs sys; mount -t cgroup2 cgroup sys/fs/cgroup; mount -t tmpfs tmpfs dev
  for d in null zero full random urandom tty; do touch dev/$d; mount --bind /dev/$d dev/$d; done
  mkdir dev/shm dev/pts; mount -t tmpfs tmpfs dev/shm; mount -t devpts devpts dev/pts
  for d in fd:fd stdin:fd/0 stdout:fd/1 stderr:fd/2; do ln -s /proc/self/${d#*:} dev/${d%:*}; done
  mkdir -p old; pivot_root . old; umount -l /old; mount --make-rshared /
  exec env -i container=namespaces PATH=/usr/sbin:/usr/bin:/sbin:/bin /lib/systemd/systemd --system systemd.unified_cgroup_hierarchy=1 \
    --show-status=false --log-target=journal'

on() {
  is_on && return
  mkdir -p "$dir"/{up/etc,work,root} "$cg"
  echo "n$n" >"$dir/up/etc/hostname"
  rm -f "$dir/outer" "$dir/init"
  n=$n dir=$dir cg=$cg begins=$begins setsid unshare --net --mount --propagation private sh -c "$mounts" >"$dir/console" 2>&1 </dev/null &
  for _ in {1..200}; do [ -s "$dir/outer" ] && break; sleep 0.05; done
  local outer child
  outer=$(cat "$dir/outer") || return
  ip link add "vfc$n" type veth peer name eth0 netns "$outer" && ip link set "vfc$n" master vfcbr up
  for _ in {1..400}; do
    child=$(cat "/proc/$outer/task/$outer/children" 2>/dev/null)
    [ -n "$child" ] && grep -q systemd "/proc/${child% }/comm" 2>/dev/null && break
    sleep 0.05
  done
  echo "${child% }" >"$dir/init"
}

off() {
  if [ -e "$cg/cgroup.kill" ]; then
    echo 1 >"$cg/cgroup.kill"
    for _ in {1..200}; do is_on || break; sleep 0.05; done
    echo 0 >"$cg/cgroup.freeze"
    find "$cg" -depth -mindepth 1 -type d -exec rmdir {} + 2>/dev/null
  fi
  ip link del "vfc$n" 2>/dev/null
  ! is_on
}

case $what in
  on) on ;;
  off) off ;;
  status) is_on ;;
  cut) ip link set "vfc$n" down ;;
  join) ip link set "vfc$n" up ;;
  freeze) echo 1 >"$cg/cgroup.freeze" ;;
  thaw) echo 0 >"$cg/cgroup.freeze" ;;
  in) exec nsenter -t "$(init)" -m -p -u -i -n -C -- "$@" ;;
  get)
    for word in "$@"; do
      [ "$word" = power ] && { is_on && echo power:1 || echo power:0; } || echo "$word:0"
    done ;;
  set)
    echo "$(date +%s.%N) $n $*" >>"$PLACE/power"
    case $* in
      *power\ 0*) off ;;
      *power\ 1*) on </dev/null >/dev/null 2>&1 ;;
      *reset\ 1*) off && on </dev/null >/dev/null 2>&1 ;;
    esac ;;
esac
