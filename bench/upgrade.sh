#!/bin/bash
# Whether a new version's packages install over an older one's: bench/upgrade.sh OLD NEW TREE, as root. OLD and NEW are folders with the two
# .deb files of each, and TREE is a tree of Debian, which stays as it is:
#   debootstrap --variant=minbase --include=systemd,dbus,procps,python3-aiohttp bookworm TREE
# In it, over a systemd of its own, a hub of the old version sells; once the new one is installed that hub runs again by itself, has the same
# chain, tokens and units, and answers an older sale as before.
set -eu
old=$(realpath "$1") new=$(realpath "$2") tree=$(realpath "$3")
nif=89890001K
work=$(mktemp -d)
cgroup=$(findmnt -n -o TARGET -t cgroup2 | head -n 1)/upgrade$$
mkdir -p "$work"/{up,work,root} "$cgroup"
end() {
    echo 1 >"$cgroup/cgroup.kill"
    while grep -q 'populated 1' "$cgroup/cgroup.events"; do sleep 0.1; done
    find "$cgroup" -depth -type d -exec rmdir {} +
    rm -rf "$work"
}
trap end EXIT
fail() { echo "upgrade: $*" >&2; exit 1; }

export work old new tree cgroup
setsid unshare --net --mount --propagation private bash -c '
    echo $$ >"$cgroup/cgroup.procs"
    ip link set lo up
    mount -t overlay overlay -o "lowerdir=$tree,upperdir=$work/up,workdir=$work/work" "$work/root"
    cd "$work/root"
    mkdir -p old new place
    mount --bind "$old" old
    mount --bind "$new" new
    mount -t tmpfs tmpfs run
    mount -t tmpfs tmpfs tmp
    exec unshare --pid --uts --ipc --cgroup --fork --kill-child sh -c "
        mount -t proc proc proc; mount -t sysfs sysfs sys; mount -t cgroup2 cgroup sys/fs/cgroup; mount -t tmpfs tmpfs dev
        for d in null zero full random urandom tty; do touch dev/\$d; mount --bind /dev/\$d dev/\$d; done
        mkdir dev/shm; mount -t tmpfs tmpfs dev/shm; ln -s /proc/self/fd dev/fd
        pivot_root . place; umount -l /place; mount --make-rshared /
        exec env -i container=namespaces PATH=/usr/sbin:/usr/bin:/sbin:/bin /lib/systemd/systemd --system \
            systemd.unified_cgroup_hierarchy=1 --show-status=false --log-target=journal"' >"$work/console" 2>&1 </dev/null &
disown
first=
for _ in {1..300}; do
    mapfile -t processes < <(find "$cgroup" -name cgroup.procs -exec cat {} + 2>/dev/null)
    for process in "${processes[@]}"; do
        [ "$(awk '/^NSpid/ { print NF ":" $NF }' "/proc/$process/status" 2>/dev/null)" = 3:1 ] && grep -q systemd "/proc/$process/comm" && first=$process
    done
    [ -z "$first" ] || break
    sleep 0.1
done
[ -n "$first" ] || fail "no systemd: $(cat "$work/console")"
inside() { nsenter -t "$first" -m -p -u -i -n -C -- env PATH=/usr/sbin:/usr/bin:/sbin:/bin LC_ALL=C.UTF-8 "$@"; }
wait_for() {
    local what=$1
    shift
    for _ in {1..1200}; do ! inside "$@" >/dev/null 2>&1 || return 0; sleep 0.1; done
    fail "$what: $(inside journalctl -n 20 --no-pager)"
}
# Asks the hub, and says its status and the parts of its answer.
ask() {
    inside python3 - "$@" <<'PYTHON'
import json, sys, urllib.request
path, token, *body = sys.argv[1:]
asked = urllib.request.Request("http://127.0.0.1:8730" + path, body[0].encode() if body else None, {"Authorization": "Bearer " + token})
with urllib.request.urlopen(asked, timeout=60) as answer:
    told = json.load(answer)
    print(answer.status, *(told.get(key) for key in ("answer", "num", "place", "records") if key in told))
PYTHON
}
sale() { echo '{"serial":'"$1"',"series":"A","kind":"F2","lines":[{"class":"21","total":1000}]}'; }
is() { [ "$2" = "$3" ] || fail "$1: '$2' where '$3' is wanted"; echo "$1: $2"; }
install_from() { inside sh -c "dpkg -i /$1/verifactu_*.deb /$1/verifactu-hub_*.deb" >"$work/dpkg" 2>&1 || fail "$1: $(tail -n 5 "$work/dpkg")"; }
kept() { inside sh -c 'cd / && ls -l etc/systemd/system/*.wants/verifactu-* | sed "s/.*etc/etc/"; sha256sum etc/verifactu/*; stat -c "%n %a %U" var/lib/verifactu var/lib/verifactu/*.chain etc/verifactu/*; id verifactu'; }

wait_for "systemd isn't up" sh -c 'systemctl is-system-running | grep -qE "running|degraded"'
install_from old
before=$(inside verifactu --version | head -n 1)
token=$(printf 't%.0s' {1..40})
owner=$(printf 'o%.0s' {1..40})
inside sh -c "install -d -m 0755 /etc/verifactu && umask 077 && printf 'till 1 %s\nowner %s\n' $token $owner >/etc/verifactu/$nif.tokens &&
    chown verifactu /etc/verifactu/$nif.tokens && systemctl -q enable verifactu-follow@$nif.timer"
# (devices of its own can't be had where /dev is made of bind mounts)
inside sh -c 'install -d /etc/systemd/system/verifactu-hub@.service.d && printf "[Service]\nPrivateDevices=no\n" >/etc/systemd/system/verifactu-hub@.service.d/bind.conf'
inside systemctl -q daemon-reload
inside systemctl -q enable --now "verifactu-hub@$nif.service" || fail "the old hub doesn't run: $(inside journalctl -n 10 --no-pager)"
is "a sale of the old version" "$(ask /v1/sales "$token" "$(sale 1)")" '201 taken A-1 1'
old_files=$(kept)
old_chain=$(inside verifactu export "/var/lib/verifactu/$nif.chain" | head -n 1)
install_from new
after=$(inside verifactu --version | head -n 1)
[ "$before" != "$after" ] || fail "both versions are $after"
echo "$before, then $after"
wait_for "the hub doesn't run again" systemctl is-active "verifactu-hub@$nif.service"
is "the same sale again" "$(ask /v1/sales "$token" "$(sale 1)")" '200 again A-1 1'
is "another sale" "$(ask /v1/sales "$token" "$(sale 2)")" '201 taken A-2 2'
[ "$(kept)" = "$old_files" ] || fail "other units, tokens or owners: $(diff <(echo "$old_files") <(kept))"
[ "$(inside verifactu export "/var/lib/verifactu/$nif.chain" | head -n 1)" = "$old_chain" ] || fail "the first record is another one"
is "audit" "$(inside verifactu audit "/var/lib/verifactu/$nif.chain" | cut -d ' ' -f 1,2)" 'sound 2'
