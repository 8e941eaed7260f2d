#!/usr/bin/env bash
# Records the captures of this folder anew, as root, with tcpdump on this machine's loopback, in a checkout of version 0.3.0, whose server
# had one image for both tasks; xcp_server.a2l here is of that. examples/c/xcp_server.c on port 5555, as ./live leaves it in out/live, with
# a short session of examples/c/xcp_master.c by UDP and by TCP, one of Scapy's master (Debian's python3-scapy) by UDP, in which it sets
# lists up twice, and one of refusing_session.py by UDP and by TCP, in which commands are refused and lists set up twice; that one writes
# down beside its capture what it received.
#
#   tests/captures_kept/keep.sh [NAME ..]      all, or those of these names, such as refused_by_udp
set -u
cd "$(dirname "$0")/../.." || exit 3
kept=tests/captures_kept
live=out/live
names=("$@")
server=
dump=
trap 'kill $server $dump 2>/dev/null' EXIT

# records what goes over the port while a command runs, into NAME.pcap, if that is wanted: keep NAME FILTER COMMAND..
keep() {
  local name=$1 filter=$2 status
  shift 2
  [[ " ${names[*]:-$name} " == *" $name "* ]] || return 0
  rm -f "$kept/$name.pcap"
  tcpdump -Z root --immediate-mode -i lo -U -w "$kept/$name.pcap" "$filter port 5555" 2>/dev/null &
  dump=$!
  until [ "$(stat -c %s "$kept/$name.pcap" 2>/dev/null || echo 0)" -ge 24 ]; do sleep 0.1; done
  sleep 0.5
  "$@" >/dev/null
  status=$?
  sleep 1.5
  kill -INT "$dump"
  wait "$dump"
  dump=
  echo "$kept/$name.pcap: $(stat -c %s "$kept/$name.pcap") bytes"
  return "$status"
}

# a session of Scapy's master, by what bench/live_scapy.py has but for its length
scapy() {
  /usr/bin/python3 - bench/live_scapy.py <<'END'
import sys

exec(open(sys.argv[1]).read().rsplit("\nmain()", 1)[0])
line = Line(socket.SOCK_DGRAM, 5555)
conf.contribs["XCP"]["byte_order"] = 0
tell("CONNECT", line.ask(Connect()))
read_all(line)
set_up(line, [(0, FAST), (1, SLOW)])
measure(line, 2, 200)
set_up(line, [(1, SLOW)])
measure(line, 1, 10)
line.ask(Disconnect())
END
}

"$live/xcp_server" --udp 5555 --tcp 5555 >/dev/null &
server=$!
sleep 0.5
keep master_by_udp udp "$live/xcp_master" --udp 5555 --samples 300 || exit 1
keep master_by_tcp tcp "$live/xcp_master" --tcp 5555 --samples 300 || exit 1
keep scapy_by_udp udp scapy || exit 1
for kind in udp tcp; do
  keep "refused_by_$kind" "$kind" "$kept/refusing_session.py" "$kind" 5555 "$kept/refused_by_$kind.expected" || exit 1
done
kill -INT "$server"
wait "$server"
