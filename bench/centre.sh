#!/bin/sh
# A centre on this machine: two rooms, each a `rdp_host serve`, and HAProxy in front of them with the configuration of examples/centre, in
# which only the ports, the certificates and the place of the log are others. The clients of bench/centre.py come over the loopback interface,
# honest ones and others; the table says what they saw, and what is wanted of it, and the bench ends with 0 only where all of it is so: each
# name is in its room and in no other; who has no row, says nothing or something else, and the eleventh link of one address reach no host,
# by the lines that the rooms write at their ends; 10,000 of them use up no link, and nobody in a room notices; rooms are restarted one by one;
# HAProxy has a line for each connection. Then many rooms of sixteen viewers each are there at once, for the memory and the time that they take.
#
# usage: sh bench/centre.sh      (it needs haproxy, openssl, python3 and Linux's /proc. MANY=N: N scanners, 10,000; ROOMS=N: N rooms, 20)
bench=centre
. "$(dirname "$0")/programs.sh"
needs "$rdp_host"
for tool in haproxy openssl python3; do
    command -v "$tool" >/dev/null || { echo "$bench: no $tool here; Debian has it" >&2; exit 1; }
done

# A certificate of its own with its key, as host.pem of the centre or of a client.
certificate() {
    openssl req -x509 -newkey rsa:2048 -nodes -days 2 -subj "/CN=$1" -keyout "$work/$1.key" -out "$work/$1.crt" 2>/dev/null
    cat "$work/$1.crt" "$work/$1.key" >"$work/$1.pem"
}

for name in host client stranger; do
    certificate "$name"
done
cp "$work/client.crt" "$work/clients.pem"
[ ! -r /proc/loadavg ] || echo "load before: $(cut -d ' ' -f 1-3 /proc/loadavg), of $(nproc) processors; $(date -u '+%Y-%m-%d %H:%M') UTC; $(haproxy -v | head -n 1 | cut -d ' ' -f 1-3)"
python3 "$here/bench/centre.py" "$rdp_host" "$here" "$work"
