#!/bin/sh
# Prints the channel records of sessions between OpenSSH's client and server, as in records.txt. Needs
# the Debian packages gcc, libc6-dev, openssh-client, openssh-server (over OpenSSL 3) and python3. The
# server runs as the client's ProxyCommand: no port is opened, and nothing is left running.
# Runs differ in the first three sessions: in where the server's 98 of the exit stands among its 95 and 96,
# and in how the client cuts the large one's 93 and 94. The ends of sessions came out the same each time.
set -e
here="$(cd "$(dirname "$0")" && pwd)"
sshd="$(PATH="$PATH:/usr/sbin" command -v sshd)"
dir="$(mktemp -d)"
trap 'rm -rf "$dir"' EXIT
[ "$(id -u)" != 0 ] || mkdir -p /run/sshd # under root the server asks for it

gcc -O2 -Wall -shared -fPIC -o "$dir/shim.so" "$here/shim.c"
ssh-keygen -q -t ed25519 -N '' -f "$dir/host"
ssh-keygen -q -t ed25519 -N '' -f "$dir/user"
server="env -u LD_PRELOAD $sshd -i -f /dev/null -h $dir/host -o AuthorizedKeysFile=$dir/user.pub"
server="$server -o StrictModes=no -o PermitRootLogin=prohibit-password -o LogLevel=ERROR"

fail() { echo "$1: $2" | cat - "$dir/$1.err" >&2; exit 1; }
cut_out() { cut -d ' ' -f 1,2,4; } # direction, kind and bytes

# Runs the command $3, with the channel messages in $dir/$1; ssh has to exit by $2. The forwards serve
# nobody: their listeners are channel 0 of the client and channels 0 and 1 of the server, so that the
# session is 1 and 2.
session() {
    status=0
    CHANNEL_LOG="$dir/$1" LD_PRELOAD="$dir/shim.so" \
        ssh -F /dev/null -o ProxyCommand="$server" -o LogLevel=ERROR -i "$dir/user" \
        -o IdentitiesOnly=yes -o StrictHostKeyChecking=no -o UserKnownHostsFile=/dev/null \
        -o Compression=no -c aes128-ctr -m hmac-sha2-256 \
        -L "$dir/$1.a:$dir/none" -R "$dir/$1.b:$dir/none" -R "$dir/$1.c:$dir/none" \
        localhost "$3" >/dev/null 2>"$dir/$1.err" || status=$?
    [ "$status" = "$2" ] || fail "$1" "ssh exits by $status, not by $2"
}

# Runs a session as above, and prints the comment $4 and the server's 98 of the exit (exit-..) and 97.
# Both have to be there: ssh exits by 255 after a signal, but also where the connection fails.
end() {
    session "$1" "$2" "$3" </dev/null
    records="$(grep -E '^s>c (97|98 .* 62.{16}657869742d)' "$dir/$1" | cut_out | paste -s -d ' ')"
    case "$records" in
        's>c 98 '*' s>c 97 6100000001') printf '# %s\n%s\n' "$4" "$records" ;;
        *) fail "$1" "ends by '$records'" ;;
    esac
}

printf ab | session small 0 'cat; printf bad >&2'
sleep 1 | session early 0 'printf hi'
head -c 4000000 /dev/zero | session large 0 cat
cat "$dir/small" "$dir/early" "$dir/large" >"$dir/all"

for code in 0 1 7 255; do
    end "exit$code" "$code" "exit $code" "ssh .. 'exit $code'"
done >"$dir/codes"

# By Python, as a shell may ignore QUIT. SIG_DFL (not for KILL, which takes none), as Python ignores PIPE,
# and an exec keeps what is ignored. No core file, so that 'core dumped' is false; where the system pipes
# cores to a program, the limit does not hold.
die='import os, signal as s; n == 9 or s.signal(n, s.SIG_DFL); os.kill(os.getpid(), n)'
for signal in HUP=1 INT=2 QUIT=3 ILL=4 ABRT=6 FPE=8 KILL=9 USR1=10 SEGV=11 USR2=12 PIPE=13 ALRM=14 \
    TERM=15 BUS=7 TRAP=5; do
    n="${signal#*=}"
    end "signal$n" 255 "ulimit -c 0; exec python3 -c 'n = $n; $die'" "n = $n, ${signal%=*}"
done >"$dir/signals"

cat <<END
# Channel records of real sessions, printed by capture.sh. One a line: direction (c>s from the client to
# the server, s>c back), kind, bytes in hexadecimal. Kinds 93 to 99 name the receiver's channel: 1 is the
# client's, 2 the server's. Kinds 90, 91, 98 and 99 are outside of the records that the runner reads
# (refused by 21); of these it writes one, the server's 98 of an exit.
# client: $(ssh -V 2>&1)
# server: $(dpkg-query -W -f '${Package} ${Version}' openssh-server 2>/dev/null || echo "$sshd")

# printf ab | ssh .. 'cat; printf bad >&2': every record, in order
$(cut_out <"$dir/small")

# sleep 1 | ssh .. 'printf hi', which ends before its input does: every record, in order
$(cut_out <"$dir/early")

# head -c 4000000 /dev/zero | ssh .. cat: the first three adjusts each way
$(awk '$2 == 93 && n[$1]++ < 3' "$dir/large" | cut_out)

# That session's records by direction and kind:
$(cut -d ' ' -f 1,2 "$dir/large" | sort | uniq -c | sed 's/^ */#   /')
# In all three: data or extended data of 0 bytes $(grep -c -E ' (94 9|95 13) ' "$dir/all"), adjusts of 0 units $(grep -c ' 5d.\{8\}00000000$' "$dir/all").

# How sessions end: the server's 98 of the exit and its 97, in order, both in one line
$(cat "$dir/codes")

# The same by signal, for ssh .. "ulimit -c 0; exec python3 -c 'n = ..; \$die'", where \$die is
# $die
# RFC 4254 names the first thirteen; for BUS and TRAP OpenSSH says SIG@openssh.com (the runner: 40).
$(cat "$dir/signals")
END
