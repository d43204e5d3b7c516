#!/usr/bin/env bash
# A drill for those who run a store. Three servers run. One loses its disk, and is restored from the two others. Then an old copy of its journal is
# put back: the server refuses it, and is restored once more. Call: drill.sh [PROGRAM]; without PROGRAM it is the bayou on the PATH. All is done in a
# new folder, which is removed. The last line begins with 'drill passed' (status 0) or 'drill FAILED' (status 1).
set -u
program=$(command -v "${1-bayou}") || { echo "drill FAILED: there is no program ${1-bayou}" && exit 1; }
room=$(mktemp -d) || exit 1
pids=()
clean_up() {
    for pid in "${pids[@]}"; do kill "$pid" && wait "$pid"; done 2>/dev/null
    rm -rf "$room"
}
trap clean_up EXIT
fail() {
    tail -n 5 "$room"/*.told
    echo "drill FAILED: $1"
    exit 1
}

# until_so WORDS..: waits until this command succeeds, for 15 seconds at the most.
until_so() {
    local tries
    for ((tries = 0; tries < 150; tries++)); do "$@" && return || sleep 0.1; done
    return 1
}

# Three ports, one after another, that nobody has.
taken() { (: <"/dev/tcp/127.0.0.1/$1") 2>/dev/null; }
base=$((20000 + RANDOM % 12000))
while taken "$base" || taken $((base + 1)) || taken $((base + 2)); do base=$((20000 + RANDOM % 12000)); done
at() { echo "$1=127.0.0.1:$((base + $1))"; }
journal() { echo "$room/disk-$1/server-$1.journal"; }

# serve I WORDS..: starts server I, which has a disk of its own, with both others as its peers.
serve() {
    local peer words=()
    for peer in 0 1 2; do [ "$peer" = "$1" ] || words+=(--peer "$(at "$peer")"); done
    "$program" serve --id "$1" --servers 3 --dir "$room/disk-$1" --listen "127.0.0.1:$((base + $1))" "${words[@]}" "${@:2}" \
        >"$room/$1.printed" 2>"$room/$1.told" &
    pids[$1]=$!
}

# serving I: waits until server I takes Writes. stop I: stops it; a signal is a clean end.
serving() { until_so grep -q "^serving $1 " "$room/$1.printed" || fail "server $1 doesn't serve"; }
stop() { kill "${pids[$1]}" && until_so is_gone "$1" && unset "pids[$1]"; }
is_gone() { ! kill -0 "${pids[$1]}" 2>/dev/null; }

# refused I LINE: server I has to end by itself, with status 3 and this line.
refused() {
    until_so is_gone "$1" || fail "server $1 doesn't refuse"
    wait "${pids[$1]}"
    [ $? = 3 ] && grep "$2" "$room/$1.told" || fail "server $1 doesn't say: $2"
    unset "pids[$1]"
}

# person LINES WORDS..: a person at the three servers, whose session is kept from one call to the next.
person() { printf '%b\n' "$1" | "$program" connect --server "$(at 0)" --server "$(at 1)" --server "$(at 2)" --state "$room/person" --wait 9 "${@:2}"; }
writes() { person "$1\nwait" >"$room/answers" || fail "not accepted and final: $1"; }

# same WHEN COUNT: compares the dumps of all three servers, which have so many Writes.
same() {
    local server
    rm -f "$room/book" && person dump --book "$room/book" >"$room/answers" || fail "$1: a server gives no dump"
    for server in 0 1 2; do grep "^\[\"held\",$server," "$room/book" | cut -d , -f 3- | sort >"$room/held-$server"; done
    cmp -s "$room/held-0" "$room/held-1" && cmp -s "$room/held-0" "$room/held-2" || fail "$1: the servers hold different Writes"
    [ "$(wc -l <"$room/held-0")" = "$2" ] || fail "$1: there are other than $2 Writes"
    echo "$1: each server holds the same $2 Writes"
}

mkdir "$room"/disk-{0,1,2}
for server in 0 1 2; do serve "$server" --new; done
for server in 0 1 2; do serving "$server"; done
writes 'at 0\nput a 1\nat 1\nput b 1\nat 2\nput c 1'
cp "$(journal 1)" "$room/old-copy"
writes 'at 1\nput b 2\nput d 1'
same "at first" 5

stop 1
rm "$(journal 1)"
serve 1
refused 1 'there is no journal; --new makes one, and --restore makes a lost one again'
serve 1 --restore
serving 1
grep -q '^bayou: restored 3 own writes$' "$room/1.told" || fail "server 1 doesn't say what it restored"
same "restored from its peers" 5

stop 1
cp "$room/old-copy" "$(journal 1)"
serve 1
refused 1 'it lacks Writes of its own server that server [02] has'
serve 1
refused 1 'it lost Writes of its own; move it away and start it with --restore'
mv "$(journal 1)" "$room/moved-away"
serve 1 --restore
serving 1
same "restored after the old copy" 5
writes 'at 1\nput e 1'
same "one Write later" 6
echo "drill passed: a lost journal was restored whole, an old copy was refused, and no Write was lost"
