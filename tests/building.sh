#!/bin/sh
# building.sh [SHELL..]: looks how ./c2 builds its program, with a stub in place of rt, in a repository of ten small crates, under these shells, or dash and bash: what is proved, a crate that
# fails, builds that are cut off, two at a time. It takes some minutes, and proves nothing. Its last line counts what was wrong.
set -u
top=$(CDPATH='' cd -- "$(dirname -- "$0")/.." && pwd -P) || exit 1
work=$(mktemp -d) || exit 1
wrong=0
trap 'rm -rf "$work"' EXIT
trap 'exit 1' HUP INT TERM

check() {
    what=$1
    shift
    if "$@"; then
        echo "ok: $shell: $what"
    else
        echo "WRONG: $shell: $what"
        wrong=$((wrong + 1))
    fi
}

# The stub of `rt ci` refuses a repository that isn't whole, and one with edits. It proves one crate after another, keeps each by a sum of its sources as rt
# does, and says of each what rt says. FAILS names a crate that it doesn't prove, TAKES says how many seconds a proof takes.
write_stub() {
    mkdir -p "$work/bin"
    cat >"$work/bin/rt" <<'STUB'
#!/bin/sh
note() {
    echo "$1" >>"$NOTES"
}
[ "$*" = ci ] && [ -d .git ] && [ -f HANDLES ] || { note lacks; exit 2; }
[ -z "$(find crates -name must-fail -o -name out)" ] || note edits
mkdir -p "$NOTES.kept"
trap 'kill "$!"; exit 143' TERM
for name in $(sed -n 's/^\([a-z0-9_]*\):.*/\1/p' crates.txt | LC_ALL=C sort); do
    sum=$(cd "crates/$name" && find . -type f -exec cksum {} + | LC_ALL=C sort | cksum | tr -d ' ')
    mkdir -p "crates/$name/out"
    if [ -e "$NOTES.kept/$name-$sum" ]; then
        echo "rt: $name is kept: an earlier run on this machine proved the same files over the same libraries"
        note "kept $name"
        continue
    fi
    note "begins $name"
    sleep "$TAKES" &
    wait "$!"
    echo "== $name"
    if [ "$FAILS" = "$name" ]; then
        echo "fn $name::g: proved"
        echo "fn $name::f: not proved"
        echo "rt: $name NOT PROVED"
        # (rt goes on with what doesn't stand on it)
        sleep 60 &
        wait "$!"
        exit 1
    fi
    echo "rt: $name proved"
    : >"$NOTES.kept/$name-$sum"
    note "ends $name"
done
[ -z "$REFUSES" ] || { echo "rt: $REFUSES"; exit 1; }
printf '#!/bin/sh\necho "answer to $* in $(basename "$PWD")"\nexit 3\n' >crates/c2_cli/out/c2_cli
chmod +x crates/c2_cli/out/c2_cli
echo "9 passed, 0 failed"
STUB
    chmod +x "$work/bin/rt"
}

# Ten crates, of which nine are the program's.
new_repository() {
    rm -rf "$work/repository" "$NOTES.kept"
    mkdir -p "$work/repository/crates" "$work/repository/.git"
    cp "$top/c2" "$work/repository"
    echo 'Handles allowed: none.' >"$work/repository/HANDLES"
    cat >"$work/repository/crates.txt" <<'LIST'
# what stands alone
low: thiserror
side: hex
mid: low
one: low
two: low
three: low side
high: mid
c2_cli: high one two three four   # the program
four: low
other: c2_cli
LIST
    for name in low side mid one two three four high c2_cli other; do
        mkdir -p "$work/repository/crates/$name/src" "$work/repository/crates/$name/must-fail" "$work/repository/crates/$name/out"
        echo "$name" >"$work/repository/crates/$name/src/lib.rt"
    done
    mkdir -p "$work/repository/crates/c2_cli/data"
    echo P >"$work/repository/crates/c2_cli/data/P"
    : >"$NOTES"
}

c2() {
    PATH=$work/bin:$PATH $shell -u "$work/repository/c2" "$@" 2>"$work/said"
}

count() {
    grep -c "^$1" "$2"
}

nothing_runs() {
    sleep 0.5
    ! pgrep -f "$work/bin/rt" >/dev/null && ! ls -d "$work/repository/.git/c2-room"* >/dev/null 2>&1
}

cut_off() {
    new_repository
    # What a script begins in the background ignores INT.
    # shellcheck disable=SC2016 # the words are those of the shell that is ended
    TAKES=2 env --default-signal=INT sh -c 'echo "$$" >"$1"; shift; exec "$@"' "" "$work/pid" \
        env PATH="$work/bin:$PATH" "$shell" -u "$work/repository/c2" digest P >"$work/out" 2>"$work/said" &
    until [ "$(count ends "$NOTES")" -ge 2 ]; do
        sleep 0.2
    done
    kill "-$1" "$(cat "$work/pid")"
    wait "$!"
    status=$?
}

whole() {
    new_repository
    answer=$(cd "$work/bin" && c2 digest P)
    status=$?
    check "the program answers with its own status, in the folder that it is called in" [ "$answer $status" = "answer to digest P in bin 3" ]
    check "nine crates are proved, no other, without edits" [ "$(count begins "$NOTES") $(count lacks "$NOTES") $(count edits "$NOTES")" = "9 0 0" ]
    check "a line for each" [ "$(grep -c '^c2: proved [0-9] of 9: [a-z0-9_]* ([0-9]*\.[0-9] minutes so far)$' "$work/said")" -eq 9 ]
    check "nothing runs, and nothing is left" nothing_runs
    : >"$NOTES"
    answer=$(c2 list)
    check "built once, it runs at once, and nothing is said" [ "${answer% in *}$(cat "$work/said" "$NOTES")" = "answer to list" ]
    echo more >>"$work/repository/crates/high/src/lib.rt"
    c2 list >"$work/out"
    check "after an edit what is kept of the others is taken" [ "$(count begins "$NOTES") $(grep begins "$NOTES" | head -1) $(count kept "$NOTES")" = "1 begins high 8" ]
}

failing() {
    new_repository
    FAILS=two c2 digest >"$work/out"
    status=$?
    check "a crate that fails ends it with its log and its name, status 125, and no answer" \
        [ "$status $(grep -c "fn two::f: not proved" "$work/said") $(count fn "$work/said") $(tail -1 "$work/said")$(cat "$work/out")" = "125 1 1 c2: crate two isn't proved" ]
    check "the others are ended, and nothing is left" nothing_runs
    check "nothing is trusted of it" [ ! -e "$work/repository/build/sources" ]
    take_over
    new_repository
    REFUSES='c2_cli wrote something else' c2 digest >"$work/out"
    status=$?
    check "what rt refuses besides ends it with what rt said" [ "$status $(grep -c 'wrote something else' "$work/said")$(cat "$work/out")" = "125 1" ]
}

# The next run proves what the last one didn't end, and takes over the rest.
take_over() {
    before=$(count ends "$NOTES")
    : >"$NOTES"
    answer=$(c2 digest P)
    check "the next run takes over the $before crates that were proved" \
        [ "$before" -ge 1 -a "${answer% in *} $(count kept "$NOTES") $(count ends "$NOTES")" = "answer to digest P $before $((9 - before))" ]
}

killed() {
    for signal in INT TERM HUP; do
        cut_off $signal
        check "$signal ends it" [ "$status" -ne 0 -a ! -s "$work/out" ]
        check "$signal ends all that it began" nothing_runs
        take_over
    done
    cut_off KILL
    answer=$(c2 digest P)
    check "after KILL the next run says that it waits for what still runs, and takes it over" \
        [ "$(head -1 "$work/said") $(count ends "$NOTES") $(count kept "$NOTES") ${answer% in *}" = "c2: waiting for another ./c2 that is building the program 9 9 answer to digest P" ]
    check "after KILL nothing is left" nothing_runs
}

two_at_once() {
    new_repository
    c2 first >"$work/first" &
    sleep 0.5
    PATH=$work/bin:$PATH $shell -u "$work/repository/c2" second >"$work/second" 2>"$work/said2"
    wait "$!"
    check "of two at a time the second waits and says so, and each crate is proved once" \
        [ "$(cat "$work/first" "$work/second" "$work/said2" | sed 's/ in .*//' | tr '\n' ' ')$(count begins "$NOTES")" = \
        "answer to first answer to second c2: waiting for another ./c2 that is building the program 9" ]
    new_repository
    c2 first >"$work/first" &
    sleep 0.5
    # shellcheck disable=SC2016 # the words are those of the shell that is ended
    TAKES=1 env --default-signal=INT sh -c 'echo "$$" >"$1"; shift; exec "$@"' "" "$work/pid" \
        env PATH="$work/bin:$PATH" "$shell" -u "$work/repository/c2" second >"$work/second" 2>"$work/said2" &
    sleep 1
    kill -TERM "$(cat "$work/pid")"
    wait
    check "one that waits can be ended, and the other goes on" [ "$(sed 's/ in .*//' "$work/first")$(cat "$work/second")$(count begins "$NOTES")" = "answer to first9" ]
}

refusals() {
    new_repository
    mkdir -p "$work/without"
    for tool in readlink dirname find cksum sort cat grep flock; do
        ln -sf "$(command -v $tool)" "$work/without/$tool"
    done
    PATH=$work/without "$(command -v "$shell")" -u "$work/repository/c2" list >"$work/out" 2>"$work/said"
    status=$?
    check "without rt it says so" [ "$status $(cat "$work/said")" = "125 c2: the command rt is wanted to build the program" ]
    sed -i 's/^c2_cli/c3_cli/' "$work/repository/crates.txt"
    c2 list >"$work/out"
    status=$?
    check "a list without the program is refused" [ "$status $(tail -1 "$work/said")" = "125 c2: crates.txt names no program" ]
}

export NOTES="$work/notes" TAKES=1 FAILS='' REFUSES=''
write_stub
[ "$#" -ge 1 ] || set -- dash bash
for shell in "$@"; do
    command -v "$shell" >/dev/null || continue
    whole
    failing
    killed
    two_at_once
    refusals
done
echo "$wrong wrong"
[ "$wrong" -eq 0 ]
