# What the tests of the example and of the tool share: images and chips, made here, their texts by the tool; what must load; what a
# command says; runs that are stopped, fail, are held, or have odd standard files. A test that takes this in has `test` (its name),
# `work` (its folder), `chip` (the chip's file) and `tool` (by which the texts of images are written). One with runs also has
# `progress` (the file of what they say), `runner` (the words of a command that runs an image on a chip, whose flash may fail),
# `note_run` (which sets `ordered` after a run), `booted` (a command that says what the chip loads), `answer` (what that is for each
# image) and `calls` (how many calls on its chip a run has, and one).

status=0       # of the last command
ordered=none   # the image of the last run that ordered the switch on
switch=OFF     # the switch word after the last run
kills=0 stops=0 errors=0 refusals=0 outputs=0

# What a run that ends well says.
declare -A said=(
    [short]="loads update: sync 16384, end 16396, writes 1"
    [pages]="loads update: sync 16384, end 16908, writes 128"
)

fail() {
    echo "$test: $*" >&2
    exit 1
}

# ---- What a command says ----

# A command's status and all that it says, on both outputs, must fit a pattern.
says() {
    local pattern=$1
    shift
    status=0
    { "$@" >"$work/words" 2>&1; } 2>/dev/null || status=$?
    [[ "$status $(<"$work/words")" == $pattern ]] || fail "$*: $status $(<"$work/words")"
}

# The same of one that changes no chip and makes no file `new`.
refuses() {
    cp "$chip" "$work/before"
    says "$@"
    cmp -s "$chip" "$work/before" || fail "${*:2}: the chip has changed"
    [ -z "$(compgen -G "$work/new*")" ] || fail "${*:2}: a file was made"
    refusals=$((refusals + 1))
}

# ---- Images and chips ----

# The bytes of hexadecimal pairs.
bytes() {
    printf '%b' "$(sed 's/../\\x&/g' <<<"$1")"
}

# Bytes in hexadecimal, as a file of MCS text.
text() {
    bytes "$1" | "$tool" mcs -b - -o "$2" >/dev/null
}

# Puts bytes in hexadecimal into a chip's file.
put() {
    bytes "$3" | dd of="$1" bs=1 seek="$2" conv=notrunc status=none
}

# So many bytes FF.
erased() {
    head -c "$1" /dev/zero | tr '\0' '\377'
}

# The images, and the chips of 32 KiB that hold them, whole; U is 16384.
make_images() {
    local golden short pages name
    golden=$(sed -n 's/^:......00\(.*\)..$/\1/p' samples/label.mcs | tr -d '\n')
    short=AA995566300080010000000D
    pages=AA9955663000407F$(printf '%08X' {1..127})300080010000000D
    text "$short" "$work/short.mcs"
    text "$pages" "$work/pages.mcs"
    text "$(printf 'FF%.0s' {1..16385})" "$work/long.mcs"
    erased 32768 >"$work/empty.chip"
    cp "$work/empty.chip" "$work/golden.chip"
    put "$work/golden.chip" 4096 3002000100004000300080010000000F20000000
    put "$work/golden.chip" 8192 "$golden"
    for name in short pages; do
        cp "$work/golden.chip" "$work/$name.chip"
        put "$work/$name.chip" 4092 AA995566
        put "$work/$name.chip" 16384 "${!name}"
    done
}

# The switch word of the chip.
read_switch() {
    switch=OFF
    if cmp -s -i 4092 -n 4 "$chip" "$work/short.chip"; then switch=ON; fi
}

# The image that must load, by the switch word, does, and stands whole.
verify() {
    local image=golden length=12288
    if [ "$switch" = ON ]; then image=$ordered length=28672; fi
    [ "$(booted)" = "${answer[$image]:-}" ] || fail "$1: it is not the $image image that loads"
    cmp -s -i 4096 -n "$length" "$chip" "$work/$image.chip" || fail "$1: the $image image does not stand whole"
}

# ---- Runs ----

# A run, which may be cut or fail as the environment says.
run_failing() {
    status=0
    { "${runner[@]}" "$chip" "$work/$1.mcs" >"$work/said" 2>"$progress"; } 2>/dev/null || status=$?
    read_switch
    note_run "$1"
}

# A run that nothing befalls: it brings its own image.
run_uncut() {
    run_failing "$1"
    [ "$status $switch $(<"$work/said")" = "0 ON ${said[$1]}" ] || fail "an uncut run has not brought the $1 image"
    verify "an uncut run"
}

# A run that is killed from outside after so many seconds, unless it ends before: gone when this returns (`--foreground` waits).
run_killed() {
    local image=$1 delay=$2
    shift 2
    status=0
    { timeout --foreground --preserve-status -s KILL "$delay" "$@" "$chip" "$work/$image.mcs" >"$work/said" 2>"$progress"; } 2>/dev/null || status=$?
    [[ "$status" == 0 || "$status" == 137 ]] || fail "a run that was to be killed ended with $status: $(<"$progress")"
    if [ "$status" -eq 137 ]; then kills=$((kills + 1)); fi
    read_switch
    note_run "$image"
    verify "killed after $delay s"
}

# On a chip with an update, the first write at one address does nothing: the run stops, says so, and is started again.
run_stopped() {
    cp "$work/pages.chip" "$chip"
    ordered=pages
    DEAF=$1 run_failing short
    [ "$status" -eq 1 ] || fail "a run that must stop ended with $status"
    grep -q "stopped $2: .*; run .*again" "$progress" || fail "no stop $2: $(<"$progress")"
    verify "stopped $2"
    run_uncut short
    stops=$((stops + 1))
}

# From a chip with an update: this call on the chip gives an error. It is said, and nothing is tried again.
run_broken() {
    cp "$work/short.chip" "$chip"
    ordered=short
    BROKEN=$1 run_failing pages
    verify "an error in call $1"
    [ "$status" -eq 2 ] || fail "an error in call $1: $status"
    grep -qE 'run it again|cannot be read' "$progress" || fail "not a word of the error in call $1: $(<"$progress")"
    errors=$((errors + 1))
}

# In each of the calls of a run, of which there are one fewer than `calls`.
break_each_call() {
    local call
    for ((call = 1; call < calls; call++)); do
        run_broken "$call"
    done
    run_uncut short
}

# Calls a function with every choice of standard files: input closed; output closed, full or not for writing; error closed or full.
with_standard_files() {
    local files error
    for files in {'</dev/null','<&-'}' '{'>"$work/said"','>&-','>/dev/full','1</dev/null'}; do
        for error in '2>"$progress"' '2>&-' '2>/dev/full'; do
            "$1" "$files $error"
            outputs=$((outputs + 1))
        done
    done
}

# A command with such files, as words to be evaluated: it ends with 0 only if all that it prints was taken.
takes_files() {
    local expected=2
    if [[ $2 == *said* ]]; then expected=0; fi
    status=0
    eval "$1 $2" || status=$?
    [ "$status" -eq "$expected" ] || fail "$1 $2: $status"
}

# A run with such files: nothing but orders changes the chip.
run_with_files() {
    cp "$work/pages.chip" "$chip"
    : >"$progress"
    takes_files '"${runner[@]}" "$chip" "$work/short.mcs"' "$1"
    cmp "$chip" "$work/short.chip" || fail "$1: not the chip that was ordered"
}

# ---- Two at once ----

# Waits until a program of ours, which stops itself, has made this file so long.
hold() {
    held=$1
    trap 'kill -KILL "$held"' EXIT
    until [ "$(stat -c %s "$2" 2>/dev/null || echo 0)" -ge "$3" ]; do sleep 0.01; done
    until grep -q '^State:.T' "/proc/$held/status"; do sleep 0.01; done
}

# It goes on to its end.
let_go() {
    while kill -CONT "$held" 2>/dev/null; do sleep 0.01; done
    trap - EXIT
    status=0
    wait "$held" || status=$?
}
