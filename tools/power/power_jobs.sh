# Runs /tmp/job, a script for the guest of ./dev power. Beside the functions here it uses the
# commands of power_guest.c.

# run NUMBER FROM KILL_AT FAIL_AT WORD.., and keeps the status.
run() {
    /bin/run "$@"
    status=$?
}

# Does what the program printed when it refused to open the logs.
way_on() {
    log=$(sed -n 's/.*log \([0-9]*\).*/\1/p' /tmp/err | head -n 1)
    if grep -q 'seal --cut-torn' /tmp/err; then
        /program seal --cut-torn /mnt/logs "$log" >/tmp/told 2>&1
    else
        file=/mnt/logs/$(printf %x "$log").log
        /program scan /mnt/logs "$log" 2>&1 | grep -q '^entries 0 ' && mv "$file" "$file.away"
    fi
}

# Runs `look`, a function of the job, until the program does not refuse the logs.
until_opened() {
    tries=0
    while look && [ "$status" != 0 ] && [ "$tries" -lt 20 ] && way_on; do
        tries=$((tries + 1))
    done
}

# Fills the data disk, but for some KiB.
fill() {
    dd if=/dev/zero of=/mnt/room bs=1k count="$1" 2>/dev/null
    sync
    size=$((256 << 20))
    while [ "$size" -ge 4096 ]; do
        fallocate -l "$size" "/mnt/filler.$size" 2>/dev/null || rm -f "/mnt/filler.$size"
        size=$((size / 2))
    done
    rm /mnt/room
    sync
}

. /tmp/job
