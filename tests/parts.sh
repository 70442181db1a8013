# For the shell scripts that run the tests part by part (bash). What a part prints stays in build/log/, and its count in
# build/count/, so that parts can run at the same time.
rm -rf build/count
mkdir -p build/log build/count

# part NAME COMMAND..: the command's own last line is its count. A command that ends otherwise, or counts nothing, is one failure.
# What it says is not run, because a tool is missing, is said here too and counts for nothing.
part() {
    local name=$1 began=$SECONDS status line missing passed=0 failed=0
    shift
    "$@" >"build/log/$name" 2>&1
    status=$?
    line=$(tail -n 1 "build/log/$name")
    missing=$(grep -c '^not run: ' "build/log/$name")
    grep '^not run: ' "build/log/$name"
    if [ "$status" -eq 0 ] && [[ $line =~ ^([1-9][0-9]*)\ passed,\ 0\ failed$ ]]; then
        passed=${BASH_REMATCH[1]}
    elif [ "$status" -eq 0 ] && [ "$missing" -gt 0 ] && [ "$line" = '0 passed, 0 failed' ]; then
        line='not run'
    else
        failed=1
        tail -n 40 "build/log/$name"
        line="FAILED with status $status"
    fi
    echo "$passed $failed $missing" >"build/count/$name"
    printf '%-16s %s (%d s)\n' "$name" "$line" $((SECONDS - began))
}

# end_parts NAME..: the last line counts all parts; one of these names that was not counted is a failure. Ends with 0 if none
# failed.
end_parts() {
    local name passed=0 failed=0 not_run=0 counted
    for name; do
        read -r -a counted < <(cat "build/count/$name" 2>/dev/null || echo 0 1 0)
        passed=$((passed + counted[0]))
        failed=$((failed + counted[1]))
        not_run=$((not_run + counted[2]))
    done
    [ "$not_run" -eq 0 ] || printf '%d not run\n' "$not_run"
    printf '%d passed, %d failed\n' "$passed" "$failed"
    [ "$failed" -eq 0 ]
}
