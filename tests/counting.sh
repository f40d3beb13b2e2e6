# For the run scripts, which source it: counts what passed and what failed. `test_name` stands before what is said of a failure.
passed=0
failed=0

# tell WORDS STATUS: a test that passed if the status is 0; otherwise the words say what is wrong
tell() {
    if [ "$2" -eq 0 ]; then
        passed=$((passed + 1))
    else
        failed=$((failed + 1))
        echo "$test_name: $1"
    fi
}

# the closing line, and whether all is well
closing() {
    echo "$passed passed, $failed failed"
    [ "$failed" -eq 0 ] && [ "$passed" -gt 0 ]
}
