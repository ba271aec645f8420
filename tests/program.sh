#!/bin/sh
# What the gate does not run of the program: no argument, a file, notes, help, and what it turns down.
set -u
here=$(cd "$(dirname "$0")/.." && pwd)
script=$here/crates/kuyqelpa/stdin
answers=$here/crates/kuyqelpa/stdout
failed=0

check() {
    if [ "$2" = "$3" ]; then
        echo "ok: $1"
    else
        echo "FAILED: $1"
        failed=1
    fi
}

turned_down() {
    said=$("$here/run" "$@" 2>&1 >/dev/null)
    check "kuyqelpa $* ends with status 1 and a message" "$?${said:+ said}" "1 said"
    check "the message is one line and names the program" "$(echo "$said" | grep -c '')$(echo "$said" | grep -c '^kuyqelpa: ')" "11"
}

"$here/run" --help >/dev/null || exit 1
check "no argument tells the example" "$("$here/run")" "$(cat "$here/tests/example.txt")"
check "a file is run as the standard input is" "$("$here/run" "$script")" "$(cat "$answers")"
check "notes leave the answers as they are" "$("$here/run" --notes "$script" | grep -v '^    ')" "$(cat "$answers")"
check "notes of the standard input" "$("$here/run" --notes - <"$script")" "$("$here/run" --notes "$script")"
check "bytes that are no text" "$(printf 'scheme card # \377\ncells \377\ncells 1\r\nopen' | "$here/run" -)" "$(printf 'ok\nerror\nok\nok')"
check "an empty script" "$("$here/run" - </dev/null)" ""
turned_down --nothing
turned_down --notes
turned_down "$here/no such file"
turned_down "$script" "$script"
turned_down --notes "$script" "$script"
exit $failed
