#!/usr/bin/env bash
# Folders, files, words, streams and texts, in this tree. Read by tests/judge.
# shellcheck disable=SC2016,SC2154,SC2034 # scripts stand in single quotes; names are shared with tests/judge

# A copy of an example, with another name.
example() { # NAME FOLDER
    cp -r "examples/$1" "$room/$2"
    chmod -R a+rX "$room/$2"
}
line=$(cat examples/line/expected.txt)
incident=$(cat examples/incident/expected.txt)
sums() { (cd "$1" && find . -type f -exec sha256sum {} + | sort); }

verdicts() {
    local folder expected
    for folder in examples/*/case.bin; do
        folder=$(dirname "$folder") expected=$(cat "$folder/expected.txt")
        run "$folder" ./judge "$folder"
        case $expected in accepted*) ends 0 "$expected" ;; refused*) ends 1 "$expected" ;; *) fail "what is '$expected'?" ;; esac
        says_nothing # nothing has changed, so nothing is proved, and text and bytes are the same
    done
    run "no folder named" ./judge
    ends 2
    says 'no folder is named'

    example line long-case && head -c 200000 /dev/zero >"$room/long-case/case.bin"
    run "a long case" ./judge "$room/long-case"
    ends 2 "too long"
    example line long-plan && head -c 200000 /dev/zero >"$room/long-plan/plan.bin"
    run "a long plan" ./judge "$room/long-plan"
    ends 2 "too long"

    # as many bytes as case.bin has, or the index of the byte that is wrong
    example line broken-off && printf '\x80' >>"$room/broken-off/case.bin"
    run "a case that breaks off" ./judge "$room/broken-off"
    ends 1 "refused 1 0 $(wc -c <"$room/broken-off/case.bin")"
    example line padded && printf '\x80\x80\x00\x02' >>"$room/padded/plan.bin"
    run "a plan with a padded number" ./judge "$room/padded"
    ends 1 "refused 6 0 $(($(wc -c <"$room/padded/plan.bin") - 2))"

    example line "-a b" && ln -s "$PWD/judge" "$room/by-link"
    run "by a link, from elsewhere, a name with a dash and a space" env -C "$room" ./by-link -- "-a b"
    ends 0 "$line"
    says_nothing
}

files() {
    run "no such folder" ./judge "$room/mistyped"
    ends 2
    says "no such folder: $room/mistyped"
    run "an empty name" ./judge ""
    ends 2
    says 'no such folder'
    run "a file for a folder" ./judge examples/line/case.bin
    ends 2
    says 'case.bin is not a folder'

    example line no-case && rm "$room"/no-case/case.*
    run "no case.bin" ./judge "$room/no-case"
    ends 1 "refused 10 0 0"
    says 'no-case has no case.bin: it counts as empty'
    is_silent_on 'has no plan.bin'
    example line no-plan && rm "$room"/no-plan/plan.*
    run "no plan.bin" ./judge "$room/no-plan"
    ends 1 "refused 20 0 0"
    says 'no-plan has no plan.bin: it counts as empty'

    example line folders && rm "$room/folders/case.bin" && mkdir "$room/folders/case.bin"
    run "a folder for case.bin" ./judge "$room/folders"
    ends 2
    says 'case.bin is not a file'
    example line pipe && rm "$room/pipe/plan.bin" && mkfifo "$room/pipe/plan.bin"
    run "a pipe for plan.bin" ./judge "$room/pipe"
    ends 2
    says 'plan.bin is not a file'
    example line astray && ln -sf nowhere "$room/astray/plan.bin"
    run "a link to nothing for plan.bin" ./judge "$room/astray"
    ends 2
    says 'plan.bin is not a file'
}

words() {
    local option word
    for option in -h --help; do
        run "$option" ./judge $option
        [[ $status == 0 ]] || fail "it is to end with 0"
        says_nothing
        for word in 'usage: ./judge' '^ +accepted.* 0$' '^ +refused.* 1 ' '^ +too long.* 2 ' '^ +none.* 2 ' '--text'; do
            grep -qE -- "$word" "$room/out" || fail "its text was to have '$word'"
        done
    done
    run "an unknown option" ./judge --colour examples/line
    ends 2
    says 'no option --colour'
    run "two folders" ./judge examples/line examples/day
    ends 2
    says 'more than one folder'
}

streams() {
    run "standard output closed" bash -c './judge examples/line >&-'
    ends 2
    says 'standard output is closed'
    run "a full disk" bash -c './judge examples/line >/dev/full'
    ends 2
    says 'standard output cannot be written'
    run "a full disk for the help" bash -c './judge --help >/dev/full'
    ends 2
    run "a reader that has gone" bash -c '{ ./judge examples/line; echo $? >"$0"; } | true; exit "$(cat "$0")"' "$room/status"
    ends 2
    says 'standard output cannot be written'
    run "no room for a scratch folder" env TMPDIR=/nowhere ./judge examples/line
    ends 2
    says 'no scratch folder can be made'
    run "standard error closed" bash -c './judge examples/incident 2>&-'
    ends 1 "$incident"
    run "standard error on a full disk" bash -c './judge examples/two-nodes 2>/dev/full'
    ends 0 "$(cat examples/two-nodes/expected.txt)"
}

texts() {
    local before
    example line stale && cp examples/incident/*.txt "$room/stale"
    before=$(sums "$room/stale")
    run "stale texts" ./judge "$room/stale"
    ends 0 "$line"
    says 'warning: .*/stale/case.txt says something else than case.bin'
    says 'warning: .*/stale/plan.txt says something else than plan.bin'
    run "stale texts, judged" ./judge --text "$room/stale"
    ends 1 "$incident"
    says_nothing
    [[ $(sums "$room/stale") == "$before" ]] || fail "the folder was touched"

    example line half && printf 'left-over\n7\n' >>"$room/half/plan.txt" && rm "$room/half/case.txt"
    run "one stale text" ./judge "$room/half"
    ends 0 "$line"
    says 'warning: .*/half/plan.txt says something else'
    is_silent_on 'case.txt'
    run "--text without case.txt" ./judge --text "$room/half"
    ends 2
    says 'has no case.txt'

    example line unclear && sed -i '3s/.*/pressure high/' "$room/unclear/plan.txt"
    run "a text that is none" ./judge "$room/unclear"
    ends 0 "$line"
    says 'warning: .*not compared.*/unclear/plan.txt: line 3'
    run "a text that is none, judged" ./judge --text "$room/unclear"
    ends 2
    says 'no verdict: .*/unclear/plan.txt: line 3'
}
