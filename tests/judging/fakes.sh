#!/usr/bin/env bash
# Programs, provers, tools and machines that fail. Read by tests/judge.
# shellcheck disable=SC2016,SC2154,SC2034 # scripts stand in single quotes; names are shared with tests/judge

# Puts a script in a file's place.
script() { # FILE, LINES on standard input
    { echo '#!/usr/bin/env bash' && cat; } >"$1.new"
    chmod 755 "$1.new"
    mv "$1.new" "$1"
}

programs() {
    local tree=$room/fakes body
    tree "$tree"
    for body in 'exit 0' 'echo' 'kill -SEGV $$' 'echo "accepted 0 0 0 0 599988 611988"; exit 3' 'echo "accepted 0 0 0 0 599988"' \
        'echo "accepted 0 0 0 0 599988 611988 0"' 'printf "accepted 0 0 0 0 599988 611988"' 'echo "refused 31 2 -1"' 'echo "not accepted"' \
        'echo "accepted 0 0 0 0 599988 611988"; echo "refused 31 2 0"' 'echo "refused 31 2"' 'echo "too long "'; do
        script "$tree/target/bin/checker" <<<"$body"
        run "a program with '$body'" env PATH="$room/path" "$tree/judge" "$tree/examples/line"
        ends 2
        case $body in
        'exit 0' | printf*) says 'no verdict: the program printed no whole line' ;;
        kill* | *'exit 3') says 'no verdict: the program ended with status (139|3)$' ;;
        *) says 'no verdict: the program printed something else' ;;
        esac
    done
    script "$tree/target/bin/checker" <<<'echo "accepted -1 0 0 0 599988 -611988"'
    run "a program that accepts" env PATH="$room/path" "$tree/judge" "$tree/examples/line"
    ends 0 "accepted -1 0 0 0 599988 -611988"
}

# A tool for texts may fail as it likes: the verdict stays.
tools() {
    local tree=$room/tools body tool
    tree "$tree"
    tool=$tree/tools/target/release/gasplan-text
    mkdir -p "$tree/tools/text/src" "$tree/bindings/gasplan/src" "$(dirname "$tool")"
    for body in 'exit 0' 'exit 3' 'kill -SEGV $$' 'echo refused 31 2 0; rm -r "$2"'; do
        script "$tool" <<<"$body"
        run "a tool for texts with '$body'" env PATH="$room/path" "$tree/judge" "$tree/examples/line"
        ends 0 "$line"
        says 'warning'
    done
}

# A prover that builds the program as it was, with pauses in which a crate is proved; one that fails; and one that another run waits for.
provers() {
    local tree=$room/prover
    tree "$tree"
    mkdir "$room/fake"
    mv "$tree/target/bin/checker" "$tree/crates/checker/program"
    script "$room/fake/rt" <<'END'
[[ $* != version ]] || { echo one; exit; }
[[ $* == "run --cpu x86-64" && $PWD == */crates/checker ]] || exit 9
echo "only=0 proved=0"
echo "rt: chose --jobs 2 for case"
sleep 3
echo "fn case::head: proved"
echo "logic=proved functions=89 sum=0"
for crate in plan line; do echo "rt: chose --jobs 1 for $crate" && echo "logic=proved functions=9 sum=0"; done
echo "rt: chose --jobs 2 for checker"
sleep 3
echo "logic=proved functions=2 sum=0"
echo "rt: running out/checker; to give it other input, run that file yourself"
mkdir -p out
cp program out/checker
END
    run "a prover at work" env PATH="$room/fake:$PATH" "$tree/judge" "$tree/examples/incident"
    ends 1 "$incident"
    cmp -s <(grep -E 'prov(ed \(|ing|es)' "$room/err" | sed 's/([0-9]* s)/(some s)/') <(printf 'judge: %s\n' \
        "the first run proves everything, which takes about three minutes" "proving case .." "case proved (some s)" "plan proved (some s)" \
        "line proved (some s)" "proving checker .." "checker proved (some s)") || fail "other lines were due for the crates"
    is_silent_on 'fn case::head'
    grep -q 'fn case::head: proved' "$tree/target/judge.log" || fail "the log is not whole"

    flock "$tree/target/judge.lock" sleep 5 &
    run "another run at work" env PATH="$room/fake:$PATH" "$tree/judge" "$tree/examples/incident"
    ends 1 "$incident"
    says 'waiting for another run'
    is_silent_on 'prov(ed|es)'
    wait

    rm "$tree/target/bin/checker"
    run "a program that was removed" env PATH="$room/fake:$PATH" "$tree/judge" "$tree/examples/incident"
    ends 1 "$incident"
    says 'checker proved'

    echo "accepted 0 0 0 0 0 0" >"$tree/crates/checker/stdout"
    run "a program that prints something else than its crate says" env PATH="$room/fake:$PATH" "$tree/judge" "$tree/examples/incident"
    ends 2
    says 'does not print what crates/checker/stdout has'
    says 'no verdict: the program is not proved'

    script "$room/fake/rt" <<<'for n in {1..40}; do echo "line $n"; done; echo "logic=not-proved" >&2; exit 1'
    run "a prover that fails" env PATH="$room/fake:$PATH" "$tree/judge" "$tree/examples/incident"
    ends 2
    says 'ended with status 1.*target/judge.log'
    says 'logic=not-proved'
    says 'no verdict: the program is not proved'
    is_silent_on '^line 1$'
    [[ $(wc -l <"$tree/target/judge.log") == 41 ]] || fail "the log is not whole"
}

needs() {
    local bare=$room/bare apt
    path_without "$bare" rt cargo cc apt-get id
    run "nothing lacks" tools/needs cargo cc python3
    ends 0
    says_nothing
    run "a command of no package" tools/needs cargo colour
    ends 2
    says 'no package is known for colour'
    run "no apt-get" env PATH="$bare" tools/needs python3 cc
    ends 2
    says 'missing here: cc; there is no apt-get'
    apt='echo "$@" >>'"$room/asked"'; [[ $1 == update ]]'
    script "$bare/apt-get" <<<"$apt"
    script "$bare/id" <<<'echo 1000'
    run "not root" env PATH="$bare" tools/needs cargo cc
    ends 2
    says 'missing here: cargo cc; only root can install them: apt-get install cargo gcc'
    [[ ! -e $room/asked ]] || fail "apt-get was called"
    script "$bare/id" <<<'echo 0'
    run "apt-get fails" env PATH="$bare" tools/needs cargo cc
    ends 2
    says 'missing here: cargo cc; installing cargo gcc libc6-dev'
    says 'apt-get could not install cargo gcc'
    script "$bare/apt-get" <<<'exit 0'
    run "apt-get brings nothing" env PATH="$bare" tools/needs cargo cc
    ends 2
    says 'still missing after apt-get: cargo cc'
    rm "$room/asked"
    script "$bare/apt-get" <<<"$apt || ln -s /bin/true $bare/cc"
    run "apt-get brings what is missing" env PATH="$bare" tools/needs python3 cc
    ends 0
    says 'missing here: cc; installing gcc'
    [[ $(cat "$room/asked") == $'update -q\ninstall -q -y gcc libc6-dev' ]] || fail "apt-get was asked for something else"

    tree "$room/poor"
    mkdir "$room/poor/target/staticlib" && touch "$room/poor/target/staticlib/libgasplan.a"
    run "--text without cargo" env PATH="$bare" "$room/poor/judge" --text "$room/poor/examples/line"
    ends 2
    says 'missing here: cargo; installing cargo'
    says 'no verdict: the tool for texts cannot be built'
}
