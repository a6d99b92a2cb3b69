#!/usr/bin/env bash
# Trees without the kit, trees of someone else, and the script as it is installed. Read by tests/judge.
# shellcheck disable=SC2016,SC2154,SC2034 # scripts stand in single quotes; names are shared with tests/judge

# Every command of PATH but those named, as links in a folder.
path_without() { # FOLDER NAME..
    local folder all
    mkdir "$1"
    IFS=: read -ra all <<<"$PATH"
    for folder in "${all[@]}"; do
        [[ ! -d $folder ]] || find "$(realpath "$folder")" -maxdepth 1 -not -type d -exec ln -st "$1" {} + 2>/dev/null || : # the first of a name stays
    done
    (cd "$1" && rm -f "${@:2}")
}

# The crates, without what the prover keeps beside them.
sources() { # FOLDER
    tar -c --exclude='crates/*/out' crates crates.txt | tar -x -C "$1"
}

# What ./judge needs, with the program as it was proved here.
tree() { # FOLDER
    mkdir -p "$1/target/bin" "$1/target/stamp" "$1/tools" "$1/examples"
    sources "$1"
    cp judge "$1"
    cp tools/needs tools/prove "$1/tools"
    cp -r examples/line examples/incident "$1/examples"
    cp target/stamp/checker "$1/target/stamp"
    cp target/bin/checker "$1/target/bin"
    chmod -R a+rX "$1"
}

without_kit() {
    local tree=$room/tree
    tree "$tree"
    run "no kit, but the program" env PATH="$room/path" "$tree/judge" "$tree/examples/incident"
    ends 1 "$incident"
    says 'kit is missing .* judging with the program that was proved here before'
    says 'not compared with the bytes: there is no tool for texts yet'
    run "no kit, and texts to judge" env PATH="$room/path" "$tree/judge" --text "$tree/examples/incident"
    ends 2
    says 'no verdict: the tool for texts cannot be built: .*libgasplan.a is missing'
    touch -d '+1 minute' "$tree/crates/numbers/src/lib.rt"
    run "no kit, and newer sources" env PATH="$room/path" "$tree/judge" "$tree/examples/line"
    ends 2
    says 'kit is missing .*sources have changed'
    touch -r crates.txt "$tree/crates/numbers/src/lib.rt"
    rm "$tree/target/stamp/checker"
    run "no kit, and a program that is not proved" env PATH="$room/path" "$tree/judge" "$tree/examples/line"
    ends 2
    says 'no program is built here'
    rm -r "$tree/target"
    run "no kit and no program" env PATH="$room/path" "$tree/judge" "$tree/examples/line"
    ends 2
    says 'kit is missing .*no program is built here'
    run "no kit, and a folder mistyped" env PATH="$room/path" "$tree/judge" "$tree/examples/lime"
    ends 2
    says 'no such folder'
}

# As installed: the script and the tool for texts in bin, the program in libexec/gasplan.
installed() {
    local prefix=$room/prefix
    mkdir -p "$prefix/bin" "$prefix/libexec/gasplan"
    cp judge "$prefix/bin/gasplan-judge"
    run "installed without its program" "$prefix/bin/gasplan-judge" examples/line
    ends 2
    says 'the program is missing'
    cp target/bin/checker "$prefix/libexec/gasplan"
    cp tools/target/release/gasplan-text "$prefix/bin"
    run "installed" env PATH="$room/path" "$prefix/bin/gasplan-judge" examples/incident
    ends 1 "$incident"
    says_nothing
    run "installed, texts" env PATH="$room/path" "$prefix/bin/gasplan-judge" --text "$room/stale"
    ends 1 "$incident"
    run "installed, no folder" "$prefix/bin/gasplan-judge"
    ends 2
    says 'no folder is named; gasplan-judge --help'
}

# Root reads everything, so this is tried as nobody, who cannot write to the tree either.
unreadable() {
    local as=() tree=$room/others name
    [[ $(id -u) != 0 ]] || as=(setpriv --reuid=65534 --regid=65534 --clear-groups)
    tree "$tree"
    chmod a-w "$tree/target"
    run "a tree of someone else's" "${as[@]}" "$tree/judge" "$tree/examples/line"
    ends 0 "$line"
    says 'target cannot be written: judging with the program that was proved here before'
    run "files that are made unreadable" "${as[@]}" bash -c 'umask 777 && exec "$@"' bash "$tree/judge" "$tree/examples/line"
    ends 0 "$line"
    for name in case plan; do
        chmod 000 "$tree/examples/line/$name.bin"
        run "$name.bin unreadable" "${as[@]}" "$tree/judge" "$tree/examples/line"
        ends 2
        says "$name.bin cannot be read"
        chmod 644 "$tree/examples/line/$name.bin"
    done
    chmod 000 "$tree/examples/line/case.txt"
    run "case.txt unreadable" "${as[@]}" "$tree/judge" "$tree/examples/line"
    ends 0 "$line"
    run "case.txt unreadable, judged" "${as[@]}" "$tree/judge" --text "$tree/examples/line"
    ends 2
    says 'case.txt cannot be read'
    chmod 600 "$tree/examples/line"
    run "a folder that cannot be entered" "${as[@]}" "$tree/judge" "$tree/examples/line"
    ends 2
    says 'cannot be entered'
    chmod 755 "$tree/examples/line" "$tree/target"
}
