# Sourced by the tests of the gate and of the release, with `top` set: makes a small repository with a copy of .ci/run, stand-ins for rt and for
# the project's tests, and one commit; goes there, and removes it at the end. `room` is its folder, and `own` has the names of the tests.
# shellcheck shell=bash

room=$(mktemp -d)
trap 'rm -rf "$room"' EXIT
cd "$room" || exit 2
mkdir -p .ci bench oracle tools path crates/lister/{src,proofs,out} crates/bogtassel/{src,out}
cp "$top/.ci/run" .ci/run
printf 'lister: # a program\nbogtassel staticlib:\n' >crates.txt
echo 'one = two' >crates/lister/proofs/One.antt
touch crates/lister/src/main.rt crates/bogtassel/src/lib.rt
echo '#!/usr/bin/env bash' | tee run >release
printf '#!/usr/bin/env bash\ncat\n' >crates/lister/out/lister
chmod +x crates/lister/out/lister
echo archive >crates/bogtassel/out/libbogtassel.a

# A stand-in notes that it was called, does what NAME.does has, says what NAME.says has, and fails where there is NAME.ends.
standin() { # FILE NAME
    mkdir -p "$(dirname "$1")"
    cat >"$1" <<END
#!/usr/bin/env bash
name=$2
echo "\$name" >>'$room/calls'
[ ! -f "$room/\$name.does" ] || . "$room/\$name.does"
[ ! -f "$room/\$name.says" ] || cat "$room/\$name.says"
[ ! -f "$room/\$name.ends" ] || exit 1
END
    chmod +x "$1"
}
standin path/rt "\$*"
own=$(sed -n 's#^tests/\([a-z]*\)/run.*#\1#p' .ci/run)
for name in $own; do
    standin "tests/$name/run" "$name"
done
printf 'rt: lister proved\nrt: ok; handles allowed: none; must-fail edits: 5 refused; every proof was done\n7 passed, 0 failed\n' >ci.says
echo 'kit-1' >version.says

printf '%s\n' /target/ '/crates/*/out/' /calls /said /beside '/*.says' '/*.ends' '/*.does' /well >.gitignore
# shellcheck disable=SC2046
unset $(git rev-parse --local-env-vars)
export GIT_AUTHOR_NAME=one GIT_AUTHOR_EMAIL=one GIT_COMMITTER_NAME=one GIT_COMMITTER_EMAIL=one
git init -q . && git add -A && git commit -qm first || exit 2
