# make_tree FOLDER: the script in a tree of its own, FOLDER/tree, with a kit that only pretends (FOLDER/kit, FOLDER/bin/rt),
# so that the making of the program, and a reader that misbehaves, can be tried in a moment. Sourced, or run with FOLDER.
# What the pretended reader does with a file is what the file's first line says. rt says what the true one says, waits for
# FOLDER/go before it ends, and makes the program only where there is none, as the true one may.
# shellcheck shell=bash
make_tree() {
    local kit=$1/kit/toolchain
    mkdir -p "$1/bin" "$1/tree/tests" "$1"/tree/crates/{net,kaunorpi,rewrite}/src "$kit/bin" "$kit/lib"
    cp kaunorpi "$1/tree/"
    cp -r script "$1/tree/"
    cp tests/kit.sh "$1/tree/tests/"
    : > "$1/tree/crates.txt"
    printf '#!/bin/sh\n' > "$kit/bin/clang"
    cat > "$kit/lib/ld-linux-x86-64.so.2" <<'READER'
#!/bin/sh
read -r what
case $what in
    well) echo 8100 ;;
    says) echo 8100; echo 'kaunorpi: standard input: Input/output error' >&2 ;;
    fails) echo 8100; exit 1 ;;
    nothing) ;;
    else) echo 9900 ;;
    dies) kill -9 $$ ;;
    refuses) echo 820B00000002 >&2 ;;
    both) echo 8100; echo 820B00000002 >&2 ;;
    late) echo 820B00000002 >&2; exit 1 ;;
esac
READER
    cat > "$1/bin/rt" <<'RT'
#!/bin/sh
[ "$*" = run ] || { echo "rt: what is $*?"; exit 2; }
here=$(dirname "$(dirname "$0")")
name=$(basename "$PWD")
{
echo "rt: chose --jobs 2 for net"
echo "fn net::fire: proved"
echo "logic=proved functions=1 sum=0 native=nat"
for turn in $(seq 50); do
    [ -e "$here/go" ] && break
    sleep 0.2 & wait
done
[ -e "$here/go" ] || { echo "rt: nobody has seen that net is proved"; exit 1; }
echo "rt: chose --jobs 2 for $name"
[ ! -e "$here/bad" ] || { echo "fn $name::main: not proved"; echo "logic=not-proved functions=1"; exit 1; }
[ -e "out/$name" ] || { mkdir -p out && : > "out/$name" && chmod +x "out/$name"; }
echo "logic=proved functions=1 target=x86_64-unknown-linux-gnu sum=0"
echo "rt: running out/$name; to give it other input, run that file yourself"
} >&2
echo 820C00000001
RT
    chmod +x "$1/bin/rt" "$kit/bin/clang" "$kit/lib/ld-linux-x86-64.so.2"
}
if [ "${BASH_SOURCE[0]}" = "$0" ]; then make_tree "$1"; fi
