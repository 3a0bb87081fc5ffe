# What the benchmarks' scripts share. They read it in, with `here` being this folder.
# shellcheck shell=sh disable=SC2034,SC2154
flags='-std=c99 -O3 -Wall -Wextra -Wpedantic -Werror'

out=$(mktemp -d)
trap 'rm -rf "$out"' EXIT

# The script's first comment.
usage() { sed -n '2,/^set/s/^# \{0,1\}//p' "$0"; }

compile() { # OBJECT SOURCE FLAGS...
    object=$1 source=$2
    shift 2
    # shellcheck disable=SC2086
    gcc $flags "$@" -I"$here/../include" -c -o "$out/$object.o" "$here/$source.c"
}

# The number of rounds, which is the script's only argument, if any.
usual_rounds=600
read_rounds() { # ARGUMENTS...
    [ $# -le 1 ] || { usage >&2 && exit 64; }
    case ${1-$usual_rounds} in
    --help) usage && exit ;;
    '' | *[!0-9]* | 0*) usage >&2 && exit 64 ;;
    *) rounds=${1-$usual_rounds} ;;
    esac
}

# The same mode in C, three times.
no_slp='-fno-tree-slp-vectorize'
compile_contestants() {
    compile bytes_o3 bytes -DCONTESTANT=bytes_o3
    compile bytes_no_slp bytes -DCONTESTANT=bytes_no_slp $no_slp
    compile words words -DCONTESTANT=words
}

# Archives as one object, with the build's number in front of the names that they export; `names` has the flags by which C calls them so.
rename_library() { # NUMBER ARCHIVES...
    number=$1
    shift
    ld -r -o "$out/library" --whole-archive "$@"
    nm -g --defined-only "$out/library" | sed 's/.* //' >"$out/exported"
    sed "s/.*/& build_${number}_&/" "$out/exported" >"$out/renamed"
    objcopy --redefine-syms "$out/renamed" "$out/library" "$out/library_$number.o"
    names=$(sed "s/.*/-D&=build_${number}_&/" "$out/exported")
}

# The archives of the folder BALZENOH_LIB_DIR; where that is not set they are proved and built with rt.
find_archives() {
    library='the archives in BALZENOH_LIB_DIR'
    if [ -z "${BALZENOH_LIB_DIR:-}" ]; then
        (cd "$here/../.." && tools/staticlib balzenoh aes_blocks >&2)
        BALZENOH_LIB_DIR=$here/../../target/staticlib
        library=$(rt version)
    fi
    archives="$BALZENOH_LIB_DIR/libbalzenoh.a $BALZENOH_LIB_DIR/libaes_blocks.a"
}

print_machine() { echo "CPU       $(sed -n 's/^model name[^:]*: //p' /proc/cpuinfo | head -n 1), $(nproc) processors"; }
print_contestants() {
    echo "Balzenoh  libbalzenoh.a, the proved library; its engine alone, libaes_blocks.a, for bare AES; $library"
    echo "bytes     the mode in C with two tables of 256 bytes; $(gcc --version | head -n 1), ${flags%% -W*}"
    echo "no SLP    the same with $no_slp"
    echo "32-bit    the mode in C with 32-bit tables, ${flags%% -W*}"
}
print_compiler() { echo "Program   $(gcc --version | head -n 1), ${flags%% -W*}, around the archives' calls"; }
