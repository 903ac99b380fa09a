#!/bin/sh
# module.sh FILE.bc CRATE WORD..: runs `rt WORD..' in the crate's folder, and keeps the last LLVM module that the compiler handed
# to its clang to be optimised (-O3), as FILE.bc.
# The kit compiles for x86-64 only. Its clang is stood in for by a script that does as asked and keeps the module;
# tools/firmware.sh compiles it for other machines.
set -eu
here=$(cd "$(dirname "$0")" && pwd)
module=$(cd "$(dirname "$1")" && pwd)/$(basename "$1")
crate=$2
shift 2
tools=$(sh "$here/kit.sh")
kit=$(dirname "$tools")
room=$(mktemp -d)
trap 'rm -rf "$room"' EXIT
trap 'exit 130' INT TERM HUP

# A kit in which all is a link but clang, and rt, which takes for its kit the folder above its own file's. The compiler clears
# the environment, so paths are written out.
mkdir -p "$room/kit/bin" "$room/kit/toolchain/bin"
cp "$kit/bin/rt" "$kit/bin/rtlib.py" "$room/kit/bin/"
cat > "$room/kit/toolchain/bin/clang" <<END
#!/bin/sh
'$tools/bin/clang' "\$@" || exit
case " \$* " in *' -O3 '*) '$(command -v cp)' module.bc '$module' ;; esac
END
chmod +x "$room/kit/toolchain/bin/clang"
for part in '' /bin /toolchain /toolchain/bin; do
    for entry in "$kit$part"/*; do
        [ -e "$room/kit$part/${entry##*/}" ] || ln -s "$entry" "$room/kit$part/"
    done
done
rm -f "$module"
(cd "$here/../crates/$crate" && "$room/kit/bin/rt" "$@") > "$room/said" 2>&1 || { cat "$room/said" >&2; exit 1; }
[ -s "$module" ] || { echo "module.sh: the compiler handed no module to its clang" >&2; exit 1; }
