# Sourced from the top of the tree by what times the library: builds the library's calls and the programs that time them into
# the folder out, and prints the machine's kind. The archive that rt writes is for x86-64.
. tests/kit.sh
machine=$(uname -m)
tools=$kit/toolchain/bin
out=$PWD/target/bench
mkdir -p "$out"

form="the archive of rt lib"
tests/build speed_c
cp target/staticlib/libspeed.a "$out"
ARCHIVE=$out cargo build --release --offline --quiet --manifest-path tests/bench/Cargo.toml --target-dir "$out"

model=$(sed -n 's/^model name[[:space:]]*: //p' /proc/cpuinfo | head -n 1)
echo "machine: $machine, $model, $(nproc) processors"
echo "library: $form, $("$tools/clang" --version | head -n 1), kit $(rt version)"
echo "plain:   $(rustc --version)"
