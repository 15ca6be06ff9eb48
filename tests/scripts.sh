#!/usr/bin/env bash
# Tries the scripts on wrong arguments and on right ones, in seconds: a stand-in for rt says what rt would say, and stand-ins for the programs
# answer what they would answer, so nothing is proved here.
#   bash tests/scripts.sh
# Exit status: 0 all is as it should be; 1 something is not; 2 a wrong argument.
set -euo pipefail
. "$(dirname "$0")/../tools/common.sh"
help_if_asked "$@"
no_arguments "$@"

scratch
mkdir -p "$work/bin" "$work/repo/edits/word"
cp -r "$root/tools" "$root/tests" "$root/samples" "$root/crates.txt" "$work/repo/"
(cd "$root" && cp --parents crates/*/stdin crates/*/stdout crates/*/src/main.rt "$work/repo/")
mkdir -p "$work/repo/crates/yultarvas/out"
for name in unpage sizes mkpage ask; do mkdir "$work/repo/crates/$name/out"; done
# As the toolchain does, it says what it proved on standard error where it also runs a program, whose answer stands alone.
cat >"$work/bin/rt" <<'STAND_IN'
#!/usr/bin/env bash
echo "rt $* in ${PWD##*/}" >>"$CALLED"
said() {
    case ${RT_SAYS:-ok} in
    ok)
        printf 'fn word::get: proved\ncrate word: modules loaded=164 checked=14\nlogic=proved functions=8\n'
        printf 'fn shown::unpage: proved\ncrate shown: modules loaded=112 checked=0\nlogic=proved functions=4\n'
        ;;
    *)
        printf 'fn word::get: not proved\ncrate word: modules loaded=164 checked=14\nlogic=not-proved\n'
        printf 'rt: the library word did not build, so nothing above it was checked\n'
        ;;
    esac
}
case $1 in
run) said >&2; echo answer=1 ;;
lib) said; if [ "${RT_SAYS:-ok}" = ok ]; then touch out/libyultarvas.a; fi ;;
*) exit 2 ;;
esac
[ "${RT_SAYS:-ok}" = ok ]
STAND_IN
# These answer the example page where the input is that page, and refuse any other; and read nothing where they are told to.
cat >"$work/repo/crates/unpage/out/unpage" <<'STAND_IN'
#!/usr/bin/env bash
if [ -n "${FAILS:-}" ]; then echo "unpage: standard input cannot be read" >&2; exit 0; fi
if grep -q 'count=1'; then echo block=0; echo counts=0,0,0,0,0,0,0,0,0,0,0,0,0,0,0,0,0,0,0,0,0,0,0,-2; else echo refused=9; fi
STAND_IN
cat >"$work/repo/crates/sizes/out/sizes" <<'STAND_IN'
#!/usr/bin/env bash
if [ -n "${FAILS:-}" ]; then echo "sizes: standard input cannot be read" >&2; exit 0; fi
if grep -q 'count=1'; then printf '%s\n' blocks=1 sum=32 largest=1 smallest=-3 odd=1 block=0 sum=32 largest=1 smallest=-3 odd=1; else echo refused=9; fi
STAND_IN
# Answers the page of the example where the input is its trace, refuses num=1 with a 4 in block 0, and any other text with 9.
cat >"$work/repo/crates/mkpage/out/mkpage" <<'STAND_IN'
#!/usr/bin/env bash
if [ -n "${FAILS:-}" ]; then echo "mkpage: standard input cannot be read" >&2; exit 0; fi
case $(head -n 1) in
num=256) printf 'format=tetra-page\nnum=256\ncount=1\nword=000000003800\n' ;;
num=1) printf 'refused=4\nblock=0\n' ;;
*) echo refused=9 ;;
esac
STAND_IN
cat >"$work/repo/crates/ask/out/ask" <<'STAND_IN'
#!/usr/bin/env bash
while read -r line; do case $line in 'decode 1') echo point=1 ;; *) echo refused=9 ;; esac; done
STAND_IN
# Prints a request of each of three kinds, as a generator; and answers any block by the word that ends in LAST, as the Rust.
cat >"$work/bin/oracle" <<'STAND_IN'
#!/usr/bin/env bash
if [ "${1:-}" = gen ]; then printf '%s\n' 'decode 1' 'scale 8 0' 'auto 8 0'; exit; fi
while read -r _; do echo "word=00000000000${LAST:-0} score=0 point=0"; done
STAND_IN
# Answers the blocks of the even profile alone, those at their own scale by the word that ends in OWN.
cat >"$work/bin/even_blocks" <<'STAND_IN'
#!/usr/bin/env bash
while read -r name _; do
    case $name in
    escale) echo "word=000000000000 score=0 point=0" ;;
    eauto) echo "word=00000000000${OWN:-0} score=0 point=0" ;;
    *) echo refused=9 ;;
    esac
done
STAND_IN
# Asks for the point 0, by escale where the even profile is wanted.
cat >"$work/bin/nearest_points" <<'STAND_IN'
#!/usr/bin/env bash
if [ "${5:-}" = even ]; then echo 'escale 8 0' >"$3"; else echo 'scale 8 0' >"$3"; fi
echo 0 >"$4"
STAND_IN
# Answers words and points by the decoder of the format, and with 13 for the even profile. Where it is told to, it looks for odd coordinates at the
# first alone, or says 13 only of points that have a word.
cat >"$work/bin/even_points" <<'STAND_IN'
#!/usr/bin/env python3
import os
import sys
sys.dont_write_bytecode = True
sys.path.insert(0, "tests")
import format_decoder as decoder
for line in sys.stdin:
    name, *rest = line.split()
    if name.endswith("decode"):
        word = int(rest[0], 16)
        said, odd = "point=" + ",".join(map(str, decoder.point(word))), word % 2 == 1
    else:
        y = [int(v) for v in rest]
        said, odd = decoder.answer(y), all(v % 2 == 1 for v in (y[:1] if "FIRST" in os.environ else y))
        odd = odd and not ("LATE" in os.environ and said.startswith("refused"))
    print("refused=13" if odd and name.startswith("e") else said)
STAND_IN
# Lists the sections that PARTS names, each as name=size=flags, the size in hexadecimal.
cat >"$work/bin/readelf" <<'STAND_IN'
#!/usr/bin/env bash
if [ "$1" = -hW ]; then echo "  Machine:                           ${MACHINE:-Advanced Micro Devices X86-64}"; exit; fi
n=0
for part in $PARTS; do
    IFS='=' read -r name size flags <<<"$part"
    printf '  [%2d] %s PROGBITS        0000000000000000 000040 %s 00 %s  0   0 16\n' "$n" "$name" "$size" "$flags"
    n=$((n + 1))
done
STAND_IN
chmod +x "$work/bin/"* "$work/repo/crates/"*/out/*
# TMPDIR: what a script leaves where answers differ goes with the rest.
export PATH=$work/bin:$PATH RUN=env CALLED=$work/called TMPDIR=$work
unset ORACLE ASK GEN KINDS EVEN PROGRAM NEAREST UNPAGE MKPAGE PROGRAMS YULTARVAS_LIB
cd "$work/repo"
echo text >no.page
sed 's/^num=256$/num=1/' samples/example.trace >far.trace
sums() { sha256sum crates/*/stdin crates/*/stdout; }
before=$(sums)

good=0 bad=0
# try STATUS PATTERN COMMAND ..: the command ends with that status, and what it prints, both ways, has a line with the pattern.
try() {
    local status=0 said
    : >"$CALLED"
    said=$("${@:3}" 2>&1 </dev/null) || status=$?
    if [ "$status" -eq "$1" ] && grep -q -e "$2" <<<"$said"; then
        good=$((good + 1))
    else
        bad=$((bad + 1))
        printf '%s: status %s and not %s, or no line with %s in\n%s\n' "${*:3}" "$status" "$1" "$2" "$said"
    fi
}
# untouched STATUS PATTERN COMMAND ..: and rt is not called.
untouched() {
    try "$@"
    if [ -s "$CALLED" ]; then
        bad=$((bad + 1))
        echo "${*:3}: it called $(cat "$CALLED")"
    fi
}

for script in tools/*.sh tools/nearest/*.sh tests/*.sh; do
    case $script in tools/common.sh) continue ;; esac
    untouched 0 "bash $script" bash "$script" --help
    untouched 2 "bash $script" bash "$script" --no-such-option
done
for script in tools/float_vectors.py tests/even.py tests/pages.py tests/points.py tests/summary.py tests/writes.py tests/written.py; do
    untouched 0 "$script" python3 "$script" --help
    untouched 2 "$script" python3 "$script" --no-such-option
    untouched 2 "$script" python3 "$script" word
done

untouched 2 'no file no/such.page' bash tools/unpage.sh samples/example.page no/such.page
untouched 2 'cannot be read' bash tools/unpage.sh samples
try 0 '^counts=0,0,' bash tools/unpage.sh samples/example.page
try 0 '^block=0$' bash -c 'bash tools/unpage.sh samples/example.page 2>/dev/null | head -n 1'
try 0 '^word is proved ([0-9]* s)$' bash tools/unpage.sh samples/example.page
try 0 '^page=samples/example.page$' bash tools/unpage.sh samples/example.page samples/example.page
try 1 '^refused=9$' bash tools/unpage.sh
try 1 '^refused=9$' bash tools/unpage.sh no.page
try 1 '^counts=0,0,' bash tools/unpage.sh no.page samples/example.page
try 1 'target/unpage.log has what' env RT_SAYS=no bash tools/unpage.sh samples/example.page
try 1 'word NOT PROVED' env RT_SAYS=no bash tools/unpage.sh samples/example.page
try 1 'cannot be read' env FAILS=1 bash tools/unpage.sh samples/example.page

untouched 2 'no file no/such.page' bash tools/sizes.sh samples/example.page no/such.page
untouched 2 'cannot be read' bash tools/sizes.sh samples
try 0 '^smallest=-3$' bash tools/sizes.sh samples/example.page
try 0 '^word is proved ([0-9]* s)$' bash tools/sizes.sh samples/example.page
try 0 '^page=samples/example.page$' bash tools/sizes.sh samples/example.page samples/example.page
try 1 '^refused=9$' bash tools/sizes.sh
try 1 '^refused=9$' bash tools/sizes.sh no.page
try 1 '^smallest=-3$' bash tools/sizes.sh no.page samples/example.page
try 1 'target/sizes.log has what' env RT_SAYS=no bash tools/sizes.sh samples/example.page
try 1 'word NOT PROVED' env RT_SAYS=no bash tools/sizes.sh samples/example.page
try 1 'cannot be read' env FAILS=1 bash tools/sizes.sh samples/example.page

untouched 2 'one page' bash tools/csv.sh samples/example.page samples/example.page
untouched 2 'no file no/such.page' bash tools/csv.sh no/such.page
try 0 '^block,sample,count$' bash tools/csv.sh samples/example.page
try 0 '^0,23,-2$' bash tools/csv.sh samples/example.page
try 1 '^refused=9$' bash tools/csv.sh no.page

untouched 2 'one trace' bash tools/mkpage.sh samples/example.trace samples/example.trace
untouched 2 'no file no/such.trace' bash tools/mkpage.sh no/such.trace
untouched 2 'no file $' bash tools/mkpage.sh ''
untouched 2 'cannot be read' bash tools/mkpage.sh samples
try 0 '^word=000000003800$' bash tools/mkpage.sh samples/example.trace
try 0 '^word is proved ([0-9]* s)$' bash tools/mkpage.sh samples/example.trace
try 0 '^word=000000003800$' bash -c 'bash tools/mkpage.sh <samples/example.trace'
try 1 '^refused=9$' bash tools/mkpage.sh
try 1 '^refused=9$' bash tools/mkpage.sh no.page
try 1 '^refused=4$' bash tools/mkpage.sh far.trace
try 1 '^block=0$' bash tools/mkpage.sh far.trace
try 1 'target/mkpage.log has what' env RT_SAYS=no bash tools/mkpage.sh samples/example.trace
try 1 'word NOT PROVED' env RT_SAYS=no bash tools/mkpage.sh samples/example.trace
try 1 'cannot be read' env FAILS=1 bash tools/mkpage.sh samples/example.trace

untouched 2 'no request decod' bash tools/ask.sh decod 1
try 0 '^point=1$' bash tools/ask.sh decode 1
try 1 '^refused=9$' bash tools/ask.sh decode g
try 1 '^refused=9$' bash tools/ask.sh edecode g
try 0 '^point=1$' bash -c 'echo decode 1 | bash tools/ask.sh'

mkdir library
touch library/libyultarvas.a
rom() { env YULTARVAS_LIB=library PARTS="$*" bash tools/rom.sh; }
untouched 2 'no no/such/libyultarvas.a' env YULTARVAS_LIB=no/such bash tools/rom.sh
untouched 2 'not for x86-64' env YULTARVAS_LIB=library MACHINE=AArch64 bash tools/rom.sh
try 1 'the static library yultarvas was not built' env RT_SAYS=no bash tools/rom.sh
try 0 '^code 0, constants 0, together 0;' env PARTS= bash tools/rom.sh
try 0 '^ *23 *tetra$' rom .text.tetra::decode=000010=AX .text.tetra::encode=000007=AX .text.yultarvas_decode=000010=AX
try 0 '^ *16 *yultarvas$' rom .text.yultarvas_decode=000010=AX
try 0 '^code 32, constants 16, together 48;' rom .text.word::get=000020=AX .rodata.cst16=000010=AM .comment=00000e=MS
try 0 '^ *16280 *rows::look$' rom .text.rows::look=003f98=AX
try 1 'rows::row has 15390 bytes' rom .text.rows::look=003f98=AX .text.rows::row=003c1e=AX
try 1 'can be written' rom .text.word::get=000020=AX .data.word=000004=WA
try 1 'more than was recorded' rom .text.word::get=000020=AX .rodata.cst16=020000=AM

untouched 2 'name of one program' bash tools/run.sh
untouched 2 'no crates/nothing/out/nothing' bash tools/run.sh nothing
untouched 2 'no crate nothing' bash tools/native.sh unpage nothing
untouched 2 'word is neither a program nor a static library' bash tools/native.sh word
try 0 '^target/native/unpage$' bash tools/native.sh unpage
try 0 '^target/native/libyultarvas.a$' bash tools/native.sh
try 1 'the static library yultarvas was not built' env RT_SAYS=no bash tools/native.sh yultarvas
untouched 2 'three numbers' bash tools/compare.sh
untouched 2 'a is not a whole number' env ORACLE=true bash tools/compare.sh a 1 1
untouched 2 'ORACLE has to name' bash tools/compare.sh 1 1 1
untouched 2 'ORACLE has to name' env ORACLE=no/such bash tools/compare.sh 1 1 1
untouched 2 'ASK has to name' env ORACLE=true ASK=no/such bash tools/compare.sh 1 1 1
untouched 1 'there is none of' env ORACLE=true bash tools/compare.sh 1 1 1
compare() { env ORACLE=oracle "$@" bash tools/compare.sh 1 1 1; }
even_blocks() { compare EVEN=1 ASK="$work/bin/even_blocks" "$@"; }
untouched 2 'EVEN is 1 or not set' compare EVEN=yes
untouched 2 'the requests are scale and auto, and KINDS is scale|point$' even_blocks KINDS='scale|point'
untouched 0 '^ *1 escale$' even_blocks
untouched 0 '^ *1 eauto word$' even_blocks
untouched 0 'requests auto$' even_blocks KINDS=auto
untouched 1 'different answers' even_blocks OWN=2
untouched 0 '^ *1 escale word$' even_blocks OWN=2 KINDS=scale
untouched 1 'ORACLE searches parity 1' even_blocks LAST=1
untouched 1 'different answers' compare ASK="$work/bin/even_blocks"
untouched 0 '^ *1 scale word$' compare ASK="$work/bin/oracle" LAST=1
untouched 2 'two numbers' bash tools/nearest/compare.sh
untouched 2 'PROGRAM has to name' bash tools/nearest/compare.sh 1 1
untouched 2 'no .*nearest_points' env PROGRAM=true bash tools/nearest/compare.sh 1 1
nearest() { env NEAREST="$work/bin/nearest_points" PROGRAM=even_blocks "$@" bash tools/nearest/compare.sh 1 1; }
untouched 2 'EVEN is 1 or not set' nearest EVEN=yes
untouched 0 '^1 answers, all of them the nearest point$' nearest EVEN=1
untouched 1 '^1 other answers' nearest
untouched 2 'no edits/nothing' bash tools/edits.sh nothing
untouched 2 'no program' env UNPAGE=no/such python3 tests/pages.py
untouched 2 'no program no/such' python3 tests/pages.py --oracle no/such
untouched 2 'does not know --oracle' python3 tests/pages.py --oracle
untouched 2 'no program no/such' env ASK=no/such python3 tests/points.py
untouched 2 'tests/points.py' python3 tests/points.py 0
untouched 1 'ask *refused=9' python3 tests/points.py 100
even() { env ASK="$work/bin/even_points" "${@:3}" python3 tests/even.py "$1" "$2"; }
untouched 2 'no program no/such' env ASK=no/such python3 tests/even.py
untouched 2 'tests/even.py' python3 tests/even.py 0
untouched 2 'tests/even.py' python3 tests/even.py 1 0
untouched 2 'tests/even.py' python3 tests/even.py 1 1 1 1
untouched 1 'ask *refused=9' python3 tests/even.py 100 100
untouched 1 '200 requests were put and 0 answered' env ASK="$(type -P true)" python3 tests/even.py 100 100
untouched 0 '^all 2000 words and 2000 points' even 2000 2000
untouched 1 'too few points with' even 2000 20
untouched 1 'ask *refused=13' even 200 200 FIRST=1
untouched 1 'ask *refused=12' even 200 200 LATE=1
untouched 2 'points_reading.py' python3 tests/points_reading.py 1 2 3
try 0 '^refused=11 section=2$' python3 tests/points_reading.py 0 0 0 0 0 0 12 0 0 0 0 0 0 0 0 0 0 0 0 0 0 0 0 0
untouched 2 'no library no/such' env YULTARVAS_LIB=no/such python3 tests/summary.py
untouched 2 'tests/summary.py' python3 tests/summary.py 0
untouched 2 'tests/summary.py' python3 tests/summary.py --wrong 1 2 3
untouched 2 'no program sizes' env SIZES=no/such python3 tests/summary.py --program
try 0 ', 0 not noticed$' python3 tests/summary.py --wrong 400
untouched 2 'no program' env PROGRAMS=no/such python3 tests/writes.py
untouched 2 'ORACLE has to name' python3 tests/written.py
untouched 2 'ORACLE has to name' env ORACLE=no/such python3 tests/written.py
untouched 2 'no program no/such' env ORACLE=true MKPAGE=no/such python3 tests/written.py --program

if [ "$(sums)" != "$before" ]; then
    bad=$((bad + 1))
    echo "a file that the gate runs a program on was changed"
fi
echo "$good as they should be, $bad not"
[ "$bad" -eq 0 ]
