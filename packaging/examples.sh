#!/bin/sh
# Compares what capcheck prints with what is stored or stands below: tests/examples.sh PROGRAM [COMPILER]
#
# First the examples, then files and outputs that fail, and the tools. The last line has the system, the compiler and the counts.
# What needs python3 is left out by name where there is none.
if [ $# -lt 1 ]; then
  echo 'usage: tests/examples.sh PROGRAM [COMPILER]' >&2
  exit 2
fi
case $1 in
/*) program=$1 ;;
*) program=$PWD/$1 ;;
esac
compiler=${2:-}
cd "$(dirname "$0")/../examples" || exit 2
count=0
wrong=0
left_out=
work=$(mktemp -d "${TMPDIR:-/tmp}/capcheck.XXXXXX") || exit 2
trap 'rm -rf "$work"' EXIT

# ran COMMAND..: keeps what it writes, first to standard output and then to standard error, and its status.
ran() {
  "$@" >"$work/got" 2>"$work/said" </dev/null
  status=$?
  cat "$work/said" >>"$work/got"
  echo "status $status" >>"$work/got"
}

# same NAME FILE: that what was kept is what is in the file.
same() {
  count=$((count + 1))
  if ! cmp -s "$2" "$work/got"; then
    wrong=$((wrong + 1))
    echo "$1: wanted, and got instead:"
    cat "$2" "$work/got"
  fi
}

# says NAME LINE..: that what was kept is these lines.
says() {
  name=$1
  shift
  printf '%s\n' "$@" >"$work/wanted"
  same "$name" "$work/wanted"
}

# The options that an example is checked with stand in NAME.options.
for trace in *.trace; do
  name=${trace%.trace}
  options=
  [ -e "$name.options" ] && options=$(cat "$name.options")
  ran "$program" check "$trace" $options
  same "the check of $name" "$name.report"
done
for script in *.script; do
  name=${script%.script}
  ran "$program" edit "$name.trace" "$script"
  same "the script of $name" "$name.replies"
done

# Each of these errors has a number of its own on FreeBSD or on Linux, or on both.
fails() {
  ran "$program" check -v "$2"
  says "$1" "capcheck: $2: $3" 'capcheck: E11' 'status 3'
}
ln -s loop "$work/loop"
ln -s "$PWD/server.trace" "$work/link"
long=$(printf '%0300d' 0)
fails 'no such file' "$work/none" 'no such file or directory'
fails 'a folder' / 'is a directory'
fails 'a file as a folder' "$PWD/server.trace/x" 'not a directory'
fails 'a link to itself' "$work/loop" 'filesystem loop or indirection limit (e.g. symlink loop)'
fails 'a long name' "$long" 'invalid filename'
ran "$program" check "$work/link"
same 'a link' server.report

# Outputs that fail: a pipe to nobody, which says so once the reader is gone; none at all; and a full disk.
{ sleep 1; "$program" check -v server.trace; echo "status $?" >&2; } 2>"$work/got" | :
says 'a pipe to nobody' 'capcheck: standard output: broken pipe' 'capcheck: E12' 'status 3'
{ "$program" check -v server.trace; echo "status $?" >&2; } 2>"$work/got" >&-
sed 's/: [^:]*(os error/: (os error/' "$work/got" >"$work/said" && mv "$work/said" "$work/got"
says 'no output' 'capcheck: standard output: (os error 9)' 'capcheck: E12' 'status 3'
if [ -c /dev/full ]; then
  { "$program" check -v server.trace; echo "status $?" >&2; } 2>"$work/got" >/dev/full
  says 'a full disk' 'capcheck: standard output: no space left on device' 'capcheck: E12' 'status 3'
else
  left_out="$left_out, left out without /dev/full: a full disk"
fi

# The tools, by the names that they have in this archive.
truss=../contrib/truss2trace.py annotate=../contrib/annotate.py whatif=../contrib/whatif.py
[ -e $truss ] || truss=../bin/capcheck-truss annotate=../bin/capcheck-annotate whatif=../bin/capcheck-whatif
if command -v python3 >/dev/null 2>&1; then
  python3 $truss --start 0,1,2 digest.truss 2>/dev/null | grep -v '^#' >"$work/got"
  grep -v '^#' digest.trace >"$work/stored"
  same 'the trace of a recording' "$work/stored"
  python3 $annotate --capcheck "$program" server.trace 2>&1 | grep -e '^ *9 ' -e ' \^ ' -e '^findings' >"$work/got"
  says 'an annotated trace' '    9  201 shutdown(4) RET 0' '       ^ shutdown missing 4 CAP_SHUTDOWN' 'findings 1'
  printf 'delete 9\n' | python3 $whatif --capcheck "$program" server.trace >"$work/got" 2>&1
  says 'what if a line were not there' 'deleted line 9: 11 lines, 0 findings' \
    'gone: line 9, 201 shutdown: it succeeded, and descriptor 4 lacks CAP_SHUTDOWN (missing)'
  ran python3 causes.py "$program" server.trace 9
  says 'the causes of a finding' '4 201 cap_rights_limit(4,CAP_READ|CAP_WRITE) RET 0' 'status 0'
else
  left_out="$left_out, left out without python3: capcheck-truss, capcheck-annotate, capcheck-whatif, causes.py"
fi

[ -n "$compiler" ] && compiler=", $($compiler --version 2>/dev/null | head -n 1)"
echo "$("$program" --version) on $(uname -srm)$compiler: $count comparisons, $wrong wrong$left_out"
[ "$wrong" -eq 0 ]
