#!/usr/bin/env bash
# Refuses memory: the first time that a program takes some, then the second time in another run, and so on, until a run takes it
# less often. It does so by a malloc before that of the C library, which is compiled here. Each run has to end with status 0 and the
# whole output, or with status 6, nothing on out, and the note. Ends with 'refused_memory: N passed, M failed'.
set -u
cd "$(dirname "$0")/.." || exit 1
if ! command -v cc > /dev/null; then
  echo "refused_memory: nothing is refused, since there is no compiler here"
  exit 0
fi
. examples/common.sh refused_memory asio_run asio_check
cat > "$room/refuse.c" <<'CODE'
#define _GNU_SOURCE
#include <errno.h>
#include <stddef.h>
#include <stdlib.h>
#include <unistd.h>

extern void *__libc_malloc(size_t);
extern void *__libc_calloc(size_t, size_t);
extern void *__libc_realloc(void *, size_t);
extern void *__libc_memalign(size_t, size_t);

/* which time is refused; 0 is none */
static long at = -1;
static long times;

static int is_refused(void)
{
	if (at < 0) {
		const char *word = getenv("REFUSED_TIME");
		at = word ? atol(word) : 0;
	}
	if (__atomic_add_fetch(&times, 1, __ATOMIC_SEQ_CST) != at)
		return 0;
	/* whoever started the program learns that it came to this */
	if (write(9, "x", 1) < 0) {
	}
	errno = ENOMEM;
	return 1;
}

void *malloc(size_t size) { return is_refused() ? NULL : __libc_malloc(size); }

void *calloc(size_t count, size_t size) { return is_refused() ? NULL : __libc_calloc(count, size); }

void *realloc(void *old, size_t size) { return is_refused() ? NULL : __libc_realloc(old, size); }

void *memalign(size_t to, size_t size) { return is_refused() ? NULL : __libc_memalign(to, size); }

void *aligned_alloc(size_t to, size_t size) { return memalign(to, size); }

int posix_memalign(void **into, size_t to, size_t size)
{
	*into = memalign(to, size);
	return *into ? 0 : ENOMEM;
}
CODE
if ! cc -O2 -fPIC -shared -fno-builtin -o "$room/refuse.so" "$room/refuse.c" 2> "$room/said"; then
  echo "refused_memory: nothing is refused, since this does not compile here"
  exit 0
fi

# Refuses each time in turn to the program $3 with the words behind it, on the input $1, and writes how often memory was refused; $2
# is its note without memory. Ends with 1 at the first run that ends otherwise than it may.
refuse_each() {
  local input=$1 want=$2 own whole text note status n
  shift 2
  own=$(mktemp "$room/run.XXXXXX")
  "$@" < "$input" > "$own.out" 2> "$own.note" || { echo "fails with all its memory"; return 1; }
  IFS= read -r -d '' whole < "$own.out"
  for ((n = 1; n < 100000; n++)); do
    LD_PRELOAD=$room/refuse.so REFUSED_TIME=$n "$@" < "$input" > "$own.out" 2> "$own.note" 9> "$own.met"
    status=$?
    text= note=
    IFS= read -r -d '' text < "$own.out"
    IFS= read -r -d '' note < "$own.note"
    if [ ! -s "$own.met" ]; then
      [ "$status" = 0 ] && [ "$text" = "$whole" ] && [ "$n" -gt 1 ] && { echo $((n - 1)); return 0; }
      echo "$status where nothing was refused"
      return 1
    fi
    case $status in
      0) [ "$text" = "$whole" ] && [ -z "$note" ] && continue ;;
      6) [ -z "$text" ] && [ "$note" = "$want"$'\n' ] && continue ;;
    esac
    echo "status $status and note '$note' where time $n was refused"
    return 1
  done
}

names=()
workers=()
# Starts one program on one input, under a name.
row() {
  local name=$1
  shift
  ( refuse_each "$@" ) > "$room/$name.said" 2>&1 &
  names+=("$name")
  workers+=("$!")
}
no_run="asio_run: no memory"
no_check="asio_check: no memory"
for name in echo three_postings strand_order timers cancelled_read read_line; do
  # (one worker, so that there is one output)
  sed -E 's/\b(run|poll) [0-9]+/\1 1/g' "examples/$name.session" > "$room/$name.input"
done
row postings "$room/three_postings.input" "$no_run" "$room/asio_run" run
row strands "$room/strand_order.input" "$no_run" "$room/asio_run" run
row timers "$room/timers.input" "$no_run" "$room/asio_run" run
row slots "$room/cancelled_read.input" "$no_run" "$room/asio_run" run
row streams "$room/echo.input" "$no_run" "$room/asio_run" run
row net "$room/read_line.input" "$no_run" "$room/asio_run" run --net
row gen /dev/null "$no_run" "$room/asio_run" gen 7 64
row upgrade "$room/echo.input" "$no_run" "$room/asio_run" upgrade
{ cat examples/read_line.session; echo "--"; cat examples/read_line.trace; } > "$room/check.input"
row check "$room/check.input" "$no_check" "$room/asio_check"
row check_net "$room/check.input" "$no_check" "$room/asio_check" --net

for n in "${!names[@]}"; do
  if wait "${workers[$n]}"; then
    passed=$((passed + 1))
    echo "refused_memory: ${names[$n]}: $(cat "$room/${names[$n]}.said") times"
  else
    failed=$((failed + 1))
    echo "refused_memory: ${names[$n]}: $(cat "$room/${names[$n]}.said")"
  fi
done
say_counts
