#!/usr/bin/env bash
# print_state as a process: what cannot be read or written is told, and an input that merely ends early is refused.
set -u
cd "$(dirname "$0")/../.."
. tests/shell/expect.sh

program=$PWD/target/bin/print_state
input=$PWD/examples/interrupts.in
line='0 120 00E7 0015 0000 0000 0000 BEEF 0800 1000 0000 00 00000000 2'
unread='print_state: standard input cannot be read'
unwritten='print_state: the line cannot be written, or not whole'

# run REDIRECTIONS..: the program under a shell that redirects its descriptors.
run() {
    bash -c "exec '$program' $*"
}

expect 'a whole input' 0 "$line" '' run "< '$input'"
expect 'an empty input' 0 R3 '' run '< /dev/null'
expect 'an input of 35 bytes' 0 R3 '' run "< <(head -c 35 '$input')"
expect 'an input whose memory ends early' 0 R1 '' run "< <(head -c 1000 '$input')"
expect 'an input that never ends' 0 R2 '' run '< <(yes)'
expect 'an input from a pipe in two parts' 0 "$line" '' run "< <(head -c 50 '$input'; sleep 0.2; tail -c +51 '$input')"
expect 'a folder as input' 0 '' "$unread" run '< /'
expect 'a closed input' 0 '' "$unread" run '<&-'
expect 'an input open for writing alone' 0 '' "$unread" run '0> /dev/null'
expect 'a full disk' 0 '' "$unwritten" run "< '$input' > /dev/full"
expect 'a closed output' 0 '' "$unwritten" run "< '$input' >&-"
expect 'a refusal to a full disk' 0 '' "$unwritten" run '< /dev/null > /dev/full'
expect 'every output closed' 0 '' '' run "< '$input' >&- 2>&-"

# A write that takes ten bytes, and then none.
cat > "$room/short.c" << 'END'
#include <errno.h>
#include <sys/syscall.h>
#include <unistd.h>
ssize_t write(int fd, const void *buf, size_t n)
{
    static int calls;
    if (fd == 1 && calls++) {
        errno = ENOSPC;
        return -1;
    }
    return syscall(SYS_write, fd, buf, fd == 1 && n > 10 ? 10 : n);
}
END
gcc -shared -fPIC -o "$room/short.so" "$room/short.c"
expect 'a line that is cut short' 0 '0 120 00E7' "$unwritten" env LD_PRELOAD="$room/short.so" "$program" < "$input"
# A read that brings ten bytes, then fails.
sed -e 's/write/read/g; s/const void/void/; s/fd == 1/fd == 0/g' "$room/short.c" > "$room/torn.c"
gcc -shared -fPIC -o "$room/torn.so" "$room/torn.c"
expect 'an input that is torn off' 0 '' "$unread" env LD_PRELOAD="$room/torn.so" "$program" < "$input"
count
