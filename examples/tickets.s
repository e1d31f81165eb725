# Each hart takes 100 tickets, one at a time, under one lock. Most ticks go to waiting in lock_acquire. The hart that
# ends last writes how many tickets were taken.

.proc _start
    mv s0, a1                   # the number of harts
    li s1, 100                  # tickets that are left
next_ticket:
    la a0, lock_tickets
    call lock_acquire
    call take_ticket
    la a0, lock_tickets
    call lock_release
    addi s1, s1, -1
    bnez s1, next_ticket
    la a0, ended
    li a1, 1
    amoadd.d a1, a1, (a0)
    addi a1, a1, 1
    bne a1, s0, leave
    call report
leave:
    li a7, 93
    li a0, 0
    ecall
.end

# Takes the lock at a0.
.proc lock_acquire
    li a1, 1
try_lock:
    amoswap.d a2, a1, (a0)
    bnez a2, try_lock
    ret
.end

# Gives the lock at a0 back.
.proc lock_release
    amoswap.d zero, zero, (a0)
    ret
.end

# Takes the next ticket, and is slow about it.
.proc take_ticket
    la a0, taken
    ld a1, 0(a0)
    addi a1, a1, 1
    li a2, 10
stamp:
    addi a2, a2, -1
    bnez a2, stamp
    sd a1, 0(a0)
    ret
.end

# Writes how many tickets were taken.
.proc report
    la a0, taken
    ld a0, 0(a0)
    la a1, line_end
    li a2, 10
next_digit:
    remu a3, a0, a2
    divu a0, a0, a2
    addi a3, a3, 48
    addi a1, a1, -1
    sb a3, 0(a1)
    bnez a0, next_digit
    la a2, line_end
    addi a2, a2, 1
    sub a2, a2, a1
    li a0, 1
    li a7, 64
    ecall
    ret
.end

.data
.object lock_tickets 8
    .dword 0
.object taken 8
    .dword 0
ended:
    .dword 0
line:
    .ascii "00000000000000000000"
line_end:
    .ascii "\n"
