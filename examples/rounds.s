# The harts work in rounds and wait for each other at a barrier between them. Hart number h works h + 1 times as long as
# hart 0, so the lower ones wait in barrier_wait. In the end hart 0 writes the number of rounds.

.proc _start
    mv s0, a0                   # the hart
    mv s1, a1                   # the number of harts
    li s2, 20                   # rounds that are left
next_round:
    call work
    call barrier_wait
    addi s2, s2, -1
    bnez s2, next_round
    bnez s0, leave
    call report
leave:
    li a7, 93
    li a0, 0
    ecall
.end

# Works for 30 words times the hart's number and one.
.proc work
    addi a0, s0, 1
    li a1, 30
    mul a0, a0, a1
step:
    addi a0, a0, -1
    bnez a0, step
    ret
.end

# Waits until each hart has come here. The last one begins the next round for all.
.proc barrier_wait
    la a0, lock_round
    la a1, came
    ld a2, 0(a0)                # the round in which this hart came
    li a3, 1
    amoadd.d a4, a3, (a1)
    addi a4, a4, 1
    bne a4, s1, wait
    sd zero, 0(a1)
    amoadd.d zero, a3, (a0)
    ret
wait:
    ld a4, 0(a0)
    beq a4, a2, wait
    ret
.end

# Writes the number of rounds, of two digits.
.proc report
    la a0, lock_round
    ld a0, 0(a0)
    li a1, 10
    divu a2, a0, a1
    remu a3, a0, a1
    addi a2, a2, 48
    addi a3, a3, 48
    la a1, line
    sb a2, 0(a1)
    sb a3, 1(a1)
    li a0, 1
    li a2, 10
    li a7, 64
    ecall
    ret
.end

.data
.object lock_round 8
    .dword 0
came:
    .dword 0
line:
    .ascii "00 rounds\n"
