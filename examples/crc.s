# The CRC-32 of a text, bit by bit, on one hart. Nearly all ticks go to crc_byte.

.proc _start
    la s0, message
    la s1, message_end
    li s2, -1
    slli s2, s2, 32
    srli s2, s2, 32             # the remainder: 32 ones
    li s3, -306674912
    slli s3, s3, 32
    srli s3, s3, 32             # the polynomial, 0xedb88320
next_byte:
    bgeu s0, s1, all_bytes
    lbu a0, 0(s0)
    addi s0, s0, 1
    call crc_byte
    j next_byte
all_bytes:
    li a0, -1
    slli a0, a0, 32
    srli a0, a0, 32
    xor a0, s2, a0
    call print_hex
    li a7, 93
    li a0, 0
    ecall
.end

# Takes the byte a0 into the remainder s2.
.proc crc_byte
    xor s2, s2, a0
    li a1, 8
next_bit:
    andi a2, s2, 1
    srli s2, s2, 1
    beqz a2, bit_done
    xor s2, s2, s3
bit_done:
    addi a1, a1, -1
    bnez a1, next_bit
    ret
.end

# Writes a0 as eight hexadecimal digits and an LF.
.proc print_hex
    la a1, line
    la a2, digits
    li a3, 28
next_digit:
    srl a4, a0, a3
    andi a4, a4, 15
    add a4, a4, a2
    lbu a4, 0(a4)
    sb a4, 0(a1)
    addi a1, a1, 1
    addi a3, a3, -4
    bge a3, zero, next_digit
    li a0, 1
    la a1, line
    li a2, 9
    li a7, 64
    ecall
    ret
.end

.data
.object message 43
    .ascii "The quick brown fox jumps over the lazy dog"
message_end:
digits:
    .ascii "0123456789abcdef"
line:
    .ascii "00000000\n"
