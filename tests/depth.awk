# From the machine code of an archive (`objdump -dr --no-show-raw-insn`): a line `BYTES FUNCTION` for each function that C can
# call, with the most stack that it can take, whatever its arguments. A function takes its return address, what it pushes and
# what it subtracts from the stack pointer, then what the deepest of its calls takes, but at least the 128 bytes below its stack
# pointer that the calling convention lets it use; a function of the host, as memset, is taken to need no more than these. Ends
# with status 1 where the code moves the stack pointer in another way, calls something that it does not name, or calls itself.
# Older versions of objdump write callq, jmpq and pushq.

/^[0-9a-f]+ <.*>:$/ { name = substr($0, index($0, "<") + 1); name = substr(name, 1, length(name) - 2); own[name] = 8; next }
calling && !/R_X86_64_P(LT|C)32/ { refuse("calls something that it does not name: " calling) }
/R_X86_64_P(LT|C)32/ {
    callee = $NF
    sub(/^\.text\./, "", callee)
    sub(/-0x4$/, "", callee)
    calls[name] = calls[name] callee "\n"
    calling = ""
}
/\tcallq? / { calling = $0 }
/[\t ](call|jmp)q? +\*/ { refuse("goes to a place that it does not name: " $0) }
/\tpushq? / { own[name] += 8 }
# Compilers write -128 for 128 where that is shorter.
/\tadd +\$0xffffffffffffff80,%rsp$/ { own[name] += 128; next }
/\tsub +\$0xffffffffffffff80,%rsp$/ { next }
/\tsub +\$0x[0-9a-f]+,%rsp$/ { own[name] += number($0); next }
/\tadd +\$0x[0-9a-f]+,%rsp$/ { next }
/,%rsp$/ || /\tenter / { refuse("moves the stack pointer: " $0) }

function refuse(why) { print why; bad = 1; exit 1 }

# The number in hexadecimal digits behind `$0x` in a line.
function number(line,    value, i) {
    sub(/.*\$0x/, "", line)
    sub(/,.*/, "", line)
    for (i = 1; i <= length(line); i++) value = 16 * value + index("0123456789abcdef", substr(line, i, 1)) - 1
    return value
}

function depth(f,    list, count, i, most, d) {
    if (!(f in own)) return 128
    if (f in open) refuse(f " calls itself")
    open[f] = 1
    count = split(calls[f], list, "\n")
    most = 128
    for (i = 1; i <= count; i++) if ((d = depth(list[i])) > most) most = d
    delete open[f]
    return own[f] + most
}

END {
    if (bad) exit 1
    if (calling) refuse("calls something that it does not name: " calling)
    for (f in own) if (f ~ /^raid2d_/) print depth(f), f
}
