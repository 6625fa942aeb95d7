# Reads `objdump -dr libsonde.a` and prints the stack that the deepest chain of calls can take, whatever the input: return addresses, frames, and the
# 128 bytes below a frame that the ABI grants. memcpy counts as its return address. Fails on a call of itself, and on a stack pointer moved otherwise.

function hexadecimal(digits,    n, i) {
    for (i = 1; i <= length(digits); i++) n = 16 * n + index("0123456789abcdef", substr(digits, i, 1)) - 1
    return n
}

function wrong(what) { print what; failed = 1; exit 1 }

function depth(name,    called, i, n, below, deepest) {
    if (name == "memcpy") return 8
    if (!(name in frame)) wrong("a call of " name)
    if (name in open) wrong(name " calls itself")
    open[name]
    deepest = 128
    for (i = split(calls[name], called, " "); i > 0; i--) {
        below = depth(called[i])
        if (below > deepest) deepest = below
    }
    delete open[name]
    return 8 + frame[name] + deepest
}

/^[0-9a-f]+ <.*>:$/ { name = $2; gsub(/^<|>:$/, "", name); frame[name] = 0 }
/\tpush / { frame[name] += 8 }
/\tsub +\$0x[0-9a-f]+,%rsp$/ { bytes = $0; sub(/.*\$0x/, "", bytes); sub(/,.*/, "", bytes); frame[name] += hexadecimal(bytes) }
/\t(and|lea|mov|xchg) .*,%rsp$/ { wrong("a stack pointer moved: " $0) }
/\tcall +\*/ { wrong("a call of a pointer: " $0) }
/R_X86_64_PLT32/ { called = $3; sub(/^\.text\./, "", called); sub(/-0x4$/, "", called); calls[name] = calls[name] " " called }

END {
    if (failed) exit 1
    for (name in frame) if (depth(name) > most) most = depth(name)
    print most
}
