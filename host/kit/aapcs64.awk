# Turns the text of a module for x86-64 into one for aarch64. Only the exported
# functions differ, in how C passes their structs:
#
#   over 16 bytes, as an argument: x86-64 has a copy on the stack (byval);
#     aarch64 has a plain pointer to the caller's copy
#   over 16 bytes, as the result: x86-64 takes a first pointer, and hands it
#     back; aarch64 takes it in a register of its own (sret), and hands nothing back
#   up to 16 bytes: both have one or two 64-bit registers
#
# The text is read twice: first for the sizes of the results. The variable triple is
# the target's name in full.

# In NR == FNR the line `memmove(ptr %a0, ptr .., i64 SIZE` of the function
# CRATE::NAME writes the result of the exported NAME.
NR == FNR {
    if (/^define internal void @"/) {
        name = $0
        sub(/^[^"]*"/, "", name)
        sub(/".*/, "", name)
        sub(/.*::/, "", name)
    }
    if (/memmove\.p0\.p0\.i64\(ptr %a0, /) {
        size = $0
        sub(/, i1 .*/, "", size)
        sub(/.* /, "", size)
        sizes[name] = size
    }
    next
}

/^target datalayout/ { next }
/^target triple/ { print "target triple = \"" triple "\""; next }

/^define / && !/^define internal/ {
    gsub(/byval\([^)]*\) /, "")
    by_pointer = 0
    if (/^define noundef ptr @/) {
        name = $0
        sub(/^[^@]*@/, "", name)
        sub(/\(.*/, "", name)
        if (!(name in sizes)) {
            print "aapcs64: no size of the result of " name > "/dev/stderr"
            exit 1
        }
        sub(/noundef ptr @/, "void @")
        sub(/ptr noundef %a0/, "ptr noundef sret([" sizes[name] " x i8]) align 8 %a0")
        by_pointer = 1
    }
}

by_pointer && /^  ret ptr %a0$/ { print "  ret void"; next }
/^}/ { by_pointer = 0 }

{ sub(/ "target-cpu"="[^"]*"/, ""); print }
