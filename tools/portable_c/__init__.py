"""Writes the LLVM module of a proved library or program as one file of C99.

`build` has the kit build the crate and takes the module that it hands to its compiler. `reading` reads words and
types, and `values` what they mean in C. `instructions` has one row or one method for each instruction of LLVM that
these modules use, and stops at any other. `functions` and `module` put the C together, `exports` fits the functions
to a header in C, and `c_file` writes the file. `prelude.h` is the head of each file, and `runtime.h` what a program
asks of the machine.
"""
