    /* What a program in C++ or Rust has among the constants of link.ld: the tables by which exceptions find their way. */
    .eh_frame : ALIGN(4) {
        __dthreads_frames = .;
        KEEP(*(.eh_frame .eh_frame.*))
        LONG(0)
    } :constants
    .gcc_except_table : {
        *(.gcc_except_table .gcc_except_table.*)
    } :constants

