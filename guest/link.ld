/* Where a guest program's parts lie: one segment for code, one for constants and one for data, none both writable and
   executable, each on pages of its own. Thread-local storage is a template among the constants, which each thread copies. */
OUTPUT_ARCH(riscv)
ENTRY(_start)

PHDRS
{
    code PT_LOAD FLAGS(5);
    constants PT_LOAD FLAGS(4);
    data PT_LOAD FLAGS(6);
    template PT_TLS FLAGS(4);
    note PT_NOTE FLAGS(4);
}

SECTIONS
{
    . = 0x00010000;
    .text : {
        KEEP(*(.text.start))
        *(.text .text.* .gnu.linkonce.t.*)
        KEEP(*(.init))
        KEEP(*(.fini))
    } :code

    . = ALIGN(4096);
    .rodata : {
        *(.rodata .rodata.* .gnu.linkonce.r.*)
        *(.srodata .srodata.*)
        . = ALIGN(4);
        __init_array_start = .;
        KEEP(*(.preinit_array))
        KEEP(*(SORT_BY_INIT_PRIORITY(.init_array.*)))
        KEEP(*(.init_array))
        __init_array_end = .;
        __fini_array_start = .;
        KEEP(*(SORT_BY_INIT_PRIORITY(.fini_array.*)))
        KEEP(*(.fini_array))
        __fini_array_end = .;
    } :constants

    /* That the kit's library started the program, and where its clock is, for guest/dthreads-exec. */
    .note.dthreads : {
        KEEP(*(.note.dthreads .note.dthreads.*))
        *(.dthreads.clock)
    } :constants :note

    /* A thread's block keeps the template's place modulo the greater alignment of both parts. */
    __tls_align = MAX(MAX(ALIGNOF(.tdata), ALIGNOF(.tbss)), 16);
    . = ALIGN(MAX(ALIGNOF(.tdata), ALIGNOF(.tbss)));
    .tdata : {
        __tls_template = .;
        *(.tdata .tdata.* .gnu.linkonce.td.*)
    } :constants :template
    __tls_data_size = SIZEOF(.tdata);
    .tbss : {
        *(.tbss .tbss.* .gnu.linkonce.tb.*)
        *(.tcommon)
    } :constants :template
    __tls_size = SIZEOF(.tbss) == 0 ? SIZEOF(.tdata) : ADDR(.tbss) + SIZEOF(.tbss) - __tls_template;

    . = ALIGN(4096);
    .data : {
        *(.data .data.* .gnu.linkonce.d.*)
        . = ALIGN(8);
        __global_pointer$ = . + 0x800;
        *(.sdata .sdata.* .gnu.linkonce.s.*)
    } :data
    /* The program's own data, and then the library's on pages of its own. */
    .bss (NOLOAD) : {
        *(EXCLUDE_FILE(*libdthreads.a:*) .sbss EXCLUDE_FILE(*libdthreads.a:*) .sbss.*)
        *(EXCLUDE_FILE(*libdthreads.a:*) .bss EXCLUDE_FILE(*libdthreads.a:*) .bss.*)
        *(COMMON)
        . = ALIGN(4096);
        __dthreads_data = .;
        *(.sbss .sbss.* .bss .bss.*)
        . = ALIGN(MAX(MAX(ALIGNOF(.tdata), ALIGNOF(.tbss)), 16));
        __tls_first = .;
        . += SIZEOF(.tdata) + SIZEOF(.tbss) + ALIGNOF(.tbss);
    } :data

    /* Of the compiler's libraries only the frames are kept. A debugger then steps over their functions, as the packages
       lack the sources, and still finds the way out of them. */
    .debug_frame 0 : { *(.debug_frame) }
    /DISCARD/ : { */libc.a:*(.debug_*) */libgcc.a:*(.debug_*) }
    .stab 0 : { *(.stab) }
    .debug_aranges 0 : { *(.debug_aranges) }
    .debug_info 0 : { *(.debug_info .gnu.linkonce.wi.*) }
    .debug_abbrev 0 : { *(.debug_abbrev) }
    .debug_line 0 : { *(.debug_line .debug_line.*) }
    .debug_str 0 : { *(.debug_str) }
    .debug_line_str 0 : { *(.debug_line_str) }
    .debug_loc 0 : { *(.debug_loc) }
    .debug_loclists 0 : { *(.debug_loclists) }
    .debug_ranges 0 : { *(.debug_ranges) }
    .debug_rnglists 0 : { *(.debug_rnglists) }
    .riscv.attributes 0 : { KEEP(*(.riscv.attributes)) }
    /DISCARD/ : { *(.comment) *(.note .note.*) *(.eh_frame) *(.eh_frame.*) *(.gcc_except_table*) }
}

/* What the machine would refuse when it loads the file: over 16,384 pages, or an address from 0x20000000 on. */
__dthreads_pages = (ALIGN(ADDR(.bss) + SIZEOF(.bss), 4096) - 0x00010000) / 4096;
ASSERT(__dthreads_pages <= 16384, "dthreads-cc: the program's code and data take over 64 MiB, more than the machine loads: use malloc")
